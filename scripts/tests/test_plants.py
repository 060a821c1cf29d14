"""Tries a part of the wrong bodies of the crates, another one each day: MTE_PLANTS, a number, chooses it. Those that a contract lets through
have to say why. On a slow machine fewer are tried: what is left after twenty minutes is counted."""

import datetime
import os

import checks
import wrong_bodies


class Plants(checks.Part):
    def test_a_part(self):
        wrong_bodies.try_bodies("--part", os.environ.get("MTE_PLANTS") or str(datetime.date.today().toordinal()), "--minutes", "20")
