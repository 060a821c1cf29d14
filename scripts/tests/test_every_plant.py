"""Tries every wrong body of the crates, as the test `plants` does a part of them; or those of the crates that MTE_CRATES names."""

import os

import checks
import wrong_bodies


class EveryPlant(checks.Part):
    def test_all(self):
        wrong_bodies.try_bodies(*os.environ.get("MTE_CRATES", "").split())
