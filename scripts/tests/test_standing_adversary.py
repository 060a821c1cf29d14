#!/usr/bin/env -S python3 -B
"""Rounds of the attacks of attacks.py from any seed on, for some minutes."""

import attacks
import checks


class StandingAdversary(attacks.Attacks):
    of_scripts = (*attacks.Attacks.of_scripts, attacks.attack_signals)

    def test_for_some_time(self):
        self.attack(rounds=0, minutes=checks.options.minutes)


def add_options(parser):
    attacks.add_options(parser)
    parser.add_argument("--minutes", type=float, default=20, metavar="N", help="how long (20)")


if __name__ == "__main__":
    checks.main()
