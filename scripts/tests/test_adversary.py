#!/usr/bin/env -S python3 -B
"""Some rounds of the attacks of attacks.py, the same ones each time."""

import attacks
import checks


class Adversary(attacks.Attacks):
    def test_some(self):
        self.attack(rounds=20, minutes=0)


add_options = attacks.add_options


if __name__ == "__main__":
    checks.main()
