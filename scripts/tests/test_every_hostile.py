#!/usr/bin/env -S python3 -B
"""All hostile programs of hostile_runs.py, each by all modes, or by some: `--modes profile who`."""

import checks
import hostile_runs


class EveryHostile(hostile_runs.HostileRuns):
    def test_all(self):
        self.run_all(lambda number: checks.options.modes)


def add_options(parser):
    modes = list(hostile_runs.HostileRuns.MODES)
    parser.add_argument("--modes", nargs="+", choices=modes, default=modes, help="by which (all)")


if __name__ == "__main__":
    checks.main()
