"""Some runs of the hostile programs of hostile_runs.py: each program by one mode, in turn."""

import hostile_runs


class Hostile(hostile_runs.HostileRuns):
    def test_some(self):
        modes = list(self.MODES)
        self.run_all(lambda number: [modes[number * 3 % len(modes)]])
