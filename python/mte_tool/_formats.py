"""The options in the order of the header's structure, each with its default, and the commands with the number of their texts.

Written by scripts/tests/formats from scripts/mte_scripts/formats.py.
"""

OPTIONS = {
    "granules": 65_536,
    "quarantine": 65_536,
    "seed": 1,
    "limit": 0,
    "step": 1,
    "largest_class": 0,
}

COMMANDS = {
    "score": 2,
    "tune": 1,
    "check": 2,
    "footprint": 2,
    "fit": 1,
    "check_fit": 2,
    "profile": 1,
    "replay": 2,
    "run": 1,
    "peaks": 2,
}
