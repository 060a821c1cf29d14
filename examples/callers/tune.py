"""The sheet of the best table: tune.py LIMIT < PROFILE, with the folder python of the repository, or the wheel, on the path of Python."""
import sys

import mte_tool

profile = sys.stdin.buffer.read()
try:
    sheet = mte_tool.tune(profile, limit=int(sys.argv[1]))
except mte_tool.Error as error:
    sys.exit(f"tune.py: {error}")
assert mte_tool.check(sheet, profile).is_optimal
sys.stdout.buffer.write(sheet)
