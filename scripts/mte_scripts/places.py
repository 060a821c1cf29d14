"""Where the scripts are, and the repository or the package that they are of."""

import os

SCRIPTS = os.path.dirname(os.path.dirname(os.path.realpath(__file__)))
ROOT = os.path.dirname(SCRIPTS)
# the folder of the crates, which a package and an sdist are without
SOURCES = ROOT if os.path.exists(os.path.join(ROOT, "crates.txt")) else None
# scripts/package puts the program beside the scripts, and there is nothing to prove there
IS_PACKAGED = os.path.exists(os.path.join(ROOT, "mte_tool")) and not os.path.exists(os.path.join(ROOT, "crates.txt"))
BUILT = os.path.join(ROOT, "mte_tool" if IS_PACKAGED else "crates/mte_tool/out/mte_tool")
EXAMPLES = os.path.join(ROOT, "examples")
GET_GCC = "Debian: `apt install gcc libc6-dev`"  # what a command says that lacks a C compiler
