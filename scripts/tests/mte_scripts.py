"""The package of the scripts, for the tests: a module with a path is a package, and its modules are those of scripts/mte_scripts. (`rt` takes
no link in its place.)"""

import os

__path__ = [os.path.join(os.path.dirname(os.path.dirname(os.path.realpath(__file__))), "mte_scripts")]
