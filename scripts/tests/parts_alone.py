"""The parts of the scripts that stand alone, and what belongs to each. A copy of the repository without one works with no
line changed: the modules of the others ask for it by `entry_point.part`, and their tests by `checks.need`. Of a part that
is there, all is there (alone)."""

import os
import shutil
from typing import NamedTuple

from mte_scripts.places import ROOT


class Part(NamedTuple):
    """Names, separated by spaces, in folders of the repository."""

    modules: str  # the folder of its modules
    commands: str  # in scripts
    tests: str  # in scripts/tests
    shims: str = ""  # in scripts/shims

    def paths(self) -> "list[str]":
        below = (("scripts", self.commands), ("scripts/tests", self.tests), ("scripts/shims", self.shims))
        return [self.modules, *(f"{folder}/{name}" for folder, names in below for name in names.split())]

    def has(self, path: str) -> bool:
        """Whether a path of the repository belongs to it."""
        return any(f"{path}/".startswith(f"{each}/") for each in self.paths())

    def is_there(self) -> bool:
        return os.path.isfile(os.path.join(ROOT, self.modules, "__init__.py"))


PARTS = {
    "fleet": Part(
        "scripts/mte_scripts/fleet", "fleet_day fleet_profiles fleet_regret fleet_rollout fleet_table fleet_trial",
        "fleet_month.py test_fleet.py test_fleet_claims.py test_fleet_servers.py test_fleet_simulation.py test_rollout.py",
    ),
    "pools": Part("scripts/mte_scripts/pools", "pools", "test_pools.py test_pools_lwip.py"),
    "allocators": Part("scripts/mte_scripts/allocators", "tune_allocator", "test_allocators.py"),
    "faults": Part(
        "scripts/mte_scripts/faults", "find_faults traced_c++ traced_cc",
        "faults_programs heap_cases.py heap_rows.tsv known_bugs_programs sanitizer_reports_data simulated_heaps.py slot_model.py test_faults.py "
        "test_faults_asan.py test_faults_builds.py "
        "test_faults_costs.py test_faults_folders.py test_faults_packages.py test_findings.py test_known_bugs.py test_odds.py test_real_heaps.py test_sanitizer_reports.py",
        "accesses reader real_heaps sanitized.c process_text.h",
    ),
    "packaging": Part("scripts/mte_scripts/packaging", "package release", "clean_debian.py test_package.py test_machines.py"),
    "importers": Part("scripts/mte_scripts/recording/imports", "", "imports_data test_imports.py"),
}  # fmt: skip


def missing_parts() -> "dict[str, Part]":
    """The parts that this copy is without."""
    return {name: part for name, part in PARTS.items() if not part.is_there()}


def is_gone(path: str) -> bool:
    """Whether a path of the repository is of a part that this copy is without."""
    return any(part.has(path) for part in missing_parts().values())


def copy_without(part: Part, files: "list[str]", place: str) -> None:
    """Copies these files of the repository into the folder PLACE, but for those of the part."""
    for name in files:
        if not part.has(name):
            os.makedirs(os.path.dirname(os.path.join(place, name)), exist_ok=True)
            shutil.copy2(os.path.join(ROOT, name), os.path.join(place, name), follow_symlinks=False)
