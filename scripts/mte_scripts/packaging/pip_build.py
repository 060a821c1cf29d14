"""What pip calls, as pyproject.toml says: it makes the wheel of a clone or of an unpacked sdist, and the sdist of a
clone."""

import os

from mte_scripts import private_folder
from mte_scripts.packaging import machines, package, packaging, sdist, versions, wheel
from mte_scripts.packaging.tree import Tree, write_tar

INFO = "Metadata-Version: 2.1\nName: mte-tool\nVersion: {version}\n"


def build_wheel(wheel_directory: str, config_settings: object = None, metadata_directory: object = None) -> str:
    """Makes the wheel in this folder; its name."""
    os.umask(0o022)
    options, folder = package.options_of([wheel_directory], package.HELP)
    with private_folder.temporary() as work:
        parts = package.collect(options, machines.HERE, work)
        tree = packaging.stage(f"{work}/tree", parts)
        made = wheel.build(Tree(os.path.join(tree.root, "usr")), parts, folder, f"{work}/wheel")
        return os.path.basename(made)


def build_sdist(sdist_directory: str, config_settings: object = None) -> str:
    """Makes the sdist in this folder; its name."""
    os.umask(0o022)
    with private_folder.temporary() as work:
        tree = Tree(work)
        version, seconds, _ = sdist.put_sources(tree)
        pip_version = versions.pip_version(version)
        tree.write("PKG-INFO", INFO.format(version=pip_version))
        path = os.path.join(sdist_directory, f"{wheel.PACKAGE}-{pip_version}.tar.gz")
        write_tar(tree, path, f"{wheel.PACKAGE}-{pip_version}", seconds, folders=False)
    return os.path.basename(path)
