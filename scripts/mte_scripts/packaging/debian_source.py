"""Debian's source package, of what the packages are built of without the Rattle kit: a C compiler makes them of the
proved engines in `modules`. Its own `debian/rules` calls scripts/package."""

import datetime
import json
import os
import shutil
from typing import Callable

from mte_scripts.formats import INTERFACE
from mte_scripts.packaging import debian, packaging, sdist
from mte_scripts.packaging.packaging import NAME
from mte_scripts.packaging.tree import COMMIT, Tree, run

CONTROL = """\
Source: {name}
Section: devel
Priority: optional
Maintainer: {maintainer}
Build-Depends: python3 (>= 3.9)
Standards-Version: 4.6.2
Rules-Requires-Root: no
"""
RULES = """\
#!/usr/bin/make -f
# scripts/package writes the packages with their control files; what it makes depends on the sources and the tools alone
include /usr/share/dpkg/pkg-info.mk
MADE = debian/made

build build-arch:
\tscripts/package --maintainer "$(shell sed -n 's/^Maintainer: //p' debian/control)" $(MADE)

binary binary-arch: build-arch
\trm -f debian/files
\tset -e; for each in $(MADE)/*.deb; do \\
\t    dpkg-distaddfile $$(basename $$each) $$(dpkg-deb -f $$each Section) $$(dpkg-deb -f $$each Priority); \\
\t    cp $$each ..; \\
\tdone

build-indep binary-indep:

clean:
\trm -rf $(MADE) debian/files
\tfind . -name __pycache__ -type d -prune -exec rm -rf {} +

.PHONY: build build-arch build-indep binary binary-arch binary-indep clean
"""

# what lintian says of the source: its reason holds for a reader, and not for the archive (docs/INSTALL.md)
OVERRIDES = f"""\
# the page is made of web/ and of engines, which the Rattle kit compiles: that is in no registry
{NAME} source: source-is-missing [docs/page.html]
"""


def stanza(kind: str, name: str, more: str) -> str:
    section, title, about = debian.WORDS[kind]
    return f"""
Package: {name}
Architecture: amd64
{more}Section: {section}
Description: {title}
{debian.paragraph(packaging.ABOUT)} .
{debian.paragraph(about)}"""


def control(maintainer: str) -> str:
    library = f"lib{NAME}{INTERFACE}"
    commands = "Depends: ${misc:Depends}, python3 (>= 3.9)\n"
    shared = "Multi-Arch: same\nDepends: ${misc:Depends}\n"
    headers = f"Multi-Arch: same\nDepends: ${{misc:Depends}}, {library} (= ${{binary:Version}})\n"
    stanzas = stanza("", NAME, commands), stanza("library", library, shared), stanza("dev", f"lib{NAME}-dev", headers)
    return CONTROL.format(name=NAME, maintainer=maintainer) + "".join(stanzas)


def build(folder: str, work: str, maintainer_of: "Callable[[str], str]") -> "list[str]":
    """Writes the source package into the folder; the paths of its files."""
    tree = Tree(os.path.join(work, "source"))
    version, seconds, author = sdist.put_sources(tree)
    maintainer, time = maintainer_of(author), datetime.datetime.fromtimestamp(seconds, datetime.timezone.utc)
    commit = json.loads(tree.read(COMMIT))["number"]
    tree.write("debian/control", control(maintainer))
    tree.write("debian/rules", RULES, 0o755)
    tree.write("debian/changelog", debian.changelog(version, commit, maintainer, time))
    tree.write("debian/copyright", debian.copyright_text(f"{time:%Y}", maintainer))
    tree.write("debian/source/format", "3.0 (native)\n")
    tree.write("debian/source/lintian-overrides", OVERRIDES)
    tree.finish(seconds)
    # gzip, since its bytes do not depend on the number of cores
    run(["dpkg-source", "-Zgzip", "-b", tree.root], cwd=work, env={**os.environ, "SOURCE_DATE_EPOCH": str(seconds)})
    made = [name for name in os.listdir(work) if name.startswith(f"{NAME}_")]
    return [shutil.move(os.path.join(work, name), os.path.join(folder, name)) for name in made]
