"""The packages of scripts/package in a Debian 12 that has nothing but `apt`, for `package --chroot`: those of the
source package of a snapshot, which are built there, and then those of the release, which apt takes for newer."""

import os
import shutil
import subprocess
import sys

# what the callers are built with
TOOLS = "gcc g++ libc6-dev pkg-config cmake make golang-go cargo python3-venv redis-server redis-tools".split()
# builds the snapshot of its source package, and installs it
SNAPSHOT = r"""
set -eu
cd /tmp/snapshot
dpkg-source -x *.dsc source
cd source
dpkg-buildpackage -us -uc -b
cd ..
apt-get install -y --no-install-recommends ./*.deb
dpkg-query -W -f '${Package} ${Version}\n' 'mte-tool' 'libmte-tool*' | tee installed
grep -c '~git' installed
mte_tool --version
"""
# upgrades it to the release
UPGRADE = r"""
set -eu
apt-get install -y --no-install-recommends /tmp/packages/*.deb
dpkg-query -W -f '${Package} ${Version}\n' 'mte-tool' 'libmte-tool*' | tee installed
! grep '[~+]git' installed
"""
IN_DEBIAN = r"""
set -eu
cd /root
! command -v rt
mte_tool --version
ln -s /usr/share/mte-tool/examples .
mte_tool run --limit 8 --granules 262144 < examples/sqlite.trace | sed -n '/^events/,$p'
mte_tune_program --output redis redis-server --port 6399 --save '' --daemonize no &
for turn in $(seq 600); do redis-cli -p 6399 ping >/dev/null 2>&1 && break; sleep 0.1; done
redis-benchmark -p 6399 -q -n 20000 -t set,lpush,hset -r 10000 -d 100 | tail -n 3
redis-cli -p 6399 shutdown nosave
wait $!
mte_check_sheet redis/tuned.sheet redis/program.profile
mte_check_sheet redis/fitted.fit redis/program.timeline
ls redis

mte_tool tune --limit 8 < examples/jq.profile > jq.sheet
cp examples/callers/* .
cc check_sheet.c $(pkg-config --cflags --libs mte_tool) -o check && ./check jq.sheet examples/jq.profile
c++ -std=c++20 make_header.cpp $(pkg-config --cflags --libs mte_tool) -o header && ./header 8 < examples/jq.profile
go run tune.go 8 < examples/jq.profile | cmp - jq.sheet
for each in /tmp/packages/*.crate; do tar -xf $each; done
mkdir -p caller/src && cp mte-tool-[0-9]*/examples/tune.rs caller/src/main.rs
printf '[package]\nname = "caller"\nversion = "0.1.0"\nedition = "2021"\n' > caller/Cargo.toml
printf '[dependencies]\nmte-tool = { path = "../%s" }\n' mte-tool-[0-9]* >> caller/Cargo.toml
printf '[patch.crates-io]\nmte-tool-sys = { path = "../%s" }\n' mte-tool-sys-* >> caller/Cargo.toml
(cd caller && cargo build --offline -q) && caller/target/debug/caller 8 < examples/jq.profile | cmp - jq.sheet
python3 -m venv venv && venv/bin/pip install -q --no-index /tmp/packages/*.whl
venv/bin/python3 -c 'import mte_tool; print(mte_tool.__version__)'
venv/bin/mte_tool tune --limit 8 < examples/jq.profile | cmp - jq.sheet

packages=$(dpkg-query -W -f '${Package} ' 'mte-tool' 'libmte-tool*')
dpkg -V $packages
dpkg -P $packages
for name in /usr/bin/mte_* /usr/lib/mte-tool /usr/share/mte-tool /usr/share/doc/*mte-tool* /usr/include/mte_tool* \
    /usr/lib/x86_64-linux-gnu/*mte_tool* /usr/lib/x86_64-linux-gnu/*/*mte_tool*; do
    [ ! -e "$name" ] || { echo "$name is left"; exit 1; }
done
"""


def run(folder: str, packages: "list[str]", snapshot: "list[str]") -> int:
    """Makes the Debian in the folder, and tries the source package of a snapshot there, and then the packages; the
    status."""
    words = ["mmdebstrap", "--variant=apt", "--include=ca-certificates", "bookworm", folder]
    subprocess.run(words, check=True)
    for name, paths in (("packages", packages), ("snapshot", snapshot)):
        os.mkdir(f"{folder}/tmp/{name}")
        for path in paths:
            shutil.copy(path, f"{folder}/tmp/{name}")
    install = ["apt-get", "install", "-y", "--no-install-recommends", "build-essential", *TOOLS]
    scripts = [["bash", "-c", script] for script in (SNAPSHOT, UPGRADE, IN_DEBIAN)]
    for words in (["apt-get", "update"], install, *scripts):
        environment = {"PATH": "/usr/sbin:/usr/bin:/sbin:/bin", "HOME": "/root", "DEBIAN_FRONTEND": "noninteractive", "LC_ALL": "C.UTF-8"}
        # with a /proc of its own, and nothing is left running
        alone = ["unshare", "--mount", "--pid", "--fork", "--kill-child", f"--root={folder}", "--mount-proc"]
        done = subprocess.run([*alone, *words], env=environment)
        if done.returncode:
            sys.exit(f"package: {words[0]} in {folder} ended with status {done.returncode}")
    return 0
