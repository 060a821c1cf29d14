"""The crates of the repository, as crates.txt lists them."""

import os
import re
import shutil


class CrateList:
    def __init__(self, root: str) -> None:
        self.root = root
        with open(os.path.join(root, "crates.txt"), encoding="utf-8") as file:
            lines = [line.rstrip("\n") for line in file if not line.startswith("#")]
        # for each crate its line, and all that it stands on, crates of the kit too
        self.lines = {re.split("[: ]", line)[0]: line for line in lines if ":" in line}
        self.stands_on = {name: line.partition(":")[2].split() for name, line in self.lines.items()}

    def folder(self, name: str) -> str:
        return os.path.join(self.root, "crates", name)

    def below(self, names: list[str]) -> dict[str, list[str]]:
        """These crates and all crates of the repository below them, each with those that it stands on; lowest first."""
        found = {}

        def visit(name: str) -> None:
            if name not in found:
                stands_on = [it for it in self.stands_on[name] if it in self.stands_on]
                for it in stands_on:
                    visit(it)
                found[name] = stands_on

        for name in names:
            visit(name)
        return found

    def copy(self, names: list[str], folder: str) -> None:
        """Copies these crates, without what rt has made in them, and crates.txt with their lines."""
        for name in names:
            shutil.copytree(self.folder(name), os.path.join(folder, "crates", name), ignore=shutil.ignore_patterns("out"))
        with open(os.path.join(folder, "crates.txt"), "w", encoding="utf-8") as file:
            file.writelines(f"{self.lines[name]}\n" for name in names)
        shutil.copy(os.path.join(self.root, "HANDLES"), folder)
