#!/usr/bin/env python3
"""How ordup-node is built that has a mistake: some edits of a copy. The trial must tell it.

`recipe.py` sees that each mistake can be made of the files as they are, and says how many there are.
"""

import os
import shutil
import subprocess
import sys
from pathlib import Path

from node_mistakes import MISTAKES, Edit

TOP = Path(__file__).resolve().parents[2]
NODE = Path("node")
# The version of a program that is built to come after the one of the sources, and that runs its scripts too.
NEWER = "newer"


class Unmade(Exception):
    """Why a copy with a mistake cannot be made."""


def has_once(file: Path, text: str) -> bool:
    return (file.read_text() if file.is_file() else "").count(text) == 1


def edit(folder: Path, edits: list[Edit]) -> None:
    for name, old, new in edits:
        file = folder / name
        if not has_once(file, old):
            raise Unmade(f"{name} does not have this once: {old}")
        file.write_text(file.read_text().replace(old, new))


def build(sources: Path, library: Path, to: Path, edits: list[Edit]) -> tuple[Path, Path]:
    """The program ordup-node, of a copy of the sources with these edits, and the one of the next version."""
    shutil.copytree(sources / NODE, to / NODE, symlinks=True)
    for folder in ("clients/go", "clients/rust"):
        shutil.copytree(sources / folder, to / folder)
    edit(to / NODE, edits)
    programs = to / "ordup-node", to / f"ordup-node-{NEWER}"
    for program, version in zip(programs, ("", NEWER)):
        words = [to / NODE / "build", library, program]
        made = subprocess.run(words, env={**os.environ, "NODE_VERSION": version}, stdout=subprocess.PIPE, stderr=subprocess.STDOUT, text=True)
        if made.returncode:
            raise Unmade(made.stdout)
    return programs


def main() -> int:
    folder = (Path(sys.argv[1]) if sys.argv[1:] else TOP) / NODE
    wrong = [f"{mistake}: {name} does not have this once: {old}" for mistake, edits in MISTAKES.items()
             for name, old, _ in edits if not has_once(folder / name, old)]
    print("".join(line + "\n" for line in wrong), end="", file=sys.stderr)
    print(f"{len(MISTAKES)} mistakes, of which {len(wrong) or 'none'} cannot be made")
    return 1 if wrong or not MISTAKES else 0


if __name__ == "__main__":
    sys.exit(main())
