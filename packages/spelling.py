"""How a version is spelled: the one home of that. What is on its way to 0.3.0 is 0.3.0-dev, by the program, Cargo, Go and the archive."""

from __future__ import annotations

NUMBER = r"\d+(?:\.\d+)*(?:-dev)?"


def of_debian(version: str) -> str:
    """A version that sorts before the one that it is on its way to."""
    return version.replace("-", "~")


def of_python(version: str) -> str:
    return version.replace("-dev", ".dev0")
