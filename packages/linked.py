"""Whose code is linked into ordup-node beside ordup's own, and what its licences ask to be passed on with it."""

from __future__ import annotations

import os
from pathlib import Path

from contents import TOP, said_by
from manual import found_in

# How the name of Debian's package of some code begins, by where the code is from, and the packages that are not named by that.
HOSTS = {"github.com": "github", "golang.org": "golang", "google.golang.org": "google", "go.uber.org": "go.uber", "gopkg.in": "gopkg"}
OTHERS = {
    "github.com/golang/protobuf": "golang-github-golang-protobuf-1-3-dev",
    "github.com/matttproud/golang_protobuf_extensions": "golang-protobuf-extensions-dev",
    "go.etcd.io/bbolt": "golang-github-coreos-bbolt-dev",
    "go.etcd.io/etcd": "golang-etcd-server-dev",
    "sigs.k8s.io/yaml": "golang-k8s-sigs-yaml-dev",
}
OPENING = "What follows is of the code of others that is linked into ordup-node, under the licences that it names.\n"


def imported(library: Path) -> list[str]:
    """The import paths of what is linked, but for those of Go itself and of ordup."""
    words = ["--do", "list", "-tags", "library", "-deps", "-f", "{{if not .Standard}}{{.ImportPath}}{{end}}"]
    said = said_by("env", "NODE_PACKAGES=.", TOP / "node/build", library, *words)
    return [it for it in said.split() if not it.startswith("ordup.dev/")]


def package_of(path: str) -> str:
    """Debian's package of what has an import path."""
    host, *names = path.split("/")[: 3 if path.startswith(("github.com/", "golang.org/")) else 2]
    return OTHERS.get("/".join([host, *names])) or f"golang-{HOSTS.get(host, host)}-{'-'.join(names).replace('_', '-').lower()}-dev"


def rights(library: Path) -> str:
    """The notices of the packages that are linked, as Debian has them, and that of Go."""
    documents = Path(os.environ.get("GOCODE") or "/usr/share/gocode").parent / "doc"
    go = found_in(said_by("go", "version"), r"\bgo(\d+\.\d+)")[1]
    of = {f"golang-{go}-go": "Go", **{package_of(path): path for path in imported(library)}}
    made = OPENING
    for name in sorted(of):
        if not (documents / name / "copyright").is_file():
            raise ValueError(f"packages/linked.py takes {name} for the package of {of[name]}, which has no notice in {documents}")
        made += f"\n{'=' * 72}\n{name}\n{'=' * 72}\n\n{(documents / name / 'copyright').read_text(encoding='utf-8')}"
    return made
