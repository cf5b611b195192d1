"""Makes the wheel: the package for Python with the library in it, for pip."""

from __future__ import annotations

import ast
import base64
import hashlib
import io
import re
import time
import zipfile

from contents import TOP, glibc_of
from manual import found_in
from spelling import of_python

CLIENT = TOP / "clients/python"
FIRST_DATE = 315532800  # of a file in a zip archive: 1980-01-01


def metadata(version: str) -> str:
    """What pip shows of the package, as clients/python/pyproject.toml has it, and the module's own text, which has no links."""
    project = (CLIENT / "pyproject.toml").read_text(encoding="utf-8")
    summary, python, kinds = (found_in(project, rf"^{it}$", re.M)[1]
                              for it in ('description = "(.*)"', 'requires-python = "(.*)"', r"classifiers = \[(.*)\]"))
    lines = ["Metadata-Version: 2.1", "Name: ordup", f"Version: {version}", f"Summary: {summary}",
             "License: none yet: it is the owner's to choose", *(f"Classifier: {it}" for it in re.findall(r'"([^"]*)"', kinds)),
             f"Requires-Python: {python}", "Description-Content-Type: text/markdown", ""]
    module = ast.parse((CLIENT / "ordup/__init__.py").read_text(encoding="utf-8"))
    return "\n".join(lines) + f"\n# ordup\n\n{ast.get_docstring(module)}\n"


def tags(shared: bytes) -> list[str]:
    """For which systems the wheel is, by the newest C library that the shared library wants: those with it, or a newer one."""
    major, minor = max(glibc_of(shared), (2, 17))
    older = ["py3-none-manylinux2014_x86_64"] if (major, minor) == (2, 17) else []
    return [f"py3-none-manylinux_{major}_{minor}_x86_64", *older]


def record_of(files: dict[str, bytes]) -> str:
    """The digests of the files, as the file RECORD has them."""
    sums = ((name, base64.urlsafe_b64encode(hashlib.sha256(data).digest()).rstrip(b"=").decode("ascii"), len(data))
            for name, data in files.items())
    return "".join(f"{name},sha256={sum},{size}\n" for name, sum, size in sums)


def package(version: str, shared: bytes, proof: bytes, epoch: int) -> tuple[str, bytes]:
    """The name of the wheel, and its bytes."""
    version, tagged = of_python(version), tags(shared)
    about = f"ordup-{version}.dist-info"
    sources = sorted([*CLIENT.glob("ordup/*.py"), CLIENT / "ordup/py.typed"])
    files = {f"ordup/{it.name}": it.read_bytes() for it in sources}
    files["ordup/libordup.so"], files["ordup/proof"] = shared, proof
    files[f"{about}/METADATA"] = metadata(version).encode("utf-8")
    wheel = ["Wheel-Version: 1.0", "Generator: ordup", "Root-Is-Purelib: false", *(f"Tag: {it}" for it in tagged), ""]
    files[f"{about}/WHEEL"] = "\n".join(wheel).encode("utf-8")
    files[f"{about}/copyright"] = (TOP / "packages/copyright").read_bytes()
    files[f"{about}/RECORD"] = f"{record_of(files)}{about}/RECORD,,\n".encode("utf-8")
    date = time.gmtime(max(epoch, FIRST_DATE))
    with io.BytesIO() as made:
        with zipfile.ZipFile(made, "w") as to:
            for name, data in files.items():
                info = zipfile.ZipInfo(name, (date.tm_year, date.tm_mon, date.tm_mday, date.tm_hour, date.tm_min, date.tm_sec))
                info.external_attr, info.create_system, info.compress_type = 0o100644 << 16, 3, zipfile.ZIP_DEFLATED
                to.writestr(info, data, compresslevel=9)
        name = "-".join(["ordup", version, "py3-none", ".".join(it.split("-")[2] for it in tagged)])
        return f"{name}.whl", made.getvalue()
