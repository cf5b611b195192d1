"""Tests of the package itself."""

import importlib.util
import re
import shutil
import subprocess
import sys
import tempfile
import unittest
from pathlib import Path

import ordup

HERE = Path(__file__).resolve().parent


# The words after `pip` on the page: with a network, and without one.
WITH, WITHOUT = [words.split() for words in re.findall(r"\bpip (install [^`\n]*)", (HERE / "README.md").read_text(encoding="utf-8"))]


def has(name):
    return importlib.util.find_spec(name) is not None


class Package(unittest.TestCase):
    def test_the_names(self):
        names = {}
        exec("from ordup import *", names)
        self.assertEqual(set(names) - {"__builtins__"}, set(ordup.__all__))
        self.assertEqual(len(set(ordup.__all__)), len(ordup.__all__))

    def test_the_commands_of_its_page(self):
        self.assertEqual(WITH, ["install", "./clients/python"])
        self.assertEqual([word for word in WITHOUT if not word.startswith("--")], WITH)
        if has("pip"):
            ran = subprocess.run([sys.executable, "-m", "pip", "install", "--help"], check=True, stdout=subprocess.PIPE)
            for word in set(WITHOUT) - set(WITH):
                self.assertIn(f" {word} ", ran.stdout.decode())

    def test_it_installs(self):
        for name in ("pip", "setuptools", "wheel"):
            if not has(name):
                self.skipTest(f"the installation of the package, since this Python has no {name}")
        with tempfile.TemporaryDirectory() as folder:
            shutil.copytree(HERE, Path(folder, "clients", "python"))
            target = Path(folder, "target")
            words = [*WITHOUT, "--quiet", "--no-deps", "--target", target]
            subprocess.run([sys.executable, "-m", "pip", *words], cwd=folder, check=True, stdout=subprocess.PIPE, stderr=subprocess.PIPE)
            self.assertEqual(sorted(path.name for path in target.iterdir() if path.suffix != ".dist-info"), ["ordup"])
            self.assertTrue((target / "ordup" / "py.typed").is_file())
            said = "import ordup, importlib.metadata as m; print(ordup.__file__, ordup.__version__, m.version('ordup'))"
            ran = subprocess.run([sys.executable, "-c", said], cwd=target, check=True, stdout=subprocess.PIPE)
            self.assertEqual(ran.stdout.decode().split(), [str(target / "ordup/__init__.py"), *[ordup.__version__] * 2])

    def test_its_types(self):
        mypy = [sys.executable, "-m", "mypy"] if has("mypy") else [shutil.which("mypy")]
        if not mypy[0]:
            self.skipTest("the types of the package, since there is no mypy")
        files = [HERE / "ordup", *sorted(HERE.glob("examples/*.py"))]
        ran = subprocess.run([*mypy, "--strict", "--cache-dir=/dev/null", *files], stdout=subprocess.PIPE)
        self.assertEqual(ran.returncode, 0, ran.stdout.decode())
