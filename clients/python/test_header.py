"""Tests that the module has of the headers in C and of FORMATS what they have."""

import ctypes
import re
import unittest

import ordup
from cases import TOP
from ordup import Cluster, _cluster, _cluster_answers, _cluster_library


class Header(unittest.TestCase):
    """What the module has of the headers and of FORMATS is what they have."""

    TEXT = "".join((TOP / f"clients/c/{name}.h").read_text(encoding="utf-8") for name in ("ordup", "ordup_holds", "ordup_cluster"))

    def test_the_numbers(self):
        # One that no number follows in its enumeration is one more than that before it.
        numbers = {}
        for body in re.findall(r"\nenum \{(.*?)\};", self.TEXT, re.S):
            last = -1
            for name, value in re.findall(r"ORDUP_(\w+)(?: = ([^,/]*))?", re.sub(r"= ORDUP_REFUSED \+", "= 100 +", body)):
                last = sum(map(int, value.split("+"))) if value else last + 1
                numbers[name] = last
        for name in ("DONE", "MORE", "CLOSED", "OPEN", "UNMET", "REFUSED"):
            self.assertEqual(getattr(_cluster_library, name), numbers[name], name)
        for name in ("BEHIND", "NOT_YET", "STOPPED", "NO_MEMORY", "MIXED"):
            self.assertEqual(getattr(_cluster_library, name), numbers[f"REFUSED_{name}"], name)
        for word, number in {**_cluster._OPERATIONS, **_cluster._BOUNDS}.items():
            self.assertEqual(number, numbers[word.upper()], word)
        for number, word in enumerate(_cluster._SCOPES):
            self.assertEqual(number, numbers[f"SCOPE_{word.upper()}"], word)

    def test_the_structures(self):
        kinds = {"uint32_t": ctypes.c_uint32, "uint64_t": ctypes.c_uint64, "int64_t": ctypes.c_int64, "void *": ctypes.c_void_p,
                 "ordup_cluster *": ctypes.c_void_p, "ordup_handle ": _cluster_library.Handle}
        names = {"charged": {"import": "imported"}}
        for word, kind in (("handle", "Handle"), ("change", "Change"), ("condition", "Condition"), ("seen", "Seen"), ("charged", "Charged"),
                           ("ended", "Ended"), ("query", "Query"), ("numbers", "Numbers"), ("site_numbers", "SiteNumbers"), ("lag", "Lag")):
            body = re.search(rf"typedef struct ordup_{word} \{{(.*?)\}} ordup_{word};", self.TEXT, re.S)[1]
            fields = []
            for type_, members in re.findall(r"(void \*|ordup_cluster \*|ordup_handle |\w+)\s*([\w, ]+);", body):
                for member in members.split(","):
                    fields.append((names.get(word, {}).get(member.strip(), member.strip()), kinds[type_]))
            self.assertEqual(fields, getattr(_cluster_library, kind)._fields_, word)

    def test_the_names_of_the_refusals(self):
        page = (TOP / "docs/FORMATS.md").read_text(encoding="utf-8")
        names = {int(number): name for number, name in re.findall(r"^\| (\d+) `(\w+)` \|", page, re.M)}
        self.assertEqual(dict(enumerate(_cluster_answers._NAMES, 1)), names)

    def test_the_names_that_all_languages_share(self):
        for name in ("propose", "settle", "query", "relimit", "record", "read", "read_many", "read_when_level", "numbers", "lags", "finish",
                     "stop", "close"):
            self.assertTrue(callable(getattr(Cluster, name)), name)
        self.assertTrue(callable(ordup.Closed.successor) and callable(ordup.Closed.records))
