"""Tries the reader on odd sources."""

from __future__ import annotations

import tempfile
import unittest
from pathlib import Path

from .antt import read_definitions
from .pages import Page
from .rattle import File, Function, read_file, split
from .tokens import read_tokens
from .tree import Tree, below, read_crates

ODD = """\
//! A file. /* no block
use std::alloc::{Allocator, Global as Heap};
pub use crate::a::{b::C, d};
ghost use Rattle.std.specs.Prelude.{◌<◌, [], all as every};

/* a comment /* in a comment */ fn not_this() {} */
mod inner;
pub mod outer;

// above no function

// promise first: one
// and a half
/// Doc: `NoMemory`.
#[inline(always)]
// between
#[unsafe(no_mangle)]
pub unsafe extern "C" fn odd<'a, A: Allocator + Copy, F: Fn(&'a [u8]) -> Result<(), A>>(
    alloc: A, // of all
    given: &'a [(u8, u64)],
    f: F,
) -> Result<[u8; 4], (A, &'a str)>
    where A: Sized
    requires { 0 < length given.old' }
    // what it answers
    ensures first { IfOk result (λ r. r ≡ record { a = { 1 } }) }
    ensures second { f' ≡ [] }
{
    let brace = '{'; // }
    let quote = b'\\'';
    let text = "} \\" fn no() {";
    let raw = r#"} " fn no() {"#;
    'outer: loop { break 'outer }
    /* } */
}

macro_rules! make {
    ($name:ident) => { fn made() {} };
}
make! { fn made_too() {} }

pub(crate) const fn sized() -> usize { 4 }
const SIZE: usize = { 4 };
final fn last();

/// A type.
#[derive(Drop)]
pub struct Pair<A = Heap>(pub u8, A);
pub enum Kind {
    /// One.
    One,
    Two { a: u8, b: u64 },
    Three(Vec<(u8, u8)>),
}

pub trait Turns<R>: Drop {
    ghost taking: { Self → Taking };
    fn turn(&mut self, rt: &R) -> bool
        ensures { result };
}

impl<A: Fn() -> u8> crate::far::Turns<A> for other::Pair<A> {
    ghost invariant = { IsPair };
    fn turn(&mut self, rt: &A) -> bool { true }
}

unsafe impl Send for Pair {}

impl Pair {
    pub const NONE: Pair = Pair(0, Heap);
    // waits: book | never
    pub fn law()
        ensures { Law }
    {}
    #[test]
    fn tried<'b>(self: &'b Self) {}
}

// promise lost: nothing stands below
"""


def of_text(text: str) -> File:
    return read_file("odd", "crates/odd/src/a/b.rt", "a::b", text)


class Signs(unittest.TestCase):
    def kinds(self, text: str) -> list[tuple[str, str]]:
        return [(it.kind, it.text) for it in read_tokens(text)]

    def test_chars_and_lifetimes(self) -> None:
        self.assertEqual(self.kinds("&'a 'b' '\\'' b'}' '\\u{7d}'"),
                         [("sign", "&"), ("lifetime", "'a"), ("char", "'b'"), ("char", "'\\''"), ("char", "b'}'"), ("char", "'\\u{7d}'")])

    def test_names_of_definitions_have_primes(self) -> None:
        self.assertEqual(self.kinds("x' y'"), [("name", "x'"), ("name", "y'")])

    def test_strings(self) -> None:
        for text in ('"a // \\" b"', 'b"\\\\"', 'r"\\"', 'br##"a "# b"##', '"two\nlines"'):
            self.assertEqual(self.kinds(text), [("string", text)])

    def test_comments_in_comments(self) -> None:
        self.assertEqual(self.kinds("/* a /* b */ c */ d // e"), [("comment", "/* a /* b */ c */"), ("name", "d"), ("comment", "// e")])
        self.assertEqual(self.kinds("a /* b"), [("name", "a"), ("comment", "/* b")])

    def test_lines(self) -> None:
        self.assertEqual([(it.text, it.line) for it in read_tokens('a\n/*\n*/ b\n"\n" c')],
                         [("a", 1), ("/*\n*/", 2), ("b", 3), ('"\n"', 4), ("c", 5)])

    def test_ranges_and_numbers(self) -> None:
        self.assertEqual([text for _, text in self.kinds("0..5 1.5 -> =>")], ["0", ".", ".", "5", "1.5", "->", "=>"])


class Sources(unittest.TestCase):
    def setUp(self) -> None:
        self.file = of_text(ODD)
        self.functions = {it.path: it for it in self.file.functions}

    def function(self, path: str) -> Function:
        return self.functions[path]

    def test_which_functions(self) -> None:
        self.assertEqual([*self.functions], ["odd", "sized", "last", "Turns::turn", "Pair::turn", "Pair::law", "Pair::tried"])

    def test_head(self) -> None:
        odd = self.function("odd")
        self.assertEqual((odd.visibility, odd.modifiers), ("pub", ("unsafe", "extern", '"C"')))
        self.assertEqual(odd.generics, "'a, A: Allocator + Copy, F: Fn(&'a [u8]) -> Result<(), A>")
        self.assertEqual([(it.name, it.type) for it in odd.parameters], [("alloc", "A"), ("given", "&'a [(u8, u64)]"), ("f", "F")])
        self.assertEqual(odd.result, "Result<[u8; 4], (A, &'a str)>")
        self.assertEqual(ODD.split("\n")[odd.line - 1][:19], "pub unsafe extern \"")

    def test_clauses(self) -> None:
        self.assertEqual([(it.kind, it.name, it.text) for it in self.function("odd").clauses], [
            ("requires", "", "0 < length given.old'"), ("ensures", "first", "IfOk result (λ r. r ≡ record { a = { 1 } })"),
            ("ensures", "second", "f' ≡ []")])

    def test_comments(self) -> None:
        odd = self.function("odd")
        self.assertEqual([it.text for it in odd.comments], ["// promise first: one", "// and a half", "/// Doc: `NoMemory`.", "// between"])
        self.assertEqual(odd.attributes, ("inline(always)", "unsafe(no_mangle)"))
        self.assertEqual(odd.doc, "Doc: `NoMemory`.")
        self.assertEqual([it.text for it in self.function("Pair::law").comments], ["// waits: book | never"])

    def test_bodies(self) -> None:
        body = self.function("odd").body or ""
        self.assertIn("break 'outer", body)
        self.assertNotIn("/*", body)
        self.assertEqual((self.function("sized").body or "").strip(), "4")
        self.assertIsNone(self.function("Turns::turn").body)
        self.assertIsNone(self.function("last").body)
        self.assertTrue(self.function("Pair::law").is_empty)

    def test_owners(self) -> None:
        self.assertEqual([(self.function(it).owner, self.function(it).trait) for it in ("sized", "Turns::turn", "Pair::turn", "Pair::law")],
                         [("", ""), ("Turns", "Turns"), ("Pair", "Turns"), ("Pair", "")])
        public = [it for it, function in self.functions.items() if function.is_public]
        self.assertEqual(public, ["odd", "Turns::turn", "Pair::turn", "Pair::law"])

    def test_tests(self) -> None:
        self.assertEqual([it for it, function in self.functions.items() if function.is_test], ["Pair::tried"])
        self.assertTrue(self.function("Pair::tried").has_self)
        self.assertFalse(self.function("odd").has_self)

    def test_types(self) -> None:
        self.assertEqual([(it.kind, it.path, it.visibility, it.bracket) for it in self.file.types], [
            ("const", "SIZE", "", ""), ("struct", "Pair", "pub", "("), ("enum", "Kind", "pub", "{"), ("trait", "Turns", "pub", "{"),
            ("const", "Pair::NONE", "pub", "")])
        self.assertEqual(split(self.file.types[2].body), ["One", "Two { a: u8, b: u64 }", "Three(Vec<(u8, u8)>)"])

    def test_imports(self) -> None:
        self.assertEqual([tuple(it) for it in self.file.uses], [
            ((), "std::alloc", "Allocator", "Allocator"), ((), "std::alloc", "Global", "Heap"), (("pub",), "crate::a::b", "C", "C"),
            (("pub",), "crate::a", "d", "d"), (("ghost",), "Rattle.std.specs.Prelude", "◌<◌", "◌<◌"),
            (("ghost",), "Rattle.std.specs.Prelude", "[]", "[]"), (("ghost",), "Rattle.std.specs.Prelude", "all", "every")])
        self.assertNotIn("Prelude", self.file.bare)
        self.assertEqual([tuple(it) for it in self.file.modules], [("inner", ""), ("outer", "pub")])

    def test_a_text_that_breaks_off(self) -> None:
        for end in range(0, len(ODD), 13):
            of_text(ODD[:end])


class Definitions(unittest.TestCase):
    def test_declarations(self) -> None:
        file = read_definitions("odd", "crates/odd/specs/File.antt", "\n".join([
            "use Rattle.std.specs.Prelude.{ℕ, all as every}", "pub use Rattle.odd.specs.Other.{passed}", "",
            "abbrev pub one-of : ℕ → ℕ -- one", "one-of x = x", "-- of two", "pub record Pair where", "  field : ℕ", "module Inner where",
            "  deep : ℕ", "  deep = 1",
            "data Two : Type 0", "  case : Two", "private : ℕ"]))
        self.assertEqual([(it.name, it.is_public, it.line) for it in file.declared],
                         [("one-of", True, 4), ("Pair", True, 7), ("deep", False, 10), ("Two", False, 12), ("private", False, 14)])
        self.assertEqual(file.names(), ["one-of", "field", "deep", "case", "private"])
        self.assertEqual((file.module, file.name), ("Rattle.odd.specs.File", "odd/File"))
        self.assertEqual([(it.words, it.name, it.here) for it in file.uses],
                         [(("ghost",), "ℕ", "ℕ"), (("ghost",), "all", "every"), (("pub", "ghost"), "passed", "passed")])


class Crates(unittest.TestCase):
    def test_crates(self) -> None:
        crates = read_crates("low:\n# none\nmid: low std_only\ntop staticlib: mid low # all\n")
        self.assertEqual([(it.name, it.kind, it.libraries, it.line) for it in crates.values()],
                         [("low", "", (), 1), ("mid", "", ("low", "std_only"), 3), ("top", "staticlib", ("mid", "low"), 4)])
        self.assertEqual([it.text for it in crates.values()], ["low: ", "mid: low std_only", "top staticlib: mid low"])
        self.assertEqual(below(crates, "top"), ["low", "mid"])


    def test_copies(self) -> None:
        with tempfile.TemporaryDirectory() as folder:
            (Path(folder) / "crates.txt").write_text("one:\ntwo:\nthree:\nfour:\n")
            for crate, text in (("one", "fn a() {}\n"), ("two", "fn a() {}\n"), ("three", "fn a() {}\n\n")):
                (Path(folder) / "crates" / crate / "src").mkdir(parents=True)
                (Path(folder) / "crates" / crate / "src/expect.rt").write_text(text)
            odd = [(it.crate, first.crate) for it, first in Tree(Path(folder)).odd_copies("expect")]
        self.assertEqual(odd, [("three", "one")])


class Pages(unittest.TestCase):
    def page(self, text: str) -> Page:
        with tempfile.TemporaryDirectory() as folder:
            (Path(folder) / "A.md").write_text(text)
            return Page(Path(folder), "A.md")

    def test_page(self) -> None:
        page = self.page("# One, two\n\n[a](#one-two) [b](B.md#c) [d](https://e)\n\n```way\n# no title\n[f](g)\n```\n\n"
                         "## Next\n\n|a|b \\| c|\n|-|-|\n\n### Below\n\n| c |\n\n```way\n```\n\n## Last\n\n| d |\n")
        self.assertEqual([tuple(it) for it in page.blocks], [("A.md", "way", 6, ("# no title", "[f](g)")), ("A.md", "way", 20, ())])
        self.assertEqual((page.blocks[0].where, page.blocks[0].text), ("A.md:6", "# no title\n[f](g)\n"))
        self.assertEqual(page.anchors(), {"one-two", "next", "below", "last"})
        self.assertEqual([*page.links()], [(3, "", "one-two"), (3, "B.md", "c")])
        self.assertEqual([(it.line, it.title, it.cells) for it in page.rows()], [
            (12, "Next", ("a", "b \\| c")), (13, "Next", ("-", "-")), (17, "Below", ("c",)), (24, "Last", ("d",))])
        self.assertEqual([it.line for it in page.rows_below("## Next")], [12, 13, 17])
        self.assertEqual([it.line for it in page.blocks_below("## Next")], [20])
        self.assertEqual(page.text_below("## Last"), "\n| d |\n\n")
        self.assertEqual([*page.below("")], [*range(1, 26)])

    def test_commands(self) -> None:
        page = self.page("```session\nno command\n$ one\na\n\n$ two\n```\n")
        self.assertEqual([tuple(it) for it in page.blocks[0].commands()], [(3, "one", ["a", ""]), (6, "two", [])])

    def test_blocks_without_a_fence(self) -> None:
        page = self.page("# A\n\n    indented\n    on\ntext\n    goes on\n\n\ttab\n\n```text\n\n    inside\n```\n\n```text\nno end\n")
        self.assertEqual(page.without_fence, [3, 8, 16])
        self.assertEqual([it.line for it in page.blocks], [11])


if __name__ == "__main__":
    unittest.main()
