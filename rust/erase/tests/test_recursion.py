"""Tests of what looks for functions that call themselves: such as do, and such as only look like it."""
import pathlib
import subprocess
import sys
import tempfile
import unittest

sys.path.insert(0, str(pathlib.Path(__file__).resolve().parents[1]))

import recursion

# What stands in each program.
HEAD = """
use std::fmt;
pub struct Inner(pub u8);
pub struct Outer(pub Inner);
impl fmt::Display for Inner {
    fn fmt(&self, f: &mut fmt::Formatter<'_>) -> fmt::Result { self.0.fmt(f) }
}
impl fmt::Display for Outer {
    fn fmt(&self, f: &mut fmt::Formatter<'_>) -> fmt::Result { self.0.fmt(f)?; write!(f, " {}", self.0) }
}
pub trait Len { fn len(&self) -> usize; }
impl Len for Inner { fn len(&self) -> usize { 1 } }
impl Len for Outer { fn len(&self) -> usize { self.0.len() } }
pub fn twice<T: Len>(one: T) -> usize { one.len() + one.len() }
pub fn all(octets: &[Inner]) -> usize { octets.iter().map(Len::len).sum() }
pub fn used() -> usize { twice(Inner(0)) + twice(Outer(Inner(0))) + all(&[]) }
"""

ITSELF = "pub fn walk(octets: &[u8]) -> usize { match octets { [] => 0, [_, rest @ ..] => 1 + walk(rest) } }"
EACH_OTHER = """
pub fn even(n: u32) -> bool { n == 0 || odd(n - 1) }
pub fn odd(n: u32) -> bool { n != 0 && even(n - 1) }
"""
METHOD = "impl Inner { pub fn down(&self) -> u8 { if self.0 == 0 { 0 } else { Inner(self.0 - 1).down() } } }"
PRINTED = """
pub struct Rest<'a>(pub &'a [u8]);
impl fmt::Display for Rest<'_> {
    fn fmt(&self, f: &mut fmt::Formatter<'_>) -> fmt::Result {
        let Some((first, rest)) = self.0.split_first() else { return Ok(()) };
        write!(f, "{first},{}", Rest(rest))
    }
}
"""
GENERIC = """
pub fn count<T: Len>(all: &[T]) -> usize { match all { [] => 0, [one, rest @ ..] => one.len() + count(rest) } }
pub fn counted() -> usize { count(&[Inner(1)]) }
"""
HANDED_ON = """
pub fn each(octets: &[u8], f: &mut dyn FnMut(&[u8])) { f(octets) }
pub fn nested(octets: &[u8]) { each(octets, &mut |inner| if let [_, rest @ ..] = inner { nested(rest) }) }
"""


def found(program):
    """How many functions there are, and for each way back to a function the words of the names on it."""
    with tempfile.TemporaryDirectory() as room:
        source = pathlib.Path(room) / "planted.rs"
        source.write_text(HEAD + program)
        subprocess.run(["rustc", "--edition", "2024", "--crate-type", "lib", "--emit=llvm-ir", "--out-dir", room,
                        "-C", "symbol-mangling-version=v0", "--cap-lints", "allow", source], check=True)
        text = (pathlib.Path(room) / "planted.ll").read_text()
    count, ways = recursion.recursions([("planted.ll", text)], {"planted"})
    return count, [{word for path in paths for word in path.split("::")} for paths in ways]


class Recursion(unittest.TestCase):
    def test_none_where_names_are_alike(self):
        count, ways = found("")
        self.assertEqual(ways, [])
        self.assertGreaterEqual(count, 8)

    def test_each_way_back_to_a_function_is_found(self):
        for program, names in [(ITSELF, {"walk"}), (EACH_OTHER, {"even", "odd"}), (METHOD, {"down"}),
                               (PRINTED, {"fmt", "Rest"}), (GENERIC, {"count"}), (HANDED_ON, {"nested"})]:
            with self.subTest(program=program):
                [way] = found(program)[1]
                self.assertLessEqual(names, way)

    def test_functions_of_other_crates_do_not_count(self):
        code = "define void @_RNvC5other4walk() {\n  call void @_RNvC5other4walk()\n}\n"
        self.assertEqual(recursion.recursions([("one.ll", code)], {"planted"}), (0, []))


if __name__ == "__main__":
    unittest.main()
