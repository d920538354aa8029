"""Tests of the rules: a few lines in and out for each, clauses that must not be left behind, what must be refused."""
import pathlib
import re
import sys
import unittest
from unittest import mock

HERE = pathlib.Path(__file__).resolve().parents[1]
sys.path.insert(0, str(HERE))

import audit
import erase
import flag_sets
import rules
from tokens import File, Refused, tokens_of

PATH = pathlib.Path("crates/one_wire/src/one.rt")


def unit_of(source, runtime=False, above=""):
    """A package of one file, in the place of one_wire/src/one.rt."""
    paths = {"wirebase": "crate::wirebase", "one_wire": "crate::one"}
    users = {"wirebase": "control_wire", "one_wire": "control_wire::one"}
    unit = erase.Unit(pathlib.Path(), list(paths), paths, "control_wire", users)
    for name, text, runs in (("one.rs", source, runtime), ("base.rs", above, False)):
        file = File(PATH if name == "one.rs" else PATH.with_name("base.rt"), text, runs)
        file.crate = "one_wire"
        unit.files[pathlib.Path(name)] = file
    return unit


def erased(source, runtime=False, above=""):
    """The text that the rules leave of a source, by its tokens; `above` is another file of the package."""
    unit = unit_of(source, runtime, above)
    erase.erase([unit])
    file = unit.files[pathlib.Path("one.rs")]
    problems = []
    audit.audit(file, problems)
    if problems:
        raise AssertionError(problems)
    return words_of(str(file))


def words_of(text):
    return " ".join(token.text for token in tokens_of(text)[:-1])


VIEW = "pub struct Packet<T: Octets> { buffer: T }"

FLAGS = """
/// Flags.
#[derive(Debug, PartialEq, Eq, Clone, Copy)]
pub struct Set(u8);
impl Set {
    /// One.
    pub const A: Set = Set(0x80);
    /// Another.
    pub const B: Set = Set(0x01);
    const NAMED: &'static [Flag<Set>] = &[
        Flag { name: "A", value: Set::A, },
        Flag { name: "B", value: Set::B, },
    ];
}
""" + "\n".join(" ".join(texts) for texts in flag_sets.impls_of("Set", "u8", [("A", "0x80"), ("B", "0x01")]))

# For each rule: what stands in a file, and what is left of it.
ROWS = {
    "ghost": ("ghost use Rattle.std.{◌≡◌}; struct S { a: u8, pub ghost whole: { length a ≡ 2 }, }",
              "struct S { a: u8, }"),
    "clause": ("fn f(a: u8) -> u8 requires { a ≤ 2 } ensures value { result ≡ «a» } "
               "ensures* lends { λ w. w } { a }",
               "fn f(a: u8) -> u8 { a }"),
    "tactic": ("#![tactic(auto)] #[tactic(auto, using(crate::proofs::Pieces::pieces))] #[inline] fn f() -> u8 { 1 } "
               "#[cold] fn g() {  1; }",
               "#[inline] fn f() -> u8 { 1 } #[cold] fn g() { 1; }"),
    "final": ("trait T { final fn f(&self) -> u8 { 1 } }", "trait T { fn f(&self) -> u8 { 1 } }"),
    "model": ("impl<'a> Model for S<'a> { ghost view = { λ s. s.a }; } fn f() -> u8 { 1 }", "fn f() -> u8 { 1 }"),
    "drop": ("#[derive(Drop)] struct A; #[derive(Debug, Drop)] struct B; trait T: Drop {} "
             "fn f<X: Copy + Drop>(x: X) -> X { x }",
             "struct A; #[derive(Debug)] struct B; trait T {} fn f<X: Copy>(x: X) -> X { x }"),
    "clone": ("#[derive(Debug)] struct S(u8); "
              "impl Clone for S { fn clone(&self) -> Result<S, AllocError> { Ok(S(self.0)) } }",
              "#[derive(Debug, Clone)] struct S(u8);"),
    "hidden": ("pub enum Layout { A } pub struct Form { a: u8 } pub enum Other { A }",
               "pub(crate) enum Layout { A } pub(crate) struct Form { a: u8 } pub enum Other { A }"),
    "cloned": ("fn cloned(a: &A) -> Result<A, AllocError> { a.clone() } fn f() -> u8 { 1 }", "fn f() -> u8 { 1 }"),
    "constant": ("impl S { pub fn new_unchecked(a: u8) -> S { S(a) } pub fn new(a: u8) -> S { S(a) } } "
                 "impl R { pub const fn new_unchecked(a: u8) -> R { R(a) } pub fn buffer_len(&self) -> u8 { 4 } }",
                 "impl S { pub const fn new_unchecked(a: u8) -> S { S(a) } pub fn new(a: u8) -> S { S(a) } } "
                 "impl R { pub const fn new_unchecked(a: u8) -> R { R(a) } pub fn buffer_len(&self) -> u8 { 4 } }"),
    "open_enum": ("#[derive(Debug)] pub enum Refusal { A } enum OwnRefusal { A } pub enum Repr { A }",
                  "#[derive(Debug)] #[non_exhaustive] pub enum Refusal { A } enum OwnRefusal { A } "
                  "pub enum Repr { A }"),
    "debug": ("#[derive(Debug, Clone)] pub struct Ipv4Address; #[derive(Debug, Clone)] pub struct Ipv4Repr;",
              "#[derive(Clone)] pub struct Ipv4Address; #[derive(Debug, Clone)] pub struct Ipv4Repr;"),
    "nothing": ("use wirebase::{Error, are_facts}; fn are_facts(a: u8) ensures { a ≡ a } {} "
                "fn f() -> Error { are_facts(1); R::are_facts(2); Error }",
                "use crate::wirebase::{Error}; fn f() -> Error { Error }"),
    "formatter": ("fn fmt<W: fmt::Write>(&self, f: &mut fmt::Formatter<W>) -> fmt::Result { f.write_str(\"a\") } "
                  "fn more<A: B, W: fmt::Write>(f: &mut fmt::Formatter<W>, a: A) -> fmt::Result { a.show(f) } "
                  "impl<W: fmt::Write> Sink<fmt::Formatter<W>> for A { fn put(o: &mut fmt::Formatter<W>) -> u8 { 1 } }",
                  "fn fmt(&self, f: &mut fmt::Formatter<'_>) -> fmt::Result { f.write_str(\"a\") } "
                  "fn more<A: B>(f: &mut fmt::Formatter<'_>, a: A) -> fmt::Result { a.show(f) } "
                  "impl Sink<fmt::Formatter<'_>> for A { fn put(o: &mut fmt::Formatter<'_>) -> u8 { 1 } }"),
    "from_utf8": ("fn f() -> u8 { g(str::from_utf8(a)) }", "fn f() -> u8 { g(core::str::from_utf8(a)) }"),
    "label": ("fn f() -> u8 { 'a: loop { 'b: for i in c { continue 'b; } } }",
              "fn f() -> u8 { loop { 'b: for i in c { continue 'b; } } }"),
    "flag_set": (FLAGS, "bitflags::bitflags! { #[derive(Debug, PartialEq, Eq, PartialOrd, Ord, Hash, Clone, Copy)] "
                        "pub struct Set: u8 { const A = 0x80; const B = 0x01; } }"),
    "flags_trait": ("use bitflags::Flags as _; fn f() -> u8 { 1 }", "fn f() -> u8 { 1 }"),
    "lender": ("impl Octets for &mut [u8] { fn octets(&self) -> &[u8] { &**self } } fn f() -> u8 { 1 }",
               "fn f() -> u8 { 1 }"),
    "lends_from_any": (VIEW + "impl<'a> Packet<&'a [u8]> { fn data(&self) -> &'a [u8] { "
                       "let n = self.buffer.u8_at(0..1); &self.buffer[1..] } } "
                       "impl Packet<&[u8]> { fn len(&self) -> usize { self.buffer.len() } }",
                       VIEW + "impl<'a, B: AsRef<[u8]> + ?Sized> Packet<&'a B> { fn data(&self) -> &'a [u8] { "
                       "let n = self.buffer.u8_at(0..1); &self.buffer.as_ref()[1..] } } "
                       "impl<B: AsRef<[u8]> + ?Sized> Packet<&B> { "
                       "fn len(&self) -> usize { self.buffer.as_ref().len() } }"),
    "reads_from_any": (VIEW + "fn f<'a>(p: &Packet<&'a [u8]>) -> &'a [u8] { g(p.buffer) } "
                       "fn h(p: &Packet<&[u8]>) -> u8 { 1 }",
                       VIEW + "fn f<'a, B: AsRef<[u8]> + ?Sized>(p: &Packet<&'a B>) -> &'a [u8] { "
                       "g(p.buffer.as_ref()) } "
                       "fn h<B: AsRef<[u8]> + ?Sized>(p: &Packet<&B>) -> u8 { 1 }"),
    "imports": ("use std::marker::Model; use std::fmt::{self, Kept, Seen}; impl Model for S {} fn f() -> fmt::Result "
                "ensures { Seen } { g() }", "use core::fmt::{self, Kept}; fn f() -> fmt::Result { g() }"),
    "paths": ("use wirebase::Error; use crate::one::A; fn f() -> std::fmt::Result { one_wire::g(self::h::std()) }",
              "use crate::wirebase::Error; use crate::one::one::A; "
              "fn f() -> core::fmt::Result { crate::one::g(self::h::std()) }"),
}

# The same of tests and programs.
RUNTIME_ROWS = {
    "handle": ("fn f(rt: &impl Abort) { assert!(rt; a == b, \"{a}\"); }", "fn f() { assert!(a == b, \"{a}\"); }"),
    "prints": ("fn main(rt: HostRuntime) -> io::Result<()> { println!(rt; \"a\") }",
               "fn main() -> io::Result<()> { rattle_std::println!(\"a\") }"),
    "takes_alloc": ("fn f(alloc: Global) -> u8 { g(a.to_string(alloc), b.clone(), vec![in alloc; 0; 3]) }",
                    "use_prelude fn f() -> u8 { g(a.to_string_in(), b.try_clone(), rattle_std::vec![0; 3]) }"),
    "open_match": ("use kit::icmpv4::{Packet, Repr}; "
                   "fn f(a: Repr) -> u8 { match a { Repr::A => 1, Repr::B { .. } => 2 } }",
                   "use kit::icmpv4::{Packet, Repr}; "
                   "fn f(a: Repr) -> u8 { match a { Repr::A => 1, Repr::B { .. } => 2, _ => unreachable!(), } }"),
    "reader": ("fn f(rt: &(impl A + B)) -> u8 { run(rt.alloc(), rt.reader(), io::writer(&rt)) }",
               "fn f() -> u8 { run(io::reader(), io::writer()) }"),
    "stdout": ("fn main(rt: HostRuntime) -> u8 { let is_terminal = rt.stdout().is_terminal(); run(&rt, is_terminal) }",
               "fn main() -> u8 { let is_terminal = std::io::stdout().is_terminal(); run(is_terminal) }"),
    "files": ("fn open<R: Files>(rt: &R, file: &str) -> io::Result<R::File> { fs::open(rt, file) }",
              "fn open(file: &str) -> io::Result<fs::File> { fs::open(file) }"),
    "holder": ("struct S<'a, R> { rt: &'a R, } impl<R: Files + Input> T for S<'_, R> { type A = R::Reader; type B = R::File; "
               "fn a(&self) -> Self::A { let rt = self.rt; rt.reader() } } fn f(rt: &impl Files) -> u8 { g(&S { rt }) }",
               "struct S {} impl T for S { type A = io::Stdin; type B = fs::File; "
               "fn a(&self) -> Self::A { io::reader() } } fn f() -> u8 { g(&S {}) }"),
    "generator": ("use rand_core::{Rng, SeedableRng}; fn f() -> u8 { 1 }",
                  "use rand_core::{RngCore, SeedableRng}; fn f() -> u8 { 1 }"),
    "handed": ("fn t(rt: HostRuntime) { let alloc = rt.alloc(); f(&rt, alloc, 1); g(1, rt.alloc()); h(rt); }",
               "fn t() { f(1); g(1); h(); }"),
    "std_module": ("use std::io::Write; use std::fmt; fn f() -> u8 { hex::decode(a) } use strsim::jaro;",
                   "use rattle_std::io::Write; use std::fmt; fn f() -> u8 { rattle_std::hex::decode(a) } "
                   "use rattle_std::strsim::jaro;"),
    "prelude": ("fn f() -> Vec<u8> { g() }", "use_prelude fn f() -> Vec<u8> { g() }"),
}
USE_PRELUDE = "#[allow(unused_imports)] use rattle_std::prelude::*;"

# What no rule may pass over: the source, and a part of what is said.
REFUSED = (
    ("fn f() requires a ≤ 2 { 1 }", "a clause without braces"),
    ("impl Drop for S { fn drop(&mut self) { a(); } }", "a destructor"),
    ("type Drop = u8;", "Drop in another place"),
    ("#[quick] fn f() -> u8 { 1 }", "an attribute `quick`"),
    ("#[cfg(test)] mod tests;", "an attribute `cfg`"),
    ("#[test] fn f() { assert(); }", "an attribute `test`"),
    ("fn f() -> u8 { prove!(1) }", "`prove` is left"),
    ("fn f() -> u8 { told!(1) }", "a macro `told!`"),
    ("fn f() -> u8 { a ≤ b }", "`≤` is left"),
    ("fn f() -> u8 { unsafe { 1 } }", "`unsafe` is left"),
    ("fn f(rt: HostRuntime) -> u8 { 1 }", "is left"),
    ("fn f<W: fmt::Write, V>(f: &mut fmt::Formatter<W>) -> u8 { 1 }", "a Formatter in a function whose last"),
    ("fn are_facts() {} fn f() -> u8 { let a = are_facts; a }", "a function that does nothing, in another place"),
    ("impl Octets for [u8; 4] { fn octets(&self) -> &[u8] { self } }", "octets that are no slice"),
    ("impl Clone for S { fn clone(&self) -> S { S } }", "a Clone of S"),
    (FLAGS.replace("0x81 & !", "0x80 & !"), "no `impl Not for Set {"),
    (FLAGS.replace("self . 0 | other . 0", "self . 0 & other . 0"), "no `impl BitOr for Set {"),
    (FLAGS.replace('"B"', '"C"'), "the table of the flags of Set is another"),
)


class Rules(unittest.TestCase):
    def test_each_rule(self):
        for rows, runtime in ((ROWS, False), (RUNTIME_ROWS, True)):
            for name, (source, left) in rows.items():
                with self.subTest(rule=name):
                    self.assertEqual(erased(source, runtime), words_of(left.replace("use_prelude", USE_PRELUDE)))

    def test_each_rule_has_a_row(self):
        self.assertEqual({one.__name__ for one in erase.all_rules()}, {*ROWS, *RUNTIME_ROWS})

    def test_each_rule_applies_in_its_row(self):
        for rows, runtime in ((ROWS, False), (RUNTIME_ROWS, True)):
            for name, (source, _) in rows.items():
                unit = unit_of(source, runtime)
                erase.erase([unit])
                with self.subTest(rule=name):
                    self.assertIn(name, {edit.rule for file in unit.files.values() for edit in file.edits})

    def test_refused(self):
        for source, why in REFUSED:
            with self.subTest(source=source), self.assertRaises(Refused) as refused:
                erased(source)
            self.assertIn(why, str(refused.exception))
            self.assertRegex(str(refused.exception), r"^crates/one_wire/src/one\.rt:\d+: ")

    def test_no_clause_is_left_behind(self):
        source = "fn f() -> u8 ensures { a } ensures { b } requires c { d } { if e { g } else { h } }"
        self.assertEqual(erased(source), words_of("fn f() -> u8 { if e { g } else { h } }"))

    def test_words_in_texts_and_comments_stay(self):
        source = 'fn f() -> &str { /* ensures { a /* } */ */ "ghost a; ensures { \\" } Drop" } // requires {'
        self.assertEqual(erased(source), words_of(source))

    def test_the_comment_of_what_goes_goes_too(self):
        file = File(PATH, "//! Docs.\n\n// Of the ghost.\nghost a = { b };\n\n/// Of f.\nfn f() -> u8 { 1 }\n")
        unit = unit_of("")
        unit.files[pathlib.Path("one.rs")] = file
        file.crate = "one_wire"
        erase.erase([unit])
        self.assertEqual(str(file), "//! Docs.\n\n\n/// Of f.\nfn f() -> u8 { 1 }\n")

    def test_a_clone_of_what_derives_nothing_else(self):
        source = "use a::b; #[derive(Drop)] pub struct S(b); " \
            "impl Clone for S { fn clone(&self) -> Result<S, AllocError> { Ok(S(self.0)) } }"
        self.assertEqual(erased(source), words_of("use a::b; #[derive(Clone)] pub struct S(b);"))

    def test_examples_use_the_modules_of_users(self):
        file = File(PATH, "/// [`crate::F`]\n/// ```\n/// use one_wire::f;\n/// f(one_wire);\n/// ```\n"
                    "fn f() -> u8 { 1 }\n")
        unit = unit_of("")
        unit.files[pathlib.Path("one.rs")] = file
        file.crate = "one_wire"
        erase.erase([unit])
        self.assertEqual(str(file).splitlines()[0], "/// [`crate::one::F`]")
        self.assertEqual(str(file).splitlines()[2:4], ["/// use control_wire::one::f;", "/// f(one_wire);"])

    def test_each_comment_that_is_exchanged_stands_in_the_source(self):
        sources = [path.read_text() for path in (HERE.parents[1] / "crates").glob("*/src/**/*.rt")]
        for comment in rules.COMMENTS:
            self.assertEqual(sum(comment in source for source in sources), 1, comment)

    def test_tests_have_attributes_of_their_own_and_name_what_is_inside(self):
        unit = unit_of("#[cfg(test)] mod a; use one_wire::octets::B; use one_wire::C; #[test] fn f() { g(); }", True)
        unit.paths = {"one_wire": "control_wire::one", "one_wire::octets": "control_wire::inside"}
        unit.files[pathlib.Path("one.rs")].tests = True
        unit.root = "one_wire"
        erase.erase([unit])
        file = unit.files[pathlib.Path("one.rs")]
        self.assertEqual(words_of(str(file)), words_of(
            "#[cfg(test)] mod a; use control_wire::inside::octets::B; use control_wire::one::C; #[test] fn f() { g(); }"))
        problems = []
        audit.audit(file, problems)
        self.assertEqual(problems, [])

    def test_an_enum_that_may_get_more_cases_goes_by_its_module(self):
        unit = unit_of("")
        file = File(pathlib.Path("crates/one_wire/src/icmpv4/repr.rt"), "pub enum Repr { A } pub enum Other { A }")
        unit.files[pathlib.Path("one.rs")] = file
        file.crate = "one_wire"
        erase.erase([unit])
        self.assertEqual(words_of(str(file)), words_of("#[non_exhaustive] pub enum Repr { A } pub enum Other { A }"))

    def test_a_match_gets_an_arm_only_where_cases_may_come(self):
        for arms, more in (("R::A(NameRefusal::B) => 1, R::A(NameRefusal::C(_)) | R::D => 2,", True),
                           ("R::A(NameRefusal::B) => 1, R::A(_) => 2,", False),
                           ("R::A(NameRefusal::B) => 1, R::A(other) | R::E(other) => 2,", False),
                           ("NameRefusal::B => 1, other => 2,", False),
                           ("R::A(NameRefusal::B) => 1, _ => 2,", False),
                           ("NameRefusal::B => { 1 } NameRefusal::C => 2,", True),
                           ("a::NameRefusal::B => 1,", True),
                           ("own::Refusal::B => 1,", False),
                           ("R::A => 1, R::D => 2,", False)):
            source = "use kit::{a, NameRefusal}; use super::own; fn f() -> u8 { match r { %s } }"
            with self.subTest(arms=arms):
                self.assertEqual(erased(source % arms, True),
                                 words_of(source % (arms + (" _ => unreachable!()," if more else ""))))

    def test_what_requires_something_may_panic(self):
        source = ("impl A {\n    /// One. Requires a.\n    #[inline]\n    pub fn one(&self) -> u8\n"
                  "        ensures b { c }\n        requires d { e }\n    {\n        1\n    }\n\n"
                  "    /// Two.\n    pub fn two(&self) -> u8\n        ensures { c }\n    {\n        2\n    }\n}\n")
        unit = unit_of("")
        file = File(PATH, source)
        unit.files[pathlib.Path("one.rs")] = file
        file.crate = "one_wire"
        erase.erase([unit])
        docs = [line.strip() for line in str(file).splitlines() if line.strip().startswith("///")]
        panics = ["///", "/// # Panics", "///", f"/// {rules.PANICS[-1]}"]
        self.assertEqual(docs, ["/// One. Requires a.", *panics, "/// Two."])

    def test_the_page_of_the_writer_names_each_call(self):
        [page] = [text for text in rules.COMMENTS.values() if "ByteWriter::new" in text]
        table = "".join(line for line in page.splitlines() if line.startswith("/// |"))
        source = (HERE.parents[1] / "crates/wirebase/src/byte_writer.rt").read_text()
        self.assertEqual(sorted(re.findall(r"`(?:ByteWriter::)?(\w+)\(", table)),
                         sorted(re.findall(r"pub fn (\w+)", source)))

    def test_a_function_that_does_nothing_in_another_file(self):
        left = erased("fn f() -> u8 { facts(1); 2 }", above="pub fn facts(a: u8) {}")
        self.assertEqual(left, words_of("fn f() -> u8 { 2 }"))


class Table(unittest.TestCase):
    NEEDS = {"base": ["kit"], "root": ["base"], "above": ["base"], "program": ["root"], "tests_all": ["program"]}

    def kinds(self, rows):
        with mock.patch.object(erase, "table", lambda: [row.split() for row in rows]):
            return erase.kinds_of(self.NEEDS)

    def test_rows(self):
        kinds, library = self.kinds(["root root", "module above parts", "package program", "package other",
                                     "tests tests_all program every"])
        self.assertEqual(library, ["base", "root", "above"])
        self.assertEqual(kinds["module"], {"above": ["parts"]})
        self.assertEqual(kinds["package"], {"program": []})
        self.assertEqual(kinds["tests"], {"tests_all": ["program", "every"]})
        self.assertEqual(erase.folder_of(kinds, "program"), pathlib.Path("packages/program"))
        self.assertEqual(erase.folder_of(kinds, "root"), pathlib.Path())

    def test_refused(self):
        for rows, why in ((["root root", "module above parts"], "no row for the crate program"),
                          (["root root", "modules above parts"], "a row `modules above`"),
                          (["root root", "module above"], "a row `module above` with 0 more words")):
            with self.assertRaises(Refused) as refused:
                self.kinds(rows)
            self.assertIn(why, str(refused.exception))
        with self.assertRaises(Refused) as refused:
            erase.folder_of({"root": {"root": []}, "package": {}}, "above")
        self.assertIn("no package of the crate above", str(refused.exception))


if __name__ == "__main__":
    unittest.main()
