#!/usr/bin/env python3
"""Makes the Rust crate from the proved source: takes the contracts away, and leaves the code as it is.

    erase.py SOURCES OUT     writes OUT/src, OUT/tests and OUT/packages (SOURCES is the repository)
    erase.py --rules         lists the rules

What the rules do not know is refused, by file and line. `modules.txt` says which crate becomes what.
"""
import collections
import pathlib
import re
import sys

import flag_sets
import rules
import runtime
from tokens import File, Refused

HERE = pathlib.Path(__file__).resolve().parent


class Unit:
    """What cargo compiles as one crate: its folder, the crates that are in it, the path that each crate of the
    repository has in it and to its users, its files by their targets. Tests have the folder of their package."""

    def __init__(self, folder, crates, paths, root, users, tests=None):
        self.folder, self.crates, self.paths, self.root, self.users = folder, crates, paths, root, users
        self.tests = tests
        self.files = {}

    def is_library(self):
        return self.folder == pathlib.Path() and self.tests is None


def table(path=HERE / "modules.txt"):
    lines = (line.split("#")[0].split() for line in path.read_text().splitlines())
    return [line for line in lines if line]


def needs_of(sources):
    """The crates that each crate of the repository stands on."""
    lines = (line.split("#")[0].partition(":") for line in (sources / "crates.txt").read_text().splitlines())
    return {name.split()[0]: below.split() for name, _, below in lines if name.split()}


def below(needs, names):
    """These crates and all of the repository below them, lowest first."""
    order = []

    def visit(name):
        for need in needs[name]:
            if need in needs:
                visit(need)
        if name not in order:
            order.append(name)
    for name in names:
        visit(name)
    return order


# ---------------------------------------------------------------- reading

def read(source, target, shown, files, runs=False):
    """Reads a module's file, and those of the modules below it. `runs`: it is of tests or of a program, or of what
    reads and prints for one."""
    file = File(shown, source.read_text(), runs)
    files[target] = file
    folder = source.parent if source.stem in ("lib", "main") else source.with_suffix("")
    under = target.parent if target.stem in ("lib", "main") else target.with_suffix("")
    for i in range(len(file.tokens)):
        if file.text(i) == "mod" and file.text(i + 2) == ";":
            name = file.text(i + 1)
            path = folder / f"{name}.rt"
            if not path.exists():
                file.refuse(i, f"no {path.name} in {path.parent}")
            at = shown.parent if source.stem in ("lib", "main") else shown.with_suffix("")
            read(path, under / f"{name}.rs", at / f"{name}.rt", files, runs)


# How many words a row of each kind has behind its crate.
WORDS = {"root": 0, "module": 1, "inside": 1, "package": 0, "tests": 2}


def kinds_of(needs):
    """The rows of the table by their kinds, each crate with the words behind it. Each crate that is not below a root or
    a module has a row."""
    kinds = collections.defaultdict(dict)
    for kind, crate, *words in table():
        if kind not in WORDS or len(words) != WORDS[kind]:
            raise Refused(f"modules.txt: a row `{kind} {crate}` with {len(words)} more words")
        if crate in needs:
            kinds[kind][crate] = words
    library = below(needs, [*kinds["root"], *kinds["module"]])
    for crate in needs:
        if crate not in library and not any(crate in rows for rows in kinds.values()):
            raise Refused(f"modules.txt: no row for the crate {crate}")
    return kinds, library


def units_of(sources):
    """The packages, with the files of each as they are."""
    needs = needs_of(sources)
    kinds, library = kinds_of(needs)
    [root], public = kinds["root"], {crate: name for crate, [name] in kinds["module"].items()}
    modules = {crate: "crate" if crate == root else f"crate::{public.get(crate, crate)}" for crate in library}
    outside = {crate: f"control_wire::{public[crate]}" if crate in public else "control_wire" for crate in library}
    units = [Unit(pathlib.Path(), library, modules, root, outside)]
    for crate in library:
        read_crate(sources, units[0], crate, public.get(crate, crate), False)
    inside = {f"{crate}::{module}": "control_wire::inside" for crate, [module] in kinds["inside"].items()}
    for crate in kinds["package"]:
        units.append(Unit(folder_of(kinds, crate), [crate], {**outside, **inside}, crate, outside))
        read_crate(sources, units[-1], crate, crate, True)
    for crate, [of, name] in kinds["tests"].items():
        units.append(Unit(folder_of(kinds, of), [crate], {**outside, **inside}, crate, outside, name))
        read_crate(sources, units[-1], crate, name, True)
    for unit in units:
        for file in unit.files.values():
            file.crate = file.path.parts[1]
            file.library, file.tests = unit.is_library(), unit.tests is not None
            file.std = "crate::rattle_std" if has_std_beside(unit) else "rattle_std"
            file.published = not file.tests and (unit.is_library() or unit.root in PUBLISHED)
    return units, kinds


def folder_of(kinds, crate):
    """The folder of the package of a crate."""
    if crate not in kinds["root"] and crate not in kinds["package"]:
        raise Refused(f"modules.txt: no package of the crate {crate}")
    return pathlib.Path() if crate in kinds["root"] else pathlib.Path("packages") / crate


def has_std_beside(unit):
    """Whether these are tests of the library, whose package has what they need of `rattle_std` below its tests."""
    return unit.tests is not None and unit.folder == pathlib.Path()


def read_crate(sources, unit, crate, module, runs):
    """Reads a crate as the root of a package, as tests, or as a module."""
    folder = pathlib.Path("crates") / crate / "src"
    name = "lib" if (sources / folder / "lib.rt").exists() else "main"
    target = unit.folder / "src" / f"{name if crate == unit.root else module}.rs"
    if unit.tests is not None:
        target = unit.folder / "tests" / module / "main.rs"
    read(sources / folder / f"{name}.rt", target, folder / f"{name}.rt", unit.files, runs)


# ---------------------------------------------------------------- rules

def apply(file, group):
    """Goes through a file once; at each token of the source the first rule that applies is taken."""
    i = 0
    while i < len(file.tokens):
        place = i + 1
        if file.tokens[i].origin is not None:
            for one in group:
                file.rule = one.__name__
                there = one(file, i)
                if there is not None:
                    place = there
                    break
        i = place


LIBRARY = rules.VALUES + rules.STD + [flag_sets.flag_set, flag_sets.flags_trait]
LAST = [rules.imports, rules.paths, runtime.prelude]


def all_rules():
    return rules.CONTRACTS + LIBRARY + rules.VIEWS + runtime.RUNTIME + runtime.PATHS + LAST


def erase(units):
    """Applies the rules to all files."""
    files = [file for unit in units for file in unit.files.values()]
    for file in files:
        file.used = rules.used_words(file)
        if file.published:
            rules.panics(file)
        apply(file, rules.CONTRACTS)
    rules.NOTHING.clear()
    rules.VIEW_NAMES.clear()
    flag_sets.SETS.clear()
    rules.find_nothing(files)
    for file in files:
        rules.find_views(file)
    for unit in units:
        for file in unit.files.values():
            erase_rest(unit, file)


def erase_rest(unit, file):
    apply(file, LIBRARY)
    if file.runtime:
        apply(file, runtime.RUNTIME)
    else:
        apply(file, rules.VIEWS)
    own = unit.paths[file.crate].removeprefix("crate").removeprefix("::") if unit.root != file.crate else ""
    file.rule = "imports"
    rules.imports(file, file.used)
    if file.runtime:
        apply(file, runtime.PATHS)
    file.rule = "paths"
    rules.paths(file, unit.paths, own)
    file.rule = "prelude"
    if file.runtime:
        runtime.prelude(file)
    rules.comments(file, unit.users)
    rules.check(file)


# ---------------------------------------------------------------- writing

# The packages that may be published, with what a registry shows of them: their first page is by hand, and so is a part
# of them.
PUBLISHED = {"capture": """\
categories = ["network-programming", "parser-implementations"]
keywords = ["pcap", "pcapng", "capture"]
"""}

README = """#![doc = include_str!("../README.md")]
"""

BY_HAND = """
mod by_hand;

pub use by_hand::*;
"""

LIB_HEAD = """#![doc = include_str!("../README.md")]
#![no_std]
#![forbid(unsafe_code)]

mod by_hand;
{modules}

pub use by_hand::smoltcp::{{self, phy, time, wire}};

/// What the modules share and the tests try. It is no part of the API.
#[doc(hidden)]
pub mod inside {{
{inside}
}}
"""


def text_of(unit, kinds, target, file):
    """What is written of a file: a line that says what made it, and its text. The root of the library has a head of its
    own in the place of its documentation, and the root of its tests takes in what is beside them."""
    made, text = f"// Made from {file.path} by rust/erase.\n", str(file)
    if target == unit.folder / "src/lib.rs" and unit.root in PUBLISHED:
        return made + README + "".join(re.split(r"^(?://!.*\n)+", text, maxsplit=1, flags=re.M)) + BY_HAND
    at = re.search(r"^(?!//!)", text, re.M).start()
    if has_std_beside(unit) and target.name == "main.rs":
        return made + text[:at] + STD_BESIDE + text[at:]
    if not unit.is_library() or target.name != "lib.rs":
        return made + hide_inside(kinds, file, text)
    public = kinds["module"]
    modules = "".join(f"pub mod {public[crate][0]};\n" if crate in public else f"mod {crate};\n"
                      for crate in sorted(unit.crates) if crate != unit.root)
    inside = "\n".join(f"pub use crate::{public[crate][0] if crate in public else crate}::{module};"
                       for crate, [module] in kinds["inside"].items())
    return made + LIB_HEAD.format(modules=modules.strip(), inside=inside) + text[at:]


def hide_inside(kinds, file, text):
    """The text of a public module whose own module is named as `inside`: that one has no documentation."""
    if file.path.name == "lib.rt" and file.crate in kinds["module"] and file.crate in kinds["inside"]:
        [module] = kinds["inside"][file.crate]
        return text.replace(f"pub mod {module};", f"#[doc(hidden)]\npub mod {module};")
    return text


STD_BESIDE = """
#[path = "../rattle_std/mod.rs"]
mod rattle_std;
"""


# The version of all packages.
VERSION = "0.14.1"

MANIFEST = """# Made from {path} and the repository's crates.txt by rust/erase.
[package]
name = "{name}"
version = "{version}"
edition.workspace = true
rust-version.workspace = true
license.workspace = true
description = "{description}"
{publish}
[dependencies]
{needs}
{tests}
[lints]
workspace = true
"""


# What no crate of cargo stands for by itself: `rattle_std` has `hex` and `strsim`, and of the others contracts alone
# speak.
OF_THE_KIT = ("hex", "json", "serde_json", "strsim")


def dependencies_of(unit, kinds, needs):
    """The lines of a manifest for what a crate of cargo stands on, by their names: what crates.txt lists for it, and
    `rattle_std` where its files name that."""
    lines = {}
    if any("rattle_std" in file.words() for file in unit.files.values()):
        lines["rattle_std"] = f'rattle_std = {{ path = "../../rattle_std", version = "={VERSION}" }}'
    for need in needs[unit.root]:
        if need in kinds["package"]:
            lines[need] = f'{need} = {{ path = "../{need}" }}'
        elif need in needs:
            lines["control_wire"] = f'control_wire = {{ path = "../..", version = "={VERSION}" }}'
        elif need not in OF_THE_KIT:
            lines[need] = f"{need}.workspace = true"
    return lines


def manifest_of(unit, tests, kinds, needs):
    """The manifest of a package, which has these tests: its description is the first sentence of its documentation."""
    root = next(iter(unit.files.values()))
    docs = re.match(r"(?://! .*\n)+", root.source).group()
    description = re.match(r"(.+?)\.( |$)", docs.replace("//! ", "").replace("\n", " ")).group(1)
    own, more = dependencies_of(unit, kinds, needs), {}
    for of_tests in tests:
        more.update(dependencies_of(of_tests, kinds, needs))
    more = [line for need, line in sorted(more.items()) if need not in own and need != unit.root]
    return MANIFEST.format(path=root.path, name=unit.root, description=description.replace('"', "'"),
                           publish=PUBLISHED.get(unit.root, "publish = false\n"), version=VERSION,
                           needs="".join(f"{line}\n" for _, line in sorted(own.items())),
                           tests="\n".join(["[dev-dependencies]", *more, ""]) if more else "").replace("\n\n\n", "\n\n")


def sets_test(sets):
    """A test of the names and bits of each set of flags, as the proved source has them."""
    lines = ["// Made from the sets of flags in crates/*/src by rust/erase.",
             "//! The names and bits of the sets of flags, as the proved source has them.", "",
             "use bitflags::Flags;", "",
             "fn rows<F: Flags>() -> Vec<(&'static str, F::Bits)> {",
             "    F::FLAGS.iter().map(|flag| (flag.name(), flag.value().bits())).collect()", "}"]
    for file, name, bits, rows in sets:
        path = public_path(file)
        listed = ", ".join(f'("{row}", {number}{bits})' for row, number in rows)
        test = re.sub(r"\W+", "_", f"{path}::{name}".removeprefix("control_wire::")).lower()
        lines += ["", "#[test]", f"fn {test}() {{",
                  f"    assert_eq!(rows::<{path}::{name}>(), [{listed}]);", "}"]
    return "\n".join(lines) + "\n"


def public_path(file):
    """The module by which users name what a file of the library has: that of the file, or the one above it."""
    return f"control_wire::{file.path.parts[3].removesuffix('.rt')}"


# What the tests of the library have no use for.
UNUSED = re.compile(r"#!\[forbid.*\n|pub mod (collections|env|fs|hex|io|strsim);\n|pub use std::fmt;\n")


def std_of_tests():
    """The files with what the library's tests take of `rattle_std`, below the tests: so its package has all that they
    need."""
    files, folder = {}, HERE.parent / "rattle_std" / "src"
    for name in ("lib", "alloc", "test", "text", "vec"):
        text = UNUSED.sub("", (folder / f"{name}.rs").read_text()).replace("crate::", "crate::rattle_std::")
        docs, code = re.match(r"((?://!.*\n)*\n?)((?:.|\n)*)", text).groups()
        made = f"// Made from rust/rattle_std/src/{name}.rs by rust/erase.\n"
        brought = "pub use crate::vec;\n" if name == "lib" else ""
        files[pathlib.Path(f"tests/rattle_std/{'mod' if name == 'lib' else name}.rs")] = made + docs + brought + code
    return files


def write(sources, out, units, kinds):
    """Writes all files."""
    written = {out / "tests" / "flags.rs": sets_test(flag_sets.SETS)}
    written.update((out / path, text) for path, text in std_of_tests().items())
    for unit in units:
        for target, file in unit.files.items():
            written[out / target] = text_of(unit, kinds, target, file)
        if unit.root in kinds["package"]:
            tests = [of_tests for of_tests in units if of_tests.tests and of_tests.folder == unit.folder]
            written[out / unit.folder / "Cargo.toml"] = manifest_of(unit, tests, kinds, needs_of(sources))
    for path, text in written.items():
        path.parent.mkdir(parents=True, exist_ok=True)
        path.write_text(text)


def main(arguments):
    if arguments == ["--rules"]:
        for one in all_rules():
            print(f"{one.__name__:16} {one.__doc__.splitlines()[0]}")
        return
    sources, out = map(pathlib.Path, arguments)
    units, kinds = units_of(sources)
    erase(units)
    write(sources, out, units, kinds)


if __name__ == "__main__":
    if len(sys.argv) not in (2, 3):
        sys.exit(__doc__.strip())
    try:
        main(sys.argv[1:])
    except Refused as refused:
        sys.exit(f"erase: {refused}")
