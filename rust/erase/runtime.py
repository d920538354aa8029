"""The rules for code over Rattle's runtime: tests, programs, and what these stand on. What they name of Rattle's std and
Rust's has not is in the crate `rattle_std`, over Rust's, of which the tests of the library have a copy beside them."""

RUNTIME, PATHS = [], []
HANDED = {"rt", "alloc"}
MACROS = {"assert", "assert_eq", "assert_ne", "panic"}
PRINTS = {"println", "eprintln"}
TAKE_ALLOC = {"to_string", "concat", "to_vec", "repeat"}
MODULES = {"alloc", "collections", "test", "io", "env", "fs"}
PRELUDE = {"Vec", "String", "try_clone"} | {f"{word}_in" for word in TAKE_ALLOC}


def rule(group):
    return lambda function: group.append(function) or function


@rule(RUNTIME)
def handle(file, i):
    """The runtime goes from a macro that may end the process: `assert!(rt; ..)`."""
    if file.text(i) not in MACROS or not file.texts(i + 1, "!", "(", "rt", ";"):
        return None
    return file.remove(i + 3, i + 5, comment=False)


@rule(RUNTIME)
def prints(file, i):
    """`println!(rt; ..)`, which answers a Result, is that of `rattle_std`."""
    if file.text(i) not in PRINTS or not file.texts(i + 1, "!", "(", "rt", ";"):
        return None
    file.remove(i + 3, i + 5, comment=False)
    return file.replace(i, i + 1, f"{file.std}::{file.text(i)}")


@rule(RUNTIME)
def takes_alloc(file, i):
    """Calls of std that take the allocator, and `clone`, which answers a Result, have names of their own."""
    if file.text(i) == "." and file.text(i + 1) in TAKE_ALLOC and file.text(i + 2) == "(":
        if file.text(i + 3) in HANDED:
            return file.replace(i + 1, i + 2, f"{file.text(i + 1)}_in")
    if file.texts(i, ".", "clone", "("):
        return file.replace(i + 1, i + 2, "try_clone")
    if file.texts(i, "vec", "!", "[", "in"):
        end = file.skip(i + 4, (";",))
        file.remove(i + 3, end + 1, comment=False)
        return file.replace(i, i + 1, f"{file.std}::vec")
    return None


@rule(RUNTIME)
def reader(file, i):
    """Standard input is had without the runtime."""
    if not file.texts(i, "rt", ".", "reader", "("):
        return None
    return file.replace(i, i + 3, "io::reader")


@rule(RUNTIME)
def stdout(file, i):
    """So is standard output."""
    if not file.texts(i, "rt", ".", "stdout", "("):
        return None
    return file.replace(i, i + 3, "std::io::stdout")


@rule(RUNTIME)
def files(file, i):
    """A function over any runtime that has files, `fn f<R: Files>(rt: &R, ..)`, is over std's: `R::File` is `fs::File`."""
    if file.text(i) != "fn" or not file.texts(i + 2, "<", "R", ":", "Files", ">"):
        return None
    for k in range(file.body(i), i, -1):
        if file.texts(k, "R", "::", "File"):
            file.replace(k, k + 3, "fs::File")
    return file.remove(i + 2, i + 7, comment=False)


@rule(RUNTIME)
def holder(file, i):
    """A struct that holds the runtime alone, `struct S<'a, R> { rt: &'a R }`, holds nothing, and a trait that it has over
    any runtime, `impl<R: Files> T for S<'_, R>`, it has over std's: `R::Reader` is `io::Stdin`, `R::File` is `fs::File`."""
    if file.text(i) == "struct" and file.texts(i + 2, "<", "'a", ",", "R", ">", "{", *"rt : & 'a R , }".split()):
        file.remove(i + 8, i + 14, comment=False)
        return file.remove(i + 2, i + 7, comment=False)
    if file.texts(i, "{", "rt", "}"):
        return file.remove(i + 1, i + 2, comment=False)
    if file.texts(i, "let", "rt", "=", "self", ".", "rt", ";"):
        return file.remove(i, i + 7)
    body = file.body(i) if file.texts(i, "impl", "<", "R", ":") else 0
    if not file.texts(body - 5, "<", "'_", ",", "R", ">", "{"):
        return None
    for k in range(file.close(body), body, -1):
        if file.texts(k, "R", "::"):
            file.replace(k, k + 3, {"Reader": "io::Stdin", "File": "fs::File"}[file.text(k + 2)])
    file.remove(body - 5, body, comment=False)
    return file.remove(i + 1, file.close_angle(i + 1) + 1, comment=False)


@rule(RUNTIME)
def generator(file, i):
    """`Rng` of rand_core is `RngCore` before its version 0.10, as in those that Debian has."""
    if not file.texts(i, "Rng") or not file.texts(i - 4, "use", "rand_core", "::", "{"):
        return None
    return file.replace(i, i + 1, "RngCore")


@rule(RUNTIME)
def handed(file, i):
    """The runtime and the allocator, `rt` and `alloc`, go as parameters and as arguments."""
    if file.texts(i, "let", "alloc", "=", "rt", ".", "alloc", "(", ")", ";"):
        return file.remove(i, i + 9)
    if file.text(i - 1) not in ("(", ","):
        return None
    name = i + 1 if file.text(i) == "&" else i
    if file.text(name) not in HANDED:
        return None
    end = name + 1
    if name == i and file.text(end) == ":":
        end = file.skip(end, (",",))
    elif file.texts(name, "rt", ".", "alloc", "(", ")"):
        end = name + 5
    if file.text(end) == ",":
        return file.remove(i, end + 1, comment=False)
    if file.text(end) != ")":
        file.refuse(i, f"`{file.text(name)}` in another place than a parameter or an argument")
    return file.remove(i - 1 if file.text(i - 1) == "," else i, end, comment=False)


@rule(PATHS)
def std_module(file, i):
    """The modules of Rattle's std that know of the runtime or the allocator, `hex` and `strsim` are those of
    `rattle_std`."""
    if file.text(i + 1) != "::" or file.text(i - 1) == "::":
        return None
    if file.text(i) == "std" and (file.text(i + 2) in MODULES or file.text(i + 2) == "{"):
        return file.replace(i, i + 1, file.std)
    if file.text(i) in ("hex", "strsim"):
        return file.replace(i, i + 1, f"{file.std}::{file.text(i)}")
    return None


def prelude(file):
    """Names that Rattle's prelude has otherwise than Rust's are imported from `rattle_std`, where a file has them."""
    if not PRELUDE & file.words():
        return
    pre = file.tokens[0].pre
    end = file.insert(0, f"#[allow(unused_imports)]\nuse {file.std}::prelude::*;")
    file.tokens[0].pre = pre
    file.tokens[end].pre = "\n"
