"""The rules for the library: each looks at one token, and answers None where it does not apply, or else the place to go
on from. The first line of its text says what it does; `erase.py --rules` prints these lines."""
import re

CONTRACTS, VALUES, STD, VIEWS = [], [], [], []


def rule(group):
    return lambda function: group.append(function) or function


# ---------------------------------------------------------------- contracts

@rule(CONTRACTS)
def ghost(file, i):
    """Ghost items, members and fields go: no code sees them."""
    if file.text(i) != "ghost":
        return None
    end = file.skip(i, (";", ","))
    if file.text(end) in (";", ","):
        end += 1
    return file.remove(file.start(i), end)


@rule(CONTRACTS)
def clause(file, i):
    """`requires` and `ensures` go, with their names and braces."""
    if file.text(i) not in ("requires", "ensures"):
        return None
    end = i + 1
    if file.text(end) == "*":
        end += 1
    if file.is_word(end):
        end += 1
    if file.text(end) != "{":
        file.refuse(i, "a clause without braces")
    return file.remove(i, file.close(end) + 1)


@rule(CONTRACTS)
def tactic(file, i):
    """The attributes `tactic` and `cycle`, which speak to the prover, go."""
    if file.text(i) != "#":
        return None
    bracket = i + 2 if file.text(i + 1) == "!" else i + 1
    if file.text(bracket) != "[" or file.text(bracket + 1) not in ("tactic", "cycle"):
        return None
    return file.remove(i, file.close(bracket) + 1, comment=False)


@rule(CONTRACTS)
def final(file, i):
    """`final` before a method of a trait goes: it keeps an `impl` from giving another body."""
    if not file.texts(i, "final", "fn"):
        return None
    return file.remove(i, i + 1, comment=False)


@rule(CONTRACTS)
def model(file, i):
    """`impl Model for T { .. }` goes: it says how a contract sees a value, and is ghost as a whole."""
    if file.text(i) != "impl":
        return None
    body = file.body(i)
    if not any(file.texts(k, "Model", "for") for k in range(i, body)):
        return None
    return file.remove(i, file.close(body) + 1)


# ---------------------------------------------------------------- what a value may do

@rule(VALUES)
def drop(file, i):
    """`Drop` in a derive or a bound goes: in Rattle only a value of such a type may be let go, in Rust any may.

    A destructor is refused."""
    if file.text(i) != "Drop":
        return None
    before, after = file.text(i - 1), file.text(i + 1)
    if after == "for":
        file.refuse(i, "a destructor")
    if file.texts(i - 4, "#", "[", "derive", "(", "Drop", ")", "]"):
        return file.remove(i - 4, i + 3, comment=False)
    if before in (",", "+"):
        return file.remove(i - 1, i + 1, comment=False)
    if after in (",", "+"):
        return file.remove(i, i + 2, comment=False)
    if before == ":":
        return file.remove(i - 1, i + 1, comment=False)
    file.refuse(i, "Drop in another place than a derive or a bound")


# Types of `record_wire` that contracts of other crates name, and no public call: in Rust the crate alone sees them. The
# `Form` of `packet_fields` and the `Layout` of `dns_fields` are others.
HIDDEN = {"Layout", "Form", "FrontForm", "RestForm"}


@rule(VALUES)
def hidden(file, i):
    """A type that only contracts name is not public."""
    if file.text(i) != "pub" or file.text(i + 1) not in ("enum", "struct") or file.text(i + 2) not in HIDDEN:
        return None
    if "packet_fields" in file.path.parts or "dns_fields" in file.path.parts:
        return None
    return file.replace(i, i + 1, "pub(crate)")


# What is `const` in smoltcp: of each view, and by module. With those of `ndisc` and of neighbor options, and what they
# call, rustc's code for the job `hosts` takes 0.58 % more instructions.
CONSTANT = {"ipv4": {"buffer_len"}, "ipv6": {"buffer_len"}}


@rule(VALUES)
def constant(file, i):
    """A call that is `const` in smoltcp is so, also where that of the source is not."""
    if file.text(i) != "fn" or not file.library or file.runtime or file.text(i - 1) == "const":
        return None
    module = "/".join(file.path.parts[3:]).removesuffix(".rt")
    if file.text(i + 1) != "new_unchecked" and file.text(i + 1) not in CONSTANT.get(module, ()):
        return None
    pre = file.tokens[i].pre
    end = file.insert(i, "const")
    file.tokens[i].pre, file.tokens[end].pre = pre, " "
    return end + 1


@rule(VALUES)
def clone(file, i):
    """A `Clone` by hand, which answers a Result for want of memory, becomes a derive."""
    if not file.texts(i, "impl", "Clone", "for") or file.runtime:
        return None
    name = file.text(i + 3)
    file.remove(i, file.close(file.body(i)) + 1)
    for k in range(len(file.tokens)):
        if file.text(k) in ("struct", "enum") and file.text(k + 1) == name:
            start = file.start(k)
            if file.texts(start, "#", "[", "derive", "("):
                file.insert(file.close(start + 3), ", Clone")
            else:
                pre = file.tokens[start].pre
                end = file.insert(start, "#[derive(Clone)]")
                file.tokens[start].pre, file.tokens[end].pre = pre, "\n"
            return i
    file.refuse(i, f"a Clone of {name}, which is not in this file")


@rule(VALUES)
def cloned(file, i):
    """A function that answers want of memory serves a `Clone` by hand alone, and goes with it."""
    if file.text(i) != "fn" or file.runtime or file.text(i + 1) == "clone":
        return None
    body = file.body(i)
    if not any(file.text(k) == "AllocError" for k in range(i, body)):
        return None
    return file.remove(file.start(i), file.close(body) + 1)


# The modules whose value may get more cases, as in smoltcp. So may each reason to refuse.
OPEN_VALUES = {"icmpv4", "icmpv6", "ipv6option"}


def is_open(module, name):
    return name.endswith("Refusal") or name == "Repr" and module in OPEN_VALUES


@rule(VALUES)
def open_enum(file, i):
    """A public enum that may get more cases is `#[non_exhaustive]`, in what is published."""
    if not file.texts(i, "pub", "enum") or not file.published:
        return None
    if not is_open(file.path.parts[3].removesuffix(".rt"), file.text(i + 2)):
        return None
    return file.insert(i, "#[non_exhaustive]") + 2


def enum_of(file, i):
    """The module and the name of the enum of another crate whose case begins at i; None where no such path begins."""
    path = []
    while file.is_word(i) and file.text(i + 1) == "::":
        path.append(file.text(i))
        i += 2
    for k in range(len(file.tokens) if path else 0):
        if file.text(k) == "use" and file.text(k - 1) != "ghost":
            end = file.skip(k, (";",))
            at = next((at for at in range(k, end) if file.text(at) == path[0] and file.text(at + 1) != "::"), None)
            if at is not None:
                path[:0] = [file.text(step) for step in range(k + 1, at) if file.text(step + 1) == "::"]
                break
    # The enums of packet_fields and of those above it are not published.
    is_closed = len(path) < 2 or path[0] in ("crate", "super", "self") or path[0].endswith("_fields")
    return None if is_closed else (path[-2], path[-1])


def arms(file, open_):
    """Where the pattern of each arm of a `match` begins and ends, whose body opens there."""
    found, i = [], open_ + 1
    while i < file.close(open_):
        arrow = file.skip(i, ("=>",))
        found.append((i, arrow))
        if file.text(arrow + 1) == "{":
            i = file.close(arrow + 1) + 1
        else:
            i = file.skip(arrow + 1, (",",))
        i += file.text(i) == ","
    return found


def misses_cases(file, patterns):
    """Whether patterns name cases of an enum of another crate that may get more, and none takes these."""
    texts = [file.joined(start, end) for start, end in patterns]
    for start, end in patterns:
        for k in range(start, end):
            is_first, is_inner = k == start or file.text(k - 1) == "|", file.text(k - 1) == "("
            enum = enum_of(file, k) if is_first or is_inner else None
            if enum is None or not is_open(*enum):
                continue
            outer = k
            while is_inner and (outer == k or file.is_word(outer - 1) or file.text(outer - 1) == "::"):
                outer -= 1
            takes_all = re.escape(file.joined(outer, k)) + r"[a-z_]\w*" + (r"\)" if is_inner else "")
            if not any(re.search(rf"(^|\|)({takes_all}|[a-z_]\w*)($|\|)", text) for text in texts):
                return True
    return False


@rule(VALUES)
def open_match(file, i):
    """A match of all cases of an enum of the library that may get more has an arm for these, which nothing reaches."""
    if file.text(i) != "match" or file.library:
        return None
    open_ = file.body(i)
    if not misses_cases(file, arms(file, open_)):
        return None
    close = file.close(open_)
    file.insert(close, "_ => unreachable!()," if file.text(close - 1) == "," else ", _ => unreachable!(),")
    return i + 1


# Types whose Debug is by hand.
SHOWN_AS_TEXT = {"Ipv4Address", "Ipv6Address"}


@rule(VALUES)
def debug(file, i):
    """The derived `Debug` of an IP address goes: by hand it prints the address's text, as that of `core::net` does."""
    if not file.texts(i, "#", "[", "derive", "(", "Debug", ","):
        return None
    struct = file.close(i + 1) + 2
    if not file.texts(struct - 1, "pub", "struct") or file.text(struct + 1) not in SHOWN_AS_TEXT:
        return None
    return file.remove(i + 4, i + 6, comment=False)


# Functions that are there for their contracts alone.
NOTHING = set()


def does_nothing(file, i):
    """Where the body of the function at i begins, if it is empty and there is no result."""
    body = file.body(i)
    if file.texts(body, "{", "}") and "->" not in (file.text(k) for k in range(i, body)):
        return body
    return None


def find_nothing(files):
    """The names of the functions that do nothing."""
    for file in files:
        NOTHING.update(file.text(i + 1) for i in range(len(file.tokens))
                       if file.text(i) == "fn" and does_nothing(file, i))


@rule(VALUES)
def nothing(file, i):
    """A function with an empty body is there for its contract: it goes, with its calls and where it is passed on."""
    if file.text(i) == "fn" and file.text(i + 1) in NOTHING and does_nothing(file, i):
        return file.remove(file.start(i), does_nothing(file, i) + 2)
    if file.text(i) not in NOTHING or not file.is_word(i) or file.text(i - 1) == "fn":
        return None
    start = i
    while file.text(start - 1) == "::":
        start -= 2
    if file.text(i + 1) == "(" and file.text(start - 1) in ("{", ";", "}") and file.text(file.close(i + 1) + 1) == ";":
        return file.remove(start, file.close(i + 1) + 2)
    if file.text(i - 1) == "," and file.text(i + 1) in (",", "}"):
        return file.remove(i - 1, i + 1, comment=False)
    if file.text(i - 1) == "{" and file.text(i + 1) == ",":
        return file.remove(i, i + 2, comment=False)
    file.refuse(i, "a function that does nothing, in another place than a statement or an import")


# ---------------------------------------------------------------- std

@rule(STD)
def formatter(file, i):
    """`fn fmt<W: fmt::Write>(.., f: &mut fmt::Formatter<W>)` loses its writer, for which Rust has no parameter, and so
    does `impl<W: fmt::Write> Sink<fmt::Formatter<W>> for ..`."""
    if file.texts(i, "impl", "<", "W", ":", "fmt", "::", "Write", ">"):
        for k in range(i, file.close(file.body(i))):
            if file.texts(k, "Formatter", "<", "W", ">"):
                file.replace(k + 2, k + 3, "'_")
        return file.remove(i + 1, i + 8, comment=False)
    if file.text(i) != "fn" or file.text(i + 2) != "<":
        return None
    close = file.close_angle(i + 2)
    for k in range(close, file.body(i)):
        if file.texts(k, "Formatter", "<", "W", ">"):
            file.replace(k + 2, k + 3, "'_")
            if file.texts(i + 3, "W", ":", "fmt", "::", "Write", ">"):
                return file.remove(i + 2, close + 1, comment=False)
            if not file.texts(close - 6, ",", "W", ":", "fmt", "::", "Write", ">"):
                file.refuse(i, "a Formatter in a function whose last parameter is not its writer")
            return file.remove(close - 6, close, comment=False)
    return None


@rule(STD)
def from_utf8(file, i):
    """`str::from_utf8` is named by its module, as it is there since long before Rust 1.87."""
    if not file.texts(i, "str", "::", "from_utf8") or file.text(i - 1) == "::":
        return None
    return file.replace(i, i + 1, "core::str")


@rule(STD)
def label(file, i):
    """The label of a loop that nothing breaks or continues by goes: a proof speaks of the loop by it."""
    if file.tokens[i].kind != "life" or file.text(i + 1) != ":" or file.text(i + 2) not in ("for", "while", "loop"):
        return None
    if any(file.text(k) == file.text(i) and file.text(k - 1) in ("break", "continue") for k in range(len(file.tokens))):
        return None
    return file.remove(i, i + 2, comment=False)


# ---------------------------------------------------------------- views

BYTES = "B: AsRef<[u8]> + ?Sized"

# The names of the views: structs over `T: Octets`.
VIEW_NAMES = set()


def find_views(file):
    for i in range(len(file.tokens)):
        if file.text(i) == "struct" and file.texts(i + 2, "<", "T", ":", "Octets", ">"):
            VIEW_NAMES.add(file.text(i + 1))


@rule(VIEWS)
def lender(file, i):
    """The impls of `Octets` and `OctetsMut` for slices go: the files by hand have them for all that lends a slice."""
    if file.text(i) != "impl" or file.text(i + 1) not in ("Octets", "OctetsMut") or file.text(i + 2) != "for":
        return None
    body = file.body(i)
    if file.joined(i + 3, body) not in ("&[u8]", "&mut[u8]"):
        file.refuse(i, "octets that are no slice")
    return file.remove(i, file.close(body) + 1)


def slice_of_view(file, k):
    """Where `[u8]` begins in `View<&'a [u8]>` at k; None where there is no such type at k."""
    if file.text(k) not in VIEW_NAMES or not file.texts(k + 1, "<", "&"):
        return None
    start = k + 4 if file.tokens[k + 3].kind == "life" else k + 3
    return start if file.texts(start, "[", "u8", "]", ">") else None


@rule(VIEWS)
def lends_from_any(file, i):
    """`impl<'a> View<&'a [u8]>` becomes one over any `&'a B` that lends a slice."""
    if file.text(i) != "impl":
        return None
    after = file.close_angle(i + 1) + 1 if file.text(i + 1) == "<" else i + 1
    at = slice_of_view(file, after)
    if at is None or file.text(at + 4) != "{":
        return None
    as_slices(file, at + 4, "self")
    file.replace(at, at + 3, "B")
    if after == i + 1:
        file.insert(i + 1, f"<{BYTES}>")
    else:
        file.insert(after - 1, f", {BYTES}")
    return after


def as_slices(file, open_, name):
    """The octets of a view, `self.buffer`, are taken as a slice from the bracket at `open_` on: all but in calls of
    `Octets`, which stand on the view's own octets."""
    for k in range(file.close(open_) - 1, open_, -1):
        if file.texts(k, name, ".", "buffer") and (file.text(k + 3) != "." or file.text(k + 4) == "len"):
            file.insert(k + 3, ".as_ref()")


@rule(VIEWS)
def reads_from_any(file, i):
    """A function that takes a `View<&[u8]>` takes one over any `&B` that lends a slice."""
    if file.text(i) != "fn":
        return None
    open_ = file.close_angle(i + 2) + 1 if file.text(i + 2) == "<" else i + 2
    found = [k for k in range(file.close(open_), open_, -1) if slice_of_view(file, k) is not None]
    if not found:
        return None
    body = file.body(i)
    for k in found:
        start = k
        while file.text(start) not in ("(", ","):
            start -= 1
        if file.text(body) == "{":
            as_slices(file, body, file.text(start + 1))
        at = slice_of_view(file, k)
        file.replace(at, at + 3, "B")
    if file.text(i + 2) == "<":
        file.insert(file.close_angle(i + 2), f", {BYTES}")
    else:
        file.insert(i + 2, f"<{BYTES}>")
    return i + 1


# ---------------------------------------------------------------- at the end

# Comments that are not true of the Rust crate, and what stands in their place.
COMMENTS = {
    "/// What holds octets: `&[u8]` and `&mut [u8]` alone.":
        "/// What holds octets: all that lends a slice of them. The proofs are of `&[u8]` and `&mut [u8]`.",
    "/// What holds octets that may be written: `&mut [u8]` alone.":
        "/// What holds octets that may be written: all that lends a slice of them so. The proofs are of `&mut [u8]`.",
    "/// crate `quote_wire` read those.": "/// module `quotes` read those.",
    "//! `record_wire::Name` makes it from text.": "//! `record::Name` makes it from text.",
    # The page of an alias shows no calls.
    "/// Writes bytes into a lent slice, one after another from its front on, as the library itself does.":
        """\
/// Writes bytes into a lent slice, one after another from its front on, as the library itself does.
///
/// | Call | What it does |
/// |---|---|
/// | `ByteWriter::new(slice)` | a writer over the slice, all of whose bytes are free |
/// | `free()` | the number of bytes that are free |
/// | `put_bytes(bytes)` | writes the bytes |
/// | `put_u8(value)`, `put_u16(value)`, `put_u32(value)` | writes one, two or four bytes, the highest first |
/// | `put_zeros(count)` | writes so many zeros |
/// | `put_front(bytes)` | writes the first of the bytes, as many as are free |
/// | `part(count)` | lends the next bytes: what they hold at the end is written |
///
/// ```
/// use control_wire::ByteWriter;
///
/// let mut octets = [0xff; 8];
/// let mut w = ByteWriter::new(&mut octets);
/// w.put_u8(1);
/// w.put_u16(0x0203);
/// w.part(2).copy_from_slice(&[4, 5]);
/// assert_eq!(w.free(), 3);
/// w.put_front(b"more than fits");
/// assert_eq!(octets, [1, 2, 3, 4, 5, b'm', b'o', b'r']);
/// ```
///
/// # Panics
///
/// Each call but `free` and `put_front` may panic where it takes more bytes than are free.""",
}


# What comments say of pictures in specs/, which the Rust crate does not have.
PICTURE = re.compile(r"; (the|its|their) pictures?( of their header)? (is|are) in specs/\w+\.antt( of wirebase)?\.")


# A crate that an example in a comment uses.
USE = re.compile(r"^(\s*//[/!] (?:# )?use )(\w+)(?=::)", re.M)


PANICS = ["# Panics", "", "May panic where what is asked for above does not hold."]


def asks(file, i):
    """Whether the function at i has a clause `requires`."""
    k = file.skip(i, ("requires", "ensures", "{", ";"))
    while file.text(k) == "ensures":
        k = file.close(file.skip(k, ("{",))) + 1
    return file.text(k) == "requires"


def panics(file):
    """The documentation of a function that requires something says that it may panic. No token is touched."""
    for i in range(len(file.tokens)):
        if file.text(i) != "fn" or not asks(file, i):
            continue
        start = file.start(i)
        first = file.tokens[file.start(start - 1) if file.text(start - 1) == "final" else start]
        docs = list(re.finditer(r"^( *)///.*\n", first.pre, re.M))
        if docs:
            end, indent = docs[-1].end(), docs[-1].group(1)
            more = "".join(f"{indent}/// {line}".rstrip() + "\n" for line in ["", *PANICS])
            first.pre = first.pre[:end] + more + first.pre[end:]


def comments(file, users):
    """Comments that are not true of the Rust crate are others; examples use what `users` has in the place of a crate,
    and links of a crate that is a module lead to that module. No token is touched."""
    module = users.get(file.crate, "").partition("::")[2]
    for token in file.tokens:
        for one, other in COMMENTS.items():
            token.pre = token.pre.replace(one, other)
        token.pre = PICTURE.sub(".", token.pre)
        token.pre = USE.sub(lambda use: use[1] + users.get(use[2], use[2]), token.pre)
        if module:
            token.pre = token.pre.replace("[`crate::", f"[`crate::{module}::")


def paths(file, crates, own):
    """The crates of the library become modules of one, and std is core. `crates` may have a module of a crate by itself,
    as `a::b`."""
    words = {**crates, "crate": f"crate::{own}" if own else "crate", "std": "std" if file.runtime else "core"}
    i = 0
    while i < len(file.tokens):
        word = file.text(i)
        is_first = file.is_word(i) and file.text(i + 1) == "::" and file.text(i - 1) != "::"
        # In what a rule has put in, paths are those of the crate already.
        path = words.get(f"{word}::{file.text(i + 2)}", words.get(word, word)) if is_first else word
        if path != word and file.tokens[i].origin is not None:
            i = file.replace(i, i + 1, path)
        else:
            i += 1


def used_words(file):
    """The words of a file outside of its imports."""
    words, i = set(), 0
    while i < len(file.tokens):
        if file.text(i) == "use" and file.text(i - 1) != "ghost":
            i = file.skip(i, (";",))
        elif file.is_word(i):
            words.add(file.text(i))
        i += 1
    return words


def imports(file, before):
    """An import that served only what was taken away goes: its name stood in the file, and no longer does."""
    gone = before - used_words(file)
    i = 0
    while i < len(file.tokens):
        if file.text(i) == "use" and file.text(i - 1) not in ("pub", ")"):
            i = without_names(file, i, gone)
        else:
            i += 1


def without_names(file, i, gone):
    """The import at i without these names; answers the place behind it."""
    end = file.skip(i, (";",))
    open_ = next((k for k in range(i, end) if file.text(k) == "{"), None)
    if open_ is None:
        return file.remove(i, end + 1) if file.text(end - 1) in gone else end + 1
    names = [(start, stop) for start, stop in parts(file, open_) if file.text(stop - 1) in gone]
    if len(names) == len(parts(file, open_)):
        return file.remove(i, end + 1)
    for start, stop in reversed(names):
        if file.text(stop) == ",":
            file.remove(start, stop + 1, comment=False)
        else:
            file.remove(start - 1, stop, comment=False)
    return file.skip(i, (";",)) + 1


def parts(file, open_):
    """The parts between the commas of the bracket at `open_`: from where to where."""
    close, found, start = file.close(open_), [], open_ + 1
    while start < close:
        stop = file.skip(start, (",",))
        found.append((start, stop))
        start = stop + 1
    return found


# What must not be left, and what may stand in the library at all.
LEFT = {"prove", "prove_eq", "prove_ne", "Global", "HostRuntime", "Abort", "Alloc", "Model", "Drop", "ghost",
        "requires", "ensures", "final", "tactic", "cycle", "alloc", "rt", "unsafe"}
ATTRIBUTES = {"derive", "default", "inline", "cold", "allow", "must_use", "doc", "non_exhaustive"}
TEST_ATTRIBUTES = ATTRIBUTES | {"cfg", "test"}
MACROS = {"write", "writeln", "matches", "unreachable", "bitflags"}
RUNTIME_MACROS = MACROS | {"assert", "assert_eq", "assert_ne", "panic", "println", "eprintln", "vec", "print"}


def check(file):
    """Refuses what no rule took, and attributes and macros that none knows."""
    for i, token in enumerate(file.tokens):
        if token.kind == "word" and (token.text in LEFT or not token.text.isascii()):
            file.refuse(i, f"`{token.text}` is left")
        if token.kind == "mark" and not token.text.isascii():
            file.refuse(i, f"`{token.text}` is left")
        if token.text == "#" and file.text(i + 1) in ("[", "!"):
            name = file.text(i + 2 if file.text(i + 1) == "[" else i + 3)
            if name not in (TEST_ATTRIBUTES if file.tests else ATTRIBUTES):
                file.refuse(i, f"an attribute `{name}` that no rule knows")
        if token.kind == "word" and file.text(i + 1) == "!" and file.text(i + 2) in ("(", "[", "{"):
            if token.text not in (RUNTIME_MACROS if file.runtime else MACROS):
                file.refuse(i, f"a macro `{token.text}!` that no rule knows")
