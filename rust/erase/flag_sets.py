"""Sets of flags: by hand over `bitflags::Flags` in Rattle, by the macro of bitflags in Rust."""
from tokens import tokens_of

OPERATORS = (("BitOr", "bitor", "{X}(self.0 | other.0)"), ("BitAnd", "bitand", "{X}(self.0 & other.0)"),
             ("BitXor", "bitxor", "{X}(self.0 ^ other.0)"), ("Sub", "sub", "{X}(self.0 & !other.0)"))

FLAGS = """impl bitflags::Flags for {X} {{
    type Bits = {bits};
    fn flags<'a>() -> &'a [Flag<{X}>] {{ {X}::NAMED }}
    fn bits(&self) -> {bits} {{ self.0 }}
    fn from_bits_retain(bits: {bits}) -> {X} {{ {X}(bits) }}
}}"""

OPERATOR = """impl {trait} for {X} {{
    type Output = {X};
    fn {call}(self, other: {X}) -> {X} {{ {body} }}
}}"""

NOT = """impl Not for {X} {{
    type Output = {X};
    fn not(self) -> {X} {{ {X}(0x{all:x} & !self.0) }}
}}"""


def texts_of(source):
    return [token.text for token in tokens_of(source)[:-1]]


def impls_of(name, bits, rows):
    """The texts of the impls that the macro writes for a set with these rows of names and numbers."""
    every = 0
    for _, number in rows:
        every |= int(number, 16)
    sources = [FLAGS.format(X=name, bits=bits)]
    for trait, call, body in OPERATORS:
        sources.append(OPERATOR.format(X=name, trait=trait, call=call, body=body.format(X=name)))
    sources.append(NOT.format(X=name, all=every))
    return [texts_of(source) for source in sources]


def named_of(name, rows):
    """The text of the table of names."""
    flags = ", ".join(f'Flag {{ name: "{row}", value: {name}::{row} }}' for row, _ in rows)
    return texts_of(f"const NAMED: &'static [Flag<{name}>] = &[{flags}];")


MACRO = """bitflags::bitflags! {{
{docs}
    #[derive(Debug, PartialEq, Eq, PartialOrd, Ord, Hash, Clone, Copy)]
    pub struct {name}: {bits} {{
{constants}
    }}
}}"""


def flag_set(file, i):
    """A set of flags by hand is one by `bitflags!`: the same bits and names, and the operators of the macro."""
    if file.text(i) != "struct" or file.text(i + 2) != "(" or not file.texts(i + 4, ")", ";"):
        return None
    name, bits = file.text(i + 1), file.text(i + 3)
    if not any(file.texts(k, "Flags", "for", name) for k in range(len(file.tokens))):
        return None
    start = file.start(i)
    if file.joined(start, i) != "#[derive(Debug,PartialEq,Eq,Clone,Copy)]pub":
        file.refuse(i, "a set of flags with another derive")
    rows, docs = rows_of(file, name, bits)
    for wanted in impls_of(name, bits, rows):
        take(file, wanted)
    constants = "\n\n".join(f"{doc}\n        const {row} = {number};" for (row, number), doc in zip(rows, docs))
    head = indented(file.tokens[start].pre, 4)
    end = file.replace(start, i + 6, MACRO.format(docs=head, name=name, bits=bits, constants=constants))
    file.tokens[start].pre = "\n\n"
    SETS.append((file, name, bits, rows))
    return end


# The sets that were found: file, name, type of the bits, rows.
SETS = []


def indented(comment, columns):
    """The lines of a comment with so many spaces before each."""
    return "\n".join(" " * columns + line.strip() for line in comment.split("\n") if line.strip())


def rows_of(file, name, bits):
    """The names and numbers of the set, with the comment above each; takes the constants away, and their table."""
    at = next((k for k in range(len(file.tokens)) if file.texts(k, "impl", name, "{")), None)
    if at is None:
        file.refuse(0, f"the set of flags {name} without constants")
    rows, docs, k = [], [], at + 3
    while file.texts(k, "pub", "const") and file.texts(k + 3, ":", name, "=", name, "("):
        rows.append((file.text(k + 2), file.text(k + 8)))
        docs.append(indented(file.tokens[k].pre, 8))
        if not file.texts(k + 9, ")", ";"):
            file.refuse(k, f"a constant of {name} that is no number")
        k += 11
    end = stands(file, k, named_of(name, rows))
    if end is None or file.text(end) != "}":
        file.refuse(k, f"the table of the flags of {name} is another, or there is more in its impl")
    file.remove(at, end + 1)
    return rows, docs


def stands(file, k, wanted):
    """The place behind these texts where they stand at k, with a comma before a closing bracket or without; else
    None."""
    for text in wanted:
        if text in ("}", "]") and file.text(k) == ",":
            k += 1
        if file.text(k) != text:
            return None
        k += 1
    return k


def take(file, wanted):
    """Takes an impl away, which must stand in the file by just these tokens."""
    for k in range(len(file.tokens)):
        end = stands(file, k, wanted)
        if end is not None:
            file.remove(k, end)
            return
    file.refuse(0, "no `" + " ".join(wanted[:5]) + " ..` as bitflags writes it")


def flags_trait(file, i):
    """`use bitflags::Flags as _` goes: a set by the macro has the calls of the trait by itself."""
    if not file.texts(i, "use", "bitflags", "::", "Flags"):
        return None
    end = file.skip(i, (";",))
    return file.remove(i, end + 1)
