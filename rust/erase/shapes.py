"""What each rule may take away, what it may put in, and where: the table of the audit. It knows nothing of how the
rules work."""
import re

from tokens import PAIRS

def skeleton(texts):
    """The texts with each bracket and what is in it as one: `fn f ( .. ) { .. }`. None where brackets do not fit."""
    out, open_ = [], []
    for text in texts:
        if text in PAIRS:
            if not open_:
                out += [text, "..", PAIRS[text]]
            open_.append(PAIRS[text])
        elif text in PAIRS.values():
            if not open_ or open_.pop() != text:
                return None
        elif not open_:
            out.append(text)
    return None if open_ else " ".join(out)


ATTRIBUTES = r"(# \[ \.\. \] )*(pub )?(\( \.\. \) )?(const )?"

# What each rule may take away, as a skeleton, and what it may put in, as texts.
SHAPES = {
    "ghost": (ATTRIBUTES + r"ghost [^;,]*[;,]?", ""),
    "clause": (r"(requires|ensures)( \*)?( \w+)? \{ \.\. \}", ""),
    "tactic": (r"#( !)? \[ \.\. \]", ""),
    "final": (r"final", ""),
    "model": (r"impl [^{};]*Model for [^{};]*\{ \.\. \}", ""),
    "drop": (r"# \[ \.\. \]|, Drop|Drop ,|\+ Drop|Drop \+|: Drop", ""),
    "hidden": (r"pub", r"pub \( crate \)"),
    "clone": (r"impl Clone for [^{};]*\{ \.\. \}|", r"(, Clone|# \[ derive \( Clone \) \])?"),
    "cloned": (ATTRIBUTES + r"fn \w+ [^{};]*AllocError[^{};]*\{ \.\. \}", ""),
    "constant": (r"", r"const"),
    "open_enum": (r"", r"# \[ non_exhaustive \]"),
    "open_match": (r"", r"(, )?_ => unreachable ! \( \) ,"),
    "debug": (r"Debug ,", ""),
    "nothing": (ATTRIBUTES + r"fn \w+ [^{};]*\{ \.\. \}|(\w+ :: )*\w+ \( \.\. \) ;|, \w+|\w+ ,", ""),
    "formatter": (r"W|< W : fmt :: Write >|, W : fmt :: Write", r"('_)?"),
    "from_utf8": (r"str", r"core :: str"),
    "label": (r"'\w+ :", ""),
    "flag_set": (r"# \[ \.\. \] pub struct \w+ \( \.\. \) ;|impl [^{};]*\{ \.\. \}",
                 r"(bitflags :: bitflags ! \{.*\})?"),
    "flags_trait": (r"use bitflags :: Flags( as \w+)? ;", ""),
    "lender": (r"impl Octets(Mut)? for & (mut )?\[ \.\. \] \{ \.\. \}", ""),
    "lends_from_any": (r"\[ \.\. \]|", r"B|(, |< )?B : AsRef < \[ u8 \] > \+ \? Sized( >)?|\. as_ref \( \)"),
    "reads_from_any": (r"\[ \.\. \]|", r"B|(, |< )?B : AsRef < \[ u8 \] > \+ \? Sized( >)?|\. as_ref \( \)"),
    "handle": (r"rt ;", ""),
    "prints": (r"rt ;|e?println", r"((crate :: )?rattle_std :: e?println)?"),
    "takes_alloc": (r"to_string|concat|to_vec|repeat|clone|vec|in \w+( \. alloc \( \.\. \))? ;",
                    r"to_string_in|concat_in|to_vec_in|repeat_in|try_clone|(crate :: )?rattle_std :: vec|"),
    "reader": (r"rt \. reader", r"io :: reader"),
    "stdout": (r"rt \. stdout", r"std :: io :: stdout"),
    "files": (r"< R : Files >|R :: File", r"(fs :: File)?"),
    "holder": (r"< 'a , R >|rt : & 'a R ,|rt|let rt = self \. rt ;|< R : \w+( \+ \w+)* >|< '_ , R >|R :: (Reader|File)",
               r"(io :: Stdin|fs :: File)?"),
    "generator": (r"Rng", r"RngCore"),
    "handed": (r"let alloc = rt \. alloc \( \.\. \) ;|(, )?&? ?(rt|alloc)"
               r"( : &? ?(impl \w+|\( \.\. \)|HostRuntime|Global|R))?( \. alloc \( \.\. \))?( ,)?", ""),
    "std_module": (r"std|hex|strsim", r"(crate :: )?rattle_std( :: (hex|strsim))?"),
    "imports": (r"use [\w: ]*(\{ \.\. \})?( as \w+)? ;|, [\w:]+( as \w+)?|[\w:]+( as \w+)? ,", ""),
    "paths": (r"\w+", r"core|std|control_wire( :: \w+)?|crate( :: \w+)?"),
    "prelude": (r"", r"# \[ allow \( unused_imports \) \] use (crate :: )?rattle_std :: prelude :: \* ;"),
}


def is_allowed(source, kept, edit):
    """Whether an edit has a shape that its rule may make. Between what it takes away, nothing may stay."""
    taken = [source[origin] for origin in edit.taken]
    outline, put = skeleton(taken), " ".join(edit.put)
    if edit.rule not in SHAPES or outline is None:
        return False
    if taken and any(origin in kept for origin in range(edit.taken[0], edit.taken[-1])):
        return False
    takes, puts = SHAPES[edit.rule]
    if not re.fullmatch(takes, outline) or not re.fullmatch(puts, put, re.S):
        return False
    return not taken or CLOSER.get(edit.rule, lambda *_: True)(taken, source, edit.taken[0])


# ---------------------------------------------------------------- a closer look
# Each is given what was taken away, the source, and where in it that begins.

def is_tactic(taken, _source, _start):
    return taken[taken.index("[") + 1] in ("tactic", "cycle")


def is_drop(taken, _source, _start):
    return "[" not in taken or taken == ["#", "[", "derive", "(", "Drop", ")", "]"]


def is_clone(taken, _source, _start):
    """A `Clone` that may want memory."""
    return "AllocError" in taken


def is_import(_taken, source, start):
    """A part of an import: before it stands only what an import may have, back to its `use`."""
    while re.fullmatch(r"\w+|::|[{},*]", source[start]) and source[start] != "use":
        start -= 1
    return source[start] == "use"


def is_nothing(taken, source, start):
    """A function whose body is empty and that has no result, a call that is a statement, or a part of an import."""
    if "fn" in taken:
        return taken[-2:] == ["{", "}"] and "->" not in taken
    if taken[-1] == ";":
        return source[start - 1] in ("{", "}", ";")
    return is_import(taken, source, start)


def is_first_of_a_path(_taken, source, start):
    return source[start + 1] == "::" and source[start - 1] != "::"


def is_slice(taken, source, start):
    """The `[u8]` of `View<&'a [u8]>`."""
    return taken == ["[", "u8", "]"] and source[start + 3] == ">" and \
        (source[start - 1] == "&" or source[start - 2] == "&" and source[start - 1].startswith("'"))


# The bodies of the impls of a set of flags, which the macro writes too.
SET = r"\{ type Output = (?P<set>\w+) ; fn %s \( self , other : (?P=set) \) -> (?P=set) \{ (?P=set) \( %s \) \} \}"
SETS = (
    r"impl BitOr for \w+ " + SET % ("bitor", r"self \. 0 \| other \. 0"),
    r"impl BitAnd for \w+ " + SET % ("bitand", r"self \. 0 & other \. 0"),
    r"impl BitXor for \w+ " + SET % ("bitxor", r"self \. 0 \^ other \. 0"),
    r"impl Sub for \w+ " + SET % ("sub", r"self \. 0 & ! other \. 0"),
    r"impl Not for \w+ \{ type Output = (\w+) ; fn not \( self \) -> \1 \{ \1 \( 0x\w+ & ! self \. 0 \) \} \}",
    r"impl bitflags :: Flags for (\w+) \{ type Bits = (u\d+) ; fn flags < 'a > \( \) -> & 'a \[ Flag < \1 > \] "
    r"\{ \1 :: NAMED \} fn bits \( & self \) -> \2 \{ self \. 0 \} "
    r"fn from_bits_retain \( bits : \2 \) -> \1 \{ \1 \( bits \) \} \}",
    r"impl (\w+) \{ (pub const \w+ : \1 = \1 \( 0x\w+ \) ; )+const NAMED : & 'static \[ Flag < \1 > \] = & \[ "
    r"(Flag \{ name : \"(\w+)\" , value : \1 :: \4 (, )?\} ?(, )?)+\] ; \}",
    r"# \[ derive \( [\w ,]+ \) \] pub struct \w+ \( u\d+ \) ;",
)


def is_flag_set(taken, _source, _start):
    return any(re.fullmatch(shape, " ".join(taken)) for shape in SETS)


def is_any_runtime(taken, source, start):
    """The parameter of a function over any runtime, or the type of its files, in the function's signature."""
    if taken[0] == "<":
        return source[start - 2] == "fn"
    while source[start] not in ("{", "}", ";", "fn"):
        start -= 1
    return source[start] == "fn" and source[start + 2:start + 7] == ["<", "R", ":", "Files", ">"]


CLOSER = {
    "clone": is_clone,
    "drop": is_drop,
    "files": is_any_runtime,
    "flag_set": is_flag_set,
    "from_utf8": is_first_of_a_path,
    "imports": is_import,
    "lends_from_any": is_slice,
    "nothing": is_nothing,
    "paths": is_first_of_a_path,
    "reads_from_any": is_slice,
    "std_module": is_first_of_a_path,
    "tactic": is_tactic,
}


# ---------------------------------------------------------------- places

# Where something may be put in that stands for nothing: the token before it, `^`, and the one behind it.
PLACES = {
    "clone": r".+ \^ \)|[;}] \^ (pub|struct|enum)",
    "constant": r"(pub|[;{})\]]) \^ fn",
    "open_enum": r"[;}\]] \^ pub",
    "open_match": r".+ \^ \}",
    "lends_from_any": r"buffer \^ .+|.+ \^ >|impl \^ \w+",
    "reads_from_any": r"buffer \^ .+|.+ \^ >|\w+ \^ \(",
    "prelude": r" \^ .+",
}


def is_in_place(file, edit, at):
    """Whether what an edit put in stands where it took something away, or else where its rule may put something."""
    before = next((token for token in reversed(file.tokens[:at]) if token.origin is not None), None)
    behind = next((token for token in file.tokens[at:] if token.origin is not None), None)
    if edit.taken:
        return (before is None or before.origin < edit.taken[0]) and behind.origin > edit.taken[-1]
    return bool(re.fullmatch(PLACES.get(edit.rule, ""), f"{file.text(at - 1)} ^ {behind.text}"))
