"""The contracts of the sources: parsed, and written as the lists of docs/CLAUSES.md.

`page` makes that page from the sources that `crates.txt` names. What is listed follows from the sources alone:

- a crate that has definitions of its own (`specs/`), in the order of crates.txt, with the modules that its lib.rt or
  main.rt declares; a crate on which no other of these is built is a library that is all of a program, or the callers,
  and its modules count as public;
- of these, each public function, and each implementation of a trait for a public type, with the clauses that cite a
  definition of one of the repository's crates. Fields of a view (definitions of type `Field`), the words that lead
  from a view to its octets (`VIEW`), and beside a relation the words for the content of a value are not named, and a
  clause not where it speaks of length alone (`LENGTH`), but `accepts`.
  Functions with the same clauses share a line, and so do the getters and the setters of a view, and the
  implementations of one trait in one source;
- each relation that is so cited by another clause than `exact`, with the first sentence of the comment above it, if
  that has four words, but for those whose names say the same in each module (`ROLES`).
"""

import functools
import os
import re

TOP = os.path.dirname(os.path.dirname(os.path.dirname(os.path.abspath(__file__))))

# What nearly every clause about a view or a value says first: whose octets, or which value by its content.
VIEW = {"inner", "with_inner", "view_octets", "value_of"}

# The ghost items that model an iterator: what it will answer, by its fields.
MODEL = {"view", "invariant", "remaining", "Value"}

# What asks only that octets are long enough, or that a writer has room.
LENGTH = {"Reaches", "free"}

# Names that say the same in each module. The head of the page says what.
ROLES = {"Sets", "KeepsLen", "Emits", "Fills", "IsCanonical", "IsException", "IsCut", "Refuses"}
ROLES |= {f"Gives{it}" for it in ("First", "Bytes", "Entry", "Option", "Record", "Source")}


@functools.cache
def read(path):
    with open(os.path.join(TOP, path), encoding="utf-8") as it:
        return it.read()


# ---- contracts


def matching(text, at):
    """The place of the bracket that closes the one at this place."""
    depth = 0
    for i in range(at, len(text)):
        depth += text[i] in "([{"
        depth -= text[i] in ")]}"
        if depth == 0:
            return i
    return len(text)


def on_one_line(text):
    return re.sub(r",? ([)\]])", r"\1", re.sub(r"([(\[]) ", r"\1", " ".join(text.split())))


def contract(text, at):
    """The signature of the function whose name ends at this place, its clauses by kind and name, and where they end."""
    start = text.index("(", at)
    end = matching(text, start) + 1
    head = re.match(r"\s*(->\s*(?:[^{;]|\{\{)*?)?(?=\s*(?:requires|ensures|where|\{|;))", text[end:])
    signature = text[at:end] + " " + (head[1] or "" if head else "")
    at, clauses = end + (head.end() if head else 0), {}
    while True:
        clause = re.match(r"\s*(requires|ensures)\*?\s*(\w*)\s*\{", text[at:])
        if not clause:
            return on_one_line(signature), clauses, at
        stop = matching(text, at + clause.end() - 1)
        clauses[clause[1], clause[2]] = on_one_line(text[at + clause.end() : stop])
        at = stop + 1


def without_comments(text):
    return re.sub(r"^\s*//.*$", "", text, flags=re.M)


def functions(file):
    """Each function of a source with its type: its signature, and its clauses by kind and name."""
    text = without_comments(read(file))
    owner, found = "", {}
    for it in re.finditer(r"^(?:impl\b(?:<[^{]*?>)? ?(?:[\w:<>', \[\]&]+ for )?(\w+)[^{]*\{|\})"
                          r"|^ *(?:pub(?:\([^)]*\))? )?(?:const )?fn (\w+)", text, flags=re.M):
        if it[2] is None:
            owner = it[1] or ""
            continue
        signature, clauses, _ = contract(text, it.end(2))
        found[f"{owner}::{it[2]}" if owner and text[it.start()] == " " else it[2]] = signature, clauses
    return found


# ---- the sources of a crate


def exists(path):
    return os.path.isfile(os.path.join(TOP, path))


@functools.cache
def crates():
    """The crates of the repository that have definitions, in order, with those that each is built on."""
    lines = re.findall(r"^(\w+):?(.*)", read("crates.txt"), flags=re.M)
    return {it: below.split() for it, below in lines if os.path.isdir(os.path.join(TOP, "crates", it, "specs"))}


def is_program(crate):
    """Whether no crate with definitions is built on this one, so that its promises are those of all its modules."""
    return not any(crate in below for below in crates().values())


def modules(crate):
    """The sources of a crate: each with the public modules that lead to it, and the names that these export of it, or
    None where all of it is public. Those of a program are taken as public."""
    roots = [f"crates/{crate}/src/lib.rt", f"crates/{crate}/src/main.rt"]
    root = next(filter(exists, roots), "")
    waiting = [(root, (), None)] if root else []
    while waiting:
        file, path, exported = waiting.pop(0)
        yield file, path, exported
        text = without_comments(read(file))
        names = set(re.findall(r"\w+", " ".join(re.findall(r"^pub use ([^;]*);", text, flags=re.M))))
        names = names if exported is None else names & exported
        below = os.path.dirname(file) if file == root else file[:-3]
        inner = []
        for shown, name in re.findall(r"^(pub )?(?:pub\(\w+\) )?mod (\w+);", text, flags=re.M):
            shown = exported is None and (shown or is_program(crate))
            if exists(f"{below}/{name}.rt"):
                inner.append((f"{below}/{name}.rt", (*path, name) if shown else path, None if shown else names))
        waiting[:0] = inner


def imports(text, start):
    """The definitions that the `use` lines of a text with this start import: the file and the name, by the word that
    the text has for each. There is no name where the word is that of a whole file."""
    found = {}
    for use in re.findall(rf"^{start}use Rattle\.([^;\n]*)", text, flags=re.M):
        it = re.match(r"(\w+)\.specs\.((?:private\.)?\w+)(?:\.\{([^}]*)\}| as (\w+))$", use.strip())
        file = it and spec_file(it[1], it[2])
        if file and it[4]:
            found[it[4]] = file, None
        for word in re.findall(r"[^, ][^,]*", it[3] or "") if file else ():
            name, _, other = word.strip().partition(" as ")
            found[other or name] = file, name
    return found


def spec_file(crate, name):
    """The file of definitions that a crate has by this name, of its own or of another crate of the repository."""
    if exists(path := f"crates/{crate}/specs/{name.replace('.', '/')}.antt"):
        return path
    lib = read(f"crates/{crate}/specs/Lib.antt") if exists(f"crates/{crate}/specs/Lib.antt") else ""
    other = re.search(rf"^pub use Rattle\.(\w+)\.specs\.{name}$", lib, flags=re.M)
    return spec_file(other[1], name) if other and other[1] != crate else None


def named(text, words):
    """The definitions that a text names, in order: the file and the name of each."""
    found = {}
    for word, below in re.findall(r"(?<![\w.])([A-Za-z_]\w*)(?:\.(\w+))?", text):
        file, name = words.get(word, (None, None))
        if file and (name or below):
            found[file, name or below] = None
    return list(found)


# ---- the definitions


class Definition:
    """A definition: the first sentence of the comment above it, and its text."""

    def __init__(self, comment):
        self.comment, self.lines = sentence(comment), []

    def text(self):
        return "\n".join(self.lines)

    def is_field(self):
        return self.lines[0].endswith(" : Field")

    def is_format(self):
        return bool(re.search(r"[:→] Format \S", self.lines[0]))

    def is_relation(self):
        """Whether it says something of something."""
        head = re.split(r" where$|^\s*\w+ [^:]*=", self.text(), maxsplit=1, flags=re.M)[0].rstrip()
        return head.endswith("Type 0") and ("→" in head or "(" in head)

    def is_content(self, name):
        """Whether it says what the content of a value of some type is, by its name and what it is of."""
        return name.endswith("Value") or name.endswith("_of") and re.search(r"(?!ℕ|List|Type)[A-Z]\w+", self.lines[0])


@functools.cache
def definitions(file):
    """The definitions of a file by name."""
    found, comment, indent, last = {}, [], "", None
    for line in read(file).splitlines():
        if re.match(r"\S", line):
            indent = "  " if line.startswith("module ") else ""
        it = re.match(indent + r"(?:(?:abbrev|unfoldable) )?(?:pub )?(?:(?:record|data) )?(\w+) [:({]", line)
        if re.match(indent + "--", line):
            comment, last = [*comment, line], None
        elif it and it[1] not in found and not line.startswith(("use ", "module ")):
            last = found[it[1]] = Definition(comment)
        if not line or last:
            comment = []
        if last:
            last.lines.append(line)
    return found


@functools.cache
def cases(file):
    """The `data` of each case that a file has."""
    found = {}
    for name, it in definitions(file).items():
        if re.match(r"\s*(pub )?data ", it.lines[0]):
            found.update({case: (file, name) for case in re.findall(r"^ +(\w+) :", it.text(), flags=re.M)})
    return found


@functools.cache
def cites(file):
    """The definitions that each definition of a file names."""
    here = definitions(file)
    words = {**cases(file), **imports(read(file), r"\s*"), **{it: (file, it) for it in here}}
    return {name: named(it.text(), words) for name, it in here.items()}


def rests_on(start):
    """The definitions that these name, and those that they name in turn."""
    found, waiting = {}, list(start)
    while waiting:
        file, name = waiting.pop(0)
        if (file, name) not in found:
            found[file, name] = None
            waiting += cites(file)[name] if name in cites(file) else filter(None, [cases(file).get(name)])
    return list(found)


def sentence(comment):
    """The first sentence of a comment, of its lines in front of a picture."""
    words = []
    for line in comment:
        line = re.sub(r"^\s*-- ?", "", line).strip()
        if re.match(r"---|\+-|$", line):
            break
        words.append(line)
    first = re.sub(r"(?<!:)[.:;]$", "", re.split(r"(?<=[.:;]) (?=[A-Z])", " ".join(words))[0])
    return first[:1].upper() + first[1:]


def in_short(said, most=28):
    """A sentence, or its beginning up to a mark, where it has more words than these."""
    words = said.split()
    marks = [i for i, it in enumerate(words[:most], 1) if it[-1] in ",;:"]
    return said if len(words) <= most or not marks else " ".join(words[: marks[-1]])[:-1] + " .."


# ---- the contracts of a crate


def blocks(text):
    """The implementations and traits of a source, each with its first line; what stands outside of them has none."""
    at = 0
    for it in re.finditer(r"^(?:pub )?(?:impl|trait)\b[^;{]*\{\n.*?^\}", text, flags=re.M | re.S):
        yield "", text[at : it.start()]
        head, _, body = it[0].partition("{\n")
        yield head.strip(), body
        at = it.end()
    yield "", text[at:]


def names_in(head):
    """The trait and the type of an implementation's first line."""
    plain = re.sub(r"^(?:pub )?(?:trait|impl)\b(?:<[^{]*?>(?= ))?\s*", "", head)
    plain = re.sub(r"\s+where\b.*|(?<!:):(?!:).*", "", plain)
    trait, _, owner = re.sub(r"\b\w+::(?=[A-Z])|'\w+ ", "", plain).rpartition(" for ")
    return trait, re.sub(r"<.*|^&(?!mut)", "", owner).strip()


def cited(said, words):
    """The definitions that a clause cites, but those that are not listed."""
    shown = lambda file, name: name not in definitions(file) or not definitions(file)[name].is_field()
    return [it for it in named(said, words) if it[1] not in VIEW and shown(*it)]


def contracts(file):
    """Each contract of a source that is not a private function's: trait, type, function, and what its clauses cite."""
    text = without_comments(read(file))
    whole = imports(text, "ghost ")
    for head, body in blocks(text):
        trait, owner = names_in(head) if head else ("", "")
        words = {**whole, **imports(body, "    ghost ")} if head else whole
        for it in re.finditer(r"^    ghost (\w+)[^={\n]*= \{" if head else r"(?!)", body, flags=re.M):
            if it[1] not in ("laws", "from_gives"):
                yield trait, owner, "", {it[1]: cited(body[it.end() : matching(body, it.end() - 1)], words)}
        indent = "    " if head else ""
        for it in re.finditer(rf"^{indent}(pub )?(?:const )?fn (\w+)", body, flags=re.M):
            if it[1] or trait or head.startswith("pub trait"):
                by_name = {}
                for (kind, name), said in contract(body, it.end(2))[1].items():
                    key = kind if kind == "requires" else name or kind
                    by_name[key] = by_name.get(key, []) + cited(said, words)
                yield trait, owner, it[2], by_name


class Crate:
    """The public contracts of a crate: by source and name, the definitions that each clause cites."""

    def __init__(self, name):
        self.name, self.types, self.rows = name, {}, {}
        sources = list(modules(name))
        for file, path, exported in sources:
            for it in re.findall(r"^pub (?:struct|enum|trait|type) (\w+)", without_comments(read(file)), flags=re.M):
                if exported is None or it in exported:
                    self.types.setdefault(it, []).append(path)
        for file, path, exported in sources:
            for trait, owner, call, clauses in contracts(file):
                it = self.called(path, exported, trait, owner, call)
                row = self.rows.setdefault((file, *it), {}) if it else {}
                for key, found in clauses.items():
                    row[key] = list(dict.fromkeys(row.get(key, []) + found))
        self.rows = {it: row for it, row in self.rows.items() if any(row[key] for key in row if key != "requires")}

    def called(self, path, exported, trait, owner, call):
        """The type and the call of a contract, or the implementation, where it is public."""
        if not owner:
            return ("::".join(path), call) if exported is None or call in exported else None
        # `From<Message> for u8` is of `Message`.
        of = next((it for it in (owner, *re.findall(r"\w+", trait)) if it in self.types), None)
        if not of:
            return None
        # Of types of one name that of the source's own module, or of one around it.
        around = [at for at in self.types[of] if path[: len(at)] == at]
        whole = "::".join((*max(around, key=len, default=self.types[of][0]), of))
        if not trait:
            return (whole, call) if call else None
        named = lambda text: re.sub(rf"\b{of}\b", whole, text)
        return "", f"{trait} for {named(owner)}" if of == owner else f"{named(trait)} for {owner}"


# ---- the page

HEAD = """# The clauses, and the definitions that they cite

Made from the sources by `tests/docs/run --write`; an edit by hand is lost. [PROOFS.md](PROOFS.md) says what the clauses prove together, and [READING.md](READING.md) explains the notation.

Of each crate, first by source: each public call, and each implementation of a trait, with its clauses and the definitions that these cite. `Igmp.IsMessage` is the definition `IsMessage` in `specs/Igmp.antt` of this crate or of one below it. A clause without a name of its own is `ensures` or `requires`; the items of a trait have their names, as `output`, the text that a `Display` prints.

Then the relations of the crate that are cited: what the comment above each says in its first sentence (cut by .. where it is long), and in parentheses the relations of its file on which it rests.

Not listed are clauses that cite no definition of these crates or speak of length alone (`Bytes.Reaches`, `ByteWriter.free`), fields, the words for the octets of a view and the content of a value (`inner`, `with_inner`, `view_octets`, `value_of`, beside a relation also `.._of` and `..Value`; of getters and setters all of `Bytes`), and among the relations those whose names say the same in each module: `Sets`, `KeepsLen` (a setter changes one field), `Emits` (what writing leaves), `Fills`, `IsCanonical`, `IsException`, `IsCut` ([the headline](PROOFS.md#the-headline)), `Refuses` (the check of `parse` that fails first), what `exact` cites (something is read), and `Gives..` (`next` of an iterator gives the first answer and takes it off).
"""

def word(it):
    return f"`{os.path.basename(it[0])[:-5]}.{it[1]}`"


def listed(words):
    return ", ".join(words)


def shown_clauses(row):
    """The clauses of a contract that are listed."""
    shown = {key: without_content(found) for key, found in row.items() if found and key not in MODEL}
    of_length = lambda key, found: key != "accepts" and all(name in LENGTH for _, name in found)
    return {key: found for key, found in shown.items() if not of_length(key, found)}


def without_content(found):
    """Definitions that a clause cites, but for the content of values where there is a relation."""
    known = {it: definitions(it[0])[it[1]] for it in found if it[1] in definitions(it[0])}
    if not any(it.is_relation() for it in known.values()):
        return found
    return [it for it in found if it not in known or not known[it].is_content(it[1])]


def clauses_text(row):
    """The clauses of a contract, those that cite the same definitions together."""
    by = {}
    for key, found in shown_clauses(row).items():
        by.setdefault(tuple(found), []).append(f"`{key}`")
    return "; ".join(f"{listed(keys)}: {listed(map(word, found))}" for found, keys in by.items())


def access(owner, row, views):
    """Whether a call of a view is a getter or a setter of it, by its clauses."""
    kinds = (("getters", {"requires", "ensures"}), ("setters", {"requires", "writes", "len"}))
    return next((kind for kind, keys in kinds if owner in views and set(row) <= keys), None)


def united(rows):
    """The definitions that contracts cite, but for those of bytes."""
    found = dict.fromkeys(it for row in rows for cited in shown_clauses(row).values() for it in cited)
    return [it for it in found if os.path.basename(it[0]) != "Bytes.antt" and it[1] not in LENGTH | ROLES]


def call_lines(crate):
    """The lines of a crate's functions and implementations, each source's after its name."""
    views = {owner for _, owner, call in crate.rows if call in ("new_checked", "check_len")}
    sources = {}
    for (file, owner, call), row in crate.rows.items():
        if not shown_clauses(row):
            continue
        groups = sources.setdefault(file.split("/", 2)[2], {})
        kind = access(owner, row, views)
        trait = re.match(r"(\w+)", call)[1] if not owner else ""
        key = (trait,) if " for " in call else (owner, kind) if kind else (owner, clauses_text(row))
        groups.setdefault(key, []).append((owner, call, row))
    for source, groups in sources.items():
        yield f"\n`{source}`\n"
        for group in groups.values():
            yield f"- {line_of(group, views)}"


def line_of(group, views):
    owner, call, row = group[0]
    kind, calls = access(owner, row, views), [call for _, call, _ in group]
    if " for " in call:
        keys = dict.fromkeys(f"`{key}`" for _, _, row in group for key in shown_clauses(row))
        cited = dict.fromkeys(it for _, _, row in group for found in shown_clauses(row).values() for it in found)
        return f"{listed(implemented(calls))}: {listed(keys)}: {listed(map(word, cited))}"
    if kind:
        cited = united(row for _, _, row in group)
        said = f": {listed(map(word, cited))}" if cited else ""
        return f"`{owner}`, {kind} {listed(f'`{it}`' for it in calls)}{said}"
    whole = [f"`{owner}::{it}`" if owner else f"`{it}`" for it in calls]
    return f"{listed([whole[0], *(f'`{it}`' for it in calls[1:])])}: {clauses_text(row)}"


def implemented(calls):
    """What implementations are of: those of one trait as `Display for A`, `B`; `From` and its way back are one."""
    pairs, before = [tuple(it.rpartition(" for ")[::2]) for it in calls], None
    back = {(trait, owner): (f"From<{owner}>", trait[len("From<") : -1]) for trait, owner in pairs}
    both = [it for it in pairs if "::" in it[1] and back[it] in pairs]
    alone = [it for it in pairs if it not in both and it not in [back[at] for at in both]]
    for it in both + alone:
        yield (f"`{it[1]}`" if it[0] == before else f"`{it[0]} for {it[1]}`") + " and back" * (it in both[-1:])
        before = it[0]


def relation_lines(file, cited):
    """The lines of a file's relations of these names that a comment explains."""
    for name in (it for it in definitions(file) if it in cited and it not in ROLES):
        it = definitions(file)[name]
        if it.is_relation() and len(it.comment.split()) > 3:
            below = [at for of, at in rests_on([(file, name)]) if of == file and at != name and at in definitions(file)]
            rests = listed(f"`{at}`" for at in below if definitions(file)[at].is_relation())
            yield f"- {word((file, name))}{f' ({rests})' if rests else ''}: {in_short(it.comment)}"


def cited_by(made, passed_over):
    """The definitions that the clauses of these crates cite, but for those of these names; with a format, its parts."""
    found = {}
    for crate in made:
        for row in crate.rows.values():
            for file, name in (it for key, cited in row.items() if key not in passed_over for it in cited):
                found[file, name] = None
                if name in definitions(file) and definitions(file)[name].is_format():
                    found.update((it, None) for it in cites(file)[name] if it[0] == file)
    return found


def page():
    """The text of docs/CLAUSES.md."""
    made = [Crate(it) for it in crates()]
    told = cited_by(made, {*MODEL, "exact"})
    text = [HEAD.rstrip()]
    for crate in made:
        calls, below = list(call_lines(crate)), []
        for file in spec_files(crate):
            below += relation_lines(file, {name for of, name in told if of == file})
        text += [f"\n## {crate.name}"] if calls or below else []
        text += [*calls, *(["\nRelations:\n", *below] if below else [])]
    return "\n".join(text) + "\n"


def misplaced():
    """The definitions in specs/ on which no public clause rests, but for words of `VIEW`, models and fields, and those in
    specs/private/ on which one does."""
    made = [Crate(it) for it in crates()]
    files = [file for crate in made for folder in ("specs", "specs/private") for file in spec_files(crate, folder)]
    plain = [(file, name) for file in files for name, it in definitions(file).items() if name in VIEW or it.is_field()]
    known = set(rests_on([*cited_by(made, MODEL), *plain]))
    words = ((file, name) for file in files for name in definitions(file))
    return [it for it in words if (it in known) == ("/private/" in it[0])]


def spec_files(crate, below="specs"):
    """The files of a crate's definitions, of those on which public clauses may rest or of the private ones."""
    folder = f"crates/{crate.name}/{below}"
    names = sorted(os.listdir(os.path.join(TOP, folder))) if os.path.isdir(os.path.join(TOP, folder)) else []
    return [f"{folder}/{it}" for it in names if it.endswith(".antt") and it != "Lib.antt"]
