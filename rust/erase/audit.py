#!/usr/bin/env python3
"""Audits what the rules did: every token of the source is in the output, in its order, or was taken away by a rule in
a shape that the table of shapes.py allows it; and nothing else was put in.

    audit.py SOURCES OUT     SOURCES is the repository, OUT the folder with the crate

The table is no part of the rules, and knows nothing of how they work: a rule that takes a statement of a body away
fails here. So does an output that was changed by hand. Formatting may add and drop commas and the braces of an arm, and
sort imports; all other tokens of OUT are counted against what the rules left.
"""
import collections
import pathlib
import re
import sys

import erase
from shapes import is_allowed, is_in_place
from tokens import Refused, tokens_of


# ---------------------------------------------------------------- files

def audit(file, problems):
    """Counts the tokens of a file that stay, go and are put in, and says what is wrong."""
    source = [token.text for token in tokens_of(file.source)]
    kept = [token for token in file.tokens if token.origin is not None]
    gone = [origin for edit in file.edits for origin in edit.taken]
    put = [token for token in file.tokens if token.origin is None]
    if "".join(token.pre + token.text for token in tokens_of(file.source)) != file.source:
        problems.append(f"{file.path}: the tokens are not the source")
    if any(token.text != source[token.origin] for token in kept):
        problems.append(f"{file.path}: a token was changed")
    if sorted([token.origin for token in kept] + gone) != list(range(len(source))):
        problems.append(f"{file.path}: tokens are lost, or stand twice")
    if any(a.origin >= b.origin for a, b in zip(kept, kept[1:])):
        problems.append(f"{file.path}: tokens stand in another order")
    if [token.text for token in sorted(put, key=lambda token: id(token.edit))] != \
            [text for edit in sorted(file.edits, key=id) for text in edit.put]:
        problems.append(f"{file.path}: tokens were put in by no rule")
    stays = {token.origin for token in kept}
    for edit in file.edits:
        if not is_allowed(source, stays, edit):
            taken = " ".join(source[origin] for origin in edit.taken)
            problems.append(f"{file.path}:{edit.line}: `{edit.rule}` takes `{taken[:80]}`, and puts "
                            f"`{' '.join(edit.put)[:80]}` in its place")
    for at, token in enumerate(file.tokens):
        if token.origin is None and (at == 0 or file.tokens[at - 1].edit is not token.edit):
            if not is_in_place(file, token.edit, at):
                problems.append(f"{file.path}:{token.line}: `{token.edit.rule}` puts `{token.text}` in another place")
    return len(kept) - 1, len(gone), len(put)


def called_nothing(files, problems):
    """Only functions that do nothing are taken away by `nothing`: all of a name."""
    names = collections.defaultdict(set)
    for file in files:
        source = [token.text for token in tokens_of(file.source)]
        for edit in file.edits:
            if edit.rule == "nothing":
                taken = [source[origin] for origin in edit.taken]
                kind = "function" if "fn" in taken else "call"
                name = taken[taken.index("fn") + 1] if "fn" in taken else \
                    taken[taken.index("(") - 1] if "(" in taken else taken[0 if taken[1] == "," else 1]
                names[name].add(kind)
    for name, kinds in names.items():
        if "function" not in kinds:
            problems.append(f"`{name}` is called, and its calls go, but no function of that name does nothing")


def sets(files, problems):
    """Each set of flags by the macro has the bits and names of the constants that were taken away for it."""
    for file in files:
        texts = [edit.put for edit in file.edits if edit.rule == "flag_set" and edit.put]
        for put in texts:
            name = put[put.index("struct") + 1]
            made = re.findall(r"const (\w+) = (\w+) ;", " ".join(put))
            stood = re.findall(rf"pub const (\w+): {name} = {name}\((\w+)\);", file.source)
            if made != stood or not made:
                problems.append(f"{file.path}: the flags of {name} are others")


def counted(texts):
    """The tokens that formatting leaves alone."""
    return collections.Counter(text for text in texts if text not in (",", "{", "}"))


def compare(unit, kinds, target, file, out, problems):
    """The file that is there has the tokens that the rules left."""
    path = out / target
    wanted = erase.text_of(unit, kinds, target, file)
    if not path.exists():
        problems.append(f"{path}: is not there")
    elif counted(token.text for token in tokens_of(path.read_text())) != \
            counted(token.text for token in tokens_of(wanted)):
        problems.append(f"{path}: has other tokens than the rules leave")


def main(sources, out):
    units, kinds = erase.units_of(sources)
    erase.erase(units)
    files = [file for unit in units for file in unit.files.values()]
    problems, rules = [], collections.Counter()
    sums = {"library": [0, 0, 0], "tests and programs": [0, 0, 0]}
    for unit in units:
        for target, file in unit.files.items():
            counts = sums["tests and programs" if file.runtime else "library"]
            for k, count in enumerate(audit(file, problems)):
                counts[k] += count
            compare(unit, kinds, target, file, out, problems)
            rules.update(edit.rule for edit in file.edits)
    called_nothing(files, problems)
    sets(files, problems)
    for kind, (kept, gone, put) in sums.items():
        print(f"{kind}: {kept:,} tokens stay, {gone:,} go, {put:,} are put in")
    print(", ".join(f"{rule} {count:,}" for rule, count in sorted(rules.items())))
    for problem in problems:
        print(f"audit: {problem}")
    print(f"{len(files)} files audited, {len(problems)} problems")
    return not problems


if __name__ == "__main__":
    try:
        sys.exit(0 if main(pathlib.Path(sys.argv[1]), pathlib.Path(sys.argv[2])) else 1)
    except Refused as refused:
        sys.exit(f"erase: {refused}")
