#!/usr/bin/env python3
"""Looks for a function that calls itself, directly or through others: the depth of the stack has to be known.

    recursion.py FOLDER CRATE ..   FOLDER has what `rustc --emit=llvm-ir -C symbol-mangling-version=v0` wrote; the
                                   functions of these crates count

Each function that is compiled stands in LLVM's text by a name of its own, so that methods of one name, of other types
or of another instance, are told apart. A call through a table of methods or a function handed on counts too: what a
function names, it may call. A generic function is seen where it is used; the tests use each. Functions of tests, which are in
crates of their own, may call themselves. The last line says how many functions were looked at, and how many do.
"""
import collections
import pathlib
import re
import sys

NAME = re.compile(r'@("[^"]*"|[\w.$-]+)')


def uses_of(text, file):
    """What each function and each constant of a file of LLVM's names. Names without a path are of that file alone."""
    def node(name):
        name = name.strip('"')
        return name if name.startswith("_R") else f"{file}:{name}"
    uses, inside = {}, None
    for line in text.splitlines():
        if line.startswith("define "):
            names = NAME.findall(line)
            inside = uses.setdefault(node(names[0]), set())
            inside.update(map(node, names[1:]))
        elif line.startswith("@"):
            first, *rest = NAME.findall(line)
            uses.setdefault(node(first), set()).update(map(node, rest))
        elif line == "}":
            inside = None
        elif inside is not None:
            inside.update(map(node, NAME.findall(line)))
    return uses


def cycles(uses):
    """The sets of nodes that lead to one another, and the single ones that lead to themselves (Tarjan's way, with a
    stack of its own)."""
    order, low, path, on_path, found = {}, {}, [], set(), []
    for start in uses:
        if start in order:
            continue
        work = [(start, iter(uses[start]))]
        while work:
            node, rest = work[-1]
            if node not in order:
                order[node] = low[node] = len(order)
                path.append(node)
                on_path.add(node)
            for next_node in rest:
                if next_node in uses and next_node not in order:
                    work.append((next_node, iter(uses[next_node])))
                    break
                if next_node in on_path:
                    low[node] = min(low[node], order[next_node])
            else:
                work.pop()
                if work:
                    low[work[-1][0]] = min(low[work[-1][0]], low[node])
                if low[node] == order[node]:
                    at = path.index(node)
                    if len(path) - at > 1 or node in uses[node]:
                        found.append(path[at:])
                    on_path.difference_update(path[at:])
                    del path[at:]
    return found


def identifiers(symbol, at=0):
    """The identifiers of a name that the compiler made (RFC 2603 of Rust), one behind another from a place on."""
    found = []
    while (start := re.compile(r"(?:s[0-9A-Za-z]*_)?([1-9]\d*)_?").match(symbol, at)):
        at = start.end() + int(start.group(1))
        found.append(symbol[start.end():at])
    return found, at


def path_of(symbol):
    """The path of a function, or of the module whose type has it as a method, from the crate on; and its whole name."""
    root = re.search(r"C(?=s[0-9A-Za-z]*_\d|\d)", symbol)
    if not symbol.startswith("_R") or root is None:
        return [], symbol
    path, at = identifiers(symbol, root.end())
    name = list(path)
    while at < len(symbol):
        more, end = identifiers(symbol, at)
        name += more
        # `B` and a number say where a part stood before.
        back = re.compile(r"B[0-9A-Za-z]*_").match(symbol, at)
        at = back.end() if back else max(end, at + 1)
    return path, "::".join(name)


def recursions(texts, crates):
    """How many functions of the crates there are, and the paths of those that lead back to themselves."""
    uses = collections.defaultdict(set)
    for file, text in texts:
        for node, named in uses_of(text, file).items():
            uses[node] |= named
    own = {}
    for node in uses:
        path, name = path_of(node)
        if path and path[0] in crates:
            own[node] = name
    found = (sorted({own[node] for node in cycle if node in own}) for cycle in cycles(uses))
    return len(own), sorted(paths for paths in set(map(tuple, found)) if paths)


def main(folder, crates):
    texts = ((path.name, path.read_text()) for path in sorted(pathlib.Path(folder).rglob("*.ll")))
    count, found = recursions(texts, crates)
    for paths in found:
        print(f"recursion: {', '.join(paths)}")
    print(f"{count} functions looked at, {len(found)} ways back to a function")
    return count > 0 and not found


if __name__ == "__main__":
    if len(sys.argv) < 3:
        sys.exit(__doc__.strip())
    sys.exit(0 if main(sys.argv[1], set(sys.argv[2:])) else 1)
