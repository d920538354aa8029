"""Rattle source as tokens, and a file whose tokens the rules edit, with a record of each edit."""
import re

TOKEN = re.compile(r"""
    (?P<space>\s+|//[^\n]*|/\*)
  | (?P<text>b?r(?P<hashes>\#*)"(?:.|\n)*?"(?P=hashes) | b?"(?:\\(?:.|\n)|[^"\\])*")
  | (?P<char>b?'(?:\\(?:u\{[^}']*\}|x..|.)|[^\\'\n])')
  | (?P<life>'[^\W\d]\w*)
  | (?P<number>\d(?:[\w]|\.(?=\d))*)
  | (?P<word>[^\W\d]\w*)
  | (?P<mark>::|->|=>|\.\.=?|.)
""", re.X)

PAIRS = {"(": ")", "[": "]", "{": "}"}


class Refused(Exception):
    """Something that no rule knows, by file and line."""


class Token:
    """A token, with the spaces and comments before it in `pre`. `origin` is its place among the tokens of the source;
    a token that a rule put in has none, and has the edit in its place."""
    __slots__ = ("pre", "text", "kind", "line", "origin", "edit")

    def __init__(self, pre, text, kind, line, origin=None, edit=None):
        self.pre, self.text, self.kind, self.line, self.origin, self.edit = pre, text, kind, line, origin, edit


class Edit:
    """What a rule took away (places among the tokens of the source) and what it put in their place (texts)."""
    __slots__ = ("rule", "line", "taken", "put")

    def __init__(self, rule, line, taken, put):
        self.rule, self.line, self.taken, self.put = rule, line, taken, put


def tokens_of(source):
    """All tokens of a source; the last one is empty, and has what stands before the end."""
    tokens, pre, at, line = [], "", 0, 1
    while at < len(source):
        match = TOKEN.match(source, at)
        kind, end = match.lastgroup, match.end()
        if match.group("space") == "/*":
            end = end_of_comment(source, at)
        text = source[at:end]
        if match.group("space"):
            pre += text
        else:
            kind = "text" if kind == "hashes" else kind
            tokens.append(Token(pre, text, kind, line, len(tokens)))
            pre = ""
        line += text.count("\n")
        at = end
    tokens.append(Token(pre, "", "end", line, len(tokens)))
    return tokens


def end_of_comment(source, at):
    """Where the block comment at `at` ends: these nest."""
    depth, end = 1, at + 2
    while depth:
        step = re.compile(r"/\*|\*/").search(source, end)
        if step is None:
            return len(source)
        depth += 1 if step.group() == "/*" else -1
        end = step.end()
    return end


class File:
    """The tokens of a file. A rule looks at them by their places, and edits them by `remove`, `replace`, `insert`."""

    def __init__(self, path, source, runtime=False):
        self.path, self.source, self.runtime = path, source, runtime
        # Whether it is of the library, and of what is published.
        self.library = self.published = not runtime
        # Whether it is of tests, which are in crates of their own.
        self.tests = False
        # By which path it names what Rattle's std has otherwise than Rust's.
        self.std = "rattle_std"
        self.tokens = tokens_of(source)
        self.edits = []
        self.rule = "none"

    def __str__(self):
        return "".join(token.pre + token.text for token in self.tokens)

    def refuse(self, i, why):
        raise Refused(f"{self.path}:{self.tokens[i].line}: {why}")

    # ---- looking

    def text(self, i):
        return self.tokens[i].text if 0 <= i < len(self.tokens) else ""

    def texts(self, i, *wanted):
        return all(self.text(i + k) == text for k, text in enumerate(wanted))

    def joined(self, i, end):
        return "".join(token.text for token in self.tokens[i:end])

    def is_word(self, i):
        return 0 <= i < len(self.tokens) and self.tokens[i].kind == "word"

    def words(self):
        return {token.text for token in self.tokens if token.kind == "word"}

    def close(self, i):
        """Where the bracket at i is closed."""
        depth = 0
        for k in range(i, len(self.tokens)):
            if self.tokens[k].kind == "mark":
                depth += (self.text(k) in PAIRS) - (self.text(k) in PAIRS.values())
                if depth == 0:
                    return k
        self.refuse(i, "a bracket that is not closed")

    def close_angle(self, i):
        """Where the angle bracket at i is closed."""
        depth = 0
        for k in range(i, len(self.tokens)):
            depth += (self.text(k) == "<") - (self.text(k) == ">")
            if depth == 0:
                return k
        self.refuse(i, "an angle bracket that is not closed")

    def skip(self, i, stops):
        """The first of the stops from i on, outside of brackets; or the end of what i stands in."""
        while self.text(i) not in stops and self.text(i) not in PAIRS.values() and self.tokens[i].kind != "end":
            i = (self.close(i) if self.text(i) in PAIRS else i) + 1
        return i

    def body(self, i):
        """Where the body of the item at i begins, or the `;` in its place."""
        return self.skip(i, ("{", ";"))

    def start(self, i):
        """Where the item whose keyword is at i begins: its attributes and its visibility."""
        while i > 0:
            if self.text(i - 1) == ")" and self.text(i - 3) == "(" and self.text(i - 4) == "pub":
                i -= 4
            elif self.text(i - 1) in ("pub", "const", "unsafe"):
                i -= 1
            elif self.text(i - 1) == "]" and self.opens_attribute(i - 1) is not None:
                i = self.opens_attribute(i - 1)
            else:
                break
        return i

    def opens_attribute(self, close):
        """Where the outer attribute that ends at `close` begins; None where none does."""
        for k in range(close, 0, -1):
            if self.text(k) == "[" and self.close(k) == close:
                return k - 1 if self.text(k - 1) == "#" else None
        return None

    # ---- editing

    def note(self, i, end, put):
        """Records an edit of the tokens from i up to end. What one rule has put in, no other may take away."""
        for token in self.tokens[i:end]:
            if token.origin is None:
                self.refuse(i, f"`{self.rule}` meets what `{token.edit.rule}` has put in")
        line = self.tokens[i].line
        self.edits.append(Edit(self.rule, line, [token.origin for token in self.tokens[i:end]], put))
        return self.edits[-1]

    def remove(self, i, end, comment=True):
        """Takes the tokens from i up to end away, and with them the comment that stands right before them. Answers
        the place of what follows."""
        self.note(i, end, [])
        before, after = self.tokens[i].pre, self.tokens[end].pre
        if comment:
            before = without_last_comment(before)
        self.tokens[end].pre = joined(before, after)
        del self.tokens[i:end]
        return i

    def replace(self, i, end, source):
        """Puts the tokens of a text in the place of those from i up to end; answers the place behind them. Comments in
        the text stay."""
        new = tokens_of(source)[:-1]
        edit = self.note(i, end, [token.text for token in new])
        line = self.tokens[i].line
        for token in new:
            token.origin, token.edit, token.line = None, edit, line
        new[0].pre = self.tokens[i].pre + new[0].pre if i < end else new[0].pre
        self.tokens[i:end] = new
        return i + len(new)

    def insert(self, i, source):
        """Puts the tokens of a text before i; answers the place behind them."""
        return self.replace(i, i, source)


def joined(before, after):
    """What stands before a removed part and what stands behind it, as one."""
    if before.isspace() or not before:
        return before if before.count("\n") > after.count("\n") else after
    before = before.rstrip(" ")
    return before + (after[1:] if before.endswith("\n") and after.startswith("\n") else after)


def without_last_comment(pre):
    """Without the comment that ends right above what follows; inner docs and what a blank line parts off stay."""
    lines = pre.split("\n")
    k = len(lines) - 1
    while k > 0 and lines[k - 1].strip().startswith("//") and not lines[k - 1].strip().startswith("//!"):
        k -= 1
    return "\n".join(lines[:k] + lines[-1:])
