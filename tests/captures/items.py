"""What a packet holds, as data: fields, numbers that have names, and lists of entries. They are printed as lines, or as
the members of a JSON object.

A value is a number, a truth value, a text, octets, a time, a list of texts or of numbers, or None for none."""
import json

from text import hexadecimal, truth


class Time:
    """A time in milliseconds."""

    def __init__(self, millis):
        self.millis = millis

    def text(self):
        seconds, part = divmod(self.millis, 1000)
        return "%d.%03ds" % (seconds, part) if part else "%ds" % seconds


def seconds(number):
    return Time(1000 * number)


class Field:
    """A field: its key and its value."""

    def __init__(self, key, value):
        self.key = key
        self.value = value

    def lines(self):
        return ["%s=%s" % (self.key, line_value(self.value))]

    def members(self):
        return [(self.key, self.value)]


class Named(Field):
    """A number that a registry gives a name; None where it has none for this one."""

    def __init__(self, key, number, name):
        super().__init__(key, number)
        self.name = name

    def lines(self):
        return ["%s=%d" % (self.key, self.value) + (" (%s)" % self.name if self.name is not None else "")]

    def members(self):
        return super().members() + ([(self.key + "_name", self.name)] if self.name is not None else [])


def named(key, number, names):
    """A number with its name in a table."""
    return Named(key, number, names.get(number))


# How a line shows a value of an entry: as it is, behind its key, or not at all.
BARE, KEYED, HIDDEN = "bare", "keyed", "hidden"


class Cell:
    """A value of an entry."""

    def __init__(self, key, value, shown=KEYED):
        self.key = key
        self.value = value
        self.shown = shown

    def words(self):
        if self.shown == HIDDEN:
            return []
        return [("%s=" % self.key if self.shown == KEYED else "") + line_value(self.value)]


class Entry:
    """An entry of a list: a pair of what its label is and of the label, and its values, the first of which a line has
    behind the label."""

    def __init__(self, label, first, *others):
        self.label = label
        self.cells = [Cell(*first, BARE)] + list(others)

    def line(self):
        return "%s=%s" % (self.label[1], " ".join(word for cell in self.cells for word in cell.words()))

    def members(self):
        return [self.label] + [(cell.key, cell.value) for cell in self.cells]


class Entries:
    """A list, by the key that it has in JSON."""

    def __init__(self, key, entries):
        self.key = key
        self.entries = entries

    def lines(self):
        return [entry.line() for entry in self.entries]

    def members(self):
        return [(self.key, self.entries)]


def labelled(names, kind, number):
    """The name of a number, or where it has none the kind and the number."""
    return names.get(number, "%s_%d" % (kind, number))


# ---- lines

def line_value(value):
    if value is None:
        return "none"
    if isinstance(value, bool):
        return truth(value)
    if isinstance(value, bytes):
        return hexadecimal(value)
    if isinstance(value, Time):
        return value.text()
    if isinstance(value, list):
        return ",".join(map(str, value)) or "-"
    return str(value)


def lines(items):
    return [line for item in items for line in item.lines()]


# ---- JSON (RFC 8259)

def json_value(value):
    if isinstance(value, bytes):
        return json_value(value.hex())
    if isinstance(value, Time):
        return json_value(value.millis)
    if isinstance(value, Entry):
        return json_object(value.members())
    if isinstance(value, list):
        return "[%s]" % ",".join(map(json_value, value))
    return json.dumps(value, ensure_ascii=False)


def json_object(members):
    assert len({key for key, _ in members}) == len(members), members
    return "{%s}" % ",".join("%s:%s" % (json_value(key), json_value(value)) for key, value in members)


def json_line(items):
    """The object that has the members of all these items."""
    return json_object([member for item in items for member in item.members()])
