"""How many packets of a capture are of each kind and reason, the line that sums them up, and the table of them."""
from messages import KINDS, REASONS


class Names:
    """How many packets there are of each name, in the order in which these came."""

    # So many are told by their names.
    MOST = 16

    def __init__(self):
        self.counts = {}

    def add(self, name):
        self.counts[name] = self.counts.get(name, 0) + 1

    def total(self):
        return sum(self.counts.values())

    def told(self):
        return list(self.counts.items())[:self.MOST]

    def further(self):
        return sum(list(self.counts.values())[self.MOST:])

    def text(self):
        """The names in brackets, where there are any."""
        further = self.further()
        words = ["%d %s" % (count, name) for name, count in self.told()] + (["%d further" % further] if further else [])
        return " (%s)" % ", ".join(words) if words else ""


class Counts:
    """What was counted of packets: of each kind those listed, those refused by reason, and their octets; those of other
    protocols, fragments that were kept, and the frames of each link that is not read."""

    def __init__(self):
        self.packets = 0
        self.kinds = {kind: dict.fromkeys(("listed",) + REASONS + ("octets",), 0) for kind in KINDS}
        self.others = Names()
        self.fragments = Names()
        self.joined = 0
        self.passed = 0
        self.links = Names()

    def add(self, shown, octets, options):
        self.packets += 1
        if shown.numbers:
            self.joined += len(shown.numbers) - 1
        if shown.link is not None:
            self.links.add(shown.link)
        elif shown.fragment is not None:
            self.fragments.add(shown.fragment)
        elif shown.kind is None:
            self.others.add(shown.other)
        elif not options.passes(shown):
            self.passed += 1
        else:
            row = self.kinds[shown.kind]
            row[shown.reason or "listed"] += 1
            row["octets"] += len(octets)

    def total(self, column):
        return sum(row[column] for row in self.kinds.values())

    def summary(self):
        """The packets of a capture in a line."""
        reasons = ["%d %s" % (self.total(reason), reason) for reason in REASONS if self.total(reason)]
        refused = "%d refused" % sum(self.total(reason) for reason in REASONS)
        parts = ["%d packets" % self.packets, "%d listed" % self.total("listed")]
        parts.append(refused + (" (%s)" % ", ".join(reasons) if reasons else ""))
        parts.append("%d of other protocols%s" % (self.others.total(), self.others.text()))
        parts += ["%d not chosen" % self.passed] if self.passed else []
        parts += ["%d fragments%s" % (self.fragments.total(), self.fragments.text())] if self.fragments.total() else []
        parts += ["%d of them put together" % self.joined] if self.joined else []
        parts += ["%d of link %s" % (count, link) for link, count in self.links.told()]
        parts += ["%d of other links" % self.links.further()] if self.links.further() else []
        return ", ".join(parts)

    def table(self, only=None):
        columns = ("listed",) + REASONS + ("octets",)
        rows = ["\t".join(("kind",) + columns)]
        for kind in KINDS:
            if only is None or kind in only or "hbh" in only:
                rows.append("\t".join([kind] + [str(self.kinds[kind][column]) for column in columns]))
        return "".join(row + "\n" for row in rows)
