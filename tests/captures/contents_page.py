"""What pcapdump --stats --json is to print of the members of groups, and of the senders that they want to hear or not,
told by the fields that tshark has of their reports."""

import collections
import ipaddress

from patterns import Values

# What a record says of its sources, by its type (RFC 3376 section 4.2.12, RFC 3810 section 5.2.12).
WANTED, EXCLUDED = "source", "excluded"
SAYS = {1: WANTED, 2: EXCLUDED, 3: WANTED, 4: EXCLUDED, 5: WANTED}
RECORDS = {"igmp": ("igmp.record_type", "igmp.maddr", "igmp.num_src", "igmp.saddr"),
           "icmp6": tuple("icmpv6.mldr.mar." + key for key in (
               "record_type", "multicast_address", "nb_sources", "source_address"))}


class Members:
    """How often each host reported a group, and each source of it."""

    def __init__(self):
        self.members = collections.Counter()
        self.sources = collections.Counter()

    def add(self, packet, kind):
        """Counts what a packet says, of one that is cut as far as its records are whole."""
        type_name = "igmp.type" if kind == "igmp" else "icmpv6.type"
        number = packet.number(type_name) if packet.has(type_name) else None
        host = packet.text("ip.src" if kind == "igmp" else "ipv6.src")
        if kind == "igmp" and number in (0x12, 0x16) and packet.has("igmp.maddr"):
            self.members[packet.text("igmp.maddr"), host] += 1
        elif kind == "icmp6" and number == 131 and packet.has("icmpv6.mld.multicast_address"):
            self.members[packet.text("icmpv6.mld.multicast_address"), host] += 1
        elif number == (0x22 if kind == "igmp" else 143):
            self.add_records(packet, host, *RECORDS[kind])

    def add_records(self, packet, host, type_name, group_name, count_name, source_name):
        values = Values(packet)
        for number, group in zip(packet.numbers(type_name), packet.all(group_name)):
            count = values.number(count_name)
            if values.count(source_name) < count:
                return
            sources = [values.text(source_name) for _ in range(count)]
            says = SAYS.get(number)
            if says == EXCLUDED or says == WANTED and sources:
                self.members[group, host] += 1
                self.sources.update((group, host, says, source) for source in sources)

    def rows(self):
        """The rows of each table, by the octets of their addresses."""
        members = [{"kind": "group", "addr": group, "member": host, "count": count}
                   for (group, host), count in sorted(self.members.items(), key=lambda item: in_order(*item[0]))]
        sources = [{"kind": "group", "addr": group, "member": host, says: source, "count": count}
                   for (group, host, says, source), count in sorted(
                       self.sources.items(), key=lambda item: in_order(*item[0][:2]) + by_source(*item[0][2:]))]
        return members, sources


def in_order(group, host):
    return octets(group) + octets(host)


def by_source(says, source):
    return bytes([says == EXCLUDED]) + octets(source)


def octets(address):
    return ipaddress.ip_address(address).packed
