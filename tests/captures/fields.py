#!/usr/bin/env python3
"""What tshark reads of a capture: `fields.py CAPTURE` prints a table of the fields that expected.py reads, a packet on
each line.

Fields have tabs between them, and a field that a packet has several times has `|` between these. Datagrams that come in
fragments are put together, the data of TCP are not, and checksums are looked at.
"""

import os
import subprocess
import sys

sys.dont_write_bytecode = True

from expected import FIELDS  # noqa: E402

MOST_DATA = 64

OPTIONS = ["ip.defragment:TRUE", "ipv6.defragment:TRUE", "ip.check_checksum:TRUE", "udp.check_checksum:TRUE",
           "tcp.check_checksum:TRUE", "tcp.desegment_tcp_streams:FALSE", "dns.desegment_dns_messages:FALSE"]


def table(capture):
    """What tshark prints of a capture, with a first line of names; fields that no packet has are left out, and of data
    the last octets are kept."""
    command = ["tshark", "-n", "-2", "-r", capture, "-T", "fields", "-E", "header=y", "-E", "separator=/t", "-E",
               "occurrence=a", "-E", "aggregator=|"]
    for option in OPTIONS:
        command += ["-o", option]
    for name in FIELDS:
        command += ["-e", name]
    environment = dict(os.environ, TZ="UTC", HOME="/nonexistent", XDG_CONFIG_HOME="/nonexistent")
    text = subprocess.run(command, check=True, capture_output=True, text=True, env=environment).stdout
    rows = [line.split("\t") for line in text.splitlines()]
    data = rows[0].index("data.data")
    for row in rows[1:]:
        row[data] = row[data][-2 * MOST_DATA:]
    kept = [at for at in range(len(rows[0])) if any(row[at] for row in rows[1:])]
    return "".join("\t".join(row[at] for at in kept) + "\n" for row in rows)


def packets(text):
    """The packets of such a table: of each the fields that it has, with their values in turn."""
    lines = text.splitlines()
    names = lines[0].split("\t")
    for line in lines[1:]:
        yield {name: value.split("|") for name, value in zip(names, line.split("\t")) if value != ""}


if __name__ == "__main__":
    sys.stdout.write(table(sys.argv[1]))
