# The scenes of make: what is sent in each, and the captures that are written of it. All of them use make's functions.
# shellcheck shell=bash

# A lease: discover, offer, request and acknowledgement; then it is renewed and given back. The interface comes up with
# the recording on, so that the addresses of IPv6 are looked for and the router is asked.
scene_lease() {
    {
        cat dnsmasq.conf
        printf 'txt-record=long.example.test,%0200d\n' {1..9}
    } >"$room/dnsmasq.conf"
    start router dnsmasq --conf-file="$room/dnsmasq.conf" --dhcp-leasefile="$room/leases" 2>"$room/dnsmasq"
    until_says "$room/dnsmasq" 'started'
    printf '#!/bin/sh\n[ "$1" = bound ] && ip address replace "$ip/24" dev "$interface"\nexit 0\n' \
        >"$room/bound"
    chmod +x "$room/bound"
    in_ host ip link set eth up
    record lease.pcap host eth
    start host udhcpc -f -i eth -s "$room/bound" -x hostname:host -O ntpsrv >"$room/udhcpc" 2>&1
    local client=$!
    until_says "$room/udhcpc" 'lease of'
    kill -USR1 "$client"
    sleep 0.5
    kill -USR2 "$client"
    sleep 0.5
    kill "$client"
    # Other clients ask for their answers by broadcast, with identifiers of their own; the second gets two routers.
    quietly in_ host udhcpc -B -n -q -t 2 -T 1 -i eth -s /bin/true -x 0x3d:01020000000062
    quietly in_ host udhcpc -B -n -q -t 2 -T 1 -i eth -s /bin/true -x 0x3d:ff0000000063
    quietly in_ host rdisc6 -1 eth
    stop_recording
    make_host_addresses
}

# Groups are joined and left in each version of IGMP and MLD, while the bridge asks for their members.
scene_groups() {
    local version
    record groups.pcap host eth
    for version in 1 2 3; do
        set_kernel host ipv4.conf.eth.force_igmp_version=$version
        [ "$version" -eq 3 ] || set_kernel host ipv6.conf.eth.force_mld_version=$version
        quietly in_ host ./speak.py join eth
    done
    quietly in_ router ip link set lan type bridge mcast_querier 1 mcast_igmp_version 2 mcast_mld_version 1
    sleep 0.5
    quietly in_ router ip link set lan type bridge mcast_querier 0
    quietly in_ router ip link set lan type bridge mcast_igmp_version 3 mcast_mld_version 2
    quietly in_ router ip link set lan type bridge mcast_querier 1
    sleep 1
    quietly in_ router ip link set lan type bridge mcast_querier 0
    stop_recording
}

# Echoes of several sizes, some of which are sent in fragments; those of 96 bytes at most are recorded as well.
scene_ping() {
    local size to
    record ping.pcap host eth -s 2000
    for to in 192.0.2.1 2001:db8:1::1 198.51.100.2 2001:db8:2::2 127.0.0.1 fe80::ff:fe00:1%eth ff02::1%eth; do
        quietly in_ host ping -c 1 -W 1 -s 0 "$to"
        quietly in_ host ping -c 1 -W 1 -s 56 -p a55a "$to"
    done
    for size in 1 17 511; do
        quietly in_ host ping -c 1 -s $size 192.0.2.1
        quietly in_ host ping -c 1 -s $size 2001:db8:1::1
    done
    stop_recording
    record fragments.pcap host eth -s 2000
    quietly in_ host ping -c 1 -s 1600 192.0.2.1
    quietly in_ host ping -c 1 -s 1600 2001:db8:1::1
    quietly in_ host ./speak.py fragments 192.0.2.1 2001:db8:1::1
    stop_recording
    record cut.pcap host eth -s 96
    for size in 0 20 54 55 400; do
        quietly in_ host ping -c 1 -s $size 192.0.2.1
        quietly in_ host ping -c 1 -s $size 2001:db8:1::1
    done
    quietly in_ host dig @192.0.2.1 txt.example.test TXT
    stop_recording
}

# Routes that are traced, and errors: too big, prohibited, unreachable, redirected, of an unknown protocol or option.
scene_errors() {
    local to
    record errors.pcap host eth -s 2000
    # The kernel sends but one error a second to a host for some of these.
    for to in 2001:db8:3::1 203.0.113.{1,200,201} 2001:db8:3:0:{e,f}::1; do
        sleep 1.1
        quietly in_ host ping -c 1 -W 0.2 "$to"
    done
    for to in 198.51.100.2 2001:db8:2::2; do
        quietly in_ host traceroute -n -q 1 -m 3 "$to"
        quietly in_ host traceroute -n -q 1 -m 2 -I "$to"
        quietly in_ host traceroute -n -q 1 -m 2 -T "$to"
        quietly in_ host ping -c 1 -W 1 -M 'do' -s 1400 "$to"
    done
    quietly in_ host ping -6 -c 1 -W 1 -N name 2001:db8:1::1
    quietly in_ host ./speak.py errors 192.0.2.1 2001:db8:1::1
    stop_recording
}

# Names that are asked for, with and without EDNS, over UDP and TCP, of both versions of IP.
scene_names() {
    local kind name=example.test server=192.0.2.1
    record names.pcap host eth -s 2000
    ask() { quietly in_ host dig +tries=1 +time=1 "@$server" "$@"; }
    for kind in A AAAA MX TXT SRV CNAME NS SOA NAPTR CAA TYPE13 TYPE44 TYPE52 TYPE65 TYPE65280; do
        ask "${kind,,}.$name" "$kind"
    done
    ask a.$name ANY +notcp
    ask alias.$name A
    ask alias.$name TXT +noedns
    ask 'white\032space\.dot.'$name TXT
    ask 'WWW.Example.TEST' A +norecurse
    ask absent.$name A
    ask -x 192.0.2.7
    ask -x 2001:db8::7
    ask version.bind TXT CH
    ask a.$name A +dnssec +cdflag +adflag
    ask a.$name A +subnet=203.0.113.0/24 +nsid +cookie=0123456789abcdef
    ask a.$name A +bufsize=512 +ednsflags=0x40
    ask a.$name A +ednsopt=65001:00ff
    ask a.$name A +edns=1 +noednsnegotiation
    ask . NS
    ask a.$name A +opcode=4
    ask a.$name A +header-only
    ask a.$name A +tcp
    ask long.$name TXT +noedns +ignore
    ask long.$name TXT +bufsize=4096
    server=198.51.100.1
    ask zone.test SOA
    ask zone.test NS +noedns
    ask absent.zone.test A +noedns
    ask mail.zone.test MX
    server=2001:db8:1::1
    ask aaaa.$name AAAA
    ask alias.$name A
    quietly in_ host ./speak.py oddities 192.0.2.1
    update 'prereq yxdomain example.test' 'update add new.example.test 300 A 192.0.2.30' \
        'update delete old.example.test A 192.0.2.31' 'update delete old.example.test AAAA'
    update 'update delete old.example.test MX'
    update 'update delete old.example.test TXT'
    stop_recording
}

# An update of the zone by these lines (RFC 2136).
update() {
    printf '%s\n' 'server 192.0.2.1' 'zone example.test' "$@" send | quietly in_ host nsupdate -t 1 -u 1 -r 0
}

# Names that are asked of all hosts of a link. Where avahi is to be had, the neighbour announces its own.
scene_multicast_names() {
    record multicast-names.pcap host eth
    quietly in_ host ./speak.py names eth
    if command -v avahi-daemon >/dev/null; then
        printf '%s\n' '[server]' host-name=neighbour allow-interfaces=eth enable-dbus=no '[publish]' \
            publish-hinfo=yes publish-workstation=yes publish-dns-servers=192.0.2.1 >"$room/avahi.conf"
        # It has a place of its own for what it keeps in /run.
        start neighbour unshare --mount sh -c "mount -t tmpfs none /run && exec avahi-daemon --no-drop-root \
            --no-chroot --no-rlimits -f '$room/avahi.conf'" >"$room/avahi" 2>&1
        local avahi=$!
        until_says "$room/avahi" 'startup complete'
        sleep 1
    fi
    quietly in_ host dig +tries=1 +time=1 -p 5353 @224.0.0.251 neighbour.local ANY
    quietly in_ host dig +tries=1 +time=1 -p 5353 @ff02::fb%eth -x 192.0.2.9
    [ -z "${avahi-}" ] || kill "$avahi"
    stop_recording
}

# Names of NetBIOS: the neighbour tells its own, and is asked for them.
scene_netbios_names() {
    local side
    for side in host neighbour; do
        mkdir -- "$room/$side"
        printf '%s\n' '[global]' "netbios name = cw-$side" 'workgroup = example' 'bind interfaces only = yes' \
            'interfaces = eth' 'disable netbios = no' 'wins support = yes' "state directory = $room/$side" \
            "lock directory = $room/$side" "pid directory = $room/$side" "cache directory = $room/$side" \
            "private dir = $room/$side" 'nmbd bind explicit broadcast = no' >"$room/$side/smb.conf"
    done
    record netbios-names.pcap host eth udp port 137
    start neighbour nmbd --foreground --no-process-group --configfile="$room/neighbour/smb.conf" >"$room/nmbd" 2>&1
    local nmbd=$!
    sleep 7
    look_up() { quietly in_ host nmblookup --configfile="$room/host/smb.conf" "$@"; }
    look_up --broadcast=192.0.2.255 cw-neighbour
    look_up --broadcast=192.0.2.255 'example#1e'
    look_up --broadcast=192.0.2.255 absent
    look_up --lookup-by-ip 192.0.2.9
    look_up --unicast=192.0.2.9 --recursion 'cw-neighbour#20'
    look_up --unicast=192.0.2.9 --recursion absent
    kill "$nmbd"
    wait "$nmbd" 2>/dev/null
    stop_recording
}

# Packets on a route through the router's segment, and back.
scene_routes() {
    set_kernel host ipv6.conf.all.seg6_enabled=1 ipv6.conf.eth.seg6_enabled=1
    set_kernel router ipv6.conf.all.seg6_enabled=1 ipv6.conf.lan.seg6_enabled=1 ipv6.conf.wan.seg6_enabled=1
    set_kernel server ipv6.conf.all.seg6_enabled=1 ipv6.conf.eth.seg6_enabled=1
    quietly in_ host ip -6 route add 2001:db8:2::/64 encap seg6 mode inline segs 2001:db8:1::1 dev eth
    record routes.pcap router any -y LINUX_SLL2
    quietly in_ host ping -c 1 -W 1 -s 24 2001:db8:2::2
    quietly in_ host ping -c 1 -W 1 -s 24 -t 1 2001:db8:2::2
    quietly in_ host dig +tries=1 +time=1 @2001:db8:2::2 routed.example.test AAAA
    stop_recording
    quietly in_ host ip -6 route del 2001:db8:2::/64
}

# A little of each kind, for the other links.
talk() {
    quietly in_ host ping -c 1 -s 24 "$1"
    quietly in_ host ping -c 1 -s 24 "$2"
    quietly in_ host dig +tries=1 +time=1 "@$1" mx.example.test MX
    quietly in_ host dig +tries=1 +time=1 "@$2" srv.example.test SRV +noedns
    quietly in_ host ping -c 1 -t 1 198.51.100.2
    quietly in_ host ping -c 1 -t 1 2001:db8:2::2
    quietly in_ host ./speak.py join "$3"
}

# Captures of all interfaces, of the loopback, of a tunnel, and of two interfaces in one file.
scene_links() {
    record mixed.pcap host eth --time-stamp-precision=nano
    talk 192.0.2.1 2001:db8:1::1 eth
    stop_recording
    record cooked.pcap host any -y LINUX_SLL
    talk 192.0.2.1 2001:db8:1::1 eth
    stop_recording
    record cooked2.pcap host any -y LINUX_SLL2
    talk 192.0.2.1 2001:db8:1::1 eth
    stop_recording
    record loopback.pcap host lo
    talk 127.0.0.1 ::1 lo
    stop_recording
    scene_tunnel
    start router dumpcap -q -i lan -i wan -w "$real/interfaces.pcapng" >"$room/dumpcap" 2>&1
    local dumpcap=$!
    until_says "$room/dumpcap" 'File:'
    talk 192.0.2.1 2001:db8:1::1 eth
    quietly in_ host ping -c 1 198.51.100.2
    sleep 1
    kill "$dumpcap"
    wait "$dumpcap"
    chmod a+r "$real/interfaces.pcapng"
}

# A tunnel of IP packets between the host and the server.
scene_tunnel() {
    local side last=1
    for side in host server; do
        in_ "$side" ip tuntap add name tunnel mode tun
        in_ "$side" ip address add "10.9.9.$last/24" dev tunnel
        in_ "$side" ip address add "2001:db8:9::$last/64" dev tunnel nodad
        in_ "$side" ip link set tunnel up
        last=2
    done
    start host ./speak.py tunnel "$room/of-host" "$room/of-server" >"$room/tunnel"
    start server ./speak.py tunnel "$room/of-server" "$room/of-host" >"$room/tunnel-server"
    until_says "$room/tunnel" open
    record tunnel.pcap host tunnel
    talk 10.9.9.2 2001:db8:9::2 tunnel
    stop_recording
}

# Datagrams that are sent in fragments of both versions of IP: echoes, and answers of DNS of a neighbour that may send
# longer ones than fit into a frame.
scene_fragments() {
    local to
    {
        printf '%s\n' keep-in-foreground bind-interfaces user=root group=root pid-file= log-facility=- no-resolv \
            no-hosts local=/test/ edns-packet-max=4096 listen-address=192.0.2.9,2001:db8:1::9
        printf 'txt-record=long.example.test,%0200d\n' {1..16}
    } >"$room/long.conf"
    start neighbour dnsmasq --conf-file="$room/long.conf" 2>"$room/long"
    until_says "$room/long" 'started'
    record put-together.pcap host eth -s 2000
    for to in 192.0.2.9 2001:db8:1::9; do
        quietly in_ host ping -c 1 -s 3000 "$to"
        quietly in_ host dig +tries=1 +time=1 +notcp +bufsize=4096 "@$to" long.example.test TXT
    done
    stop_recording
}

# Queries of DNS over TCP: several on a connection, several in one segment, and one in two.
scene_segments() {
    local to
    record segments.pcap host eth -s 2000
    for to in 192.0.2.1 2001:db8:1::1; do
        quietly in_ host dig +tcp +keepopen +tries=1 +time=1 "@$to" a.example.test A mx.example.test MX \
            srv.example.test SRV txt.example.test TXT
        quietly in_ host ./speak.py segments "$to"
    done
    quietly in_ host dig +tcp +noedns +tries=1 +time=1 @192.0.2.1 long.example.test TXT
    stop_recording
}

# Tunnels between the host and the router, which speak.py carries in datagrams of the kernel: NUMBER KIND NEAR FAR, of
# the outer datagrams, and an MTU that lets these be sent in fragments or not.
open_tunnel() {
    local side near=$3 far=$4 last=1
    for side in host router; do
        in_ "$side" ip tuntap add name "tunnel$1" mode tun
        in_ "$side" ip address add "10.9.$1.$last/24" dev "tunnel$1"
        in_ "$side" ip address add "2001:db8:9:$1::$last/64" dev "tunnel$1" nodad
        in_ "$side" ip link set "tunnel$1" mtu "$5" up
        start "$side" ./speak.py carry "tunnel$1" "$2" "$near" "$far" >"$room/carry-$side-$1"
        until_says "$room/carry-$side-$1" open
        near=$4 far=$3 last=2
    done
}

scene_tunnels() {
    local number
    open_tunnel 1 ip 192.0.2.7 192.0.2.1 1480
    open_tunnel 2 ip 2001:db8:1::7 2001:db8:1::1 1280
    open_tunnel 3 gre 192.0.2.7 192.0.2.1 1500
    open_tunnel 4 gre-key-sequence 2001:db8:1::7 2001:db8:1::1 1500
    open_tunnel 5 gre-checksum-key-sequence 10.9.1.1 10.9.1.2 1400
    start router dnsmasq --keep-in-foreground --conf-file=/dev/null --bind-interfaces --user=root --group=root \
        --pid-file= --log-facility=- --no-resolv --no-hosts --interface='tunnel*' --except-interface=lo \
        --host-record=inside.test,192.0.2.77,2001:db8::77 2>"$room/inside"
    until_says "$room/inside" started
    sleep 0.5
    record tunnels.pcap host eth -s 2000
    for number in 1 2 3 4 5; do
        quietly in_ host ping -c 1 -s 24 "10.9.$number.2"
        quietly in_ host ping -c 1 -s 24 "2001:db8:9:$number::2"
        quietly in_ host dig +tries=1 +time=1 "@10.9.$number.2" inside.test A
        quietly in_ host dig +tries=1 +time=1 "@2001:db8:9:$number::2" inside.test AAAA
    done
    quietly in_ host dig +tries=1 +time=1 -p 5355 @10.9.3.2 nobody.listens A
    quietly in_ host dig +tcp +tries=1 +time=1 @10.9.4.2 inside.test A
    # Fragments in a tunnel, of a tunnel, and in a tunnel that comes in fragments.
    quietly in_ host ping -c 1 -s 1400 2001:db8:9:2::2
    quietly in_ host ping -c 1 -s 1470 10.9.3.2
    quietly in_ host ping -c 1 -s 1470 10.9.4.2
    quietly in_ host ping -c 1 -s 2000 10.9.3.2
    quietly in_ host ping -c 1 -s 1500 10.9.5.2
    stop_recording
}

# The same packets in other formats and of other links.
turn_formats() {
    local link
    quietly editcap -F pcapng "$real/groups.pcap" "$real/groups.pcapng"
    quietly editcap -F nsecpcap "$real/tunnel.pcap" "$real/tunnel-nanoseconds.pcap"
    quietly editcap -F pcap -s 80 "$real/mixed.pcap" "$real/mixed-cut.pcap"
    quietly editcap -F pcapng -s 60 "$real/mixed.pcap" "$real/mixed-cut.pcapng"
    quietly mergecap -F pcapng -w "$real/merged.pcapng" "$real"/{mixed,tunnel}.pcap
    for link in null loop ppp ppp_hdlc pppoe raw ipv4 ipv6 padded vlan vlans headers; do
        ./links.py "$link" "$real/mixed.pcap" "$real/mixed-$link.pcap" || exit 1
    done
    quietly editcap -F pcap -r "$real/tunnels.pcap" "$room/tunnels.pcap" 1-24
    ./links.py headers "$room/tunnels.pcap" "$real/tunnels-headers.pcap" || exit 1
    quietly editcap -F pcap -s 74 "$real/tunnels.pcap" "$real/tunnels-cut.pcap"
}
