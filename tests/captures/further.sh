# Further scenes of make, each of which needs its networks and the addresses of the host alone: they can be played by
# their names. What no program sends, send.py does.
# shellcheck shell=bash

# Routers advertise each option that radvd has, to a host that looks for its addresses with a nonce (RFC 7527) and asks;
# and they take back what they advertised.
scene_routers() {
    join router far host new
    set_kernel host ipv6.conf.new.accept_ra_defrtr=0 ipv6.conf.new.accept_ra_rt_info_max_plen=128
    in_ router ip link set far address 02:00:00:00:00:0f up
    in_ host ip link set new address 02:00:00:00:00:0e up
    record routers.pcap host new icmp6
    sleep 2
    start router radvd --nodaemon --config="$PWD/radvd.conf" --logmethod=stderr --username=root \
        --pidfile="$room/radvd.pid" 2>"$room/radvd"
    local radvd=$!
    until_says "$room/radvd" started
    quietly in_ host rdisc6 -1 new
    sleep 2
    kill "$radvd"
    wait "$radvd"
    quietly in_ router ./send.py adverts far
    stop_recording
    in_ host ip link del new
}

# Groups are joined for the packets of some senders, or of all but some, while the bridge asks for their members. Then
# it asks with times that are numbers with an exponent (RFC 3376 section 4.1.1).
scene_sources() {
    querier() { in_ router ip link set lan type bridge "$@"; }
    # An interface that saw no querier of an earlier version.
    join host member router port3
    in_ router ip link set port3 up master lan
    in_ host ip address add 192.0.2.17/24 dev member noprefixroute
    in_ host ip link set member address 02:00:00:00:00:11 up
    sleep 2
    querier mcast_igmp_version 3 mcast_mld_version 2 mcast_query_response_interval 50 \
        mcast_startup_query_interval 300 mcast_startup_query_count 3
    # Without what others say of themselves.
    record sources.pcap host member igmp or ip6 and src host not \(fe80::ff:fe00:7 or fe80::ff:fe00:9\) and not \
        '(src host fe80::ff:fe00:1 and dst host ff02::16)'
    querier mcast_querier 1
    quietly in_ host ./send.py sources member
    querier mcast_querier 0
    querier mcast_query_interval 20000 mcast_query_response_interval 4000
    querier mcast_querier 1
    sleep 0.3
    querier mcast_querier 0
    quietly in_ host ./send.py records member
    quietly in_ router ./send.py query lan
    stop_recording
    in_ host ip link del member
}

# Requests of ICMPv4 beside echoes, requests about interfaces, which the kernel answers, and queries about a node.
scene_requests() {
    local kind index responder zebra
    set_kernel router ipv4.icmp_echo_enable_probe=1
    record requests.pcap host eth 'icmp or (icmp6 and (ip6[40] > 138 or ip6[40] < 133))'
    # Where FRR is to be had, it advertises the router, first after 16 seconds (its release 8.4.4 from the address with
    # its octets the other way around). It has a user of its own, who reads its folder alone.
    if zebra=$(PATH=$PATH:/usr/lib/frr command -v zebra); then
        mkdir -- "$room/frr"
        cp -- irdp.conf "$room/frr"
        chmod a+x "$room"
        chown -R frr:frr "$room/frr"
        start router "$zebra" --config_file "$room/frr/irdp.conf" -M irdp --vty_port 0 --socket "$room/frr/socket" \
            --pid_file "$room/frr/pid" --vty_socket "$room/frr" --log stdout >"$room/zebra" 2>&1
        zebra=$!
        until_says "$room/zebra" starting
    fi
    for kind in timestamp information mask; do
        quietly in_ host nping --icmp --icmp-type "$kind" --count 1 --icmp-id 4660 --icmp-seq 1 192.0.2.1
    done
    quietly in_ router ./send.py replies 192.0.2.7
    quietly in_ host nping --icmp --icmp-type router-solicitation --count 1 --interface eth 224.0.0.2
    quietly in_ host nping --icmp --icmp-type router-advertisement --count 1 --icmp-advert-lifetime 1800 \
        --icmp-advert-entry 192.0.2.1,5 --icmp-advert-entry 192.0.2.9,4294967295 192.0.2.1
    index=$(in_ router cat /sys/class/net/lan/ifindex)
    quietly in_ host ./send.py probes 192.0.2.1 2001:db8:1::1 "$index"
    quietly in_ router ./send.py states 192.0.2.7 2001:db8:1::7
    start router ./send.py node >"$room/node"
    responder=$!
    until_says "$room/node" open
    for kind in name ipv6 ipv6-all ipv6-linklocal ipv4 ipv4-all; do
        quietly in_ host ping -6 -c 1 -W 1 -N "$kind" 2001:db8:1::1
    done
    for kind in ipv6=fe80::ff:fe00:1 ipv4=192.0.2.1 name=router fqdn=router.example.test; do
        quietly in_ host ping -6 -c 1 -W 1 -N name -N "subject-$kind" 2001:db8:1::1
    done
    quietly in_ host ./send.py queries 2001:db8:1::1
    kill "$responder"
    [ -z "$zebra" ] || { sleep 8; kill "$zebra"; }
    stop_recording
}

# Errors with extensions, and those that quote datagrams with headers that extend IPv6.
scene_extensions() {
    set_kernel router ipv4.ipfrag_time=1 ipv6.ip6frag_time=1 ipv6.conf.all.seg6_enabled=1 ipv6.conf.lan.seg6_enabled=1
    record extensions.pcap host eth icmp or ip6
    quietly in_ host ./send.py extensions 192.0.2.1 2001:db8:1::1
    quietly in_ host ./send.py behind 2001:db8:1::1 2001:db8:2::2
    stop_recording
}
