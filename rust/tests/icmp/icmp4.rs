// Made from crates/tests_icmp/src/icmp4.rt by rust/erase.
mod icmpv4;
mod igmp;
