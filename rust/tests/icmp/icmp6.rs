// Made from crates/tests_icmp/src/icmp6.rt by rust/erase.
mod icmpv6;
mod mld;
mod ndisc;
mod plain_reader;
