// Made from crates/tests_dhcp_dns/src/dns.rt by rust/erase.
mod dns;
mod dns_name;
