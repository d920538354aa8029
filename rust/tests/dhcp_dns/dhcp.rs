// Made from crates/tests_dhcp_dns/src/dhcp.rt by rust/erase.
mod dhcpv4;
mod dhcpv4_kinds;
mod dhcpv4_option_printing;
mod dhcpv4_parts;
mod dhcpv4_refusal;
mod dhcpv4_repr;
mod dhcpv4_table;
mod plain_reader;
