// Made from crates/tests_base/src/options.rt by rust/erase.
mod ipv6ext_header;
mod ipv6hbh;
mod ipv6option;
mod ndiscoption;
mod plain_reader;
