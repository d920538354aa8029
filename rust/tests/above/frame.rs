// Made from crates/tests_above/src/frame.rt by rust/erase.
mod datagram;
mod datagram_display;
mod joined;
mod jumbogram;
mod link;
mod link_display;
mod link_pseudo_headers;
mod link_wide_area;
mod names;
mod tcp;
mod tcp_display;
mod tunnel;
mod tunnel_display;
mod udp;
mod udp_display;
