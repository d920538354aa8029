// Made from crates/header_wire/src/extended_echo/display.rt by rust/erase.
//! What requests about an interface and their answers print.

use super::{ExtendedEchoReply, ExtendedEchoRequest};
use core::fmt;

/// The numbers, the flag, and the number of bytes of the data.
impl fmt::Display for ExtendedEchoRequest<'_> {
    fn fmt(&self, f: &mut fmt::Formatter<'_>) -> fmt::Result {
        let ident = self.ident;
        let seq_no = self.seq_no;
        let local = self.local;
        let len = self.data.len();
        write!(f, "id={ident} seq={seq_no} local={local} len={len}")
    }
}

/// The code, the numbers, the state and the flags.
impl fmt::Display for ExtendedEchoReply {
    fn fmt(&self, f: &mut fmt::Formatter<'_>) -> fmt::Result {
        let code = self.code;
        let ident = self.ident;
        let seq_no = self.seq_no;
        let state = self.state;
        let active = self.active;
        let ipv4 = self.ipv4;
        let ipv6 = self.ipv6;
        write!(
            f,
            "code={code} id={ident} seq={seq_no} state={state} active={active} ipv4={ipv4} ipv6={ipv6}"
        )
    }
}
