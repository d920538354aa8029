//! A ping responder as a firmware has it, to see what is left of the library in it.
#![no_std]

use control_wire::ChecksumCapabilities;
use control_wire::icmpv4::{Packet, Repr};

/// Writes the answer to an echo request, and says how many bytes it takes: 0 where there is none.
#[unsafe(no_mangle)]
pub fn answer(request: &[u8], reply: &mut [u8]) -> usize {
    let caps = ChecksumCapabilities::default();
    let Ok(Repr::EchoRequest {
        ident,
        seq_no,
        data,
    }) = Repr::parse(&Packet::new_unchecked(request), &caps)
    else {
        return 0;
    };
    let answer = Repr::EchoReply {
        ident,
        seq_no,
        data,
    };
    let Some(out) = reply.get_mut(..answer.buffer_len()) else {
        return 0;
    };
    answer.emit_into(out, &caps);
    answer.buffer_len()
}

unsafe extern "C" {
    safe fn halt() -> !;
}

#[panic_handler]
fn panic(_: &core::panic::PanicInfo<'_>) -> ! {
    halt()
}
