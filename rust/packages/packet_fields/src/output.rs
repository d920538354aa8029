// Made from crates/packet_fields/src/output.rt by rust/erase.
//! Where listings go.

use control_wire::inside::text::Sink;
use rattle_std::io;
use rattle_std::io::Write;

/// Texts go to an `io::Write`, each in one `write_all`. Inlined: a text that the caller knows is copied without a call.
pub struct ToWriter;

impl<W: Write> Sink<W> for ToWriter {
    type Error = io::Error;

    #[inline(always)]
    fn put(output: &mut W, text: &[u8]) -> io::Result<()> {
        output.write_all(text)
    }

    #[inline(always)]
    fn put_str(output: &mut W, text: &str) -> io::Result<()> {
        output.write_all(text.as_bytes())
    }
}
