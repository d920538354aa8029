//! Answers an echo request of ICMPv4, and prints both messages.

use control_wire::ChecksumCapabilities;
use control_wire::icmpv4::{Packet, Repr};

fn main() {
    let checksums = ChecksumCapabilities::default();
    let request = Repr::EchoRequest {
        ident: 0x1234,
        seq_no: 1,
        data: b"hello",
    };
    let mut octets = vec![0; request.buffer_len()];
    request.emit_into(&mut octets, &checksums);
    println!("{}", Packet::new_unchecked(&octets));

    let view = Packet::new_unchecked(&octets);
    match Repr::parse(&view, &checksums) {
        Ok(Repr::EchoRequest {
            ident,
            seq_no,
            data,
        }) => {
            let reply = Repr::EchoReply {
                ident,
                seq_no,
                data,
            };
            let mut answer = vec![0; reply.buffer_len()];
            reply.emit_into(&mut answer, &checksums);
            println!("{}", Packet::new_unchecked(&answer));
        }
        Ok(_) => println!("another message"),
        Err(error) => println!("refused: {error}"),
    }
}
