// Made from crates/tests_headers/src/options.rt by rust/erase.
//! The options of headers in turn.

#[allow(unused_imports)]
use crate::rattle_std::prelude::*;
use crate::rattle_std::test::Fail;
use crate::testing::{prints, same, same_of, takes_writes};
use control_wire::headers::{Ipv4Option, OptionRefusal, Options, ROUTER_ALERT, router_alert};

// Checks that these are the answers about the octets, and then the end.
fn check(octets: &[u8], answers: &[Result<Ipv4Option<'_>, OptionRefusal>]) {
    let mut left = Options::new(octets);
    for answer in answers {
        same_of(octets, left.next(), Some(*answer));
    }
    same_of(octets, left.next(), None);
    same_of(octets, left.next(), None);
}

// The first are laid out as in RFC 791 appendix A, example 3, which leaves their kinds and values open.
#[test]
fn options_in_turn() {
    let rows: &[(&[u8], &[Result<Ipv4Option<'_>, OptionRefusal>])] = &[
        (
            &[
                0x82, 0x03, 0xaa, 0x83, 0x04, 0xbb, 0xcc, 0x01, 0x84, 0x03, 0xdd, 0x00,
            ],
            &[
                Ok(Ipv4Option::Other {
                    kind: 130,
                    data: &[0xaa],
                }),
                Ok(Ipv4Option::Other {
                    kind: 131,
                    data: &[0xbb, 0xcc],
                }),
                Ok(Ipv4Option::NoOperation),
                Ok(Ipv4Option::Other {
                    kind: 132,
                    data: &[0xdd],
                }),
            ],
        ),
        (&[], &[]),
        (&[0x94, 0x04, 0x00, 0x00], &[Ok(Ipv4Option::RouterAlert(0))]),
        (
            &[0x94, 0x04, 0x12, 0x34],
            &[Ok(Ipv4Option::RouterAlert(0x1234))],
        ),
        (
            &[0x94, 0x03, 0x09, 0x07],
            &[
                Ok(Ipv4Option::Other {
                    kind: 148,
                    data: &[0x09],
                }),
                Err(OptionRefusal::NoLength),
            ],
        ),
        (
            &[0x44, 0x02],
            &[Ok(Ipv4Option::Other {
                kind: 68,
                data: &[],
            })],
        ),
        (&[0x07, 0x00, 0x00, 0x00], &[Err(OptionRefusal::Length(0))]),
        (&[0x07, 0x01, 0x00, 0x00], &[Err(OptionRefusal::Length(1))]),
        (
            &[0x01, 0x07, 0x04, 0x00],
            &[Ok(Ipv4Option::NoOperation), Err(OptionRefusal::Cut(4))],
        ),
        // What follows the end of the list is not looked at.
        (&[0x00, 0x07, 0x01], &[]),
    ];
    for (octets, answers) in rows {
        check(octets, answers);
    }
}

#[test]
fn a_copy_of_options_goes_on_from_the_same_place() -> Result<(), Fail> {
    let mut options = Options::new(&[0x01, 0x94, 0x04, 0x00, 0x00]);
    same(options.next(), Some(Ok(Ipv4Option::NoOperation)));
    let mut copy = options.try_clone()?;
    same(copy.next(), Some(Ok(Ipv4Option::RouterAlert(0))));
    same(copy.next(), None);
    same(options.next(), Some(Ok(Ipv4Option::RouterAlert(0))));
    Ok(())
}

#[test]
fn router_alerts() {
    same(router_alert(0), ROUTER_ALERT);
    for value in [0, 1, 0x1234, 0xffff] {
        let octets = router_alert(value);
        check(&octets, &[Ok(Ipv4Option::RouterAlert(value))]);
    }
}

#[test]
fn texts_of_options_and_reasons() {
    let options: &[(Ipv4Option<'_>, &str)] = &[
        (Ipv4Option::NoOperation, "no operation"),
        (Ipv4Option::RouterAlert(0xffff), "router alert value=65535"),
        (
            Ipv4Option::Other {
                kind: 131,
                data: &[0xbb, 0xcc],
            },
            "option kind=131 len=2",
        ),
    ];
    for (option, text) in options {
        prints(option, text);
    }
    takes_writes(&Ipv4Option::NoOperation, 1);
    let refusals: &[(OptionRefusal, &str)] = &[
        (OptionRefusal::NoLength, "an option ends before its length"),
        (OptionRefusal::Length(1), "a length of 1 is below 2"),
        (OptionRefusal::Cut(4), "fewer than the 4 bytes of an option"),
    ];
    for (refusal, text) in refusals {
        prints(refusal, text);
    }
    takes_writes(&OptionRefusal::NoLength, 1);
}
