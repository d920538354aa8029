//! A multicast querier on a TAP device (Linux, as root):
//!
//!     querier [DEVICE [HARDWARE-ADDRESS [ADDRESS [VERSION [SECONDS]]]]]
//!
//! With an address of IPv4 it asks by IGMP, version 2 or 3, and with a link-local one of IPv6 by MLD, version 1 or 2: a
//! general query each 125 seconds, or so many. A line tells when it sends a query, when hosts of the link want a group
//! or a source of it, when none wants it any more, and when another router asks in its place.

#[path = "../host/device.rs"]
mod device;
mod packets;

use control_wire::{Ipv4Address, Ipv6Address};
use examples::querier::reception::ReceptionKey;
use examples::querier::variables::Variables;
use examples::querier::{Asked, Querier};
use packets::Protocol;
use std::error::Error;
use std::fs::File;
use std::io::{Read, Write};
use std::net::IpAddr;
use std::sync::mpsc::{Receiver, RecvTimeoutError, sync_channel};
use std::time::{Duration, Instant};

/// The most groups and sources that are kept, and the most frames that wait: a flood takes no more memory.
const MOST: usize = 256;

/// A group, or a source of it, in words.
fn words<A: Protocol>(key: &ReceptionKey<A>) -> String {
    match key.source {
        Some(source) => format!("{} from {source}", key.group),
        None => format!("{}", key.group),
    }
}

struct Router<A> {
    device: File,
    hardware: [u8; 6],
    own: A,
    version: u8,
    variables: Variables,
}

impl<A: Protocol> Router<A> {
    fn send(&mut self, asked: &Asked<A>) -> Result<(), Box<dyn Error>> {
        let mut source = [0; 16];
        let query = match self.version < A::VERSION {
            true => self.variables.older_query(asked),
            false => self.variables.query(asked, &mut source),
        };
        let (group, about) = match asked {
            Asked::All => (None, String::new()),
            Asked::Reception(key) => (Some(key.group), format!(" {}", words(key))),
        };
        let [to, kind, packet] = A::frame(self.own, group, &query);
        let frame = [&to[..], &self.hardware, &kind, &packet].concat();
        self.device.write_all(&frame)?;
        println!("query {} version {}{about}", A::NAME, query.version());
        Ok(())
    }

    /// Takes the frames as they come, and asks when it is time.
    fn run(&mut self, frames: &Receiver<Vec<u8>>) -> Result<(), Box<dyn Error>> {
        let mut querier = Querier::<A, MOST>::new(self.own, self.variables.times::<A>());
        let mut known = Vec::new();
        let mut since = Instant::now();
        loop {
            let passed = since.elapsed().as_millis() as u32;
            since += Duration::from_millis(passed.into());
            querier.pass(passed);
            while let Some(asked) = querier.next_query() {
                self.send(&asked)?;
            }
            known = tell(&known, &querier);
            match frames.recv_timeout(Duration::from_millis(20)) {
                Ok(frame) => {
                    let told = A::heard(&frame).filter(|(from, _)| *from != A::unspecified());
                    if let Some((from, message)) = told {
                        let asked = querier.is_querier();
                        querier.hear(&from, &message);
                        if asked && !querier.is_querier() {
                            println!("querier {from}");
                        }
                    }
                }
                Err(RecvTimeoutError::Timeout) => {}
                Err(RecvTimeoutError::Disconnected) => return Err("the device is gone".into()),
            }
        }
    }
}

/// Tells what hosts want that they did not before, and what they do not want any more.
fn tell<A: Protocol>(
    known: &[ReceptionKey<A>],
    querier: &Querier<A, MOST>,
) -> Vec<ReceptionKey<A>> {
    let keys: Vec<_> = querier.receptions().iter().map(|it| it.key()).collect();
    for key in keys.iter().filter(|key| !known.contains(key)) {
        println!("group {}", words(key));
    }
    for key in known.iter().filter(|key| !keys.contains(key)) {
        println!("end of {}", words(key));
    }
    keys
}

fn start<A: Protocol>(own: A, words: &[String; 5]) -> Result<(), Box<dyn Error>> {
    let [name, hardware, _, version, seconds] = words;
    let octets = hardware.split(':').map(|it| u8::from_str_radix(it, 16));
    let octets = octets.collect::<Result<Vec<u8>, _>>()?;
    let hardware: [u8; 6] = octets.try_into().map_err(|_| "six octets, please")?;
    let seconds: u8 = seconds.parse()?;
    let variables = Variables {
        robustness: 2,
        interval_code: seconds.clamp(2, 127),
        response_code: A::SECOND * u16::from(seconds / 2).clamp(1, 10), // less than the interval
        last_member_code: A::SECOND,
    };
    let device = device::open(name)?;
    let mut reader = device.try_clone()?;
    // A frame that comes while so many wait stays with the kernel.
    let (sender, frames) = sync_channel(MOST);
    std::thread::spawn(move || {
        let mut octets = vec![0; 65_536];
        while let Ok(len) = reader.read(&mut octets) {
            if sender.send(octets[..len].to_vec()).is_err() {
                break;
            }
        }
    });
    let version = version.parse()?;
    Router {
        device,
        hardware,
        own,
        version,
        variables,
    }
    .run(&frames)
}

fn main() -> Result<(), Box<dyn Error>> {
    let mut words = ["tap0", "02:00:00:00:00:02", "192.0.2.2", "3", "125"].map(String::from);
    for (word, given) in words.iter_mut().zip(std::env::args().skip(1)) {
        *word = given;
    }
    match words[2].parse::<IpAddr>()? {
        IpAddr::V4(own) => start(Ipv4Address::from(own.octets()), &words),
        IpAddr::V6(own) => start(Ipv6Address::from(own), &words),
    }
}
