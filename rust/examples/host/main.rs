//! A host on a TAP device, with an address of IPv4 and those of IPv6 that it forms itself (Linux,
//! as root):
//!
//!     host [DEVICE [HARDWARE [IPV4 [LINK-LOCAL [IPV4-GROUP [IPV6-GROUP]]]]]]
//!
//! It answers echoes, also those in fragments; tells that no port has a listener; looks for
//! neighbors and for routers; sees whether its addresses are free; and is a member of the groups,
//! in the version that the querier speaks, until it reads the line `leave`. Each event is a line.
//! It has all of IPv4 on its link.

mod device;
mod groups;
mod link;
mod neighbors;
mod packets;

use control_wire::frames::Addresses;
use control_wire::{EthernetAddress, IpProtocol, Ipv4Address, Ipv6Address};
use device::Event;
use examples::addresses::{self, State};
use examples::link_parameters::LinkParameters;
use examples::neighbor;
use examples::neighbor_cache::NeighborCache;
use examples::reporter::Reporter;
use examples::router_list::{RouterList, entries::Lifetime};
use groups::by_chance;
use link::{mapped, unmapped, written};
use reassembly::Reassembly;
use std::error::Error;
use std::fs::File;
use std::net::IpAddr;
use std::sync::mpsc::{Receiver, RecvTimeoutError};
use std::time::{Duration, Instant};

const DEFAULTS: &str = "tap0 02:00:00:00:00:02 192.0.2.2 fe80::ff:fe00:2 233.252.0.1 ff15::1";

/// How many milliseconds pass until the host looks again what is to be done.
const TICK: u32 = 10;

struct Host {
    device: File,
    hardware: EthernetAddress,
    v4: Ipv4Address,
    link_local: Ipv6Address,
    addresses: addresses::Addresses,
    /// Those of IPv4 are kept by the addresses of IPv6 to which theirs are mapped
    /// (RFC 4291 section 2.5.5.2).
    neighbors: NeighborCache,
    /// Packets, each with the neighbor that it goes to.
    waiting: Vec<(Ipv6Address, Vec<u8>)>,
    routers: RouterList,
    link: LinkParameters,
    /// The groups that it is a member of until it is told to leave.
    wanted: Option<(Ipv4Address, Ipv6Address)>,
    igmp: Reporter<Ipv4Address>,
    mld: Reporter<Ipv6Address>,
    reassembly: Reassembly,
    ident: u32,
    /// How many errors were sent in this second.
    errors: u32,
    /// Whether the device takes frames.
    is_up: bool,
    /// For how many milliseconds it still solicits routers.
    soliciting: u32,
}

impl Host {
    /// Takes what comes, and does what is to be done at its time.
    fn run(&mut self, events: &Receiver<Event>) -> Result<(), Box<dyn Error>> {
        let tick = Duration::from_millis(TICK.into());
        let (mut last, mut ticks) = (Instant::now(), 0);
        loop {
            match events.recv_timeout(tick) {
                Ok(Event::Frame(frame)) => drop(self.receive(&frame)),
                Ok(Event::Line(line)) if line == "leave" => {
                    self.wanted = None;
                    println!("left");
                }
                Ok(Event::Line(_)) | Err(RecvTimeoutError::Timeout) => {}
                _ => return Err("the device is gone".into()),
            }
            while last.elapsed() >= tick {
                last += tick;
                ticks = (ticks + 1) % (1_000 / TICK);
                self.pass(ticks == 0);
            }
            self.send_waiting();
        }
    }

    /// Lets a tick pass, and perhaps a second with it.
    fn pass(&mut self, is_second: bool) {
        self.addresses.wait(TICK);
        self.neighbors.pass(TICK);
        self.igmp.pass(TICK);
        self.mld.pass(TICK);
        if is_second {
            self.addresses.pass(1);
            self.routers.pass(1);
            self.errors = 0;
        }
        if is_second && !self.is_up && self.announce() {
            self.is_up = true;
            let forever = Lifetime::Forever;
            self.addresses.add(&self.link_local, forever, forever);
        }
        if self.is_up {
            self.report_all();
            self.detect();
            self.solicit_routers();
        }
        self.ask();
    }
}

fn main() -> Result<(), Box<dyn Error>> {
    let mut words: Vec<_> = DEFAULTS.split(' ').map(String::from).collect();
    for (word, given) in words.iter_mut().zip(std::env::args().skip(1)) {
        *word = given;
    }
    let octets = words[1].split(':').map(|it| u8::from_str_radix(it, 16));
    let octets = octets.collect::<Result<Vec<u8>, _>>()?;
    let octets: [u8; 6] = octets.try_into().map_err(|_| "six octets, please")?;
    let device = device::open(&words[0])?;
    let events = device::events(device.try_clone()?);
    let mut host = Host {
        device,
        hardware: EthernetAddress(octets),
        v4: words[2].parse()?,
        link_local: words[3].parse()?,
        addresses: addresses::Addresses::new(),
        neighbors: NeighborCache::new(),
        waiting: Vec::new(),
        routers: RouterList::new(),
        link: LinkParameters::new(),
        wanted: Some((words[4].parse()?, words[5].parse()?)),
        igmp: Reporter::new(),
        mld: Reporter::new(),
        reassembly: Reassembly::new(),
        ident: by_chance(),
        errors: 0,
        is_up: false,
        soliciting: 0,
    };
    println!("host {}", words[..3].join(" "));
    host.run(&events)
}
