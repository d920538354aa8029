//! A TAP device of Linux: an interface of Ethernet, whose frames a program reads and writes as a
//! file.

use std::ffi::{c_int, c_ulong};
use std::fs::File;
use std::io::{self, Error, Read, Result};
use std::os::fd::AsRawFd;
use std::sync::mpsc::{Receiver, sync_channel};
use std::thread::spawn;

const TUNSETIFF: c_ulong = 0x4004_54ca;
const IFF_TAP: u16 = 0x0002;
const IFF_NO_PI: u16 = 0x1000; // no octets before each frame
const NAME_LEN: usize = 16;

// std has no call that makes an open file that of a device; this one changes no memory but what it
// is handed.
unsafe extern "C" {
    fn ioctl(file: c_int, kind: c_ulong, ...) -> c_int;
}

/// What comes from outside: a frame, a line of standard input, or that the device is gone.
pub enum Event {
    Frame(Vec<u8>),
    Line(String),
    Gone,
}

/// The device of this name, which is made where there is none.
pub fn open(name: &str) -> Result<File> {
    let mut options = File::options();
    let file = options.read(true).write(true).open("/dev/net/tun")?;
    // `struct ifreq`: a name, which ends with a zero, and flags in the order of the machine.
    let mut interface = [0_u8; 40];
    let len = name.len().min(NAME_LEN - 1);
    interface[..len].copy_from_slice(&name.as_bytes()[..len]);
    interface[NAME_LEN..NAME_LEN + 2].copy_from_slice(&(IFF_TAP | IFF_NO_PI).to_ne_bytes());
    // SAFETY: the file is open, and the array has all the octets that the kernel reads and writes.
    match unsafe { ioctl(file.as_raw_fd(), TUNSETIFF, interface.as_mut_ptr()) } {
        0 => Ok(file),
        _ => Err(Error::last_os_error()),
    }
}

/// The frames of a device and the lines of standard input, as they come.
pub fn events(mut device: File) -> Receiver<Event> {
    // A frame that comes while so many wait stays with the kernel.
    let (sender, events) = sync_channel(256);
    let lines = sender.clone();
    spawn(move || {
        let mut octets = vec![0; 65_536];
        while let Ok(len) = device.read(&mut octets) {
            let _ = sender.send(Event::Frame(octets[..len].to_vec()));
        }
        let _ = sender.send(Event::Gone);
    });
    spawn(move || {
        for line in io::stdin().lines().map_while(Result::ok) {
            let _ = lines.send(Event::Line(line));
        }
    });
    events
}
