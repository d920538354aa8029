//! Times and allocations.

use std::alloc::{GlobalAlloc, Layout, System};
use std::hint::black_box;
use std::sync::atomic::{AtomicU64, Ordering};
use std::time::Instant;

// How often a call is made for a figure, and how often a figure is taken: the least counts.
const ROUNDS: u32 = 1_000;
const TRIES: usize = 500;

// The system's allocator, which counts.
struct Counting;

static ALLOCATIONS: AtomicU64 = AtomicU64::new(0);

// SAFETY: each call is the system's.
unsafe impl GlobalAlloc for Counting {
    unsafe fn alloc(&self, layout: Layout) -> *mut u8 {
        ALLOCATIONS.fetch_add(1, Ordering::Relaxed);
        unsafe { System.alloc(layout) }
    }

    unsafe fn dealloc(&self, at: *mut u8, layout: Layout) {
        unsafe { System.dealloc(at, layout) }
    }
}

#[global_allocator]
static ALLOCATOR: Counting = Counting;

/// What stands above the rows.
pub fn head() {
    println!(
        "{:<26} {:>8} {:>12} {:>10} {:>6} {:>12}",
        "", "here ns", "peer", "peer ns", "ratio", "allocations"
    );
}

/// Prints a row: the time of a call here and of the peer's, how many times as long the peer takes, and how often each
/// allocates. The calls are tried in turn, so that both have the machine's good moments.
pub fn row<A, B>(
    what: &str,
    peer: &str,
    mut ours: impl FnMut() -> A,
    mut theirs: impl FnMut() -> B,
) {
    let (mut here, mut there) = (f64::MAX, f64::MAX);
    for _ in 0..TRIES {
        here = here.min(time(&mut ours));
        there = there.min(time(&mut theirs));
    }
    let (ours, theirs) = (allocations(ours), allocations(theirs));
    println!(
        "{what:<26} {here:>8.1} {peer:>12} {there:>10.1} {:>6.2} {ours:>5} {theirs:>6}",
        there / here
    );
}

/// Nanoseconds of a call.
pub fn time<A>(call: &mut impl FnMut() -> A) -> f64 {
    let start = Instant::now();
    for _ in 0..ROUNDS {
        black_box(call());
    }
    start.elapsed().as_nanos() as f64 / f64::from(ROUNDS)
}

fn allocations<A>(mut call: impl FnMut() -> A) -> u64 {
    let before = ALLOCATIONS.load(Ordering::Relaxed);
    black_box(call());
    ALLOCATIONS.load(Ordering::Relaxed) - before
}
