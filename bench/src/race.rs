//! Batches of all contenders in turn; the fastest batch of each counts. Time is that of the processor for this thread, so another
//! program on the machine takes none of it.

use crate::libraries::takes;
use std::ffi::c_long;

/// Microseconds of a batch, at least.
const BATCH: f64 = 100.0;
/// Microseconds that a contender has for all its batches, about.
const ALL: f64 = 150_000.0;
/// Batches at least; of a run that takes longer than all batches should, fewer.
const FEWEST: f64 = 20.0;
const FEWEST_SLOW: f64 = 2.0;

/// The copies of one call in the proved library, in plain Rust, and in the library of an earlier commit if it has the call and takes the
/// net files and the clearance.
pub struct Contenders<F: ?Sized> {
    now: Vec<Box<F>>,
    plain: Vec<Box<F>>,
    before: Vec<Box<F>>,
}

impl<F: ?Sized> Contenders<F> {
    /// For net files of this version, and this clearance: 0 where the call takes none.
    pub fn new(
        version: u32,
        clearance: u16,
        copies: impl Fn(&str) -> Vec<Box<F>>,
    ) -> Contenders<F> {
        let taking = |library| match takes(library, version, clearance) {
            true => copies(library),
            false => Vec::new(),
        };
        Contenders {
            now: taking("now"),
            plain: taking("plain"),
            before: taking("before"),
        }
    }
}

/// Microseconds of one run of each, fastest batch.
pub struct Fastest {
    pub now: f64,
    pub plain: f64,
    pub before: f64,
}

#[repr(C)]
struct Time {
    seconds: c_long,
    nanoseconds: c_long,
}

extern "C" {
    fn clock_gettime(clock: i32, time: *mut Time) -> i32;
}

/// The processor's microseconds for this thread.
fn clock() -> f64 {
    const THREAD: i32 = 3;
    let mut time = Time {
        seconds: 0,
        nanoseconds: 0,
    };
    // SAFETY: the time is one that C knows
    assert_eq!(unsafe { clock_gettime(THREAD, &mut time) }, 0);
    time.seconds as f64 * 1e6 + time.nanoseconds as f64 / 1e3
}

fn batch<F: ?Sized>(runs: usize, call: &F, run: &mut impl FnMut(&F)) -> f64 {
    let start = clock();
    for _ in 0..runs {
        run(call);
    }
    (clock() - start) / runs as f64
}

/// The fastest of the copies.
fn fastest<F: ?Sized>(runs: usize, copies: &[Box<F>], run: &mut impl FnMut(&F)) -> f64 {
    let times = copies.iter().map(|call| batch(runs, &**call, run));
    times.fold(f64::INFINITY, f64::min)
}

pub fn race<F: ?Sized>(contenders: &Contenders<F>, mut run: impl FnMut(&F)) -> Fastest {
    let Contenders { now, plain, before } = contenders;
    let mut once = fastest(1, plain, &mut run);
    let mut least = FEWEST_SLOW;
    if once < ALL {
        once = fastest(3, plain, &mut run);
        least = FEWEST;
    }
    let runs = (BATCH / once).ceil() as usize;
    let batches = (ALL / (once * runs as f64)).clamp(least, 500.0) as usize;
    let mut best = Fastest {
        now: f64::INFINITY,
        plain: f64::INFINITY,
        before: f64::INFINITY,
    };
    for _ in 0..batches {
        best.now = best.now.min(fastest(runs, now, &mut run));
        best.plain = best.plain.min(fastest(runs, plain, &mut run));
        best.before = best.before.min(fastest(runs, before, &mut run));
    }
    best
}
