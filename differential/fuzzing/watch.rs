//! Watches over the calls: says which one takes too long, ends the program where none comes back, and
//! names the call that touched a closed page.

use std::process;
use std::sync::atomic::{AtomicU64, AtomicUsize, Ordering::Relaxed};
use std::thread;
use std::time::{Duration, Instant};

use crate::calls::NAMES;

/// After how many seconds a call is named, and after how many it is given up.
const NAMED_S: u64 = 10;
const GIVEN_UP_S: u64 = 60;

/// The signals of a touched page, and of an instruction that is none.
const TOUCHED: [i32; 3] = [11, 7, 4];

unsafe extern "C" {
    fn signal(number: i32, handler: extern "C" fn(i32)) -> usize;
}

static SEED: AtomicU64 = AtomicU64::new(0);
static CASE: AtomicU64 = AtomicU64::new(0);
static CALL: AtomicUsize = AtomicUsize::new(0);
/// How many calls were begun or ended: odd while one runs.
static CALLS: AtomicU64 = AtomicU64::new(0);

pub fn case(index: u64) {
    CASE.store(index, Relaxed);
}

pub fn begin(call: usize) {
    CALL.store(call, Relaxed);
    CALLS.fetch_add(1, Relaxed);
}

pub fn end() {
    CALLS.fetch_add(1, Relaxed);
}

fn tell(what: &str) {
    let (case, name) = (CASE.load(Relaxed), NAMES[CALL.load(Relaxed)]);
    let seed = SEED.load(Relaxed);
    eprintln!("fuzz: {name} {what}: case {case} of seed {seed}");
}

/// A call of the library holds no lock, so that printing from here is safe enough.
extern "C" fn touched(_: i32) {
    tell("touched memory outside its buffers");
    process::abort();
}

/// Looks once a second whether the same call is still running.
pub fn start(seed: u64) {
    SEED.store(seed, Relaxed);
    for number in TOUCHED {
        // The handler never returns.
        unsafe { signal(number, touched) };
    }
    thread::spawn(move || {
        let (mut seen, mut since, mut told) = (0, Instant::now(), false);
        loop {
            thread::sleep(Duration::from_secs(1));
            let now = CALLS.load(Relaxed);
            if now != seen || now.is_multiple_of(2) {
                (seen, since, told) = (now, Instant::now(), false);
                continue;
            }
            let seconds = since.elapsed().as_secs();
            if seconds >= NAMED_S && !told {
                tell("has run for over 10 s");
                told = true;
            }
            if seconds >= GIVEN_UP_S {
                eprintln!("fuzz: given up");
                process::exit(1);
            }
        }
    });
}
