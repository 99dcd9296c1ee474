// A mutex of the standard library, and a plain ticket lock, for bench/lock: turns of threads at a counter, as
// crates/xr_bench has them.
use std::cell::UnsafeCell;
use std::env;
use std::hint::spin_loop;
use std::process::exit;
use std::sync::atomic::{AtomicU64, Ordering::SeqCst};
use std::sync::Mutex;
use std::thread;
use std::time::Instant;

// as many as the proved lock makes before it parks
const LOOKS: u32 = 256;

struct Counter {
    turns: u64,
    mixed: u64,
}

fn mix(from: u64, rounds: u64) -> u64 {
    let mut mixed = from;
    for round in 0..rounds {
        mixed = (mixed ^ (mixed >> 29)).wrapping_mul(6_364_136_223_846_793_005).wrapping_add(round);
    }
    mixed
}

impl Counter {
    const fn new() -> Counter {
        Counter { turns: 0, mixed: 0 }
    }

    fn turn(&mut self, most: u64, inside: u64) -> bool {
        if self.turns >= most {
            return true;
        }
        self.turns += 1;
        self.mixed = mix(self.mixed, inside);
        false
    }
}

extern "C" {
    fn syscall(number: i64, ...) -> i64;
}

// Words as those of the proved lock lie: beside each other.
#[repr(C)]
struct Ticket {
    next: AtomicU64,
    served: AtomicU64,
    counter: UnsafeCell<Counter>,
}

unsafe impl Sync for Ticket {}

impl Ticket {
    fn park(&self, seen: u32) {
        let wait_private = 128;
        unsafe { syscall(202, &self.served as *const AtomicU64, wait_private, seen, 0usize) };
    }

    fn wake_all(&self) {
        let wake_private = 129;
        unsafe { syscall(202, &self.served as *const AtomicU64, wake_private, i32::MAX) };
    }

    fn turn(&self, most: u64, inside: u64) -> bool {
        let mine = self.next.fetch_add(1, SeqCst);
        let mut looks = 0;
        loop {
            let now = self.served.load(SeqCst);
            if now == mine {
                break;
            }
            if looks < LOOKS {
                looks += 1;
                spin_loop();
            } else {
                self.park(now as u32);
            }
        }
        let enough = unsafe { &mut *self.counter.get() }.turn(most, inside);
        let served = self.served.fetch_add(1, SeqCst);
        if self.next.load(SeqCst) != served.wrapping_add(1) {
            self.wake_all();
        }
        enough
    }
}

fn on_threads(threads: u64, turn: impl Fn() -> bool + Sync) {
    thread::scope(|scope| {
        for _ in 0..threads {
            scope.spawn(|| while !turn() {});
        }
    });
}

fn main() {
    let words: Vec<String> = env::args().skip(1).collect();
    let numbers: Vec<u64> = words.iter().skip(1).filter_map(|word| word.parse().ok()).collect();
    let [threads, turns, inside] = numbers[..] else { exit(2) };
    let start = Instant::now();
    let had = match words[0].as_str() {
        "mutex" => {
            let counter = Mutex::new(Counter::new());
            on_threads(threads, || counter.lock().unwrap().turn(turns, inside));
            counter.into_inner().unwrap()
        }
        "ticket" => {
            let (next, served) = (AtomicU64::new(0), AtomicU64::new(0));
            let lock = Ticket { next, served, counter: UnsafeCell::new(Counter::new()) };
            on_threads(threads, || lock.turn(turns, inside));
            lock.counter.into_inner()
        }
        _ => exit(2),
    };
    println!("{} turns in {} ns", had.turns, start.elapsed().as_nanos());
    if had.mixed == 1 {
        exit(3);
    }
}
