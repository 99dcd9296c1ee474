// A sequence lock and a plain ticket lock for bench/getters: threads that read the words of one published action, beside a thread that
// writes all words, as those of crates/xr_bench do.
use std::env;
use std::hint::{black_box, spin_loop};
use std::process::exit;
use std::sync::atomic::{AtomicU64, Ordering::SeqCst};
use std::thread;
use std::time::Instant;

// the words of what is published of one action: the heading, the action's two, and its columns
const WORDS: usize = 22;
// what a getter looks at: the heading, the action's two, the atoms of the user paths, and two words of a column
const LOOKS: [usize; 12] = [0, 1, 2, 8, 9, 3, 4, 5, 6, 7, 10, 11];

struct Published {
    words: [AtomicU64; WORDS],
}

impl Published {
    fn read(&self) -> u64 {
        LOOKS.iter().map(|place| self.words[*place].load(SeqCst)).fold(0, u64::wrapping_add)
    }

    fn write(&self, number: u64) {
        for word in &self.words {
            word.store(number, SeqCst);
        }
    }
}

trait Shares: Sync {
    fn read(&self) -> u64;
    fn write(&self, number: u64);
}

#[repr(align(64))]
struct Sequence {
    number: AtomicU64,
    published: Published,
}

impl Shares for Sequence {
    fn read(&self) -> u64 {
        loop {
            let before = self.number.load(SeqCst);
            if before % 2 == 0 {
                let sum = self.published.read();
                if self.number.load(SeqCst) == before {
                    return sum;
                }
            }
            spin_loop();
        }
    }

    fn write(&self, number: u64) {
        self.number.fetch_add(1, SeqCst);
        self.published.write(number);
        self.number.fetch_add(1, SeqCst);
    }
}

#[repr(align(64))]
struct Ticket {
    next: AtomicU64,
    served: AtomicU64,
    published: Published,
}

impl Ticket {
    fn alone<T>(&self, what: impl FnOnce(&Published) -> T) -> T {
        let mine = self.next.fetch_add(1, SeqCst);
        let mut looks = 0;
        while self.served.load(SeqCst) != mine {
            looks += 1;
            if looks < 256 {
                spin_loop();
            } else {
                thread::yield_now();
            }
        }
        let told = what(&self.published);
        self.served.fetch_add(1, SeqCst);
        told
    }
}

impl Shares for Ticket {
    fn read(&self) -> u64 {
        self.alone(Published::read)
    }

    fn write(&self, number: u64) {
        self.alone(|published| published.write(number));
    }
}

fn measure(shared: &impl Shares, threads: u64, calls: u64, beside: bool) {
    let (done, syncs, start) = (AtomicU64::new(0), AtomicU64::new(0), Instant::now());
    thread::scope(|scope| {
        for _ in 0..threads {
            scope.spawn(|| {
                for _ in 0..calls {
                    black_box(shared.read());
                }
                done.fetch_add(1, SeqCst);
            });
        }
        if beside {
            scope.spawn(|| {
                while done.load(SeqCst) < threads {
                    shared.write(syncs.fetch_add(1, SeqCst));
                }
            });
        }
    });
    let (spent, syncs) = (start.elapsed().as_nanos(), syncs.into_inner());
    println!("{} calls in {spent} ns beside {syncs} syncs", threads * calls);
}

fn main() {
    let words: Vec<String> = env::args().skip(1).collect();
    let numbers: Vec<u64> = words.iter().skip(1).filter_map(|word| word.parse().ok()).collect();
    let [threads, calls] = numbers[..] else { exit(2) };
    let published = Published { words: [const { AtomicU64::new(0) }; WORDS] };
    let (number, next, served) = (AtomicU64::new(0), AtomicU64::new(0), AtomicU64::new(0));
    match words[0].as_str() {
        "sequence" => measure(&Sequence { number, published }, threads, calls, false),
        "sequence-beside" => measure(&Sequence { number, published }, threads, calls, true),
        "ticket" => measure(&Ticket { next, served, published }, threads, calls, false),
        "ticket-beside" => measure(&Ticket { next, served, published }, threads, calls, true),
        _ => exit(2),
    }
}
