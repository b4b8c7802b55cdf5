//! The least that a cancel-safe queue can do in one thread: the atomic steps of an insert and of
//! what ends it, and a lock that nobody else wants. There is no list, and nothing is refused. The
//! words lie as the queues have them.
use std::sync::atomic::{AtomicU64, Ordering::SeqCst};
use std::time::Instant;

const IRPS: usize = 1024;
const REUSED_IRPS: usize = 64;
const REUSES: usize = 262_144;
const SET: u64 = 1 << 32;
const CANCELLED: u64 = 0xC000_0120;

/// The words of one IRP.
struct Words {
    cancel: AtomicU64,
    routine: AtomicU64,
    status: AtomicU64,
}

/// What ends an IRP that was inserted, whether it is used again, and how many IRPs there are.
#[derive(Clone, Copy)]
struct Kind {
    cancels: bool,
    again: bool,
    irps: usize,
}

impl Kind {
    fn inserts(self) -> usize {
        if self.again { REUSES } else { self.irps }
    }
}

struct Floor {
    lock: AtomicU64,
    irps: Vec<Words>,
}

impl Floor {
    fn new(irps: usize) -> Floor {
        let words = || Words {
            cancel: AtomicU64::new(0), routine: AtomicU64::new(0), status: AtomicU64::new(0)
        };
        Floor { lock: AtomicU64::new(0), irps: (0..irps).map(|_| words()).collect() }
    }

    fn locked<T>(&self, call: impl FnOnce() -> T) -> T {
        assert!(self.lock.compare_exchange(0, 1, SeqCst, SeqCst).is_ok());
        let answer = call();
        self.lock.swap(0, SeqCst);
        answer
    }

    fn insert(&self, irp: &Words, life: u64) -> bool {
        self.locked(|| {
            irp.routine.swap(2 * life + 1, SeqCst);
            irp.cancel.load(SeqCst) == 2 * life
        })
    }

    fn remove(&self, irp: &Words, life: u64) -> bool {
        self.locked(|| irp.routine.swap(2 * life, SeqCst) % 2 == 1)
    }

    fn cancel(&self, irp: &Words, life: u64) -> bool {
        let (clear, set) = (2 * life, 2 * life + 1);
        irp.cancel.compare_exchange(clear, set, SeqCst, SeqCst).is_ok()
            && irp.routine.compare_exchange(set, clear, SeqCst, SeqCst).is_ok()
            && self.locked(|| true)
    }

    fn reuse(&self, irp: &Words) {
        self.locked(|| {
            let next = (irp.status.load(SeqCst) >> 33) + 1;
            irp.status.swap(next << 33, SeqCst);
            irp.cancel.swap(2 * next, SeqCst);
        });
    }

    /// What ends an IRP of this life that was inserted. Whether it did.
    fn end(&self, kind: Kind, irp: &Words, life: u64) -> bool {
        let ended = if kind.cancels { self.cancel(irp, life) } else { self.remove(irp, life) };
        irp.status.swap((life << 33) + SET + if kind.cancels { CANCELLED } else { 0 }, SeqCst);
        if kind.again {
            self.reuse(irp);
        }
        ended
    }

    fn turn(&self, kind: Kind) -> usize {
        let mut completed = 0;
        for place in 0..kind.inserts() {
            let irp = &self.irps[place % self.irps.len()];
            let life = (place / self.irps.len()) as u64;
            completed += usize::from(self.insert(irp, life) && self.end(kind, irp, life));
        }
        completed
    }
}

fn main() {
    let words: Vec<String> = std::env::args().collect();
    let (cancels, again, irps) = match words[1].as_str() {
        "remove" => (false, false, IRPS),
        "cancel" => (true, false, IRPS),
        // (one thread inserts next what it removed last)
        "remove-again" => (false, true, 1),
        "cancel-again" => (true, true, REUSED_IRPS),
        "reuse" => (false, true, REUSED_IRPS),
        word => panic!("{word} is no kind"),
    };
    let kind = Kind { cancels, again, irps };
    let turns: usize = words[2].parse().unwrap();
    let (mut completed, mut nanoseconds) = (0, 0);
    for _ in 0..turns {
        let floor = Floor::new(kind.irps);
        let start = Instant::now();
        completed += floor.turn(kind);
        nanoseconds += start.elapsed().as_nanos();
    }
    println!("completed {completed}");
    eprintln!("{nanoseconds} ns");
}
