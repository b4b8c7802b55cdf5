//! A plain queue of the same design, to time the proved one against: a mutex round a list of
//! entries, the IRPs that were used, their lives and the files that were closed, and for each IRP a
//! Cancel flag, a routine and a status in atomic words, each with the life that it stands for. It
//! refuses what the proved one refuses, but for a file object's own limit, of which it keeps no
//! count. With the word `counts` as the last it keeps that too, so that it can be seen what it
//! costs; with `backoff` it also waits for its lock as the proved one does, with growing pauses
//! before it sleeps.
use std::collections::VecDeque;
use std::hint::spin_loop;
use std::sync::atomic::{AtomicU64, Ordering::SeqCst};
use std::sync::{Mutex, MutexGuard};
use std::thread;
use std::time::Instant;

const IRPS: usize = 1024;
const REUSED_IRPS: usize = 64;
const REUSES: usize = 262_144;
const MOST_THREADS: usize = 8;
const SET: u64 = 1 << 32;
const LAST: u64 = (1 << 30) - 1;
const CANCELLED: u64 = 0xC000_0120;

struct List<const COUNTS: bool> {
    entries: VecDeque<(usize, usize)>,
    used: Vec<bool>,
    lives: Vec<u64>,
    closed: Vec<bool>,
    limit: usize,
    // Of each file object, how many entries there are and may be.
    counts: Vec<u32>,
    limits: Vec<u32>,
}

impl<const COUNTS: bool> List<COUNTS> {
    fn refuses(&self, irp: usize, file: usize) -> bool {
        irp >= self.used.len()
            || file >= self.closed.len()
            || self.used[irp]
            || self.closed[file]
            || self.entries.len() == self.limit
            || (COUNTS && self.counts[file] == self.limits[file])
    }

    fn push(&mut self, irp: usize, file: usize) {
        self.entries.push_back((irp, file));
        if COUNTS {
            self.counts[file] += 1;
        }
    }

    /// Takes out the entry at an index: mostly the last or the first, for which there are shorter
    /// ways.
    fn remove_at(&mut self, at: usize) {
        let removed = if at + 1 == self.entries.len() {
            self.entries.pop_back()
        } else if at == 0 {
            self.entries.pop_front()
        } else {
            self.entries.remove(at)
        };
        if COUNTS {
            self.counts[removed.expect("there").1] -= 1;
        }
    }

    fn remove(&mut self, irp: usize) {
        let at = self.entries.iter().position(|entry| entry.0 == irp);
        self.remove_at(at.expect("listed"));
    }
}

// Which of an IRP's three words.
#[derive(Clone, Copy)]
enum Word {
    Cancel,
    Routine,
    Status,
}
use Word::{Cancel, Routine, Status};

struct Queue<const COUNTS: bool, const BACKOFF: bool> {
    irps: usize,
    // Three for each IRP, side by side.
    words: Vec<AtomicU64>,
    list: Mutex<List<COUNTS>>,
}

impl<const COUNTS: bool, const BACKOFF: bool> Queue<COUNTS, BACKOFF> {
    fn new(irps: usize) -> Self {
        Queue {
            irps,
            words: (0..3 * irps).map(|_| AtomicU64::new(0)).collect(),
            list: Mutex::new(List {
                entries: VecDeque::with_capacity(irps),
                used: vec![false; irps],
                lives: vec![0; irps],
                closed: vec![false; MOST_THREADS],
                limit: irps,
                counts: vec![0; MOST_THREADS],
                limits: vec![irps as u32; MOST_THREADS],
            }),
        }
    }

    #[inline(always)]
    fn lock(&self) -> MutexGuard<'_, List<COUNTS>> {
        if !BACKOFF {
            return self.list.lock().unwrap();
        }
        match self.list.try_lock() {
            Ok(list) => list,
            Err(_) => self.wait(),
        }
    }

    /// The lock, after pauses of so many spin-loop hints as the proved queue makes.
    #[cold]
    #[inline(never)]
    fn wait(&self) -> MutexGuard<'_, List<COUNTS>> {
        let mut hints = 128;
        for _ in 0..11 {
            (0..hints).for_each(|_| spin_loop());
            if let Ok(list) = self.list.try_lock() {
                return list;
            }
            hints = (2 * hints).min(1024);
        }
        self.list.lock().unwrap()
    }

    fn word(&self, irp: usize, word: Word) -> &AtomicU64 {
        &self.words[3 * irp + word as usize]
    }

    fn complete(&self, irp: usize, life: u64, status: u64) {
        self.word(irp, Status).swap((life << 33) + SET + status, SeqCst);
    }

    fn insert(&self, irp: usize, file: usize) -> Option<u64> {
        let mut list = self.lock();
        if list.refuses(irp, file) {
            return None;
        }
        let life = list.lives[irp];
        list.push(irp, file);
        list.used[irp] = true;
        self.word(irp, Routine).swap(2 * life + 1, SeqCst);
        if self.word(irp, Cancel).load(SeqCst) % 2 == 1
            && self.word(irp, Routine).swap(2 * life, SeqCst) % 2 == 1
        {
            list.remove(irp);
            drop(list);
            self.complete(irp, life, CANCELLED);
        }
        Some(life)
    }

    fn remove_next(&self, wanted: Option<usize>) -> Option<(usize, u64)> {
        let mut list = self.lock();
        for at in 0..list.entries.len() {
            let (irp, file) = list.entries[at];
            if wanted.is_some_and(|wanted| wanted != file) {
                continue;
            }
            let life = list.lives[irp];
            if self.word(irp, Routine).swap(2 * life, SeqCst) % 2 == 1 {
                list.remove_at(at);
                return Some((irp, life));
            }
        }
        None
    }

    fn remove(&self, irp: usize, life: u64) -> bool {
        let mut list = self.lock();
        let Some(at) = list.entries.iter().position(|entry| entry.0 == irp) else {
            return false;
        };
        if list.lives[irp] != life || self.word(irp, Routine).swap(2 * life, SeqCst) % 2 == 0 {
            return false;
        }
        list.remove_at(at);
        true
    }

    fn cancel(&self, irp: usize, life: u64) -> bool {
        if irp >= self.irps {
            return false;
        }
        let (clear, set) = (2 * life, 2 * life + 1);
        if let Err(found) = self.word(irp, Cancel).compare_exchange(clear, set, SeqCst, SeqCst) {
            if found != set {
                return false;
            }
        }
        if self.word(irp, Routine).compare_exchange(set, clear, SeqCst, SeqCst).is_err() {
            return false;
        }
        self.lock().remove(irp);
        self.complete(irp, life, CANCELLED);
        true
    }

    fn reuse(&self, irp: usize) -> Option<u64> {
        if irp >= self.irps {
            return None;
        }
        let mut list = self.lock();
        let found = self.word(irp, Status).load(SeqCst);
        let life = found >> 33;
        if (found >> 32) % 2 == 0 || life == LAST {
            return None;
        }
        let next = life + 1;
        self.word(irp, Status).swap(next << 33, SeqCst);
        self.word(irp, Cancel).swap(2 * next, SeqCst);
        list.used[irp] = false;
        list.lives[irp] = next;
        Some(next)
    }
}

/// How an inserted IRP ends.
#[derive(Clone, Copy, PartialEq)]
enum End {
    /// Whichever IRP is the first is removed and completed.
    Next,
    /// It is removed itself and completed.
    One,
    /// It is cancelled.
    Cancel,
}

/// What a turn does: its inserts are shared by this many threads, each with a file object of its
/// own or all with one, while this many IRPs are listed beside them.
#[derive(Clone, Copy)]
struct Work {
    end: End,
    /// Whether an IRP is used again, once it was completed.
    again: bool,
    threads: usize,
    listed: usize,
    owned: bool,
}

impl Work {
    /// How many IRPs the inserts are of.
    fn inserted(&self) -> usize {
        if self.again { REUSED_IRPS } else { IRPS - self.listed }
    }

    fn inserts(&self) -> usize {
        if self.again { REUSES } else { self.inserted() }
    }

    fn file(&self, thread: usize) -> usize {
        if self.owned { thread } else { 0 }
    }

    /// The IRPs that are a thread's own: the first, and the one behind the last.
    fn own(&self, thread: usize) -> (usize, usize) {
        let own = self.inserted() / self.threads;
        let first = self.listed + thread * own;
        (first, first + own)
    }

    /// The IRP that a thread inserts after this one, once one was completed: where any may be
    /// removed, the one that was, so that each thread has one to insert; otherwise the next of its
    /// own.
    fn next(&self, own: (usize, usize), irp: usize, completed: usize) -> usize {
        if self.again && self.end == End::Next {
            completed
        } else if irp + 1 < own.1 {
            irp + 1
        } else {
            own.0
        }
    }
}

impl<const COUNTS: bool, const BACKOFF: bool> Queue<COUNTS, BACKOFF> {
    /// Ends an IRP that was inserted. Answers the one that was completed.
    fn end(&self, work: &Work, thread: usize, irp: usize, life: u64) -> Option<usize> {
        let (removed, life) = match work.end {
            End::Cancel => return self.cancel(irp, life).then_some(irp),
            End::One => self.remove(irp, life).then_some((irp, life))?,
            End::Next => self.remove_next(work.owned.then_some(thread))?,
        };
        self.complete(removed, life, 0);
        Some(removed)
    }

    /// One thread's share of a turn: how many IRPs it completed.
    fn share(&self, work: &Work, thread: usize) -> usize {
        let own = work.own(thread);
        let (mut completed, mut irp) = (0, own.0);
        for _ in 0..work.inserts() / work.threads {
            let life = self.insert(irp, work.file(thread)).expect("home");
            let Some(ended) = self.end(work, thread, irp, life) else {
                continue;
            };
            completed += 1;
            if work.again {
                self.reuse(ended).expect("completed");
            }
            irp = work.next(own, irp, ended);
        }
        completed
    }

    /// The shares of this many threads, of which the first has this number. They are started by
    /// halves, as the proved queue's are.
    fn shares(&self, work: &Work, threads: usize, first: usize) -> usize {
        if threads == 1 {
            return self.share(work, first);
        }
        let half = threads / 2;
        thread::scope(|scope| {
            let others = scope.spawn(|| self.shares(work, half, first + half));
            self.shares(work, half, first) + others.join().unwrap()
        })
    }
}

/// One turn over a new queue: how many IRPs were completed, and the nanoseconds.
fn turn<const COUNTS: bool, const BACKOFF: bool>(work: &Work) -> (usize, u128) {
    let queue = Queue::<COUNTS, BACKOFF>::new(work.listed + work.inserted());
    for irp in 0..work.listed {
        queue.insert(irp, work.file(irp % work.threads)).expect("home");
    }
    let start = Instant::now();
    let completed = queue.shares(work, work.threads, 0);
    (completed, start.elapsed().as_nanos())
}

fn read_work(words: &[String]) -> Work {
    let (end, again) = match words[1].as_str() {
        "remove" => (End::Next, false),
        "cancel" => (End::Cancel, false),
        "remove-again" => (End::Next, true),
        "cancel-again" => (End::Cancel, true),
        "reuse" => (End::One, true),
        word => panic!("{word} is no kind"),
    };
    let (threads, listed) = (words[2].parse().unwrap(), words[3].parse().unwrap());
    assert!(
        matches!(threads, 1 | 2 | 4 | 8) && listed <= IRPS - REUSED_IRPS,
        "1, 2, 4 or 8 threads, at most 960 listed"
    );
    Work { end, again, threads, listed, owned: words[4] == "owned" }
}

fn main() {
    let words: Vec<String> = std::env::args().collect();
    let work = read_work(&words);
    let turns: usize = words[5].parse().unwrap();
    let turn = match words.get(6).map(String::as_str) {
        None => turn::<false, false>,
        Some("counts") => turn::<true, false>,
        Some("backoff") => turn::<true, true>,
        Some(word) => panic!("{word} is neither counts nor backoff"),
    };
    let (mut completed, mut nanoseconds) = (0, 0);
    for _ in 0..turns {
        let (of_turn, took) = turn(&work);
        completed += of_turn;
        nanoseconds += took;
    }
    println!("completed {completed}");
    eprintln!("{nanoseconds} ns");
}
