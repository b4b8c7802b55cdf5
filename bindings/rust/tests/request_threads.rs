//! Six threads over one queue of requests: each value comes out once, whichever thread gets it, and
//! is dropped once.
use csq::*;
use std::panic::{catch_unwind, resume_unwind, AssertUnwindSafe};
use std::sync::atomic::{AtomicU8, Ordering::SeqCst};
use std::sync::Mutex;
use std::thread;

const THREADS: u32 = 6;
const TURNS: u32 = if cfg!(debug_assertions) {
    20_000
} else {
    200_000
};
const FILES: u32 = 4;

/// For each value, how often it was dropped.
type Drops = [AtomicU8];

/// A value whose drop is counted. The box lets a checker of memory see what comes twice.
struct Counted<'a> {
    number: Box<u32>,
    drops: &'a Drops,
}

impl Drop for Counted<'_> {
    fn drop(&mut self) {
        assert_eq!(self.drops[*self.number as usize].fetch_add(1, SeqCst), 0);
    }
}

fn pick(state: &mut u64, below: u32) -> u32 {
    *state = state
        .wrapping_mul(6364136223846793005)
        .wrapping_add(1442695040888963407);
    (*state >> 33) as u32 % below
}

/// What the threads share: a pass each, and the names of requests that were submitted lately.
struct Worker<'a> {
    pass: RequestPass<Counted<'a>>,
    names: &'a Mutex<Vec<RequestId>>,
    drops: &'a Drops,
    state: u64,
}

impl<'a> Worker<'a> {
    fn submit(&mut self, number: u32) {
        let value = Counted {
            number: Box::new(number),
            drops: self.drops,
        };
        let file = pick(&mut self.state, FILES);
        match self.pass.submit(value, file, Place::Back) {
            Ok(id) => {
                let at = pick(&mut self.state, 64) as usize;
                let mut names = self.names.lock().unwrap();
                match names.get_mut(at) {
                    Some(name) => *name = id,
                    None => names.push(id),
                }
            }
            Err(refused) => {
                assert!(matches!(
                    refused.cause,
                    SubmitError::NoIrp | SubmitError::FileClosed
                ));
                assert_eq!(*refused.into_value().number, number);
            }
        }
    }

    fn serve(&mut self) {
        if let Some(request) = self.pass.next(Peek::Any) {
            match pick(&mut self.state, 4) {
                0 => drop(request.complete()),
                1 => drop(request),
                2 => match request.put_back(Place::Front) {
                    Ok(PutBack::Pending) => {}
                    Ok(PutBack::Cancelled(value)) => {
                        assert_eq!(self.drops[*value.number as usize].load(SeqCst), 0);
                    }
                    Err(refused) => assert_eq!(refused.cause, PutBackError::FileClosed),
                },
                _ => {
                    let panicked = catch_unwind(AssertUnwindSafe(|| {
                        let _request = request;
                        resume_unwind(Box::new("on purpose"));
                    }));
                    assert!(panicked.is_err());
                }
            }
        }
    }

    fn cancel(&mut self) {
        let at = pick(&mut self.state, 64) as usize;
        let name = self.names.lock().unwrap().get(at).copied();
        if let Some(name) = name {
            match self.pass.cancel(name) {
                Ok(value) => assert_eq!(self.drops[*value.number as usize].load(SeqCst), 0),
                Err(missed) => assert_ne!(missed, Missed::OtherQueue),
            }
        }
    }

    fn run(mut self, numbers: std::ops::Range<u32>) {
        let last = numbers.end - 1;
        for number in numbers {
            self.submit(number);
            match pick(&mut self.state, 4) {
                0 | 1 => self.serve(),
                _ => self.cancel(),
            }
            if number == last - TURNS / 10 {
                drop(self.pass.cleanup(pick(&mut self.state, 2)));
            }
        }
    }
}

fn run(list: List) {
    let drops: Vec<AtomicU8> = (0..THREADS * TURNS).map(|_| AtomicU8::new(0)).collect();
    let size = Size {
        list,
        ..Size::new(32, FILES, THREADS)
    };
    let names = Mutex::new(Vec::new());
    let queue = Requests::new(&size).unwrap();
    thread::scope(|scope| {
        for thread in 0..THREADS {
            let worker = Worker {
                pass: queue.pass().unwrap(),
                names: &names,
                drops: &drops,
                state: u64::from(thread),
            };
            scope.spawn(move || worker.run(thread * TURNS..(thread + 1) * TURNS));
        }
    });
    let left = queue.close().unwrap();
    assert!(left.len() <= 32);
    for value in &left {
        assert_eq!(drops[*value.number as usize].load(SeqCst), 0);
    }
    drop(left);
    assert!(drops.iter().all(|drops| drops.load(SeqCst) == 1));
}

#[test]
fn each_value_comes_out_once() {
    run(List::Vector);
    run(List::Chains);
}

/// What is submitted until the file object is closed: the cleanup cancels all of it.
#[test]
fn a_cleanup_leaves_nothing_listed() {
    for turn in 0..200 {
        let queue = Requests::new(&Size::new(8, 1, 2)).unwrap();
        let caller = queue.pass().unwrap();
        thread::scope(|scope| {
            let submits = scope.spawn(move || {
                let cause = || caller.submit(turn, 0, Place::Back).err().map(|it| it.cause);
                (0..5_000).any(|_| cause() == Some(SubmitError::FileClosed))
            });
            while queue.is_empty() {
                thread::yield_now();
            }
            drop(match turn % 2 {
                0 => queue.pass().unwrap().cleanup(0),
                _ => queue.owned_pass().unwrap().cleanup(0),
            });
            submits.join().unwrap();
        });
        assert_eq!(queue.len(), 0);
    }
}
