//! Four threads over one queue: each life of each IRP is completed once.
use csq::*;
use std::sync::atomic::{AtomicU32, Ordering::SeqCst};

const IRPS: u32 = 64;
const FILES: u32 = 4;
const THREADS: u32 = 4;
const TURNS: u32 = 100_000;

// By IRP, how many of its lives were completed.
struct Completed([AtomicU32; IRPS as usize]);

impl Completed {
    fn new() -> Completed {
        Completed(std::array::from_fn(|_| AtomicU32::new(0)))
    }

    // Notes that this life is about to be completed: all before it were, and it wasn't.
    fn note(&self, irp: Irp) {
        assert_eq!(self.0[irp.irp as usize].fetch_add(1, SeqCst), irp.life);
    }

    fn of(&self, irp: u32) -> u32 {
        self.0[irp as usize].load(SeqCst)
    }
}

fn pick(state: &mut u64, below: u32) -> u32 {
    *state = state
        .wrapping_mul(6364136223846793005)
        .wrapping_add(1442695040888963407);
    (*state >> 33) as u32 % below
}

fn serve(pass: &Pass, completed: &Completed, seed: u32) {
    let mut state = u64::from(seed);
    for _ in 0..TURNS {
        let irp = pick(&mut state, IRPS);
        match pass.insert(irp, irp % FILES, Place::Back) {
            Ok(Inserted::Cancelled(token)) => {
                completed.note(token.irp());
                token.complete();
            }
            Ok(Inserted::Pending(_)) | Err(InsertError::NotHome) => {}
            Err(other) => panic!("{other}"),
        }
        let irp = pick(&mut state, IRPS);
        let life = completed.of(irp);
        if let Ok(Some(claim)) = pass.mark_cancel(Irp { irp, life }) {
            completed.note(claim.irp());
            claim.run().complete();
        }
        if pick(&mut state, 4) == 0 {
            if let Some(token) = pass.remove_next(Peek::File(pick(&mut state, FILES))) {
                completed.note(token.irp());
                token.complete(FinalStatus::SUCCESS);
            }
        }
        if pick(&mut state, 4) == 0 {
            if let Some(token) = pass.remove_next(Peek::File(pick(&mut state, FILES))) {
                match token.put_back(Place::Front).expect("a place") {
                    Inserted::Pending(_) => {}
                    Inserted::Cancelled(token) => {
                        completed.note(token.irp());
                        token.complete();
                    }
                }
            }
        }
        let irp = pick(&mut state, IRPS);
        let (life, _) = pass.is_cancelled(irp).unwrap();
        let _ = pass.reuse(Irp { irp, life });
    }
}

fn run(list: List) {
    let size = Size {
        list,
        ..Size::new(IRPS, FILES, THREADS + 1)
    };
    let queue = Queue::new(&size).unwrap();
    let completed = Completed::new();
    std::thread::scope(|scope| {
        for seed in 1..=THREADS {
            let pass = queue.pass().unwrap();
            let completed = &completed;
            scope.spawn(move || serve(&pass, completed, seed));
        }
    });
    let pass = queue.pass().unwrap();
    while let Some(token) = pass.remove_next(Peek::Any) {
        completed.note(token.irp());
        token.complete(FinalStatus::SUCCESS);
    }
    drop(pass);
    let closed = queue.close().unwrap();
    assert_eq!(closed.listed().count(), 0);
    for irp in 0..IRPS {
        let left = closed.irp(irp).unwrap();
        let lives = left.life + u32::from(left.status.is_some());
        assert_eq!(completed.of(irp), lives);
    }
}

#[test]
fn each_life_is_completed_once() {
    run(List::Vector);
    run(List::Chains);
}

// A thread that lives for one request: it takes a pass, and gives it back.
fn live_briefly(queue: &Queue, irp: u32) {
    let pass = queue.pass().unwrap();
    let irp = match pass.insert(irp, irp % FILES, Place::Back).unwrap() {
        Inserted::Pending(irp) => irp,
        Inserted::Cancelled(_) => unreachable!("nobody else knows of it"),
    };
    match pass.remove(irp) {
        Some(token) if irp.irp % 2 == 0 => token.complete(FinalStatus::SUCCESS),
        // Dropped, it is completed as cancelled.
        _ => {}
    }
    pass.reuse(irp).unwrap();
}

#[test]
fn short_lived_threads_share_the_passes_of_a_queue() {
    const AT_A_TIME: u32 = 50;
    let queue = Queue::new(&Size::new(AT_A_TIME, FILES, 64)).unwrap();
    for _ in 0..40 {
        std::thread::scope(|scope| {
            for irp in 0..AT_A_TIME {
                let queue = &queue;
                scope.spawn(move || live_briefly(queue, irp));
            }
        });
    }
    assert_eq!(queue.passes_out(), 0);
    assert_eq!(queue.close().unwrap().listed().count(), 0);
}
