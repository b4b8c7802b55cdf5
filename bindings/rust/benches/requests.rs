//! What a job costs through a queue of requests: in one thread beside the bare cycle of its queue,
//! and beside a job that can be cancelled over std's `sync_channel` of as many places, also with
//! one submitter and several workers. Each row is the median of seven turns, in each of which all
//! of the row run.
//!
//! `cargo bench`, with `CSQ_LIBRARY` or a feature that links the library. The program that it
//! builds, run with the words `request WORKERS` or `channel WORKERS`, times one turn of that alone,
//! in one thread with 0 workers, and prints the nanoseconds of a job.
use csq::{FinalStatus, Inserted, Irp, List, Peek, Place, Queue, Requests, Size};
use std::sync::atomic::{
    AtomicBool, AtomicU64,
    Ordering::{Relaxed, SeqCst},
};
use std::sync::{mpsc, Arc, Mutex};
use std::thread;
use std::time::{Duration, Instant};

const JOBS: u64 = 200_000;
const PLACES: u32 = 1024;
const RUNS: usize = 7;

/// With its list in chains, as a queue of so many has it.
fn size(passes: u32) -> Size {
    let list = List::Chains;
    Size {
        list,
        ..Size::new(PLACES, 1, passes)
    }
}

/// Nanoseconds of a job in this turn.
fn time(run: &dyn Fn()) -> f64 {
    let start = Instant::now();
    run();
    start.elapsed().as_nanos() as f64 / JOBS as f64
}

/// Nanoseconds of a job in each of these: the medians of turns in which all run.
fn medians<const N: usize>(runs: [&dyn Fn(); N]) -> [f64; N] {
    let mut times = [(); N].map(|()| Vec::new());
    for _ in 0..RUNS {
        for (run, times) in runs.iter().zip(&mut times) {
            times.push(time(run));
        }
    }
    times.map(|mut times| {
        times.sort_by(f64::total_cmp);
        times[RUNS / 2]
    })
}

/// An insert, a removal, a completion and a reuse, in one thread.
fn bare_cycle() {
    let queue = Queue::new(&size(1)).unwrap();
    let pass = queue.pass().unwrap();
    let mut irp = Irp { irp: 0, life: 0 };
    for _ in 0..JOBS {
        match pass.insert(irp.irp, 0, Place::Back).unwrap() {
            Inserted::Pending(pending) => irp = pending,
            Inserted::Cancelled(_) => unreachable!("nobody cancels"),
        }
        let removed = pass.remove_next(Peek::Any).unwrap();
        removed.complete(FinalStatus::SUCCESS);
        irp = pass.reuse(irp).unwrap();
    }
}

/// A submit, a removal and a completion of a request, in one thread.
fn cycle_of_requests() {
    let queue = Requests::new(&size(1)).unwrap();
    let pass = queue.pass().unwrap();
    for job in 0..JOBS {
        pass.submit(job, 0, Place::Back).unwrap();
        assert_eq!(pass.recv(Peek::Any).unwrap().complete(), job);
    }
}

/// One thread submits, and each worker has a pass.
fn requests(workers: u32) {
    let queue = Requests::new(&size(workers + 1)).unwrap();
    let sum = AtomicU64::new(0);
    thread::scope(|scope| {
        for _ in 0..workers {
            let (pass, sum) = (queue.pass().unwrap(), &sum);
            scope.spawn(move || {
                for request in pass.iter(Peek::Any) {
                    sum.fetch_add(request.complete(), Relaxed);
                }
            });
        }
        let pass = queue.pass().unwrap();
        for job in 0..JOBS {
            let submitted = pass.submit_timeout(job, 0, Place::Back, Duration::from_secs(60));
            submitted.unwrap();
        }
        queue.shutdown();
    });
    assert_eq!(sum.into_inner(), JOBS * (JOBS - 1) / 2);
}

/// A job that can be cancelled until a worker has it, as one writes it over a channel: its
/// canceller and the channel share it, and one of them claims it.
struct Job {
    claimed: AtomicBool,
    job: u64,
}

impl Job {
    fn new(job: u64) -> Arc<Job> {
        let claimed = AtomicBool::new(false);
        Arc::new(Job { claimed, job })
    }

    /// The job, if nobody had it before.
    fn claim(&self) -> Option<u64> {
        let claim = self.claimed.compare_exchange(false, true, SeqCst, SeqCst);
        claim.is_ok().then_some(self.job)
    }
}

/// A cycle of such a job, in one thread.
fn cycle_of_a_channel() {
    let (sender, receiver) = mpsc::sync_channel(PLACES as usize);
    for job in 0..JOBS {
        // Its name, which a canceller would have.
        let name = Job::new(job);
        sender.send(Arc::clone(&name)).unwrap();
        assert_eq!(receiver.recv().unwrap().claim(), Some(job));
        drop(name);
    }
}

/// The same with workers, who share the receiver.
fn channel(workers: u32) {
    let (sender, receiver) = mpsc::sync_channel::<Arc<Job>>(PLACES as usize);
    let (receiver, sum) = (Mutex::new(receiver), AtomicU64::new(0));
    thread::scope(|scope| {
        for _ in 0..workers {
            scope.spawn(|| loop {
                let job = receiver.lock().unwrap().recv();
                match job {
                    Ok(job) => sum.fetch_add(job.claim().unwrap_or(0), Relaxed),
                    Err(_) => break,
                };
            });
        }
        for job in 0..JOBS {
            let name = Job::new(job);
            sender.send(Arc::clone(&name)).unwrap();
        }
        drop(sender);
    });
    assert_eq!(sum.into_inner(), JOBS * (JOBS - 1) / 2);
}

/// Times one turn of a job in this way, with this number of workers.
fn time_alone(kind: &str, workers: u32) -> f64 {
    match (kind, workers) {
        ("request", 0) => time(&cycle_of_requests),
        ("request", _) => time(&|| requests(workers)),
        ("channel", 0) => time(&cycle_of_a_channel),
        ("channel", _) => time(&|| channel(workers)),
        _ => panic!("{kind} is neither request nor channel"),
    }
}

fn main() {
    let words: Vec<_> = std::env::args().skip(1).collect();
    match words.as_slice() {
        [kind, workers] => println!("{:.1}", time_alone(kind, workers.parse().unwrap())),
        [word] if word == "--bench" => print_all(),
        // `cargo test --all-targets` runs it too, and wants no figures.
        _ => {}
    }
}

fn print_all() {
    let [bare, whole, job] = medians([&bare_cycle, &cycle_of_requests, &cycle_of_a_channel]);
    println!(
        "one thread: the queue's cycle {bare:.0} ns, a request {whole:.0} ns, a cancellable job of \
         a channel {job:.0} ns, {:.2} times",
        whole / job
    );
    for workers in [1, 2, 4, 8] {
        let [ours, theirs] = medians([&|| requests(workers), &|| channel(workers)]);
        println!(
            "{workers} workers: a request {ours:.0} ns, a cancellable job of a channel \
             {theirs:.0} ns, {:.2} times",
            ours / theirs
        );
    }
}
