//! A server of jobs: clients connect, send jobs and go, also while their jobs are queued; a pool of
//! workers serves the jobs of all, and looks whether one that takes long is still wanted; a job
//! that finds its device busy is put back.
//!
//! `cargo run --example job_server` prints what became of the jobs.
use csq::{Missed, OwnedPass, OwnedRequest, Peek, Place, PutBack, RequestId, Requests, Size};
use std::sync::atomic::{AtomicBool, AtomicU32, Ordering::SeqCst};
use std::sync::mpsc::{self, Sender};
use std::thread;
use std::time::Duration;

const CLIENTS: u32 = 12;
const JOBS: u32 = 50;
const WORKERS: usize = 4;
/// The most clients at a time: each has a file object of its own.
const CONNECTIONS: u32 = 4;
/// How long a client waits for room.
const PATIENCE: Duration = Duration::from_secs(60);

/// What a client asks for, and where the answer goes.
struct Job {
    number: u32,
    answer: Sender<Answer>,
}

/// What became of a job.
#[derive(Clone, Copy, PartialEq, Eq)]
enum Answer {
    Square(u32),
    Cancelled,
}

impl Job {
    /// The client may be gone: then nobody reads it.
    fn answer(self, answer: Answer) {
        let _ = self.answer.send(answer);
    }
}

/// How many jobs were served, and how many cancelled, as the server saw it.
#[derive(Default)]
struct Totals {
    served: AtomicU32,
    cancelled: AtomicU32,
}

impl Totals {
    fn serve(&self, job: Job) {
        self.served.fetch_add(1, SeqCst);
        let square = job.number * job.number;
        job.answer(Answer::Square(square));
    }

    fn cancel(&self, job: Job) {
        self.cancelled.fetch_add(1, SeqCst);
        job.answer(Answer::Cancelled);
    }
}

/// A device that serves one job at a time.
#[derive(Default)]
struct Device {
    busy: AtomicBool,
}

impl Device {
    /// Runs this, unless another thread is at it.
    fn run(&self, work: impl FnOnce()) -> bool {
        if self.busy.swap(true, SeqCst) {
            return false;
        }
        work();
        self.busy.store(false, SeqCst);
        true
    }
}

/// Serves one job; one in seven needs the device.
fn serve(request: OwnedRequest<Job>, device: &Device, totals: &Totals) {
    let needs_device = request.value().number % 7 == 0;
    if needs_device && !device.run(|| thread::sleep(Duration::from_micros(200))) {
        // The device is busy: the job goes to the end of the list, unless its client has cancelled
        // it meanwhile.
        match request.put_back(Place::Back) {
            Ok(PutBack::Pending) => thread::yield_now(),
            Ok(PutBack::Cancelled(job)) => totals.cancel(job),
            // Its client has gone, with its file object.
            Err(refused) => totals.cancel(refused.held.complete()),
        }
    } else if request.is_cancelled() {
        totals.cancel(request.complete());
    } else {
        totals.serve(request.complete());
    }
}

/// Sends jobs for its connection, cancels some of them, and leaves while some are queued. Returns
/// how many it has sent.
fn client(pass: &OwnedPass<Job>, connection: u32, totals: &Totals) -> u32 {
    let (answer, answers) = mpsc::channel();
    let mut last: Option<RequestId> = None;
    for number in 0..JOBS {
        let answer = answer.clone();
        // Waits while all requests are under way.
        let id = pass
            .submit_timeout(Job { number, answer }, connection, Place::Back, PATIENCE)
            .expect("room in time");
        if number % 5 == 4 {
            cancel(pass, last, totals);
        }
        last = Some(id);
    }
    // It leaves with half of the answers.
    answers.iter().take(JOBS as usize / 2).for_each(drop);
    JOBS
}

fn cancel(pass: &OwnedPass<Job>, request: Option<RequestId>, totals: &Totals) {
    match request.map(|request| pass.cancel(request)) {
        Some(Ok(job)) => totals.cancel(job),
        // A worker has it, and looks at the cancel; or it was faster.
        Some(Err(Missed::Taken | Missed::Completed)) | None => {}
        Some(Err(missed)) => unreachable!("{missed}"),
    }
}

fn main() -> Result<(), Box<dyn std::error::Error>> {
    let size = Size::new(64, CONNECTIONS, 1);
    let queue = Requests::new(&size)?;
    // One pass for all threads.
    let pass = queue.owned_pass()?;
    let (device, totals) = (Device::default(), Totals::default());
    let sent = AtomicU32::new(0);
    thread::scope(|scope| {
        let (device, totals, sent) = (&device, &totals, &sent);
        for _ in 0..WORKERS {
            let pass = pass.clone();
            scope.spawn(move || {
                for request in pass.iter(Peek::Any) {
                    serve(request, device, totals);
                }
            });
        }
        let connections = (0..CONNECTIONS).map(|connection| {
            let pass = pass.clone();
            scope.spawn(move || {
                // One client after the other: the file object is used again once what was listed
                // for it is drained. A job that a worker puts back after that is listed for the
                // next client, and its answer is nobody's.
                for _ in 0..CLIENTS / CONNECTIONS {
                    sent.fetch_add(client(&pass, connection, totals), SeqCst);
                    let left = pass.drain(Peek::File(connection)).expect("a connection");
                    left.into_iter().for_each(|job| totals.cancel(job));
                }
            })
        });
        let connections: Vec<_> = connections.collect();
        for connection in connections {
            connection.join().expect("a client");
        }
        // The workers end once nothing is listed any more.
        queue.shutdown();
    });
    drop(pass);
    assert!(queue.close()?.is_empty());
    let (served, cancelled) = (totals.served.into_inner(), totals.cancelled.into_inner());
    assert_eq!(served + cancelled, sent.into_inner());
    println!(
        "{} jobs: each was served or cancelled once",
        served + cancelled
    );
    Ok(())
}
