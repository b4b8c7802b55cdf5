//! A server of tasks in one thread, without a thread of its own for anything: each connection is a
//! task that submits its requests and waits for room, workers are tasks, a connection that goes
//! waits until its requests have ended, and the loop ends what is due. The executor is forty lines,
//! since any would do.
//!
//! `cargo run --example futures --features async` prints what became of the requests.
use csq::{OwnedPass, OwnedRequest, Peek, Place, Requests, Size, SubmitError};
use std::cell::Cell;
use std::future::Future;
use std::pin::Pin;
use std::rc::Rc;
use std::sync::mpsc::{self, Receiver, Sender};
use std::sync::{Arc, Mutex};
use std::task::{Context, Poll, Wake, Waker};
use std::time::{Duration, Instant};

const CONNECTIONS: u32 = 32;
const REQUESTS: u32 = 200;
const WORKERS: u32 = 4;
/// Fewer than all connections have at once, so that they wait for room.
const PLACES: u32 = 64;
/// One request in nine is due at once, if no worker is faster.
const IMPATIENT: u32 = 9;

/// A task that can be woken from anywhere: its number, and where the executor hears of it.
struct Bell(usize, Mutex<Sender<usize>>);

impl Wake for Bell {
    fn wake(self: Arc<Self>) {
        // Nobody hears of it once the executor has gone.
        let _ = self.1.lock().unwrap().send(self.0);
    }
}

type Task = Pin<Box<dyn Future<Output = ()>>>;

/// Tasks that are polled where they are woken.
struct Executor {
    tasks: Vec<Option<Task>>,
    bell: Sender<usize>,
    woken: Receiver<usize>,
}

impl Executor {
    fn new() -> Executor {
        let (bell, woken) = mpsc::channel();
        let tasks = Vec::new();
        Executor { tasks, bell, woken }
    }

    fn spawn(&mut self, task: impl Future<Output = ()> + 'static) {
        self.bell.send(self.tasks.len()).expect("the executor");
        self.tasks.push(Some(Box::pin(task)));
    }

    /// Polls one task that was woken, and waits for one until this time. Whether there was one.
    fn turn(&mut self, until: Instant) -> bool {
        let left = until.saturating_duration_since(Instant::now());
        let at = match self.woken.recv_timeout(left) {
            Ok(at) => at,
            Err(_) => return false,
        };
        let waker = Waker::from(Arc::new(Bell(at, Mutex::new(self.bell.clone()))));
        let mut context = Context::from_waker(&waker);
        let task = &mut self.tasks[at];
        if let Some(Poll::Ready(())) = task.as_mut().map(|it| it.as_mut().poll(&mut context)) {
            *task = None;
        }
        true
    }

    fn is_done(&self) -> bool {
        self.tasks.iter().all(Option::is_none)
    }
}

/// What became of the requests.
#[derive(Default)]
struct Totals {
    submitted: Cell<u32>,
    served: Cell<u32>,
    cancelled: Cell<u32>,
    open: Cell<u32>,
}

fn add(total: &Cell<u32>, count: u32) {
    total.set(total.get() + count);
}

/// Submits a connection's requests, hangs up, and waits until none of them is under way.
async fn connection(pass: OwnedPass<u32>, file: u32, totals: Rc<Totals>) {
    for number in 0..REQUESTS {
        let submitted = if number % IMPATIENT == 0 {
            pass.submit_until(number, file, Place::Back, Instant::now())
        } else {
            pass.submit_async(number, file, Place::Back).await
        };
        match submitted {
            Ok(_) => add(&totals.submitted, 1),
            // Only one that doesn't wait finds no room.
            Err(refused) => assert_eq!(refused.cause, SubmitError::NoIrp),
        }
    }
    let left = pass.drain_async(Peek::File(file)).await;
    add(&totals.cancelled, left.len() as u32);
    totals.open.set(totals.open.get() - 1);
    if totals.open.get() == 0 {
        pass.shutdown();
    }
}

/// Serves requests until the queue is shut down.
async fn worker(pass: OwnedPass<u32>, totals: Rc<Totals>) {
    while let Ok(request) = pass.recv_async(Peek::Any).await {
        finish(request, &totals);
    }
}

fn finish(request: OwnedRequest<u32>, totals: &Totals) {
    let total = match request.cancelled_by() {
        None => &totals.served,
        Some(_) => &totals.cancelled,
    };
    request.complete();
    add(total, 1);
}

fn main() -> Result<(), Box<dyn std::error::Error>> {
    run()
}

/// Runs all tasks to their end, and accounts for each request.
pub fn run() -> Result<(), Box<dyn std::error::Error>> {
    let queue = Requests::new(&Size::new(PLACES, CONNECTIONS, 1))?;
    let (pass, totals) = (queue.owned_pass()?, Rc::new(Totals::default()));
    totals.open.set(CONNECTIONS);
    let mut executor = Executor::new();
    (0..CONNECTIONS)
        .for_each(|file| executor.spawn(connection(pass.clone(), file, Rc::clone(&totals))));
    (0..WORKERS).for_each(|_| executor.spawn(worker(pass.clone(), Rc::clone(&totals))));
    while !executor.is_done() {
        let (ended, next) = pass.cancel_due(Instant::now());
        add(&totals.cancelled, ended.len() as u32);
        executor.turn(next.unwrap_or_else(|| Instant::now() + Duration::from_secs(1)));
    }
    drop((executor, pass));
    assert!(queue.close()?.is_empty());
    let (served, cancelled) = (totals.served.get(), totals.cancelled.get());
    assert_eq!(served + cancelled, totals.submitted.get());
    println!(
        "{} requests: each was served or cancelled once",
        served + cancelled
    );
    Ok(())
}
