//! A server of many connections, which come and go: one thread reads what they send, workers serve
//! their requests in batches, and one thread ends those that are due. A request that finds its
//! device busy is put back. Once a connection has gone its requests are drained, and the next one
//! has its number. Channels stand for the network; clients in the same program (`clients.rs`) keep
//! the server busy, and hang up early now and then. In the end every request is accounted for.
//!
//! `cargo run --example server -- 4000 16 2 4 100`: the numbers are of connections at once,
//! requests of each, rounds, workers, and milliseconds until a request is due.
mod clients;

use clients::{ask, Asked, Load};
use csq::{OwnedPass, OwnedRequest, Peek, Place, PutBack, Requests, Size, SubmitError};
use std::sync::atomic::{AtomicBool, AtomicU64, Ordering::SeqCst};
use std::sync::mpsc::{self, Receiver, Sender};
use std::sync::{Arc, Condvar, Mutex};
use std::thread;
use std::time::{Duration, Instant};

/// How many requests a worker takes at once.
const BATCH: usize = 16;

/// One request in seven needs the device.
const NEEDS_DEVICE: u32 = 7;

/// The numbers of file objects that no connection has.
#[derive(Default)]
pub struct Numbers {
    free: Mutex<Vec<u32>>,
    freed: Condvar,
}

impl Numbers {
    fn put(&self, number: u32) {
        self.free.lock().unwrap().push(number);
        self.freed.notify_one();
    }

    /// Waits for one that is free.
    fn take(&self) -> u32 {
        let free = self.free.lock().unwrap();
        let mut free = self.freed.wait_while(free, |free| free.is_empty()).unwrap();
        free.pop().expect("a number")
    }
}

/// A connection. Each of its requests has a share of it, so its number is free once none is listed
/// or taken.
pub struct Connection {
    file: u32,
    answers: Sender<Answer>,
    numbers: Arc<Numbers>,
}

impl Connection {
    fn new(numbers: &Arc<Numbers>, answers: Sender<Answer>) -> Arc<Connection> {
        let (file, numbers) = (numbers.take(), Arc::clone(numbers));
        Arc::new(Connection {
            file,
            answers,
            numbers,
        })
    }
}

impl Drop for Connection {
    fn drop(&mut self) {
        self.numbers.put(self.file);
    }
}

/// What the network brings.
pub enum Event {
    Request(Arc<Connection>, u32),
    Gone(Arc<Connection>),
}

/// What a request carries.
struct Job {
    connection: Arc<Connection>,
    number: u32,
}

/// What became of the request with this number.
pub enum Answer {
    Served(u32),
    Cancelled(u32),
}

/// What became of the requests, and the device, which serves one at a time.
#[derive(Default)]
struct Server {
    submitted: AtomicU64,
    served: AtomicU64,
    cancelled: AtomicU64,
    put_back: AtomicU64,
    without_number: AtomicU64,
    device_busy: AtomicBool,
}

impl Server {
    /// Ends a job. The client may have hung up: then nobody reads the answer.
    fn answer(&self, job: Job, answer: impl FnOnce(u32) -> Answer) {
        let answer = answer(job.number);
        let total = match answer {
            Answer::Served(_) => &self.served,
            Answer::Cancelled(_) => &self.cancelled,
        };
        total.fetch_add(1, SeqCst);
        let _ = job.connection.answers.send(answer);
    }

    fn serve(&self, request: OwnedRequest<Job>) {
        let needs_device = request.value().number % NEEDS_DEVICE == 0;
        if needs_device && self.device_busy.swap(true, SeqCst) {
            match request.put_back(Place::Back) {
                Ok(PutBack::Pending) => {
                    self.put_back.fetch_add(1, SeqCst);
                    thread::yield_now();
                }
                // It was due meanwhile.
                Ok(PutBack::Cancelled(job)) => self.answer(job, Answer::Cancelled),
                Err(refused) => unreachable!("not put back: {}", refused.cause),
            }
            return;
        }
        if request.is_cancelled() {
            self.answer(request.complete(), Answer::Cancelled);
        } else {
            self.answer(request.complete(), Answer::Served);
        }
        if needs_device {
            self.device_busy.store(false, SeqCst);
        }
    }

    /// Each request is accounted for.
    fn report(self, asked: &Asked, time: Duration) {
        let totals = [self.submitted, self.served, self.cancelled, self.put_back];
        let [submitted, served, cancelled, put_back] = totals.map(AtomicU64::into_inner);
        println!("{served} served, {cancelled} cancelled, {put_back} put back, in {time:.0?}");
        assert_eq!(served + cancelled, submitted);
        assert_eq!(asked.answered + asked.hung_up, submitted);
        assert_eq!(self.without_number.into_inner(), 0);
    }

    /// Submits what comes in, until all clients have gone; and drains each connection that goes.
    fn read(&self, pass: &OwnedPass<Job>, events: Receiver<Event>, wait: Duration) {
        for event in events {
            match event {
                Event::Request(connection, number) => {
                    self.submitted.fetch_add(1, SeqCst);
                    let (file, due) = (connection.file, Instant::now() + wait);
                    let job = Job { connection, number };
                    if let Err(refused) = pass.submit_until(job, file, Place::Back, due) {
                        assert_eq!(refused.cause, SubmitError::NoIrp);
                        self.without_number.fetch_add(1, SeqCst);
                        self.answer(refused.into_value(), Answer::Cancelled);
                    }
                }
                Event::Gone(connection) => {
                    let left = pass.drain(Peek::File(connection.file)).expect("a number");
                    left.into_iter()
                        .for_each(|job| self.answer(job, Answer::Cancelled));
                }
            }
        }
    }

    /// Answers each request that waits too long. A worker that has one looks at that itself.
    fn end_what_is_due(&self, pass: &OwnedPass<Job>) {
        while let Some(jobs) = pass.recv_due() {
            jobs.into_iter()
                .for_each(|job| self.answer(job, Answer::Cancelled));
        }
    }

    /// Serves what comes, some under one lock, until nothing comes any more.
    fn work(&self, pass: &OwnedPass<Job>) {
        while let Ok(batch) = pass.recv_many(Peek::Any, BATCH) {
            batch.into_iter().for_each(|request| self.serve(request));
        }
    }
}

fn main() -> Result<(), Box<dyn std::error::Error>> {
    let mut options = [200, 16, 10, 4, 100];
    for (option, word) in options.iter_mut().zip(std::env::args().skip(1)) {
        *option = word.parse()?;
    }
    run(options)
}

/// The options as the command has them.
pub fn run(options: [u32; 5]) -> Result<(), Box<dyn std::error::Error>> {
    let [connections, jobs, rounds, workers, wait] = options;
    let queue = Requests::new(&Size::new(Size::MOST_IRPS, connections, 1))?;
    // One pass for all threads.
    let (pass, server, numbers) = (queue.owned_pass()?, Server::default(), Arc::default());
    (0..connections).for_each(|number| Numbers::put(&numbers, number));
    let load = Load::new(connections, jobs, rounds);
    let (began, wait) = (Instant::now(), Duration::from_millis(wait.into()));
    let asked: Asked = thread::scope(|scope| {
        let (server, pass, numbers, load) = (&server, &pass, &numbers, &load);
        let (network, events) = mpsc::channel();
        let reader = scope.spawn(move || server.read(pass, events, wait));
        let clients = (0..Load::CLIENTS).map(|client| {
            let network = network.clone();
            scope.spawn(move || ask(load, client, numbers, &network))
        });
        let clients: Vec<_> = clients.collect();
        drop(network);
        load.meet.wait();
        // All have connected and asked. The workers begin once all requests are listed.
        while u64::from(queue.len()) + server.without_number.load(SeqCst) < load.requests() {
            thread::sleep(Duration::from_millis(1));
        }
        println!(
            "{connections} connections, {} requests listed at once",
            queue.len()
        );
        for _ in 0..workers {
            scope.spawn(move || server.work(pass));
        }
        scope.spawn(move || server.end_what_is_due(pass));
        load.meet.wait();
        let asked = clients
            .into_iter()
            .map(|client| client.join().expect("a client"));
        let asked = asked.sum();
        reader.join().expect("a reader");
        queue.shutdown();
        asked
    });
    drop(pass);
    assert!(queue.close()?.is_empty());
    server.report(&asked, began.elapsed());
    Ok(())
}
