//! Random calls and futures of queues of requests in one thread: once all that were woken have been
//! polled, no future waits for what is there; and each value comes out once.
#![cfg(feature = "async")]
use csq::*;
use std::future::Future;
use std::pin::Pin;
use std::sync::atomic::{AtomicBool, AtomicU32, Ordering::SeqCst};
use std::sync::Arc;
use std::task::{Context, Poll, Wake, Waker};
use std::thread;

const IRPS: u32 = 5;
const FILES: u32 = 2;
const LIMIT: u32 = 4;
const FILE_LIMITS: [u32; FILES as usize] = [2, 4];
const QUEUES: u64 = 80;
const CALLS: u32 = 1_000;
const FUTURES: usize = 6;

/// What is drawn, by xorshift.
struct Draws(u64);

impl Draws {
    fn below(&mut self, bound: usize) -> usize {
        self.0 ^= self.0 << 13;
        self.0 ^= self.0 >> 7;
        self.0 ^= self.0 << 17;
        (self.0 >> 24) as usize % bound
    }

    fn peek(&mut self) -> Peek {
        match self.below(3) {
            0 => Peek::Any,
            _ => Peek::File(self.below(FILES as usize) as u32),
        }
    }
}

/// Whether a task was woken since it was polled last.
#[derive(Default)]
struct Woken(AtomicBool);

impl Wake for Woken {
    fn wake(self: Arc<Self>) {
        self.0.store(true, SeqCst);
    }
}

/// A value that counts those that there are.
struct Counted(Arc<AtomicU32>);

impl Counted {
    fn new(count: &Arc<AtomicU32>) -> Counted {
        count.fetch_add(1, SeqCst);
        Counted(Arc::clone(count))
    }
}

impl Drop for Counted {
    fn drop(&mut self) {
        self.0.fetch_sub(1, SeqCst);
    }
}

enum Work {
    Submit(u32, SubmitFuture<Counted>),
    Recv(Peek, RecvFuture<Counted>),
    Drain(Peek, DrainFuture<Counted>),
}

/// A future that waits.
struct Task {
    woken: Arc<Woken>,
    work: Work,
}

struct Model<'a> {
    queue: &'a Requests<Counted>,
    pass: &'a OwnedPass<Counted>,
    draws: Draws,
    count: Arc<AtomicU32>,
    is_closed: [bool; FILES as usize],
    is_shut: bool,
    taken: Vec<(u32, OwnedRequest<Counted>)>,
    tasks: Vec<Task>,
}

impl Model<'_> {
    fn listed(&self, peek: Peek) -> u32 {
        match peek {
            Peek::Any => self.queue.len(),
            Peek::File(file) => self.queue.file_len(file).unwrap(),
        }
    }

    fn under_way(&self, peek: Peek) -> u32 {
        let taken = self.taken.iter();
        let taken = taken.filter(|it| peek == Peek::Any || peek == Peek::File(it.0));
        self.listed(peek) + taken.count() as u32
    }

    /// Whether a submit for this file object ends at once.
    fn submit_ends(&self, file: u32) -> bool {
        self.is_closed[file as usize]
            || self.is_shut
            || (self.under_way(Peek::Any) < IRPS
                && self.listed(Peek::Any) < LIMIT
                && self.listed(Peek::File(file)) < FILE_LIMITS[file as usize])
    }

    fn ends(&self, work: &Work) -> bool {
        match work {
            Work::Submit(file, _) => self.submit_ends(*file),
            Work::Recv(peek, _) => self.listed(*peek) > 0 || self.is_shut,
            Work::Drain(peek, _) => self.listed(*peek) > 0 || self.under_way(*peek) == 0,
        }
    }

    // The file object of what was taken, told by a drain of nothing else.
    fn took(&mut self, request: OwnedRequest<Counted>, before: [u32; FILES as usize]) {
        let file = (0..FILES).find(|file| self.listed(Peek::File(*file)) < before[*file as usize]);
        self.taken.push((file.expect("it was listed"), request));
    }

    fn lens(&self) -> [u32; FILES as usize] {
        [0, 1].map(|file| self.listed(Peek::File(file)))
    }

    /// Polls a task. Whether it still waits.
    fn poll(&mut self, task: &mut Task) -> bool {
        let waker = Waker::from(Arc::clone(&task.woken));
        let mut context = Context::from_waker(&waker);
        let before = self.lens();
        match &mut task.work {
            Work::Submit(_, future) => Pin::new(future).poll(&mut context).is_pending(),
            Work::Drain(_, future) => Pin::new(future).poll(&mut context).is_pending(),
            Work::Recv(_, future) => match Pin::new(future).poll(&mut context) {
                Poll::Pending => true,
                Poll::Ready(Ok(request)) => {
                    self.took(request, before);
                    false
                }
                Poll::Ready(Err(RecvError)) => {
                    assert!(self.is_shut);
                    false
                }
            },
        }
    }

    /// Polls each task that was woken, in any order, until none is.
    fn settle(&mut self) {
        while let Some(at) = self.some_woken() {
            let mut task = self.tasks.swap_remove(at);
            task.woken.0.store(false, SeqCst);
            if self.poll(&mut task) {
                self.tasks.push(task);
            }
        }
        for task in &self.tasks {
            assert!(!self.ends(&task.work), "a task sleeps though it could end");
        }
    }

    fn some_woken(&mut self) -> Option<usize> {
        let first = self.draws.below(self.tasks.len().max(1));
        let all = (first..self.tasks.len()).chain(0..first);
        let mut woken = all.filter(|at| self.tasks[*at].woken.0.load(SeqCst));
        woken.next()
    }

    fn start(&mut self) {
        if self.tasks.len() == FUTURES {
            return;
        }
        let (peek, file) = (self.draws.peek(), self.draws.below(FILES as usize) as u32);
        let work = match self.draws.below(6) {
            0 => Work::Drain(peek, self.pass.drain_async(peek)),
            1 | 2 => Work::Recv(peek, self.pass.recv_async(peek)),
            _ => {
                let value = Counted::new(&self.count);
                Work::Submit(file, self.pass.submit_async(value, file, Place::Back))
            }
        };
        let woken = Arc::new(Woken(AtomicBool::new(true)));
        self.tasks.push(Task { woken, work });
    }

    fn some_taken(&mut self) -> Option<(u32, OwnedRequest<Counted>)> {
        let at = self.draws.below(self.taken.len().max(1));
        (at < self.taken.len()).then(|| self.taken.swap_remove(at))
    }

    fn call(&mut self) {
        let file = self.draws.below(FILES as usize) as u32;
        match self.draws.below(1_000) {
            0..=399 => self.start(),
            400..=549 => {
                let value = Counted::new(&self.count);
                drop(self.pass.submit(value, file, Place::Front));
            }
            550..=649 => {
                let (peek, before) = (self.draws.peek(), self.lens());
                if let Ok(request) = self.pass.try_recv(peek) {
                    self.took(request, before);
                }
            }
            650..=799 => drop(self.some_taken()),
            800..=869 => {
                if let Some((file, request)) = self.some_taken() {
                    if let Err(refused) = request.put_back(Place::Back) {
                        self.taken.push((file, refused.held));
                    }
                }
            }
            870..=997 => {
                // Half way, woken or not.
                let at = self.draws.below(self.tasks.len().max(1));
                if at < self.tasks.len() {
                    drop(self.tasks.swap_remove(at));
                }
            }
            998 => {
                drop(self.pass.cleanup(file));
                self.is_closed[file as usize] = true;
            }
            _ => {
                self.pass.shutdown();
                self.is_shut = true;
            }
        }
        if self.draws.below(3) > 0 {
            self.settle();
        }
    }
}

/// Says which call differs from the model.
struct At {
    seed: u64,
    call: u32,
}

impl Drop for At {
    fn drop(&mut self) {
        if thread::panicking() {
            eprintln!("seed {}, call {}", self.seed, self.call);
        }
    }
}

fn run(seed: u64) {
    let size = Size {
        limit: LIMIT,
        ..Size::new(IRPS, FILES, 1)
    };
    let queue = Requests::with_file_limits(&size, &FILE_LIMITS).unwrap();
    let pass = queue.owned_pass().unwrap();
    let count = Arc::<AtomicU32>::default();
    let mut model = Model {
        queue: &queue,
        pass: &pass,
        draws: Draws(seed.wrapping_mul(0x9E37_79B9_7F4A_7C15) | 1),
        count: Arc::clone(&count),
        is_closed: [false; FILES as usize],
        is_shut: false,
        taken: Vec::new(),
        tasks: Vec::new(),
    };
    let mut at = At { seed, call: 0 };
    while at.call < CALLS {
        at.call += 1;
        model.call();
    }
    drop(model);
    drop(pass);
    drop(queue.close().unwrap());
    assert_eq!(count.load(SeqCst), 0, "each value comes out once");
}

#[test]
fn no_future_sleeps_that_could_end() {
    for seed in 1..=QUEUES {
        run(seed);
    }
}
