//! Random calls of queues of requests in one thread, beside a model of them.
use csq::*;
use std::thread;
use std::time::{Duration, Instant};

const IRPS: u32 = 6;
const FILES: u32 = 3;
const LIMIT: u32 = 5;
const FILE_LIMITS: [u32; FILES as usize] = [5, 2, 4];
const QUEUES: u64 = 60;
const CALLS: u32 = 1_500;

/// What is drawn, by xorshift.
struct Draws(u64);

impl Draws {
    fn below(&mut self, bound: usize) -> usize {
        self.0 ^= self.0 << 13;
        self.0 ^= self.0 >> 7;
        self.0 ^= self.0 << 17;
        (self.0 >> 24) as usize % bound
    }

    fn one_in(&mut self, count: usize) -> bool {
        self.below(count) == 0
    }

    /// A file object, or seldom one that there is not.
    fn file(&mut self) -> u32 {
        let files = FILES as usize + usize::from(self.one_in(20));
        self.below(files) as u32
    }

    fn peek(&mut self) -> Peek {
        if self.one_in(3) {
            Peek::Any
        } else {
            Peek::File(self.file())
        }
    }

    fn place(&mut self) -> Place {
        [Place::Back, Place::Front][self.below(2)]
    }
}

fn is_of(peek: Peek, file: u32) -> bool {
    peek == Peek::Any || peek == Peek::File(file)
}

fn is_known(peek: Peek) -> bool {
    peek == Peek::Any || (0..FILES).any(|file| peek == Peek::File(file))
}

/// What was submitted, and when it is due, in milliseconds since the queue was made.
#[derive(Clone, Copy)]
struct Submitted {
    id: RequestId,
    value: u32,
    file: u32,
    due: Option<u64>,
}

impl Submitted {
    /// A deadline is over in the millisecond after it.
    fn is_due(&self, now: u64) -> bool {
        self.due.map_or(false, |due| due < now)
    }
}

/// What was taken, and what has named it since.
struct Taken<'pass> {
    submitted: Submitted,
    request: Request<'pass, u32>,
    cancelled_by: Option<CancelledBy>,
}

/// What a queue of requests is to be, beside it.
struct Model<'pass> {
    pass: &'pass RequestPass<u32>,
    clock: &'pass OwnedPass<u32>,
    draws: Draws,
    /// The queue was made then, or a little before; and the time since, which the model tells.
    start: Instant,
    now: u64,
    is_shut: bool,
    is_closed: [bool; FILES as usize],
    values: u32,
    listed: Vec<Submitted>,
    taken: Vec<Taken<'pass>>,
    over: Vec<RequestId>,
}

impl<'pass> Model<'pass> {
    fn of(pass: &'pass RequestPass<u32>, clock: &'pass OwnedPass<u32>, seed: u64) -> Model<'pass> {
        Model {
            pass,
            clock,
            // Far from what the machine's clock will say in this test.
            start: Instant::now() + Duration::from_secs(3_600),
            now: 0,
            draws: Draws(seed.wrapping_mul(0x9E37_79B9_7F4A_7C15) | 1),
            is_shut: false,
            is_closed: [false; FILES as usize],
            values: 0,
            listed: Vec::new(),
            taken: Vec::new(),
            over: Vec::new(),
        }
    }

    /// In the middle of a millisecond of the queue's clock, more or less.
    fn at(&self, millis: u64) -> Instant {
        self.start + Duration::from_millis(millis)
    }

    /// Some time goes by, and what is due is cancelled.
    fn tick(&mut self) {
        self.now += self.draws.below(8) as u64;
        let now = self.now;
        let (values, next) = self.clock.cancel_due(self.at(now));
        let (ended, kept) = self.listed.iter().partition(|it| it.is_due(now));
        self.listed = kept;
        let mut ended: Vec<Submitted> = ended;
        ended.sort_by_key(|it| it.due);
        self.over.extend(ended.iter().map(|it| it.id));
        let (mut values, mut wanted) =
            (values, ended.iter().map(|it| it.value).collect::<Vec<_>>());
        values.sort_unstable();
        wanted.sort_unstable();
        assert_eq!(values, wanted);
        for taken in &mut self.taken {
            if taken.submitted.is_due(now) {
                taken.cancelled_by.get_or_insert(CancelledBy::Deadline);
            }
        }
        self.check_next(next);
    }

    /// When the next one is due: of what is under way and wasn't due yet.
    fn check_next(&self, next: Option<Instant>) {
        let taken = self.taken.iter().map(|it| &it.submitted);
        let those = self.listed.iter().chain(taken);
        let dues = those
            .filter(|it| !it.is_due(self.now))
            .filter_map(|it| it.due);
        let (first, second) = match dues.min() {
            None => return assert_eq!(next, None),
            Some(due) => (self.at(due), self.at(due + 2)),
        };
        let next = next.expect("one is due");
        assert!(first <= next && next <= second);
    }

    fn listed_for(&self, peek: Peek) -> u32 {
        let listed = self.listed.iter().filter(|it| is_of(peek, it.file));
        listed.count() as u32
    }

    fn list(&mut self, submitted: Submitted, place: Place) {
        let at = match place {
            Place::Front => 0,
            Place::Back => self.listed.len(),
        };
        self.listed.insert(at, submitted);
    }

    /// Why a file object takes no more: that it is closed, is full, or the queue is.
    fn refusal(&self, file: u32) -> Option<(SubmitError, PutBackError)> {
        if self.is_closed[file as usize] {
            Some((SubmitError::FileClosed, PutBackError::FileClosed))
        } else if self.listed_for(Peek::File(file)) >= FILE_LIMITS[file as usize] {
            Some((SubmitError::FileFull, PutBackError::FileFull))
        } else if self.listed.len() as u32 >= LIMIT {
            Some((SubmitError::Full, PutBackError::Full))
        } else {
            None
        }
    }

    fn submit(&mut self) {
        let (file, place) = (self.draws.file(), self.draws.place());
        let all_under_way = self.listed.len() + self.taken.len() == IRPS as usize;
        let refused = if file >= FILES {
            Some(SubmitError::UnknownFile)
        } else if self.is_shut {
            Some(SubmitError::ShutDown)
        } else if self.is_closed[file as usize] {
            Some(SubmitError::FileClosed)
        } else if all_under_way {
            Some(SubmitError::NoIrp)
        } else {
            self.refusal(file).map(|(cause, _)| cause)
        };
        self.values += 1;
        let value = self.values;
        let due = self
            .draws
            .one_in(3)
            .then(|| self.now + self.draws.below(20) as u64);
        let submitted = match due {
            None => self.pass.submit(value, file, place),
            Some(due) => self.pass.submit_until(value, file, place, self.at(due)),
        };
        match submitted {
            Ok(id) => {
                assert_eq!(refused, None);
                let submitted = Submitted {
                    id,
                    value,
                    file,
                    due,
                };
                self.list(submitted, place);
            }
            Err(got) => assert_eq!((Some(got.cause), got.into_value()), (refused, value)),
        }
    }

    fn next(&mut self) {
        let peek = self.draws.peek();
        let first = self.listed.iter().position(|it| is_of(peek, it.file));
        match self.pass.try_recv(peek) {
            Ok(request) => {
                let submitted = self.listed.remove(first.expect("none to take"));
                assert_eq!(
                    (request.id(), *request.value()),
                    (submitted.id, submitted.value)
                );
                let cancelled_by = None;
                self.taken.push(Taken {
                    submitted,
                    request,
                    cancelled_by,
                });
            }
            Err(cause) => {
                assert_eq!(
                    (first, cause == TryRecvError::ShutDown),
                    (None, self.is_shut)
                );
            }
        }
    }

    fn some_taken(&mut self) -> Option<Taken<'pass>> {
        let at = self.draws.below(self.taken.len().max(1));
        (at < self.taken.len()).then(|| self.taken.swap_remove(at))
    }

    fn complete(&mut self) {
        if let Some(Taken {
            submitted,
            request,
            cancelled_by,
        }) = self.some_taken()
        {
            assert_eq!(request.cancelled_by(), cancelled_by);
            assert_eq!(request.is_cancelled(), cancelled_by.is_some());
            self.over.push(submitted.id);
            if self.draws.one_in(4) {
                drop(request);
            } else {
                assert_eq!(request.complete(), submitted.value);
            }
        }
    }

    fn put_back(&mut self) {
        let place = self.draws.place();
        let (submitted, request, cancelled_by) = match self.some_taken() {
            Some(taken) => (taken.submitted, taken.request, taken.cancelled_by),
            None => return,
        };
        let refused = self.refusal(submitted.file).map(|(_, cause)| cause);
        match request.put_back(place) {
            Ok(PutBack::Pending) => {
                assert_eq!((refused, cancelled_by), (None, None));
                self.list(submitted, place);
            }
            Ok(PutBack::Cancelled(value)) => {
                assert!(cancelled_by.is_some());
                assert_eq!((refused, value), (None, submitted.value));
                self.over.push(submitted.id);
            }
            Err(NotPutBack {
                held: request,
                cause,
            }) => {
                assert_eq!(refused, Some(cause));
                self.taken.push(Taken {
                    submitted,
                    request,
                    cancelled_by,
                });
            }
        }
    }

    fn cancel(&mut self) {
        let ids: Vec<_> = self.listed.iter().map(|it| it.id).collect();
        let ids: Vec<_> = ids
            .into_iter()
            .chain(self.taken.iter().map(|it| it.submitted.id))
            .collect();
        let all: Vec<_> = ids
            .into_iter()
            .chain(self.over.iter().rev().take(4).copied())
            .collect();
        if all.is_empty() {
            return;
        }
        let id = all[self.draws.below(all.len())];
        let cancelled = self.pass.cancel(id);
        if let Some(at) = self.listed.iter().position(|it| it.id == id) {
            assert_eq!(cancelled, Ok(self.listed.remove(at).value));
            self.over.push(id);
        } else if let Some(taken) = self.taken.iter_mut().find(|it| it.submitted.id == id) {
            assert_eq!(cancelled, Err(Missed::Taken));
            taken.cancelled_by.get_or_insert(CancelledBy::Caller);
        } else {
            assert_eq!(cancelled, Err(Missed::Completed));
        }
    }

    /// Takes out what a drain ends: its values, in the list's order.
    fn drained(&mut self, peek: Peek) -> Vec<u32> {
        let (ended, kept) = self.listed.iter().partition(|it| is_of(peek, it.file));
        self.listed = kept;
        let ended: Vec<Submitted> = ended;
        self.over.extend(ended.iter().map(|it| it.id));
        ended.iter().map(|it| it.value).collect()
    }

    fn drain(&mut self) {
        let peek = self.draws.peek();
        let want = is_known(peek)
            .then(|| self.drained(peek))
            .ok_or(UnknownFile);
        assert_eq!(self.pass.drain(peek), want);
    }

    fn cleanup(&mut self) {
        let file = self.draws.file();
        let want = (file < FILES)
            .then(|| self.drained(Peek::File(file)))
            .ok_or(UnknownFile);
        assert_eq!(self.pass.cleanup(file), want);
        if file < FILES {
            self.is_closed[file as usize] = true;
        }
    }

    fn len(&self, queue: &Requests<u32>) {
        assert_eq!(queue.len(), self.listed_for(Peek::Any));
        for file in 0..FILES {
            assert_eq!(queue.file_len(file), Ok(self.listed_for(Peek::File(file))));
        }
    }

    fn call(&mut self) {
        match self.draws.below(1_000) {
            0..=349 => self.submit(),
            350..=569 => self.next(),
            570..=719 => self.complete(),
            720..=839 => self.put_back(),
            840..=949 => self.cancel(),
            950..=979 => self.tick(),
            980..=997 => self.drain(),
            998 => self.cleanup(),
            _ => {
                self.pass.shutdown();
                self.is_shut = true;
            }
        }
    }
}

/// Says which call differs from the model.
struct At {
    seed: u64,
    call: u32,
}

impl Drop for At {
    fn drop(&mut self) {
        if thread::panicking() {
            eprintln!("seed {}, call {}", self.seed, self.call);
        }
    }
}

fn run(seed: u64, list: List) {
    let size = Size {
        limit: LIMIT,
        list,
        ..Size::new(IRPS, FILES, 2)
    };
    let queue = Requests::with_file_limits(&size, &FILE_LIMITS).unwrap();
    let (pass, clock) = (queue.pass().unwrap(), queue.owned_pass().unwrap());
    let mut model = Model::of(&pass, &clock, seed);
    let mut at = At { seed, call: 0 };
    while at.call < CALLS {
        at.call += 1;
        model.call();
        model.len(&queue);
    }
    let listed: Vec<_> = model.listed.iter().map(|it| it.value).collect();
    drop(model);
    drop((pass, clock));
    assert_eq!(queue.close().unwrap(), listed);
}

#[test]
fn random_calls_are_as_the_model_says() {
    for seed in 1..=QUEUES {
        run(seed, [List::Vector, List::Chains][seed as usize % 2]);
    }
}
