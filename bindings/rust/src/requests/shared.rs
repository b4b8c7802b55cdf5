//! What the passes of a queue of requests share: its calls, and how they wait.

use super::request::{PutBack, RequestId};
use super::state::{Held, IsTaken, State, Submission};
use super::waiting::{file_of, thread_waker, Ticket};
use crate::errors::{
    CancelledBy, Missed, PutBackError, RecvTimeoutError, Refused, SubmitError, TryRecvError,
    UnknownFile,
};
use crate::ledger::Why;
use crate::lock;
use crate::words::{FinalStatus, Irp, Peek, Place};
use std::mem;
use std::sync::atomic::{AtomicU64, Ordering};
use std::sync::Mutex;
use std::task::{Poll, Waker};
use std::thread;
use std::time::{Duration, Instant};

/// How often a thread that finds no request, or no room, lets others run before it sleeps: a sleep
/// and a wake take far longer than a job of a busy queue.
const YIELDS: u32 = 4;

/// A time that each platform's clock reaches: some 136 years.
const FAR: Duration = Duration::from_secs(u32::MAX as u64);

/// The requests under their lock.
pub(crate) struct Shared<T> {
    state: Mutex<State<T>>,
    // No two queues have the same.
    name: u64,
    // When the queue's clock, which counts milliseconds, began.
    start: Instant,
}

/// The room that one waits for, and its ticket there.
pub(super) type RoomTicket = (Option<u32>, Ticket);

/// A value that waits for room, or why it isn't submitted.
type Unlisted<T> = (Submission<T>, SubmitError);

impl<T> Shared<T> {
    pub(super) fn new(state: State<T>) -> Shared<T> {
        static NAMES: AtomicU64 = AtomicU64::new(0);
        Shared {
            state: Mutex::new(state),
            name: NAMES.fetch_add(1, Ordering::Relaxed),
            start: Instant::now(),
        }
    }

    /// Makes a call under the lock. Once that is free, those are woken whom the call has taken out.
    #[inline]
    pub(super) fn with<R>(&self, call: impl FnOnce(&mut State<T>) -> R) -> R {
        let mut state = lock::lock(&self.state);
        let result = call(&mut state);
        if !state.waiting.woken.is_empty() {
            let woken = mem::take(&mut state.waiting.woken);
            drop(state);
            wake_all(woken);
        }
        result
    }

    pub(super) fn id(&self, irp: Irp) -> RequestId {
        let queue = self.name;
        RequestId { queue, irp }
    }

    /// A time by the queue's clock, at which no request is due early: the next millisecond.
    pub(super) fn due_at(&self, due: Instant) -> u64 {
        let since = due.saturating_duration_since(self.start);
        let whole = u64::try_from(since.as_millis()).unwrap_or(u64::MAX);
        // The last number stands for no time.
        whole.saturating_add(1).min(u64::MAX - 1)
    }

    // The last millisecond that is over.
    fn now(&self, now: Instant) -> u64 {
        let since = now.saturating_duration_since(self.start);
        u64::try_from(since.as_millis()).unwrap_or(u64::MAX)
    }

    // The instant of a time by the queue's clock. A time that no instant reaches is a far one.
    fn instant(&self, time: u64) -> Instant {
        let instant = self.start.checked_add(Duration::from_millis(time));
        instant.unwrap_or_else(|| self.start + FAR)
    }

    // ---- Submits ----

    #[inline]
    pub(super) fn submit(&self, it: Submission<T>) -> Result<RequestId, Refused<T>> {
        match self.with(|state| state.submit(it)) {
            Ok(irp) => Ok(self.id(irp)),
            Err((it, cause)) => Err(Refused::of(it.value, cause)),
        }
    }

    /// Submits a value, and waits for room until this time, or without a limit.
    pub(super) fn submit_waiting(
        &self,
        it: Submission<T>,
        limit: Duration,
    ) -> Result<RequestId, Refused<T>> {
        // A time that no clock reaches is none.
        let end = Instant::now().checked_add(limit);
        let (mut it, mut ticket, mut yields) = (Some(it), None, 0);
        loop {
            let left = end.map(|end| end.saturating_duration_since(Instant::now()));
            let sleeps = left != Some(Duration::ZERO) && yields == YIELDS;
            let waker = sleeps.then(thread_waker);
            match self.poll_submit(&mut it, &mut ticket, waker) {
                Poll::Ready(Err((refused, cause)))
                    if cause.is_want_of_room()
                        && yields < YIELDS
                        && left != Some(Duration::ZERO) =>
                {
                    it = Some(refused);
                    yields += 1;
                    thread::yield_now();
                }
                Poll::Ready(result) => {
                    return result.map_err(|(it, cause)| Refused::of(it.value, cause))
                }
                Poll::Pending => match left {
                    None => thread::park(),
                    Some(left) => thread::park_timeout(left),
                },
            }
        }
    }

    /// Submits a value, or waits for room in the list with this waker, and the ticket names it
    /// there. The submission is there until it is listed or refused.
    pub(super) fn poll_submit(
        &self,
        it: &mut Option<Submission<T>>,
        ticket: &mut Option<RoomTicket>,
        mut waker: Option<Waker>,
    ) -> Poll<Result<RequestId, Unlisted<T>>> {
        let submission = it.take().expect("the value until it is submitted");
        // A waker that isn't used, or no more, is dropped once the lock is free.
        let (polled, _stale) = self.with(|state| {
            let had = ticket.take();
            let (stale, woken_for) = leave_room(state, had);
            let (submission, cause) = match state.submit(submission) {
                Ok(irp) => return (Poll::Ready(Ok(self.id(irp))), stale),
                Err(refused) => refused,
            };
            let room = room_of(cause, submission.file).filter(|_| !state.waiting.ended);
            // One that was woken and can't use that room passes it on. (If it is refused for want
            // of the same room, the others would be.)
            if let Some(other) = woken_for.filter(|it| room != Some(*it)) {
                state.waiting.pass_room_on(other);
            }
            match room.and_then(|room| Some((room, waker.take()?))) {
                Some((room, waker)) => {
                    *it = Some(submission);
                    let had = had.map(|(_, place)| place);
                    *ticket = Some((room, state.waiting.room.add(room, had, waker)));
                    (Poll::Pending, stale)
                }
                None => (Poll::Ready(Err((submission, cause))), stale),
            }
        });
        polled
    }

    /// Waits for room no longer. If it was woken, the next one is.
    #[cfg(feature = "async")]
    pub(super) fn give_room_up(&self, ticket: RoomTicket) {
        let _stale = self.with(|state| {
            let (stale, woken_for) = leave_room(state, Some(ticket));
            if let Some(room) = woken_for {
                state.waiting.pass_room_on(room);
            }
            stale
        });
    }

    // ---- Requests that are taken ----

    pub(super) fn try_take(&self, peek: Peek) -> Result<(Held, T), TryRecvError> {
        self.with(|state| {
            state.take(peek).ok_or(if state.waiting.ended {
                TryRecvError::ShutDown
            } else {
                TryRecvError::Empty
            })
        })
    }

    /// Takes a match, or waits in the list with this waker, and the ticket names it there. None
    /// once the queue is shut down or dropped.
    pub(super) fn poll_take(
        &self,
        peek: Peek,
        ticket: &mut Option<Ticket>,
        waker: Waker,
    ) -> Poll<Option<(Held, T)>> {
        let mut waker = Some(waker);
        // A waker that isn't used, or no more, is dropped once the lock is free.
        let (polled, _stale) = self.with(|state| {
            let had = ticket.take();
            let stale = leave(state, peek, had);
            let taken = state.take(peek);
            if taken.is_some() || state.waiting.ended {
                return (Poll::Ready(taken), stale);
            }
            let listed = &mut state.waiting.listed;
            *ticket = waker.take().map(|it| listed.add(file_of(peek), had, it));
            (Poll::Pending, stale)
        });
        polled
    }

    /// Waits no longer. If it was woken and takes nothing, the next one that waits for the same is
    /// woken.
    #[cfg(feature = "async")]
    pub(super) fn give_up(&self, peek: Peek, ticket: Ticket) {
        let _stale = self.with(|state| {
            let stale = state.waiting.listed.remove(file_of(peek), ticket);
            if stale.is_none() {
                state.waiting.pass_request_on(file_of(peek));
            }
            stale
        });
    }

    /// Takes a match, and waits for one at most this long.
    #[inline]
    pub(super) fn wait(
        &self,
        peek: Peek,
        limit: Option<Duration>,
    ) -> Result<(Held, T), RecvTimeoutError> {
        match self.with(|state| state.take(peek)) {
            Some(taken) => Ok(taken),
            None => self.wait_for(peek, limit),
        }
    }

    // The same where there was none.
    #[cold]
    fn wait_for(&self, peek: Peek, limit: Option<Duration>) -> Result<(Held, T), RecvTimeoutError> {
        // A time that no clock reaches is none.
        let end = limit.and_then(|limit| Instant::now().checked_add(limit));
        let left = || end.map(|end| end.saturating_duration_since(Instant::now()));
        for turn in 0..=YIELDS {
            match self.try_take(peek) {
                Ok(taken) => return Ok(taken),
                Err(TryRecvError::ShutDown) => return Err(RecvTimeoutError::ShutDown),
                Err(TryRecvError::Empty) => self.expect_known(peek),
            }
            if left() == Some(Duration::ZERO) {
                return Err(RecvTimeoutError::Timeout);
            }
            if turn < YIELDS {
                thread::yield_now();
            }
        }
        let (waker, mut ticket) = (thread_waker(), None);
        loop {
            if let Poll::Ready(taken) = self.poll_take(peek, &mut ticket, waker.clone()) {
                return taken.ok_or(RecvTimeoutError::ShutDown);
            }
            match left() {
                None => thread::park(),
                Some(Duration::ZERO) => return self.take_at_last(peek, ticket),
                Some(left) => thread::park_timeout(left),
            }
        }
    }

    // Waits no longer, and takes what may have come meanwhile.
    fn take_at_last(
        &self,
        peek: Peek,
        ticket: Option<Ticket>,
    ) -> Result<(Held, T), RecvTimeoutError> {
        let (taken, _stale) = self.with(|state| {
            let stale = leave(state, peek, ticket);
            (state.take(peek), stale)
        });
        taken.ok_or(RecvTimeoutError::Timeout)
    }

    /// Takes more after a first one, under one lock: at most this many, and at most the share of
    /// one of those who wait for the same, rounded up with the first one.
    pub(super) fn take_more(&self, peek: Peek, most: usize) -> Vec<(Held, T)> {
        self.with(|state| {
            let listed = state.counts(peek).map_or(0, |counts| counts.listed) as usize;
            let share = listed / (state.waiting.listed.count(file_of(peek)) + 1);
            let taken = std::iter::from_fn(|| state.take(peek));
            taken.take(share.min(most)).collect()
        })
    }

    /// Completes a request that was taken, and makes its number free.
    #[inline]
    pub(super) fn complete(&self, held: Held, status: FinalStatus) {
        self.with(|state| state.complete(held, status));
    }

    /// Puts a request back that was taken, with its value. A refusal hands it back.
    pub(super) fn put_back(
        &self,
        held: Held,
        value: T,
        place: Place,
    ) -> Result<PutBack<T>, (PutBackError, T)> {
        self.with(|state| state.put_back(held, value, place))
    }

    /// What named a request that was taken.
    pub(super) fn cancelled_by(&self, request: RequestId) -> Option<CancelledBy> {
        match self.with(|state| state.named(request.irp))? {
            Why::Due => Some(CancelledBy::Deadline),
            _ => Some(CancelledBy::Caller),
        }
    }

    /// Waits for the cancel of a request that was taken, in the list with this waker.
    #[cfg(feature = "async")]
    pub(super) fn poll_cancelled(
        &self,
        request: RequestId,
        ticket: &mut Option<Ticket>,
        waker: Waker,
    ) -> Poll<()> {
        let (had, mut waker) = (ticket.take(), Some(waker));
        // A waker that isn't used, or no more, is dropped once the lock is free.
        let (polled, _stale) = self.with(|state| {
            let cancels = &mut state.waiting.cancel;
            let stale = had.and_then(|it| cancels.remove(request.irp, it));
            if state.named(request.irp).is_some() {
                return (Poll::Ready(()), stale);
            }
            let cancels = &mut state.waiting.cancel;
            *ticket = waker.take().map(|it| cancels.add(request.irp, had, it));
            (Poll::Pending, stale)
        });
        polled
    }

    /// Waits for that no longer.
    #[cfg(feature = "async")]
    pub(super) fn watch_no_more(&self, request: RequestId, ticket: Ticket) {
        let _stale = self.with(|state| state.waiting.cancel.remove(request.irp, ticket));
    }

    // ---- Ends without a worker ----

    /// Cancels a request: hands its value over, or says why not.
    pub(super) fn cancel(&self, request: RequestId) -> Result<T, Missed> {
        if request.queue != self.name {
            return Err(Missed::OtherQueue);
        }
        let cancelled = self.with(|state| state.cancel(request.irp));
        cancelled.map_err(|IsTaken(taken)| match taken {
            true => Missed::Taken,
            false => Missed::Completed,
        })
    }

    /// Closes a file object for good.
    pub(super) fn close_file(&self, file: u32) -> Result<(), UnknownFile> {
        self.with(|state| state.close_file(file))
    }

    /// Whether there is this file object.
    pub(super) fn knows(&self, peek: Peek) -> Result<(), UnknownFile> {
        let counts = self.with(|state| state.counts(peek));
        counts.map(|_| ()).ok_or(UnknownFile)
    }

    /// Panics unless there is this file object: a thread that waits for another one would wait for
    /// the shutdown.
    pub(super) fn expect_known(&self, peek: Peek) {
        assert!(self.knows(peek).is_ok(), "there is no such file object");
    }

    /// Cancels each request that is listed, and takes their values. The lock is free between two of
    /// them.
    pub(super) fn end_listed(&self, peek: Peek, why: Why) -> Vec<T> {
        std::iter::from_fn(|| self.with(|state| state.end_next(peek, why))).collect()
    }

    /// Cancels what is listed, and waits in the list with this waker until nothing of it is under
    /// way.
    #[cfg(feature = "async")]
    pub(super) fn poll_quiet(
        &self,
        peek: Peek,
        values: &mut Vec<T>,
        ticket: &mut Option<Ticket>,
        waker: Waker,
    ) -> Poll<()> {
        let (had, mut waker, file) = (ticket.take(), Some(waker), file_of(peek));
        // A waker that isn't used, or no more, is dropped once the lock is free.
        let (polled, _stale) = self.with(|state| {
            let stale = had.and_then(|it| state.waiting.quiet.remove(file, it));
            values.extend(std::iter::from_fn(|| state.end_next(peek, Why::Drain)));
            let counts = state.counts(peek);
            if counts.map_or(true, |counts| counts.under_way == 0) {
                return (Poll::Ready(()), stale);
            }
            let quiet = &mut state.waiting.quiet;
            *ticket = waker.take().map(|it| quiet.add(file, had, it));
            (Poll::Pending, stale)
        });
        polled
    }

    /// Waits for that no longer.
    #[cfg(feature = "async")]
    pub(super) fn await_quiet_no_more(&self, peek: Peek, ticket: Ticket) {
        let _stale = self.with(|state| state.waiting.quiet.remove(file_of(peek), ticket));
    }

    // ---- Times ----

    /// Cancels what is due by now, hands over the values of what was listed, and says when the next
    /// one is due.
    pub(super) fn cancel_due(&self, now: Instant) -> (Vec<T>, Option<Instant>) {
        let (values, next) = self.with(|state| (state.end_due(self.now(now)), state.next_due()));
        (values, next.map(|due| self.instant(due)))
    }

    /// Waits until requests that are listed are due, and cancels them. None once the queue is shut
    /// down or dropped, and no request has a time.
    pub(super) fn wait_due(&self) -> Option<Vec<T>> {
        let mut ticket: Option<Ticket> = None;
        loop {
            let (now, waker, had) = (Instant::now(), thread_waker(), ticket.take());
            let (values, next, ended, _stale) = self.with(|state| {
                let stale = had.and_then(|it| state.waiting.clock.remove((), it));
                let (values, next) = (state.end_due(self.now(now)), state.next_due());
                let ended = next.is_none() && state.waiting.ended;
                ticket = Some(state.waiting.clock.add((), had, waker));
                (values, next, ended, stale)
            });
            if ended || !values.is_empty() {
                let _stale = self.with(|state| state.waiting.clock.remove((), ticket?));
                return Some(values).filter(|values| !values.is_empty());
            }
            match next.map(|due| self.instant(due)) {
                None => thread::park(),
                Some(next) => thread::park_timeout(next.saturating_duration_since(now)),
            }
        }
    }
}

// Wakes all of these, also if one panics. (If two do, the program ends.)
fn wake_all(woken: Vec<Waker>) {
    struct Rest(std::vec::IntoIter<Waker>);

    impl Drop for Rest {
        fn drop(&mut self) {
            self.0.by_ref().for_each(Waker::wake);
        }
    }

    let mut rest = Rest(woken.into_iter());
    rest.0.by_ref().for_each(Waker::wake);
}

// The room that a submit waits for which is refused so.
fn room_of(cause: SubmitError, file: u32) -> Option<Option<u32>> {
    match cause {
        SubmitError::NoIrp | SubmitError::Full => Some(None),
        SubmitError::FileFull => Some(Some(file)),
        _ => None,
    }
}

// Takes out who waits for this with this ticket, unless it was woken.
fn leave<T>(state: &mut State<T>, peek: Peek, ticket: Option<Ticket>) -> Option<Waker> {
    state.waiting.listed.remove(file_of(peek), ticket?)
}

// The same of one who waits for room; and the room that it was woken for.
fn leave_room<T>(
    state: &mut State<T>,
    ticket: Option<RoomTicket>,
) -> (Option<Waker>, Option<Option<u32>>) {
    match ticket {
        None => (None, None),
        Some((room, ticket)) => match state.waiting.room.remove(room, ticket) {
            None => (None, Some(room)),
            stale => (stale, None),
        },
    }
}

#[cfg(test)]
mod tests;
