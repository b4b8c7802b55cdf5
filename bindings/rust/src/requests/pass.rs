//! Passes of a queue of requests.

use super::request::{Request, RequestId};
use super::shared::Shared;
use super::state::{State, Submission};
use crate::errors::{
    Missed, PassError, RecvError, RecvTimeoutError, Refused, TryRecvError, UnknownFile,
};
use crate::ledger::Why;
use crate::words::{Peek, Place};
use std::cell::Cell;
use std::fmt;
use std::marker::PhantomData;
use std::sync::Arc;
use std::time::{Duration, Instant};

/// A pass's share of its queue, which counts it while it is out.
pub(super) struct Share<T>(Arc<Shared<T>>);

impl<T> Share<T> {
    pub(super) fn of(shared: &Arc<Shared<T>>) -> Result<Share<T>, PassError> {
        shared.with(State::take_pass)?;
        Ok(Share(Arc::clone(shared)))
    }
}

impl<T> Drop for Share<T> {
    fn drop(&mut self) {
        self.0.with(State::give_pass_back);
    }
}

/// What a request is taken through.
pub(super) trait Through {
    type Value;

    fn shared(&self) -> &Shared<Self::Value>;
}

impl<T> Through for Share<T> {
    type Value = T;

    fn shared(&self) -> &Shared<T> {
        &self.0
    }
}

/// A pass of a queue of requests, through which one thread at a time makes its calls. It has a
/// share of its queue.
///
/// It may be moved to another thread, but not be shared by two ([`OwnedPass`](crate::OwnedPass)
/// is). Dropped, it is given back.
pub struct RequestPass<T> {
    share: Share<T>,
    // Its requests borrow it and stay in its thread.
    one_thread: PhantomData<Cell<T>>,
}

impl<T> fmt::Debug for RequestPass<T> {
    fn fmt(&self, f: &mut fmt::Formatter<'_>) -> fmt::Result {
        f.debug_struct("RequestPass").finish_non_exhaustive()
    }
}

impl<T> Through for &RequestPass<T> {
    type Value = T;

    fn shared(&self) -> &Shared<T> {
        self.share.shared()
    }
}

impl<T> RequestPass<T> {
    pub(super) fn of(share: Share<T>) -> RequestPass<T> {
        RequestPass {
            share,
            one_thread: PhantomData,
        }
    }

    fn shared(&self) -> &Shared<T> {
        self.share.shared()
    }

    /// Submits a value for a file object. The result names the request to a cancel. One that waits
    /// for it is woken. A refusal hands the value back. Takes the lock.
    ///
    /// # Errors
    ///
    /// [`SubmitError`](crate::SubmitError) in a [`Refused`], which hands the value back.
    ///
    /// ```
    /// # use csq::*;
    /// # let queue = Requests::new(&Size::new(4, 2, 2))?;
    /// # let pass = queue.pass()?;
    /// let id = pass.submit("job", 0, Place::Back)?;
    /// assert_eq!(pass.cancel(id)?, "job");
    /// assert_eq!(pass.submit("job", 2, Place::Back).unwrap_err().into_value(), "job");
    /// # Ok::<(), Box<dyn std::error::Error>>(())
    /// ```
    pub fn submit(&self, value: T, file: u32, place: Place) -> Result<RequestId, Refused<T>> {
        self.shared().submit(Submission::new(value, file, place))
    }

    /// [`RequestPass::submit`], which waits for room at most this long where it would return
    /// [`SubmitError::NoIrp`](crate::SubmitError::NoIrp),
    /// [`SubmitError::FileFull`](crate::SubmitError::FileFull) or
    /// [`SubmitError::Full`](crate::SubmitError::Full). Each request that ends or is taken, a
    /// cleanup and the shutdown wake those who wait. Those who wait for the same are woken in their
    /// order, but a submit that comes meanwhile may be faster.
    ///
    /// # Errors
    ///
    /// [`SubmitError`](crate::SubmitError) in a [`Refused`], which hands the value back.
    ///
    /// ```
    /// # use csq::*;
    /// # let queue = Requests::new(&Size::new(1, 1, 2))?;
    /// # let pass = queue.pass()?;
    /// # use std::time::Duration;
    /// pass.submit_timeout("first", 0, Place::Back, Duration::from_secs(60))?;
    /// let full = pass.submit_timeout("second", 0, Place::Back, Duration::from_millis(1));
    /// assert_eq!(full.unwrap_err().into_value(), "second");
    /// # Ok::<(), Box<dyn std::error::Error>>(())
    /// ```
    pub fn submit_timeout(
        &self,
        value: T,
        file: u32,
        place: Place,
        limit: Duration,
    ) -> Result<RequestId, Refused<T>> {
        let it = Submission::new(value, file, place);
        self.shared().submit_waiting(it, limit)
    }

    /// [`RequestPass::submit`] with a deadline: when it is over, the request is cancelled, once
    /// somebody looks for it ([`OwnedPass::cancel_due`](crate::OwnedPass::cancel_due),
    /// [`OwnedPass::recv_due`](crate::OwnedPass::recv_due)). It is never cancelled before, and at
    /// most a millisecond after it is over by the first look then.
    ///
    /// # Errors
    ///
    /// [`SubmitError`](crate::SubmitError) in a [`Refused`], which hands the value back.
    ///
    /// ```
    /// # use csq::*;
    /// # let queue = Requests::new(&Size::new(4, 2, 2))?;
    /// # let pass = queue.pass()?;
    /// # use std::time::{Duration, Instant};
    /// let due = Instant::now() + Duration::from_secs(60);
    /// pass.submit_until("job", 0, Place::Back, due)?;
    /// assert_eq!(pass.recv(Peek::Any)?.complete(), "job");
    /// # Ok::<(), Box<dyn std::error::Error>>(())
    /// ```
    pub fn submit_until(
        &self,
        value: T,
        file: u32,
        place: Place,
        due: Instant,
    ) -> Result<RequestId, Refused<T>> {
        let due = self.shared().due_at(due);
        let it = Submission::new(value, file, place);
        self.shared().submit(it.due_at(due))
    }

    /// Takes the first listed request of a file object, or of any, that no canceller has. Takes the
    /// lock.
    ///
    /// ```
    /// # use csq::*;
    /// # let queue = Requests::new(&Size::new(4, 2, 2))?;
    /// # let pass = queue.pass()?;
    /// pass.submit("job", 1, Place::Back)?;
    /// assert!(pass.next(Peek::File(0)).is_none());
    /// assert_eq!(pass.next(Peek::File(1)).expect("the job").complete(), "job");
    /// # Ok::<(), Box<dyn std::error::Error>>(())
    /// ```
    #[must_use = "a request that was taken has to be completed, and is where it is dropped"]
    pub fn next(&self, peek: Peek) -> Option<Request<'_, T>> {
        self.try_recv(peek).ok()
    }

    /// [`RequestPass::next`], which says why there is none.
    ///
    /// # Errors
    ///
    /// [`TryRecvError`]: none is listed; it says whether the queue was shut down or dropped.
    ///
    /// ```
    /// # use csq::*;
    /// # let queue = Requests::new(&Size::new(4, 2, 2))?;
    /// # let pass = queue.pass()?;
    /// pass.submit("job", 0, Place::Back)?;
    /// assert_eq!(pass.try_recv(Peek::Any)?.complete(), "job");
    /// assert_eq!(pass.try_recv(Peek::Any).unwrap_err(), TryRecvError::Empty);
    /// # Ok::<(), Box<dyn std::error::Error>>(())
    /// ```
    pub fn try_recv(&self, peek: Peek) -> Result<Request<'_, T>, TryRecvError> {
        let taken = self.shared().try_take(peek)?;
        Ok(Request::of(self, taken))
    }

    /// [`RequestPass::next`], and waits until there is one. Of a file object that was closed none
    /// comes: it waits for the shutdown or the drop.
    ///
    /// # Errors
    ///
    /// [`RecvError`]: the queue was shut down or dropped, and none is listed.
    ///
    /// # Panics
    ///
    /// There is no such file object.
    ///
    /// ```
    /// # use csq::*;
    /// # let queue = Requests::new(&Size::new(4, 2, 2))?;
    /// # let pass = queue.pass()?;
    /// pass.submit("job", 0, Place::Back)?;
    /// assert_eq!(pass.recv(Peek::Any)?.complete(), "job");
    /// # Ok::<(), Box<dyn std::error::Error>>(())
    /// ```
    pub fn recv(&self, peek: Peek) -> Result<Request<'_, T>, RecvError> {
        let taken = self.shared().wait(peek, None).map_err(|_| RecvError)?;
        Ok(Request::of(self, taken))
    }

    /// [`RequestPass::recv`], which waits at most so long.
    ///
    /// # Errors
    ///
    /// [`RecvTimeoutError`]: none came in time; or the queue was shut down or dropped,
    /// and none is listed.
    ///
    /// # Panics
    ///
    /// There is no such file object.
    ///
    /// ```
    /// # use csq::*;
    /// # let queue = Requests::new(&Size::new(4, 2, 2))?;
    /// # let pass = queue.pass()?;
    /// # use std::time::Duration;
    /// pass.submit("job", 0, Place::Back)?;
    /// assert_eq!(pass.recv_timeout(Peek::Any, Duration::from_secs(1))?.complete(), "job");
    /// let none = pass.recv_timeout(Peek::Any, Duration::from_millis(1));
    /// assert_eq!(none.unwrap_err(), RecvTimeoutError::Timeout);
    /// # Ok::<(), Box<dyn std::error::Error>>(())
    /// ```
    pub fn recv_timeout(
        &self,
        peek: Peek,
        limit: Duration,
    ) -> Result<Request<'_, T>, RecvTimeoutError> {
        let taken = self.shared().wait(peek, Some(limit))?;
        Ok(Request::of(self, taken))
    }

    /// Takes a first request as [`RequestPass::recv`] does, and then more under one lock: at most
    /// `most`, and at most its fair share, which is what is listed divided among this worker and
    /// those who wait for the same and weren't woken yet.
    ///
    /// # Errors
    ///
    /// [`RecvError`]: the queue was shut down or dropped, and none is listed.
    ///
    /// # Panics
    ///
    /// There is no such file object, or `most` is 0.
    ///
    /// ```
    /// # use csq::*;
    /// # let queue = Requests::new(&Size::new(4, 2, 2))?;
    /// # let pass = queue.pass()?;
    /// for job in 0..4 {
    ///     pass.submit(job, 0, Place::Back)?;
    /// }
    /// let batch = pass.recv_many(Peek::Any, 3)?;
    /// assert_eq!(batch.into_iter().map(Request::complete).sum::<i32>(), 3);
    /// # Ok::<(), Box<dyn std::error::Error>>(())
    /// ```
    pub fn recv_many(&self, peek: Peek, most: usize) -> Result<Vec<Request<'_, T>>, RecvError> {
        assert!(most > 0, "a batch has one request or more");
        let mut batch = vec![self.recv(peek)?];
        let more = self.shared().take_more(peek, most - 1);
        batch.extend(more.into_iter().map(|taken| Request::of(self, taken)));
        Ok(batch)
    }

    /// Takes one request after the other by [`RequestPass::recv`], until it returns an error.
    ///
    /// # Panics
    ///
    /// There is no such file object.
    ///
    /// ```
    /// # use csq::*;
    /// # let queue = Requests::new(&Size::new(4, 2, 2))?;
    /// # let pass = queue.pass()?;
    /// pass.submit(1, 0, Place::Back)?;
    /// pass.submit(2, 0, Place::Back)?;
    /// queue.shutdown();
    /// assert_eq!(pass.iter(Peek::Any).map(|request| request.complete()).sum::<i32>(), 3);
    /// # Ok::<(), Box<dyn std::error::Error>>(())
    /// ```
    pub fn iter(&self, peek: Peek) -> impl Iterator<Item = Request<'_, T>> + '_ {
        std::iter::from_fn(move || self.recv(peek).ok())
    }

    /// Cancels a request, and hands its value over. Otherwise somebody else has the value, or had
    /// it. Takes the lock.
    ///
    /// # Errors
    ///
    /// [`Missed`] says who has or had the value.
    ///
    /// ```
    /// # use csq::*;
    /// # let queue = Requests::new(&Size::new(4, 2, 2))?;
    /// # let pass = queue.pass()?;
    /// let id = pass.submit("job", 0, Place::Back)?;
    /// assert_eq!(pass.cancel(id)?, "job");
    /// assert_eq!(pass.cancel(id), Err(Missed::Completed));
    /// # Ok::<(), Box<dyn std::error::Error>>(())
    /// ```
    pub fn cancel(&self, request: RequestId) -> Result<T, Missed> {
        self.shared().cancel(request)
    }

    /// Closes a file object for good, then cancels each request that is listed for it, and hands
    /// their values over, in the list's order. What a canceller has is left to that canceller. The
    /// lock is free between two of them.
    ///
    /// # Errors
    ///
    /// [`UnknownFile`]: there is no such file object.
    ///
    /// ```
    /// # use csq::*;
    /// # let queue = Requests::new(&Size::new(4, 2, 2))?;
    /// # let pass = queue.pass()?;
    /// pass.submit("job", 1, Place::Back)?;
    /// assert_eq!(pass.cleanup(1)?, ["job"]);
    /// assert_eq!(pass.submit("late", 1, Place::Back).unwrap_err().cause, SubmitError::FileClosed);
    /// # Ok::<(), Box<dyn std::error::Error>>(())
    /// ```
    pub fn cleanup(&self, file: u32) -> Result<Vec<T>, UnknownFile> {
        self.shared().close_file(file)?;
        Ok(self.shared().end_listed(Peek::File(file), Why::Cleanup))
    }

    /// Cancels each request that is listed for a file object, or for any, and hands their values
    /// over, in the list's order. The file object stays open, so this may go on for as long as
    /// others submit or put back. What a canceller has is left to that canceller. What was taken
    /// before isn't waited for, and is for the file object again if it is put back. The lock is
    /// free between two of them.
    ///
    /// # Errors
    ///
    /// [`UnknownFile`]: there is no such file object.
    ///
    /// ```
    /// # use csq::*;
    /// # let queue = Requests::new(&Size::new(4, 2, 2))?;
    /// # let pass = queue.pass()?;
    /// pass.submit("first", 1, Place::Back)?;
    /// pass.submit("other", 0, Place::Back)?;
    /// assert_eq!(pass.drain(Peek::File(1))?, ["first"]);
    /// assert_eq!(pass.drain(Peek::Any)?, ["other"]);
    /// # Ok::<(), Box<dyn std::error::Error>>(())
    /// ```
    pub fn drain(&self, peek: Peek) -> Result<Vec<T>, UnknownFile> {
        self.shared().knows(peek)?;
        Ok(self.shared().end_listed(peek, Why::Drain))
    }

    /// Shuts the queue down, as [`Requests::shutdown`](crate::Requests::shutdown) does.
    ///
    /// ```
    /// # use csq::*;
    /// # let queue = Requests::new(&Size::new(4, 2, 2))?;
    /// # let pass = queue.pass()?;
    /// pass.submit("job", 1, Place::Back)?;
    /// pass.shutdown();
    /// assert_eq!(pass.iter(Peek::Any).count(), 1);
    /// # Ok::<(), Box<dyn std::error::Error>>(())
    /// ```
    pub fn shutdown(&self) {
        self.shared().with(State::shut_down);
    }
}
