//! Passes that threads share.

#[cfg(feature = "async")]
use super::futures::{DrainFuture, RecvFuture, SubmitFuture};
use super::owned_request::OwnedRequest;
use super::pass::{Share, Through};
use super::request::{RequestId, Taken};
use super::shared::Shared;
use super::state::{Held, State, Submission};
use crate::errors::{Missed, RecvError, RecvTimeoutError, Refused, TryRecvError, UnknownFile};
use crate::ledger::Why;
use crate::words::{Peek, Place};
use std::fmt;
use std::sync::Arc;
use std::time::{Duration, Instant};

/// A pass of a queue of requests that threads share: a clone of it is the same pass. Each call
/// through it takes the lock.
///
/// What it takes is an [`OwnedRequest`], which borrows nothing. A pool of threads needs one such
/// pass, where a [`RequestPass`](crate::RequestPass) is for one thread. Dropped with its last clone
/// and request, it is given back.
pub struct OwnedPass<T> {
    share: Arc<Share<T>>,
}

impl<T> Clone for OwnedPass<T> {
    fn clone(&self) -> OwnedPass<T> {
        let share = Arc::clone(&self.share);
        OwnedPass { share }
    }
}

impl<T> fmt::Debug for OwnedPass<T> {
    fn fmt(&self, f: &mut fmt::Formatter<'_>) -> fmt::Result {
        f.debug_struct("OwnedPass").finish_non_exhaustive()
    }
}

impl<T> Through for OwnedPass<T> {
    type Value = T;

    fn shared(&self) -> &Shared<T> {
        self.share.shared()
    }
}

impl<T> OwnedPass<T> {
    pub(super) fn of(share: Share<T>) -> OwnedPass<T> {
        let share = Arc::new(share);
        OwnedPass { share }
    }

    /// Whether this is the same pass.
    pub(super) fn is(&self, other: &OwnedPass<T>) -> bool {
        Arc::ptr_eq(&self.share, &other.share)
    }

    pub(super) fn request(&self, (held, value): (Held, T)) -> OwnedRequest<T> {
        let taken = Taken::of(self.clone(), held, value);
        OwnedRequest { taken }
    }

    /// Submits a value, as [`RequestPass::submit`](crate::RequestPass::submit) does.
    ///
    /// # Errors
    ///
    /// [`SubmitError`](crate::SubmitError) in a [`Refused`], which hands the value back.
    ///
    /// ```
    /// # use csq::*;
    /// # let queue = Requests::new(&Size::new(4, 2, 2))?;
    /// # let pass = queue.owned_pass()?;
    /// let id = pass.submit("job", 0, Place::Back)?;
    /// assert_eq!(pass.cancel(id)?, "job");
    /// assert_eq!(pass.submit("job", 2, Place::Back).unwrap_err().into_value(), "job");
    /// # Ok::<(), Box<dyn std::error::Error>>(())
    /// ```
    pub fn submit(&self, value: T, file: u32, place: Place) -> Result<RequestId, Refused<T>> {
        self.shared().submit(Submission::new(value, file, place))
    }

    /// [`OwnedPass::submit`], which waits for room at most this long, as
    /// [`RequestPass::submit_timeout`](crate::RequestPass::submit_timeout) does.
    ///
    /// # Errors
    ///
    /// [`SubmitError`](crate::SubmitError) in a [`Refused`], which hands the value back.
    ///
    /// ```
    /// # use csq::*;
    /// # let queue = Requests::new(&Size::new(1, 1, 2))?;
    /// # let pass = queue.owned_pass()?;
    /// # use std::time::Duration;
    /// pass.submit("first", 0, Place::Back)?;
    /// let worker = std::thread::spawn({
    ///     let pass = pass.clone();
    ///     move || pass.recv(Peek::Any).expect("a request").complete()
    /// });
    /// pass.submit_timeout("second", 0, Place::Back, Duration::from_secs(60))?;
    /// # worker.join().unwrap();
    /// let full = pass.submit_timeout("third", 0, Place::Back, Duration::from_millis(1));
    /// assert_eq!(full.unwrap_err().cause, SubmitError::NoIrp);
    /// # Ok::<(), Box<dyn std::error::Error>>(())
    /// ```
    pub fn submit_timeout(
        &self,
        value: T,
        file: u32,
        place: Place,
        limit: Duration,
    ) -> Result<RequestId, Refused<T>> {
        let it = Submission::new(value, file, place);
        self.shared().submit_waiting(it, limit)
    }

    /// [`OwnedPass::submit`] with a deadline, as
    /// [`RequestPass::submit_until`](crate::RequestPass::submit_until) does.
    ///
    /// # Errors
    ///
    /// [`SubmitError`](crate::SubmitError) in a [`Refused`], which hands the value back.
    ///
    /// ```
    /// # use csq::*;
    /// # let queue = Requests::new(&Size::new(4, 2, 2))?;
    /// # let pass = queue.owned_pass()?;
    /// # use std::time::{Duration, Instant};
    /// let due = Instant::now() + Duration::from_secs(60);
    /// pass.submit_until("job", 0, Place::Back, due)?;
    /// let (ended, next) = pass.cancel_due(due + Duration::from_millis(1));
    /// assert_eq!((ended, next), (vec!["job"], None));
    /// # Ok::<(), Box<dyn std::error::Error>>(())
    /// ```
    pub fn submit_until(
        &self,
        value: T,
        file: u32,
        place: Place,
        due: Instant,
    ) -> Result<RequestId, Refused<T>> {
        let due = self.shared().due_at(due);
        let it = Submission::new(value, file, place);
        self.shared().submit(it.due_at(due))
    }

    /// [`OwnedPass::submit_timeout`] for a task, which waits by its waker and without a limit.
    /// Dropped before its end, it submits nothing and drops its value.
    ///
    /// ```
    /// # use csq::*;
    /// # let queue = Requests::new(&Size::new(4, 2, 2))?;
    /// # let pass = queue.owned_pass()?;
    /// async fn send(pass: OwnedPass<&'static str>) -> Result<RequestId, Refused<&'static str>> {
    ///     pass.submit_async("job", 0, Place::Back).await
    /// }
    /// # drop(send(pass));
    /// # let _queue: Requests<&str> = queue;
    /// # Ok::<(), Box<dyn std::error::Error>>(())
    /// ```
    #[cfg(feature = "async")]
    pub fn submit_async(&self, value: T, file: u32, place: Place) -> SubmitFuture<T> {
        SubmitFuture::new(self.clone(), Submission::new(value, file, place))
    }

    /// Takes the first listed request of a file object, or of any, that no canceller has.
    ///
    /// # Errors
    ///
    /// [`TryRecvError`]: none is listed; it says whether the queue was shut down or dropped.
    ///
    /// ```
    /// # use csq::*;
    /// # let queue = Requests::new(&Size::new(4, 2, 2))?;
    /// # let pass = queue.owned_pass()?;
    /// pass.submit("job", 0, Place::Back)?;
    /// assert_eq!(pass.try_recv(Peek::Any)?.complete(), "job");
    /// assert_eq!(pass.try_recv(Peek::Any).unwrap_err(), TryRecvError::Empty);
    /// # Ok::<(), Box<dyn std::error::Error>>(())
    /// ```
    pub fn try_recv(&self, peek: Peek) -> Result<OwnedRequest<T>, TryRecvError> {
        Ok(self.request(self.shared().try_take(peek)?))
    }

    /// [`OwnedPass::try_recv`], and waits until there is one, as
    /// [`RequestPass::recv`](crate::RequestPass::recv) does.
    ///
    /// # Errors
    ///
    /// [`RecvError`]: the queue was shut down or dropped, and none is listed.
    ///
    /// # Panics
    ///
    /// There is no such file object.
    ///
    /// ```
    /// # use csq::*;
    /// # let queue = Requests::new(&Size::new(4, 2, 2))?;
    /// # let pass = queue.owned_pass()?;
    /// pass.submit("job", 0, Place::Back)?;
    /// assert_eq!(pass.recv(Peek::Any)?.complete(), "job");
    /// # Ok::<(), Box<dyn std::error::Error>>(())
    /// ```
    pub fn recv(&self, peek: Peek) -> Result<OwnedRequest<T>, RecvError> {
        let taken = self.shared().wait(peek, None).map_err(|_| RecvError)?;
        Ok(self.request(taken))
    }

    /// [`OwnedPass::recv`], which waits at most so long.
    ///
    /// # Errors
    ///
    /// [`RecvTimeoutError`]: none came in time; or the queue was shut down or dropped,
    /// and none is listed.
    ///
    /// # Panics
    ///
    /// There is no such file object.
    ///
    /// ```
    /// # use csq::*;
    /// # let queue = Requests::new(&Size::new(4, 2, 2))?;
    /// # let pass = queue.owned_pass()?;
    /// # use std::time::Duration;
    /// pass.submit("job", 0, Place::Back)?;
    /// assert_eq!(pass.recv_timeout(Peek::Any, Duration::from_secs(1))?.complete(), "job");
    /// let none = pass.recv_timeout(Peek::Any, Duration::from_millis(1));
    /// assert_eq!(none.unwrap_err(), RecvTimeoutError::Timeout);
    /// # Ok::<(), Box<dyn std::error::Error>>(())
    /// ```
    pub fn recv_timeout(
        &self,
        peek: Peek,
        limit: Duration,
    ) -> Result<OwnedRequest<T>, RecvTimeoutError> {
        Ok(self.request(self.shared().wait(peek, Some(limit))?))
    }

    /// Takes one request after the other by [`OwnedPass::recv`], until it returns an error.
    ///
    /// # Panics
    ///
    /// There is no such file object.
    ///
    /// ```
    /// # use csq::*;
    /// # let queue = Requests::new(&Size::new(4, 2, 2))?;
    /// # let pass = queue.owned_pass()?;
    /// pass.submit(1, 0, Place::Back)?;
    /// pass.submit(2, 0, Place::Back)?;
    /// queue.shutdown();
    /// assert_eq!(pass.iter(Peek::Any).map(|request| request.complete()).sum::<i32>(), 3);
    /// # Ok::<(), Box<dyn std::error::Error>>(())
    /// ```
    pub fn iter(&self, peek: Peek) -> impl Iterator<Item = OwnedRequest<T>> + '_ {
        std::iter::from_fn(move || self.recv(peek).ok())
    }

    /// Takes a first request as [`OwnedPass::recv`] does, and then more under one lock, as
    /// [`RequestPass::recv_many`](crate::RequestPass::recv_many) does.
    ///
    /// # Errors
    ///
    /// [`RecvError`]: the queue was shut down or dropped, and none is listed.
    ///
    /// # Panics
    ///
    /// There is no such file object, or `most` is 0.
    ///
    /// ```
    /// # use csq::*;
    /// # let queue = Requests::new(&Size::new(4, 2, 2))?;
    /// # let pass = queue.owned_pass()?;
    /// for job in 0..4 {
    ///     pass.submit(job, 0, Place::Back)?;
    /// }
    /// let batch = pass.recv_many(Peek::Any, 3)?;
    /// assert_eq!(OwnedRequest::complete_all(batch), [0, 1, 2]);
    /// # Ok::<(), Box<dyn std::error::Error>>(())
    /// ```
    pub fn recv_many(&self, peek: Peek, most: usize) -> Result<Vec<OwnedRequest<T>>, RecvError> {
        assert!(most > 0, "a batch has one request or more");
        let mut batch = vec![self.recv(peek)?];
        let more = self.shared().take_more(peek, most - 1);
        batch.extend(more.into_iter().map(|taken| self.request(taken)));
        Ok(batch)
    }

    /// The next request, once there is one: [`OwnedPass::recv`] for a task, which waits by its
    /// waker.
    ///
    /// # Panics
    ///
    /// There is no such file object.
    ///
    /// ```
    /// # use csq::*;
    /// # let queue = Requests::new(&Size::new(4, 2, 2))?;
    /// # let pass = queue.owned_pass()?;
    /// async fn work(pass: OwnedPass<&'static str>) {
    ///     while let Ok(request) = pass.recv_async(Peek::Any).await {
    ///         request.complete();
    ///     }
    /// }
    /// # drop(work(pass));
    /// # let _queue: Requests<&str> = queue;
    /// # Ok::<(), Box<dyn std::error::Error>>(())
    /// ```
    #[cfg(feature = "async")]
    pub fn recv_async(&self, peek: Peek) -> RecvFuture<T> {
        self.shared().expect_known(peek);
        RecvFuture::new(self.clone(), peek)
    }

    /// Cancels a request, and hands its value over. Otherwise somebody else has the value, or had
    /// it.
    ///
    /// # Errors
    ///
    /// [`Missed`] says who has or had the value.
    ///
    /// ```
    /// # use csq::*;
    /// # let queue = Requests::new(&Size::new(4, 2, 2))?;
    /// # let pass = queue.owned_pass()?;
    /// let id = pass.submit("job", 0, Place::Back)?;
    /// assert_eq!(pass.cancel(id)?, "job");
    /// assert_eq!(pass.cancel(id), Err(Missed::Completed));
    /// # Ok::<(), Box<dyn std::error::Error>>(())
    /// ```
    pub fn cancel(&self, request: RequestId) -> Result<T, Missed> {
        self.shared().cancel(request)
    }

    /// Closes a file object and cancels what is listed for it, as
    /// [`RequestPass::cleanup`](crate::RequestPass::cleanup) does.
    ///
    /// # Errors
    ///
    /// [`UnknownFile`]: there is no such file object.
    ///
    /// ```
    /// # use csq::*;
    /// # let queue = Requests::new(&Size::new(4, 2, 2))?;
    /// # let pass = queue.owned_pass()?;
    /// pass.submit("job", 1, Place::Back)?;
    /// assert_eq!(pass.cleanup(1)?, ["job"]);
    /// assert_eq!(pass.submit("late", 1, Place::Back).unwrap_err().cause, SubmitError::FileClosed);
    /// # Ok::<(), Box<dyn std::error::Error>>(())
    /// ```
    pub fn cleanup(&self, file: u32) -> Result<Vec<T>, UnknownFile> {
        self.shared().close_file(file)?;
        Ok(self.shared().end_listed(Peek::File(file), Why::Cleanup))
    }

    /// Cancels what is listed, as [`RequestPass::drain`](crate::RequestPass::drain) does.
    ///
    /// # Errors
    ///
    /// [`UnknownFile`]: there is no such file object.
    ///
    /// ```
    /// # use csq::*;
    /// # let queue = Requests::new(&Size::new(4, 2, 2))?;
    /// # let pass = queue.owned_pass()?;
    /// pass.submit("first", 1, Place::Back)?;
    /// pass.submit("other", 0, Place::Back)?;
    /// assert_eq!(pass.drain(Peek::File(1))?, ["first"]);
    /// assert_eq!(pass.drain(Peek::Any)?, ["other"]);
    /// # Ok::<(), Box<dyn std::error::Error>>(())
    /// ```
    pub fn drain(&self, peek: Peek) -> Result<Vec<T>, UnknownFile> {
        self.shared().knows(peek)?;
        Ok(self.shared().end_listed(peek, Why::Drain))
    }

    /// [`OwnedPass::drain`], which goes on until none of the file object, or none at all, is under
    /// way: it also cancels what is submitted or put back meanwhile, and waits for what was taken,
    /// by the task's waker. Its value are the values that it cancelled. Dropped before its end, it
    /// drops those that it has.
    ///
    /// # Panics
    ///
    /// There is no such file object.
    ///
    /// ```
    /// # use csq::*;
    /// # let queue = Requests::new(&Size::new(4, 2, 2))?;
    /// # let pass = queue.owned_pass()?;
    /// async fn gone(pass: OwnedPass<&'static str>, connection: u32) -> usize {
    ///     pass.drain_async(Peek::File(connection)).await.len()
    /// }
    /// # drop(gone(pass, 1));
    /// # let _queue: Requests<&str> = queue;
    /// # Ok::<(), Box<dyn std::error::Error>>(())
    /// ```
    #[cfg(feature = "async")]
    pub fn drain_async(&self, peek: Peek) -> DrainFuture<T> {
        self.shared().expect_known(peek);
        DrainFuture::new(self.clone(), peek)
    }

    /// Cancels each request whose deadline is over by this time, and hands over the values of those
    /// that were listed; the holder of one that is taken learns of it
    /// ([`OwnedRequest::cancelled_by`]). Also returns when the next one is due: for an event loop,
    /// which then calls again.
    ///
    /// ```
    /// # use csq::*;
    /// # let queue = Requests::new(&Size::new(4, 2, 2))?;
    /// # let pass = queue.owned_pass()?;
    /// # use std::time::{Duration, Instant};
    /// let due = Instant::now() + Duration::from_secs(60);
    /// pass.submit_until("job", 0, Place::Back, due)?;
    /// let (ended, next) = pass.cancel_due(Instant::now());
    /// assert!(ended.is_empty() && next >= Some(due));
    /// # Ok::<(), Box<dyn std::error::Error>>(())
    /// ```
    pub fn cancel_due(&self, now: Instant) -> (Vec<T>, Option<Instant>) {
        self.shared().cancel_due(now)
    }

    /// Waits until requests that are listed are due, cancels them as [`OwnedPass::cancel_due`]
    /// does, and hands over their values: for a thread that does nothing else. None once the queue
    /// is shut down or dropped, and no request has a deadline any more.
    ///
    /// ```
    /// # use csq::*;
    /// # let queue = Requests::new(&Size::new(4, 2, 2))?;
    /// # let pass = queue.owned_pass()?;
    /// # use std::time::{Duration, Instant};
    /// let clock = std::thread::spawn({
    ///     let pass = pass.clone();
    ///     move || std::iter::from_fn(|| pass.recv_due()).flatten().collect::<Vec<_>>()
    /// });
    /// pass.submit_until("job", 0, Place::Back, Instant::now() + Duration::from_millis(1))?;
    /// pass.shutdown();
    /// assert_eq!(clock.join().unwrap(), ["job"]);
    /// # Ok::<(), Box<dyn std::error::Error>>(())
    /// ```
    pub fn recv_due(&self) -> Option<Vec<T>> {
        self.shared().wait_due()
    }

    /// Shuts the queue down, as [`Requests::shutdown`](crate::Requests::shutdown) does.
    ///
    /// ```
    /// # use csq::*;
    /// # let queue = Requests::new(&Size::new(4, 2, 2))?;
    /// # let pass = queue.owned_pass()?;
    /// pass.submit("job", 1, Place::Back)?;
    /// pass.shutdown();
    /// assert_eq!(pass.iter(Peek::Any).count(), 1);
    /// # Ok::<(), Box<dyn std::error::Error>>(())
    /// ```
    pub fn shutdown(&self) {
        self.shared().with(State::shut_down);
    }
}
