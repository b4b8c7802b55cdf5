//! Futures of requests, for any executor: each keeps the waker that its task was last polled with
//! in the queue's list.

use super::owned::OwnedPass;
use super::owned_request::OwnedRequest;
use super::pass::Through;
use super::request::RequestId;
use super::shared::RoomTicket;
use super::state::Submission;
use super::waiting::Ticket;
use crate::errors::{RecvError, Refused};
use crate::words::Peek;
use std::fmt;
use std::future::Future;
use std::pin::Pin;
use std::task::{Context, Poll};
use std::time::Instant;

/// The next request, once there is one ([`OwnedPass::recv_async`]). Dropped before, it takes none:
/// one that came for it wakes the next who waits for the same.
#[must_use = "a future does nothing unless it is awaited"]
pub struct RecvFuture<T> {
    pass: OwnedPass<T>,
    peek: Peek,
    // None unless it was polled and waits, or was woken since.
    ticket: Option<Ticket>,
}

impl<T> fmt::Debug for RecvFuture<T> {
    fn fmt(&self, f: &mut fmt::Formatter<'_>) -> fmt::Result {
        f.debug_tuple("RecvFuture").field(&self.peek).finish()
    }
}

impl<T> RecvFuture<T> {
    pub(super) fn new(pass: OwnedPass<T>, peek: Peek) -> RecvFuture<T> {
        let ticket = None;
        RecvFuture { pass, peek, ticket }
    }
}

impl<T> Future for RecvFuture<T> {
    type Output = Result<OwnedRequest<T>, RecvError>;

    fn poll(mut self: Pin<&mut Self>, context: &mut Context<'_>) -> Poll<Self::Output> {
        let RecvFuture { pass, peek, ticket } = &mut *self;
        let polled = pass
            .shared()
            .poll_take(*peek, ticket, context.waker().clone());
        polled.map(|taken| taken.map(|taken| pass.request(taken)).ok_or(RecvError))
    }
}

impl<T> Drop for RecvFuture<T> {
    fn drop(&mut self) {
        if let Some(ticket) = self.ticket {
            self.pass.shared().give_up(self.peek, ticket);
        }
    }
}

/// Ends once a cancel has named a request that was taken, or its deadline
/// ([`OwnedRequest::cancelled`]).
#[must_use = "a future does nothing unless it is awaited"]
pub struct CancelledFuture<T> {
    pass: OwnedPass<T>,
    request: RequestId,
    ticket: Option<Ticket>,
}

impl<T> fmt::Debug for CancelledFuture<T> {
    fn fmt(&self, f: &mut fmt::Formatter<'_>) -> fmt::Result {
        f.debug_tuple("CancelledFuture")
            .field(&self.request)
            .finish()
    }
}

impl<T> CancelledFuture<T> {
    pub(super) fn new(pass: OwnedPass<T>, request: RequestId) -> CancelledFuture<T> {
        CancelledFuture {
            pass,
            request,
            ticket: None,
        }
    }
}

impl<T> Future for CancelledFuture<T> {
    type Output = ();

    fn poll(mut self: Pin<&mut Self>, context: &mut Context<'_>) -> Poll<()> {
        let CancelledFuture {
            pass,
            request,
            ticket,
        } = &mut *self;
        pass.shared()
            .poll_cancelled(*request, ticket, context.waker().clone())
    }
}

impl<T> Drop for CancelledFuture<T> {
    fn drop(&mut self) {
        if let Some(ticket) = self.ticket {
            self.pass.shared().watch_no_more(self.request, ticket);
        }
    }
}

/// A submit that waits for room ([`OwnedPass::submit_async`]). Dropped before its end, it submits
/// nothing and drops its value: room that came for it wakes the next that waits for the same.
#[must_use = "a future does nothing unless it is awaited"]
pub struct SubmitFuture<T> {
    pass: OwnedPass<T>,
    it: Option<Submission<T>>,
    ticket: Option<RoomTicket>,
}

// The value is never pinned: it is moved into the queue.
impl<T> Unpin for SubmitFuture<T> {}

impl<T> fmt::Debug for SubmitFuture<T> {
    fn fmt(&self, f: &mut fmt::Formatter<'_>) -> fmt::Result {
        f.debug_struct("SubmitFuture").finish_non_exhaustive()
    }
}

impl<T> SubmitFuture<T> {
    pub(super) fn new(pass: OwnedPass<T>, it: Submission<T>) -> SubmitFuture<T> {
        SubmitFuture {
            pass,
            it: Some(it),
            ticket: None,
        }
    }
}

impl<T> SubmitFuture<T> {
    /// The same with a deadline, as that of
    /// [`RequestPass::submit_until`](crate::RequestPass::submit_until), from when it is listed on.
    /// A wait for room goes on when it is over.
    ///
    /// ```
    /// # use csq::*;
    /// # let queue = Requests::new(&Size::new(4, 2, 2))?;
    /// # let pass = queue.owned_pass()?;
    /// # use std::time::{Duration, Instant};
    /// async fn send(pass: OwnedPass<u32>, due: Instant) -> Result<RequestId, Refused<u32>> {
    ///     pass.submit_async(1, 0, Place::Back).until(due).await
    /// }
    /// # drop(send(pass, Instant::now() + Duration::from_secs(1)));
    /// # let _queue: Requests<u32> = queue;
    /// # Ok::<(), Box<dyn std::error::Error>>(())
    /// ```
    pub fn until(mut self, due: Instant) -> SubmitFuture<T> {
        let due = self.pass.shared().due_at(due);
        self.it = self.it.take().map(|it| it.due_at(due));
        self
    }
}

impl<T> Future for SubmitFuture<T> {
    type Output = Result<RequestId, Refused<T>>;

    fn poll(mut self: Pin<&mut Self>, context: &mut Context<'_>) -> Poll<Self::Output> {
        let SubmitFuture { pass, it, ticket } = &mut *self;
        let waker = Some(context.waker().clone());
        let polled = pass.shared().poll_submit(it, ticket, waker);
        polled.map_err(|(it, cause)| Refused::of(it.value, cause))
    }
}

impl<T> Drop for SubmitFuture<T> {
    fn drop(&mut self) {
        if let Some(ticket) = self.ticket {
            self.pass.shared().give_room_up(ticket);
        }
    }
}

/// The values that are cancelled until nothing is under way ([`OwnedPass::drain_async`]).
#[must_use = "a future does nothing unless it is awaited"]
pub struct DrainFuture<T> {
    pass: OwnedPass<T>,
    peek: Peek,
    values: Vec<T>,
    ticket: Option<Ticket>,
}

// No value is pinned.
impl<T> Unpin for DrainFuture<T> {}

impl<T> fmt::Debug for DrainFuture<T> {
    fn fmt(&self, f: &mut fmt::Formatter<'_>) -> fmt::Result {
        f.debug_tuple("DrainFuture").field(&self.peek).finish()
    }
}

impl<T> DrainFuture<T> {
    pub(super) fn new(pass: OwnedPass<T>, peek: Peek) -> DrainFuture<T> {
        DrainFuture {
            pass,
            peek,
            values: Vec::new(),
            ticket: None,
        }
    }
}

impl<T> Future for DrainFuture<T> {
    type Output = Vec<T>;

    fn poll(mut self: Pin<&mut Self>, context: &mut Context<'_>) -> Poll<Vec<T>> {
        let DrainFuture {
            pass,
            peek,
            values,
            ticket,
        } = &mut *self;
        let waker = context.waker().clone();
        let polled = pass.shared().poll_quiet(*peek, values, ticket, waker);
        polled.map(|()| std::mem::take(values))
    }
}

impl<T> Drop for DrainFuture<T> {
    fn drop(&mut self) {
        if let Some(ticket) = self.ticket {
            self.pass.shared().await_quiet_no_more(self.peek, ticket);
        }
    }
}
