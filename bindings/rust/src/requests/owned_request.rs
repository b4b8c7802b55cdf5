//! Requests that borrow nothing.

#[cfg(feature = "async")]
use super::futures::CancelledFuture;
use super::owned::OwnedPass;
use super::pass::Through;
use super::request::{PutBack, RequestId, Taken};
use crate::errors::{CancelledBy, NotPutBack};
use crate::words::{FinalStatus, Place};
use std::fmt;

/// A request that an [`OwnedPass`] took, with its value and a share of that pass. Dropped, it is
/// completed with `STATUS_CANCELLED`, and its value dropped.
///
/// It borrows nothing: it may be kept in a struct, sent to another thread if its value may, and
/// completed there.
#[must_use = "a request that was taken has to be completed, and is where it is dropped"]
pub struct OwnedRequest<T> {
    pub(super) taken: Taken<OwnedPass<T>>,
}

impl<T: fmt::Debug> fmt::Debug for OwnedRequest<T> {
    fn fmt(&self, f: &mut fmt::Formatter<'_>) -> fmt::Result {
        f.debug_tuple("OwnedRequest")
            .field(&self.taken.value)
            .finish()
    }
}

impl<T> OwnedRequest<T> {
    /// Its name.
    ///
    /// ```
    /// # use csq::*;
    /// # let queue = Requests::new(&Size::new(4, 2, 2))?;
    /// # let pass = queue.owned_pass()?;
    /// let id = pass.submit("job", 1, Place::Back)?;
    /// assert_eq!(pass.recv(Peek::Any)?.id(), id);
    /// # Ok::<(), Box<dyn std::error::Error>>(())
    /// ```
    pub fn id(&self) -> RequestId {
        self.taken.id
    }

    /// The value.
    ///
    /// ```
    /// # use csq::*;
    /// # let queue = Requests::new(&Size::new(4, 2, 2))?;
    /// # let pass = queue.owned_pass()?;
    /// pass.submit("job", 1, Place::Back)?;
    /// assert_eq!(pass.recv(Peek::Any)?.value(), &"job");
    /// # Ok::<(), Box<dyn std::error::Error>>(())
    /// ```
    pub fn value(&self) -> &T {
        &self.taken.value
    }

    /// The value, to be changed.
    ///
    /// ```
    /// # use csq::*;
    /// # let queue = Requests::new(&Size::new(4, 2, 2))?;
    /// # let pass = queue.owned_pass()?;
    /// pass.submit(1, 1, Place::Back)?;
    /// let mut request = pass.recv(Peek::Any)?;
    /// *request.value_mut() += 1;
    /// assert_eq!(request.complete(), 2);
    /// # Ok::<(), Box<dyn std::error::Error>>(())
    /// ```
    pub fn value_mut(&mut self) -> &mut T {
        &mut self.taken.value
    }

    /// Whether a cancel named it and came too late, or its deadline did, as
    /// [`Request::is_cancelled`](crate::Request::is_cancelled) has it. Takes the lock.
    ///
    /// ```
    /// # use csq::*;
    /// # let queue = Requests::new(&Size::new(4, 2, 2))?;
    /// # let pass = queue.owned_pass()?;
    /// let id = pass.submit("job", 1, Place::Back)?;
    /// let request = pass.recv(Peek::Any)?;
    /// assert_eq!(pass.cancel(id), Err(Missed::Taken));
    /// assert!(request.is_cancelled());
    /// # Ok::<(), Box<dyn std::error::Error>>(())
    /// ```
    pub fn is_cancelled(&self) -> bool {
        self.cancelled_by().is_some()
    }

    /// What named it first, as [`Request::cancelled_by`](crate::Request::cancelled_by) has it.
    ///
    /// ```
    /// # use csq::*;
    /// # let queue = Requests::new(&Size::new(4, 2, 2))?;
    /// # let pass = queue.owned_pass()?;
    /// # use std::time::{Duration, Instant};
    /// let due = Instant::now();
    /// let id = pass.submit_until("job", 1, Place::Back, due)?;
    /// let request = pass.recv(Peek::Any)?;
    /// pass.cancel_due(due + Duration::from_millis(1));
    /// assert_eq!(pass.cancel(id), Err(Missed::Taken));
    /// assert_eq!(request.cancelled_by(), Some(CancelledBy::Deadline));
    /// # Ok::<(), Box<dyn std::error::Error>>(())
    /// ```
    pub fn cancelled_by(&self) -> Option<CancelledBy> {
        self.taken.cancelled_by()
    }

    /// Ends once a cancel has named the request, or its deadline ([`OwnedRequest::is_cancelled`]).
    /// Of one that is completed before, it never ends.
    ///
    /// ```
    /// # use csq::*;
    /// # let queue = Requests::new(&Size::new(4, 2, 2))?;
    /// # let pass = queue.owned_pass()?;
    /// // For the `select!` of an executor, beside the work.
    /// async fn until_cancelled(request: &OwnedRequest<u32>) {
    ///     request.cancelled().await;
    ///     assert!(request.is_cancelled());
    /// }
    /// # pass.submit(1, 0, Place::Back)?;
    /// # drop(until_cancelled(&pass.recv(Peek::Any)?));
    /// # Ok::<(), Box<dyn std::error::Error>>(())
    /// ```
    #[cfg(feature = "async")]
    pub fn cancelled(&self) -> CancelledFuture<T> {
        CancelledFuture::new(self.taken.pass().clone(), self.taken.id)
    }

    /// Completes the request with `STATUS_SUCCESS`, and hands its value over. Its IRP is free then.
    /// Takes the lock.
    ///
    /// ```
    /// # use csq::*;
    /// # let queue = Requests::new(&Size::new(4, 2, 2))?;
    /// # let pass = queue.owned_pass()?;
    /// let id = pass.submit("job", 1, Place::Back)?;
    /// assert_eq!(pass.recv(Peek::Any)?.complete(), "job");
    /// assert_eq!(pass.cancel(id), Err(Missed::Completed));
    /// # Ok::<(), Box<dyn std::error::Error>>(())
    /// ```
    pub fn complete(self) -> T {
        self.taken.complete()
    }

    /// Completes these requests with `STATUS_SUCCESS`, those that are of one pass and stand next to
    /// each other under one lock, and hands their values over.
    ///
    /// ```
    /// # use csq::*;
    /// # let queue = Requests::new(&Size::new(4, 2, 2))?;
    /// # let pass = queue.owned_pass()?;
    /// pass.submit("first", 1, Place::Back)?;
    /// pass.submit("second", 1, Place::Back)?;
    /// let batch = pass.recv_many(Peek::Any, 2)?;
    /// assert_eq!(OwnedRequest::complete_all(batch), ["first", "second"]);
    /// # Ok::<(), Box<dyn std::error::Error>>(())
    /// ```
    pub fn complete_all(requests: Vec<OwnedRequest<T>>) -> Vec<T> {
        let mut values = Vec::with_capacity(requests.len());
        let mut requests = requests.into_iter().peekable();
        while let Some(pass) = requests.peek().map(|first| first.taken.pass().clone()) {
            let of_pass = std::iter::from_fn(|| requests.next_if(|it| it.taken.pass().is(&pass)));
            // Each is taken apart before the lock is: its share of the pass isn't the last one.
            let parts: Vec<_> = of_pass.map(|it| it.taken.into_parts()).collect();
            pass.shared().with(|state| {
                for (_, held, _) in &parts {
                    state.complete(*held, FinalStatus::SUCCESS);
                }
            });
            values.extend(parts.into_iter().map(|(_, _, value)| value));
        }
        values
    }

    /// Puts the request back with its value, as [`Request::put_back`](crate::Request::put_back)
    /// does.
    ///
    /// # Errors
    ///
    /// [`NotPutBack`], which hands the request back with its cause.
    ///
    /// ```
    /// # use csq::*;
    /// # let queue = Requests::new(&Size::new(4, 2, 2))?;
    /// # let pass = queue.owned_pass()?;
    /// pass.submit("job", 1, Place::Back)?;
    /// let busy = pass.recv(Peek::Any)?;
    /// assert_eq!(busy.put_back(Place::Front).unwrap(), PutBack::Pending);
    /// assert_eq!(pass.recv(Peek::Any)?.complete(), "job");
    /// # Ok::<(), Box<dyn std::error::Error>>(())
    /// ```
    pub fn put_back(self, place: Place) -> Result<PutBack<T>, NotPutBack<OwnedRequest<T>>> {
        self.taken.put_back(place, |taken| OwnedRequest { taken })
    }
}
