//! Requests by name, and those that a pass took.

use super::pass::{RequestPass, Through};
use super::state::Held;
use crate::errors::{CancelledBy, NotPutBack};
use crate::words::{FinalStatus, Irp, Place};
use std::fmt;

/// Names a request that was submitted to a cancel: this one, in its own queue, and none that comes
/// after it.
#[derive(Clone, Copy, Debug, PartialEq, Eq, Hash)]
pub struct RequestId {
    pub(super) queue: u64,
    pub(super) irp: Irp,
}

/// A request that a pass took, with its value. Dropped, it is completed with `STATUS_CANCELLED`,
/// and its value dropped. It stays in its thread: the requests of an `OwnedPass` can go to others.
#[must_use = "a request that was taken has to be completed, and is where it is dropped"]
pub struct Request<'pass, T> {
    taken: Taken<&'pass RequestPass<T>>,
}

impl<T: fmt::Debug> fmt::Debug for Request<'_, T> {
    fn fmt(&self, f: &mut fmt::Formatter<'_>) -> fmt::Result {
        f.debug_tuple("Request").field(&self.taken.value).finish()
    }
}

impl<'pass, T> Request<'pass, T> {
    /// What this pass took.
    pub(super) fn of(pass: &'pass RequestPass<T>, (held, value): (Held, T)) -> Request<'pass, T> {
        let taken = Taken::of(pass, held, value);
        Request { taken }
    }

    /// Its name.
    ///
    /// ```
    /// # use csq::*;
    /// # let queue = Requests::new(&Size::new(4, 2, 2))?;
    /// # let pass = queue.pass()?;
    /// let id = pass.submit("job", 1, Place::Back)?;
    /// assert_eq!(pass.recv(Peek::Any)?.id(), id);
    /// # Ok::<(), Box<dyn std::error::Error>>(())
    /// ```
    pub fn id(&self) -> RequestId {
        self.taken.id
    }

    /// The value.
    ///
    /// ```
    /// # use csq::*;
    /// # let queue = Requests::new(&Size::new(4, 2, 2))?;
    /// # let pass = queue.pass()?;
    /// pass.submit("job", 1, Place::Back)?;
    /// assert_eq!(pass.recv(Peek::Any)?.value(), &"job");
    /// # Ok::<(), Box<dyn std::error::Error>>(())
    /// ```
    pub fn value(&self) -> &T {
        &self.taken.value
    }

    /// The value, to be changed.
    ///
    /// ```
    /// # use csq::*;
    /// # let queue = Requests::new(&Size::new(4, 2, 2))?;
    /// # let pass = queue.pass()?;
    /// pass.submit(1, 1, Place::Back)?;
    /// let mut request = pass.recv(Peek::Any)?;
    /// *request.value_mut() += 1;
    /// assert_eq!(request.complete(), 2);
    /// # Ok::<(), Box<dyn std::error::Error>>(())
    /// ```
    pub fn value_mut(&mut self) -> &mut T {
        &mut self.taken.value
    }

    /// Whether a cancel named it and came too late ([`Missed::Taken`](crate::Missed::Taken)), or
    /// its deadline did: nobody waits for it, so it may be given up, and a put-back doesn't leave
    /// it to another worker. Takes the lock.
    ///
    /// ```
    /// # use csq::*;
    /// # let queue = Requests::new(&Size::new(4, 2, 2))?;
    /// # let pass = queue.pass()?;
    /// let id = pass.submit("job", 1, Place::Back)?;
    /// let request = pass.recv(Peek::Any)?;
    /// assert_eq!(pass.cancel(id), Err(Missed::Taken));
    /// assert!(request.is_cancelled());
    /// # Ok::<(), Box<dyn std::error::Error>>(())
    /// ```
    pub fn is_cancelled(&self) -> bool {
        self.cancelled_by().is_some()
    }

    /// What named it first, if anything did ([`Request::is_cancelled`]): a cancel, or its deadline.
    ///
    /// ```
    /// # use csq::*;
    /// # let queue = Requests::new(&Size::new(4, 2, 2))?;
    /// # let pass = queue.pass()?;
    /// let id = pass.submit("job", 1, Place::Back)?;
    /// let request = pass.recv(Peek::Any)?;
    /// assert_eq!(request.cancelled_by(), None);
    /// assert_eq!(pass.cancel(id), Err(Missed::Taken));
    /// assert_eq!(request.cancelled_by(), Some(CancelledBy::Caller));
    /// # Ok::<(), Box<dyn std::error::Error>>(())
    /// ```
    pub fn cancelled_by(&self) -> Option<CancelledBy> {
        self.taken.cancelled_by()
    }

    /// Completes the request with `STATUS_SUCCESS`, and hands its value over. Its IRP is free then.
    /// Takes the lock.
    ///
    /// ```
    /// # use csq::*;
    /// # let queue = Requests::new(&Size::new(4, 2, 2))?;
    /// # let pass = queue.pass()?;
    /// let id = pass.submit("job", 1, Place::Back)?;
    /// assert_eq!(pass.recv(Peek::Any)?.complete(), "job");
    /// assert_eq!(pass.cancel(id), Err(Missed::Completed));
    /// # Ok::<(), Box<dyn std::error::Error>>(())
    /// ```
    pub fn complete(self) -> T {
        self.taken.complete()
    }

    /// Puts the request back into the list with its value, for the file object that it was
    /// submitted for: for a worker that can't serve it now. It keeps its name and its deadline. One
    /// that was named in the meantime ([`Request::is_cancelled`]) is completed with
    /// `STATUS_CANCELLED`, and its value handed over. Takes the lock.
    ///
    /// # Errors
    ///
    /// [`NotPutBack`], which hands the request back with its cause. That is tested before the
    /// cancel: a worker that tries again looks at [`Request::is_cancelled`] too. No put-back is
    /// refused as [`Full`](crate::PutBackError::Full) if [`Size::limit`](crate::Size::limit) is
    /// [`Size::irps`](crate::Size::irps).
    ///
    /// ```
    /// # fn main() -> Result<(), Box<dyn std::error::Error>> {
    /// # use csq::{Peek, Place, PutBack, Requests, Size};
    /// let reads = Requests::new(&Size::new(2, 1, 1))?;
    /// let pass = reads.pass()?;
    /// pass.submit("read", 0, Place::Back)?;
    /// match pass.next(Peek::Any).expect("the request").put_back(Place::Front) {
    ///     Ok(PutBack::Pending) => assert_eq!(reads.len(), 1),
    ///     Ok(PutBack::Cancelled(value)) => println!("{value}: nobody waits for it"),
    ///     // Its file object was closed: completed as cancelled.
    ///     Err(refused) => drop(refused.held),
    /// }
    /// # Ok(())
    /// # }
    /// ```
    pub fn put_back(self, place: Place) -> Result<PutBack<T>, NotPutBack<Request<'pass, T>>> {
        self.taken.put_back(place, |taken| Request { taken })
    }
}

/// What became of a request that was put back.
#[must_use = "a request that was cancelled in the meantime hands its value over"]
#[derive(Clone, Copy, Debug, PartialEq, Eq)]
pub enum PutBack<T> {
    /// It is listed again, with its value.
    Pending,
    /// A cancel had named it in the meantime ([`Missed::Taken`](crate::Missed::Taken)): it is
    /// completed with `STATUS_CANCELLED`, and this is its value.
    Cancelled(T),
}

/// A request that was taken through a pass, and isn't completed or put back.
pub(super) struct Taken<P: Through> {
    // Dropped before the value, so that the IRP is completed by then, whatever the drop of the
    // value does.
    hold: Hold<P>,
    pub(super) id: RequestId,
    pub(super) value: P::Value,
}

impl<P: Through> Taken<P> {
    pub(super) fn of(pass: P, held: Held, value: P::Value) -> Taken<P> {
        let id = pass.shared().id(held.irp);
        let hold = Hold {
            pass: Some(pass),
            held: Some(held),
        };
        Taken { hold, id, value }
    }

    pub(super) fn pass(&self) -> &P {
        self.hold.pass.as_ref().expect("the pass until the end")
    }

    pub(super) fn cancelled_by(&self) -> Option<CancelledBy> {
        self.pass().shared().cancelled_by(self.id)
    }

    pub(super) fn complete(mut self) -> P::Value {
        self.hold.complete(FinalStatus::SUCCESS);
        self.value
    }

    /// What it was taken through, what it holds, and the value. It is the caller's to complete.
    pub(super) fn into_parts(self) -> (P, Held, P::Value) {
        let Taken {
            mut hold, value, ..
        } = self;
        let pass = hold.pass.take().expect("the pass until the end");
        let held = hold.held.take().expect("a request that isn't completed");
        (pass, held, value)
    }

    /// A refusal is of this again, which is made what it was.
    pub(super) fn put_back<R>(
        self,
        place: Place,
        again: impl FnOnce(Taken<P>) -> R,
    ) -> Result<PutBack<P::Value>, NotPutBack<R>> {
        let (pass, held, value) = self.into_parts();
        let refused = pass.shared().put_back(held, value, place);
        refused.map_err(|(cause, value)| NotPutBack {
            held: again(Taken::of(pass, held, value)),
            cause,
        })
    }
}

/// The IRP of a request, until it is completed or put back; and what it was taken through.
struct Hold<P: Through> {
    pass: Option<P>,
    held: Option<Held>,
}

impl<P: Through> Hold<P> {
    fn complete(&mut self, status: FinalStatus) {
        if let (Some(pass), Some(held)) = (&self.pass, self.held.take()) {
            pass.shared().complete(held, status);
        }
    }
}

impl<P: Through> Drop for Hold<P> {
    fn drop(&mut self) {
        self.complete(FinalStatus::CANCELLED);
    }
}
