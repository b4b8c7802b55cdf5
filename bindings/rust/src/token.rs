//! What a pass has to complete.
//!
//! A token borrows its pass, so it is spent through that pass, before the pass is given back, and
//! by its thread. Rust has no values that must be spent; so a token that is let go, at a `?` or in
//! a panic, completes its IRP with `STATUS_CANCELLED`, which fits however the pass got it.

use crate::errors::NotPutBack;
use crate::pass::Pass;
use crate::words::{FinalStatus, Irp, Place};
use std::fmt;
use std::mem;

// What the three kinds have in common.
macro_rules! token {
    ($name:ident) => {
        impl $name<'_> {
            /// The IRP, in its life.
            ///
            /// ```
            /// # use csq::*;
            /// # let queue = Queue::new(&Size::new(4, 2, 2))?;
            /// # let pass = queue.pass()?;
            /// let _listed = pass.insert(3, 1, Place::Back)?;
            /// let token = pass.remove_next(Peek::Any).expect("the IRP");
            /// assert_eq!(token.irp(), Irp { irp: 3, life: 0 });
            /// # Ok::<(), Box<dyn std::error::Error>>(())
            /// ```
            pub fn irp(&self) -> Irp {
                self.irp
            }
        }

        impl fmt::Debug for $name<'_> {
            fn fmt(&self, f: &mut fmt::Formatter<'_>) -> fmt::Result {
                f.debug_tuple(stringify!($name)).field(&self.irp).finish()
            }
        }
    };
}

/// An IRP that the pass got by a removal. Dropped, it is completed with `STATUS_CANCELLED`.
#[must_use = "a removed IRP has to be completed, and is completed as cancelled if it is dropped"]
pub struct Removed<'pass> {
    pub(crate) pass: &'pass Pass,
    pub(crate) irp: Irp,
}

token!(Removed);

impl<'pass> Removed<'pass> {
    /// Completes the IRP with this status (`IoCompleteRequest`).
    ///
    /// ```
    /// # use csq::*;
    /// # let queue = Queue::new(&Size::new(4, 2, 2))?;
    /// # let pass = queue.pass()?;
    /// let _listed = pass.insert(0, 1, Place::Back)?;
    /// pass.remove_next(Peek::Any).expect("the IRP").complete(FinalStatus::SUCCESS);
    /// assert_eq!(pass.status(0)?, (0, Some(FinalStatus::SUCCESS)));
    /// # Ok::<(), Box<dyn std::error::Error>>(())
    /// ```
    pub fn complete(self, status: FinalStatus) {
        self.pass.complete(self.irp, status);
        mem::forget(self);
    }

    /// Puts the IRP back into the list, for the file object that it was inserted for
    /// (`IoCsqInsertIrpEx` of an IRP that was removed): for a worker that can't serve it now. Its
    /// life goes on, so the context of its insert still names it. One that was cancelled while a
    /// pass held it isn't listed, but has to be completed ([`Inserted::Cancelled`]). A refusal
    /// hands the token back. Takes the lock.
    ///
    /// # Errors
    ///
    /// [`NotPutBack`], which hands the token back with its cause.
    ///
    /// ```
    /// # fn main() -> Result<(), Box<dyn std::error::Error>> {
    /// # use csq::{Inserted, Peek, Place, Queue, Size};
    /// let queue = Queue::new(&Size::new(1, 1, 2))?;
    /// let (worker, caller) = (queue.pass()?, queue.pass()?);
    /// let _pending = worker.insert(0, 0, Place::Back)?;
    /// let removed = worker.remove_next(Peek::Any).expect("the IRP");
    /// // The device is busy, so it goes back, to be the next one again.
    /// if let Ok(Inserted::Pending(irp)) = removed.put_back(Place::Front) {
    ///     assert!(caller.cancel(irp)?);
    /// }
    /// # Ok(())
    /// # }
    /// ```
    pub fn put_back(self, place: Place) -> Result<Inserted<'pass>, NotPutBack<Removed<'pass>>> {
        let pass = self.pass;
        match pass.put_back(self.irp, place) {
            Ok(back) => {
                mem::forget(self);
                Ok(back)
            }
            Err(cause) => Err(NotPutBack { held: self, cause }),
        }
    }
}

impl Drop for Removed<'_> {
    fn drop(&mut self) {
        self.pass.complete_cancelled(self.irp);
    }
}

/// An IRP that the pass got cancelled: an insert or a put-back found it cancelled, or the cancel
/// routine took it out. Dropped, it is completed.
#[must_use = "a cancelled IRP has to be completed, and is if it is dropped"]
pub struct Cancelled<'pass> {
    pub(crate) pass: &'pass Pass,
    pub(crate) irp: Irp,
}

token!(Cancelled);

impl Cancelled<'_> {
    /// Completes the IRP with `STATUS_CANCELLED` (`IoCompleteRequest`).
    ///
    /// ```
    /// # use csq::*;
    /// # let queue = Queue::new(&Size::new(4, 2, 2))?;
    /// # let pass = queue.pass()?;
    /// pass.cancel(Irp { irp: 0, life: 0 })?;
    /// match pass.insert(0, 1, Place::Back)? {
    ///     Inserted::Cancelled(token) => token.complete(),
    ///     Inserted::Pending(_) => unreachable!("cancelled before"),
    /// }
    /// assert_eq!(pass.status(0)?, (0, Some(FinalStatus::CANCELLED)));
    /// # Ok::<(), Box<dyn std::error::Error>>(())
    /// ```
    pub fn complete(self) {
        drop(self);
    }
}

impl Drop for Cancelled<'_> {
    fn drop(&mut self) {
        self.pass.complete_cancelled(self.irp);
    }
}

/// An IRP whose cancel routine this pass has taken, and which is still listed. Dropped, the cancel
/// routine runs, and the IRP is completed with `STATUS_CANCELLED`.
#[must_use = "the cancel routine of a claimed IRP has to run, and does if it is dropped"]
pub struct Claim<'pass> {
    pub(crate) pass: &'pass Pass,
    pub(crate) irp: Irp,
}

token!(Claim);

impl<'pass> Claim<'pass> {
    /// Runs the cancel routine, which takes the IRP out of the list. Takes the queue's lock.
    ///
    /// ```
    /// # use csq::*;
    /// # let queue = Queue::new(&Size::new(4, 2, 2))?;
    /// # let pass = queue.pass()?;
    /// let _listed = pass.insert(0, 1, Place::Back)?;
    /// let claim = pass.mark_cancel(Irp { irp: 0, life: 0 })?.expect("it is listed");
    /// let cancelled = claim.run();
    /// assert_eq!((queue.len(), pass.holding()), (0, (1, 0)));
    /// cancelled.complete();
    /// # Ok::<(), Box<dyn std::error::Error>>(())
    /// ```
    pub fn run(self) -> Cancelled<'pass> {
        let (pass, irp) = (self.pass, self.irp);
        mem::forget(self);
        pass.cancel_routine(irp);
        Cancelled { pass, irp }
    }
}

impl Drop for Claim<'_> {
    fn drop(&mut self) {
        self.pass.cancel_owed(self.irp);
    }
}

/// What an accepted insert or put-back returns.
#[must_use = "the IRP may have been cancelled before, and is completed then if this is dropped"]
#[derive(Debug)]
pub enum Inserted<'pass> {
    /// The IRP is listed. The context can remove just it ([`Pass::remove`]), and names it to a
    /// cancel.
    Pending(Irp),
    /// The IRP had been cancelled before, and isn't listed: it has to be completed.
    Cancelled(Cancelled<'pass>),
}
