//! Passes, and the calls that are made through them.

mod calls;

use crate::errors::{
    CancelError, Holding, InsertError, PassError, ReuseError, UnknownFile, UnknownIrp,
};
use crate::queue::{file_of, Shared};
use crate::raw::{self, RawIrp, RawPass, RawQueue};
use crate::token::{Claim, Inserted, Removed};
use crate::words::{FinalStatus, Irp, Peek, Place};
use std::cell::UnsafeCell;
use std::fmt;
use std::sync::Arc;

/// A pass of a queue, through which one thread at a time makes its calls. It has a share of its
/// queue, so it can be used with no other.
///
/// A pass may be moved to another thread, but not be shared by two: its tokens borrow it, and a
/// thread may have several of them. Dropped, it is given back, once what it still holds or owes was
/// completed with `STATUS_CANCELLED` (which is nothing, unless a token was forgotten by
/// [`std::mem::forget`]).
pub struct Pass {
    shared: Arc<Shared>,
    handle: UnsafeCell<RawPass>,
}

// SAFETY: the library lets a pass go from one thread to another by an act that synchronises, as
// each move of a value to another thread is.
unsafe impl Send for Pass {}

impl fmt::Debug for Pass {
    fn fmt(&self, f: &mut fmt::Formatter<'_>) -> fmt::Result {
        f.debug_struct("Pass").finish_non_exhaustive()
    }
}

impl Pass {
    pub(crate) fn of(shared: &Arc<Shared>) -> Result<Pass, PassError> {
        let mut handle = RawPass::EMPTY;
        // SAFETY: the queue is locked, and the pass's handle is empty.
        let code = unsafe { raw::csq_take_pass(&mut *shared.lock(), &mut handle) };
        match code {
            raw::OK => Ok(Pass {
                shared: Arc::clone(shared),
                handle: UnsafeCell::new(handle),
            }),
            raw::NO_PASS => Err(PassError::NoPass),
            raw::NO_MEMORY => Err(PassError::NoMemory),
            code => unreachable!("csq_take_pass returned {code}"),
        }
    }

    // Makes a call under the lock.
    fn locked(&self, call: impl FnOnce(*mut RawQueue, *mut RawPass) -> u32) -> u32 {
        call(&mut *self.shared.lock(), self.handle.get())
    }

    /// Gives the pass back. Refused only if a token was forgotten; then the pass comes back.
    ///
    /// # Errors
    ///
    /// [`Holding`]: it holds or owes IRPs.
    ///
    /// ```
    /// # use csq::*;
    /// # let queue = Queue::new(&Size::new(4, 2, 2))?;
    /// # let pass = queue.pass()?;
    /// pass.give_back()?;
    /// assert_eq!(queue.passes_out(), 0);
    /// # Ok::<(), Box<dyn std::error::Error>>(())
    /// ```
    pub fn give_back(self) -> Result<(), Holding> {
        // SAFETY: the queue is locked, and this thread alone has the pass.
        match self.locked(|queue, pass| unsafe { raw::csq_give_back(queue, pass) }) {
            raw::HOLDING => Err(Holding::of(self)),
            raw::OK => Ok(()),
            code => unreachable!("csq_give_back returned {code}"),
        }
    }

    /// How many IRPs the pass holds, and how many it owes.
    ///
    /// ```
    /// # use csq::*;
    /// # let queue = Queue::new(&Size::new(4, 2, 2))?;
    /// # let pass = queue.pass()?;
    /// let _listed = pass.insert(0, 1, Place::Back)?;
    /// let token = pass.remove_next(Peek::Any);
    /// assert_eq!(pass.holding(), (1, 0));
    /// drop(token);
    /// assert_eq!(pass.holding(), (0, 0));
    /// # Ok::<(), Box<dyn std::error::Error>>(())
    /// ```
    pub fn holding(&self) -> (u32, u32) {
        let (mut held, mut owed) = (0, 0);
        // SAFETY: this thread alone has the pass.
        let code = unsafe { raw::csq_count_held(self.handle.get(), &mut held, &mut owed) };
        debug_assert_eq!(code, raw::OK);
        (held, owed)
    }

    /// Inserts an IRP for a file object (`IoCsqInsertIrpEx`). Takes the lock.
    ///
    /// # Errors
    ///
    /// [`InsertError`], which lists the causes in their order.
    ///
    /// ```
    /// # use csq::*;
    /// # let queue = Queue::new(&Size::new(4, 2, 2))?;
    /// # let pass = queue.pass()?;
    /// match pass.insert(0, 1, Place::Back)? {
    ///     Inserted::Pending(context) => assert_eq!(context, Irp { irp: 0, life: 0 }),
    ///     Inserted::Cancelled(token) => token.complete(),
    /// }
    /// assert_eq!(pass.insert(0, 1, Place::Back).unwrap_err(), InsertError::NotHome);
    /// # Ok::<(), Box<dyn std::error::Error>>(())
    /// ```
    pub fn insert(&self, irp: u32, file: u32, place: Place) -> Result<Inserted<'_>, InsertError> {
        self.list(irp, file, place)
    }

    /// Removes the first listed match that no canceller has (`IoCsqRemoveNextIrp`). Takes the lock.
    ///
    /// ```
    /// # use csq::*;
    /// # let queue = Queue::new(&Size::new(4, 2, 2))?;
    /// # let pass = queue.pass()?;
    /// let _listed = pass.insert(0, 1, Place::Back)?;
    /// assert!(pass.remove_next(Peek::File(0)).is_none());
    /// if let Some(token) = pass.remove_next(Peek::File(1)) {
    ///     token.complete(FinalStatus::SUCCESS);
    /// }
    /// # Ok::<(), Box<dyn std::error::Error>>(())
    /// ```
    #[must_use = "a removed IRP has to be completed, and is completed as cancelled if it is \
                  dropped"]
    pub fn remove_next(&self, peek: Peek) -> Option<Removed<'_>> {
        // In C this number stands for any; here it is an unknown file object.
        if peek == Peek::File(raw::ANY) {
            return None;
        }
        let (file, mut irp) = (file_of(peek), RawIrp::default());
        // SAFETY: the queue is locked, and this thread alone has the pass.
        let code =
            self.locked(|queue, pass| unsafe { raw::csq_remove_next(queue, pass, file, &mut irp) });
        let irp = Irp::of(irp);
        (code == raw::OK).then(|| Removed { pass: self, irp })
    }

    /// Removes the IRP of a context (`IoCsqRemoveIrp`). None if it isn't listed in that life, or a
    /// canceller has it. Takes the lock.
    ///
    /// ```
    /// # use csq::*;
    /// # let queue = Queue::new(&Size::new(4, 2, 2))?;
    /// # let pass = queue.pass()?;
    /// if let Inserted::Pending(context) = pass.insert(0, 1, Place::Back)? {
    ///     pass.remove(context).expect("listed").complete(FinalStatus::SUCCESS);
    ///     assert!(pass.remove(context).is_none());
    /// }
    /// # Ok::<(), Box<dyn std::error::Error>>(())
    /// ```
    #[must_use = "a removed IRP has to be completed, and is completed as cancelled if it is \
                  dropped"]
    pub fn remove(&self, irp: Irp) -> Option<Removed<'_>> {
        // SAFETY: the queue is locked, and this thread alone has the pass.
        let code = self.locked(|queue, pass| unsafe { raw::csq_remove(queue, pass, irp.raw()) });
        // A token is made only if it is due, since it completes its IRP if it is dropped.
        (code == raw::OK).then(|| Removed { pass: self, irp })
    }

    /// Closes a file object for good. Takes the lock.
    ///
    /// # Errors
    ///
    /// [`UnknownFile`]: there is no such file object.
    ///
    /// ```
    /// # use csq::*;
    /// # let queue = Queue::new(&Size::new(4, 2, 2))?;
    /// # let pass = queue.pass()?;
    /// pass.close_file(1)?;
    /// assert_eq!(pass.insert(0, 1, Place::Back).unwrap_err(), InsertError::FileClosed);
    /// # Ok::<(), Box<dyn std::error::Error>>(())
    /// ```
    pub fn close_file(&self, file: u32) -> Result<(), UnknownFile> {
        // SAFETY: the queue is locked, and this thread alone has the pass.
        match self.locked(|queue, pass| unsafe { raw::csq_close_file(queue, pass, file) }) {
            raw::OK => Ok(()),
            raw::UNKNOWN_FILE => Err(UnknownFile),
            code => unreachable!("csq_close_file returned {code}"),
        }
    }

    /// Handles `IRP_MJ_CLEANUP` of a file object: closes it, then does what [`Pass::drain`] does.
    /// Answers how many IRPs were completed.
    ///
    /// # Errors
    ///
    /// [`UnknownFile`]: there is no such file object.
    ///
    /// ```
    /// # use csq::*;
    /// # let queue = Queue::new(&Size::new(4, 2, 2))?;
    /// # let pass = queue.pass()?;
    /// let _listed = (pass.insert(0, 1, Place::Back)?, pass.insert(1, 0, Place::Back)?);
    /// assert_eq!(pass.cleanup(1)?, 1);
    /// assert_eq!(queue.len(), 1);
    /// # Ok::<(), Box<dyn std::error::Error>>(())
    /// ```
    pub fn cleanup(&self, file: u32) -> Result<u32, UnknownFile> {
        self.cleanup_with(file, |_| ())
    }

    /// [`Pass::cleanup`], and `before` is called with each IRP before it is completed.
    ///
    /// # Errors
    ///
    /// [`UnknownFile`]: there is no such file object.
    ///
    /// ```
    /// # use csq::*;
    /// # let queue = Queue::new(&Size::new(4, 2, 2))?;
    /// # let pass = queue.pass()?;
    /// let _listed = pass.insert(3, 1, Place::Back)?;
    /// let mut gone = Vec::new();
    /// pass.cleanup_with(1, |irp| gone.push(irp.irp))?;
    /// assert_eq!(gone, [3]);
    /// # Ok::<(), Box<dyn std::error::Error>>(())
    /// ```
    pub fn cleanup_with(&self, file: u32, before: impl FnMut(Irp)) -> Result<u32, UnknownFile> {
        self.close_file(file)?;
        Ok(self.complete_listed(Peek::File(file), before))
    }

    /// Removes each IRP that is listed for a file object, or for any, and completes it with
    /// `STATUS_CANCELLED`. Answers how many. The file object stays open, so this may go on for as
    /// long as others insert or put back. What a canceller has is left to that canceller, and is
    /// listed until then ([`Queue::file_len`](crate::Queue::file_len)). What was removed before is
    /// for the file object again if it is put back. The lock is free between two of them.
    ///
    /// # Errors
    ///
    /// [`UnknownFile`]: there is no such file object.
    ///
    /// ```
    /// # use csq::*;
    /// # let queue = Queue::new(&Size::new(4, 2, 2))?;
    /// # let pass = queue.pass()?;
    /// let _listed = (pass.insert(0, 1, Place::Back)?, pass.insert(1, 0, Place::Back)?);
    /// assert_eq!(pass.drain(Peek::File(1))?, 1);
    /// assert_eq!(pass.drain(Peek::Any)?, 1);
    /// # Ok::<(), Box<dyn std::error::Error>>(())
    /// ```
    pub fn drain(&self, peek: Peek) -> Result<u32, UnknownFile> {
        self.drain_with(peek, |_| ())
    }

    /// [`Pass::drain`], and `before` is called with each IRP before it is completed.
    ///
    /// # Errors
    ///
    /// [`UnknownFile`]: there is no such file object.
    ///
    /// ```
    /// # use csq::*;
    /// # let queue = Queue::new(&Size::new(4, 2, 2))?;
    /// # let pass = queue.pass()?;
    /// let _listed = pass.insert(3, 1, Place::Back)?;
    /// let mut gone = Vec::new();
    /// pass.drain_with(Peek::Any, |irp| gone.push(irp.irp))?;
    /// assert_eq!(gone, [3]);
    /// # Ok::<(), Box<dyn std::error::Error>>(())
    /// ```
    pub fn drain_with(&self, peek: Peek, before: impl FnMut(Irp)) -> Result<u32, UnknownFile> {
        if let Peek::File(file) = peek {
            self.shared.file_len(file)?;
        }
        Ok(self.complete_listed(peek, before))
    }

    // Completes what is listed as cancelled, and returns how many.
    fn complete_listed(&self, peek: Peek, mut before: impl FnMut(Irp)) -> u32 {
        let mut completed = 0;
        while let Some(removed) = self.remove_next(peek) {
            before(removed.irp());
            removed.complete(FinalStatus::CANCELLED);
            completed += 1;
        }
        completed
    }

    /// Begins the next life of an IRP that is completed in the life named, its present one
    /// (`IoReuseIrp`), and names it in that next life. Takes the lock.
    ///
    /// # Errors
    ///
    /// [`ReuseError`], which lists the causes in their order.
    ///
    /// ```
    /// # use csq::*;
    /// # let queue = Queue::new(&Size::new(4, 2, 2))?;
    /// # let pass = queue.pass()?;
    /// let first = Irp { irp: 0, life: 0 };
    /// let _listed = pass.insert(0, 1, Place::Back)?;
    /// assert_eq!(pass.reuse(first).unwrap_err(), ReuseError::NotCompleted);
    /// pass.cancel(first)?;
    /// assert_eq!(pass.reuse(first)?, Irp { irp: 0, life: 1 });
    /// assert_eq!(pass.reuse(first).unwrap_err(), ReuseError::Stale);
    /// # Ok::<(), Box<dyn std::error::Error>>(())
    /// ```
    pub fn reuse(&self, irp: Irp) -> Result<Irp, ReuseError> {
        let mut life = 0;
        // SAFETY: the queue is locked, and this thread alone has the pass.
        let code =
            self.locked(|queue, pass| unsafe { raw::csq_reuse(queue, pass, irp.raw(), &mut life) });
        match code {
            raw::OK => Ok(Irp { life, ..irp }),
            raw::UNKNOWN_IRP => Err(ReuseError::UnknownIrp),
            raw::STALE => Err(ReuseError::Stale),
            raw::NOT_COMPLETED => Err(ReuseError::NotCompleted),
            raw::LIVES_SPENT => Err(ReuseError::LivesSpent),
            code => unreachable!("csq_reuse returned {code}"),
        }
    }

    /// Sets the Cancel flag of an IRP in the life named, and takes its cancel routine (the first
    /// half of `IoCancelIrp`). None if the routine wasn't there: the IRP isn't listed, or a pass,
    /// perhaps this one, has it. Takes no lock.
    ///
    /// # Errors
    ///
    /// [`CancelError`]: there is no such IRP, or it is in another life.
    ///
    /// ```
    /// # use csq::*;
    /// # let queue = Queue::new(&Size::new(4, 2, 2))?;
    /// # let pass = queue.pass()?;
    /// let _listed = pass.insert(0, 1, Place::Back)?;
    /// if let Some(claim) = pass.mark_cancel(Irp { irp: 0, life: 0 })? {
    ///     // It is listed until its cancel routine has run.
    ///     assert_eq!(queue.len(), 1);
    ///     claim.run().complete();
    /// }
    /// assert_eq!(queue.len(), 0);
    /// # Ok::<(), Box<dyn std::error::Error>>(())
    /// ```
    pub fn mark_cancel(&self, irp: Irp) -> Result<Option<Claim<'_>>, CancelError> {
        let found = self.mark(irp)?;
        Ok(found.then(|| Claim { pass: self, irp }))
    }

    /// Cancels an IRP in the life named (`IoCancelIrp`): if its routine was there, runs it and
    /// completes the IRP. Returns whether it did. Takes the lock only if the routine was there.
    ///
    /// # Errors
    ///
    /// [`CancelError`]: there is no such IRP, or it is in another life.
    ///
    /// ```
    /// # use csq::*;
    /// # let queue = Queue::new(&Size::new(4, 2, 2))?;
    /// # let pass = queue.pass()?;
    /// let _listed = pass.insert(0, 1, Place::Back)?;
    /// assert!(pass.cancel(Irp { irp: 0, life: 0 })?);
    /// assert_eq!(pass.cancel(Irp { irp: 0, life: 1 }), Err(CancelError::Stale));
    /// # Ok::<(), Box<dyn std::error::Error>>(())
    /// ```
    pub fn cancel(&self, irp: Irp) -> Result<bool, CancelError> {
        self.cancel_with(irp, |_| ())
    }

    /// [`Pass::cancel`], and `before` is called with the IRP before it is completed, if it is
    /// completed here.
    ///
    /// # Errors
    ///
    /// [`CancelError`]: there is no such IRP, or it is in another life.
    ///
    /// ```
    /// # use csq::*;
    /// # let queue = Queue::new(&Size::new(4, 2, 2))?;
    /// # let pass = queue.pass()?;
    /// let _listed = pass.insert(0, 1, Place::Back)?;
    /// let mut named = None;
    /// pass.cancel_with(Irp { irp: 0, life: 0 }, |irp| named = Some(irp))?;
    /// assert_eq!(named, Some(Irp { irp: 0, life: 0 }));
    /// # Ok::<(), Box<dyn std::error::Error>>(())
    /// ```
    pub fn cancel_with(&self, irp: Irp, before: impl FnOnce(Irp)) -> Result<bool, CancelError> {
        match self.mark_cancel(irp)? {
            None => Ok(false),
            Some(claim) => {
                before(irp);
                // Also if `before` panics, a claim that is dropped completes its IRP.
                drop(claim);
                Ok(true)
            }
        }
    }

    /// The life that an IRP's Cancel flag stands for, and whether it is set there. Takes no lock.
    ///
    /// # Errors
    ///
    /// [`UnknownIrp`]: there is no such IRP.
    ///
    /// ```
    /// # use csq::*;
    /// # let queue = Queue::new(&Size::new(4, 2, 2))?;
    /// # let pass = queue.pass()?;
    /// assert_eq!(pass.is_cancelled(0)?, (0, false));
    /// pass.cancel(Irp { irp: 0, life: 0 })?;
    /// assert_eq!(pass.is_cancelled(0)?, (0, true));
    /// # Ok::<(), Box<dyn std::error::Error>>(())
    /// ```
    pub fn is_cancelled(&self, irp: u32) -> Result<(u32, bool), UnknownIrp> {
        let (mut life, mut cancelled) = (0, 0);
        // SAFETY: this thread alone has the pass.
        match unsafe { raw::csq_read_cancel(self.handle.get(), irp, &mut life, &mut cancelled) } {
            raw::OK => Ok((life, cancelled == 1)),
            _ => Err(UnknownIrp),
        }
    }

    /// The life that an IRP's status stands for, and what the IRP was completed with there, once it
    /// is. Takes no lock.
    ///
    /// # Errors
    ///
    /// [`UnknownIrp`]: there is no such IRP.
    ///
    /// ```
    /// # use csq::*;
    /// # let queue = Queue::new(&Size::new(4, 2, 2))?;
    /// # let pass = queue.pass()?;
    /// let _listed = pass.insert(0, 1, Place::Back)?;
    /// assert_eq!(pass.status(0)?, (0, None));
    /// pass.cancel(Irp { irp: 0, life: 0 })?;
    /// assert_eq!(pass.status(0)?, (0, Some(FinalStatus::CANCELLED)));
    /// # Ok::<(), Box<dyn std::error::Error>>(())
    /// ```
    pub fn status(&self, irp: u32) -> Result<(u32, Option<FinalStatus>), UnknownIrp> {
        let (mut life, mut status) = (0, 0);
        // SAFETY: this thread alone has the pass.
        match unsafe { raw::csq_read_status(self.handle.get(), irp, &mut life, &mut status) } {
            raw::OK => Ok((life, Some(FinalStatus::of(status)))),
            raw::NONE => Ok((life, None)),
            _ => Err(UnknownIrp),
        }
    }

    // Completes what forgotten tokens left: an IRP that a pass holds or owes is in that life until
    // it is completed.
    fn settle(&self) {
        let present = |irp| self.is_cancelled(irp).map(|(life, _)| RawIrp { irp, life });
        for irp in (0..self.shared.irps).flat_map(present) {
            // SAFETY: the queue is locked, and this thread alone has the pass. What isn't owed is
            // refused.
            self.locked(|queue, pass| unsafe { raw::csq_cancel_owed(queue, pass, irp) });
            // SAFETY: this thread alone has the pass. What isn't held is refused.
            unsafe { raw::csq_complete_cancelled(self.handle.get(), irp) };
        }
    }
}

impl Drop for Pass {
    fn drop(&mut self) {
        // SAFETY: the queue is locked, and this thread alone has the pass. One that was given back
        // is empty.
        let back = || self.locked(|queue, pass| unsafe { raw::csq_give_back(queue, pass) });
        let mut code = back();
        if code == raw::HOLDING {
            self.settle();
            code = back();
        }
        debug_assert!(code == raw::OK || code == raw::EMPTY_HANDLE);
    }
}
