//! A queue, open and closed.

use crate::errors::{NewError, NotListed, PassError, PassesOut, UnknownFile};
use crate::lock;
use crate::pass::Pass;
use crate::raw::{self, RawIrp, RawLeft, RawQueue};
use crate::words::{FinalStatus, Irp, Left, Peek, Size};
use std::fmt;
use std::sync::{Arc, Mutex, MutexGuard, PoisonError};

// SAFETY: the library lets a queue go from one thread to another; it keeps nothing of the thread.
unsafe impl Send for RawQueue {}

/// A queue's handle under its lock. It is freed with the last pass, or with the queue.
pub(crate) struct Shared {
    handle: Mutex<RawQueue>,
    pub(crate) irps: u32,
}

impl Shared {
    /// The handle, for one call. No code of the caller runs while it is locked.
    #[inline]
    pub(crate) fn lock(&self) -> MutexGuard<'_, RawQueue> {
        lock::lock(&self.handle)
    }

    /// How many IRPs are listed for a file object.
    pub(crate) fn file_len(&self, file: u32) -> Result<u32, UnknownFile> {
        let mut len = 0;
        // SAFETY: the handle is locked.
        match unsafe { raw::csq_file_len(&*self.lock(), file, &mut len) } {
            raw::OK => Ok(len),
            raw::UNKNOWN_FILE => Err(UnknownFile),
            code => unreachable!("csq_file_len returned {code}"),
        }
    }
}

impl Drop for Shared {
    fn drop(&mut self) {
        let handle = self.handle.get_mut();
        let handle = handle.unwrap_or_else(PoisonError::into_inner);
        // SAFETY: nobody else has the handle, since each pass has a share of it.
        let code = unsafe { raw::csq_free_queue(handle) };
        debug_assert_eq!(code, raw::OK);
    }
}

/// A cancel-safe queue, with a lock of its own (a [`Mutex`]). It hands out passes, through which
/// all calls are made.
pub struct Queue {
    shared: Arc<Shared>,
}

impl fmt::Debug for Queue {
    fn fmt(&self, f: &mut fmt::Formatter<'_>) -> fmt::Result {
        f.debug_struct("Queue").finish_non_exhaustive()
    }
}

impl Queue {
    /// A queue of this size.
    ///
    /// # Errors
    ///
    /// [`NewError`]: a number is out of its range, or memory was refused.
    ///
    /// ```
    /// # use csq::*;
    /// // 64 IRPs, 2 file objects and 4 passes.
    /// let queue = Queue::new(&Size::new(64, 2, 4))?;
    /// assert_eq!(queue.len(), 0);
    /// assert_eq!(Queue::new(&Size::new(0, 2, 4)).unwrap_err(), NewError::BadSize);
    /// # Ok::<(), Box<dyn std::error::Error>>(())
    /// ```
    pub fn new(size: &Size) -> Result<Queue, NewError> {
        // SAFETY: the handle is empty, and both pointers are valid.
        Queue::made(size, |queue| unsafe {
            raw::csq_new_queue(queue, &size.raw())
        })
    }

    /// A queue of this size, each file object with a limit of its own: how many IRPs may be listed
    /// for it at a time, 1 to `irps`.
    ///
    /// # Errors
    ///
    /// [`NewError`]: as [`Queue::new`]; there also have to be as many limits as file objects.
    ///
    /// ```
    /// # use csq::*;
    /// let queue = Queue::with_file_limits(&Size::new(64, 2, 4), &[1, 63])?;
    /// let pass = queue.pass()?;
    /// let _listed = pass.insert(0, 0, Place::Back)?;
    /// assert_eq!(pass.insert(1, 0, Place::Back).unwrap_err(), InsertError::FileFull);
    /// # Ok::<(), Box<dyn std::error::Error>>(())
    /// ```
    pub fn with_file_limits(size: &Size, file_limits: &[u32]) -> Result<Queue, NewError> {
        let (limits, count) = (file_limits.as_ptr(), file_limits.len());
        // SAFETY: the handle is empty, the pointers are valid, and there are so many limits.
        Queue::made(size, |queue| unsafe {
            raw::csq_new_queue_with_file_limits(queue, &size.raw(), limits, count)
        })
    }

    fn made(size: &Size, make: impl FnOnce(&mut RawQueue) -> u32) -> Result<Queue, NewError> {
        let mut handle = RawQueue::EMPTY;
        match make(&mut handle) {
            raw::OK => {
                // As `csq_new` in the header does, by which a pass of another queue is known.
                handle.number = handle.at as u64;
                let handle = Mutex::new(handle);
                let irps = size.irps;
                Ok(Queue {
                    shared: Arc::new(Shared { handle, irps }),
                })
            }
            raw::BAD_SIZE => Err(NewError::BadSize),
            raw::NO_MEMORY => Err(NewError::NoMemory),
            code => unreachable!("csq_new returned {code}"),
        }
    }

    /// A pass: one that was given back, if there is one, else a new one. Takes the lock.
    ///
    /// # Errors
    ///
    /// [`PassError`]: all passes are out, or memory was refused.
    ///
    /// ```
    /// # use csq::*;
    /// let queue = Queue::new(&Size::new(4, 2, 1))?;
    /// let pass = queue.pass()?;
    /// assert_eq!(queue.pass().unwrap_err(), PassError::NoPass);
    /// drop(pass); // gives it back
    /// assert!(queue.pass().is_ok());
    /// # Ok::<(), Box<dyn std::error::Error>>(())
    /// ```
    pub fn pass(&self) -> Result<Pass, PassError> {
        Pass::of(&self.shared)
    }

    /// How many passes are out.
    ///
    /// ```
    /// # use csq::*;
    /// # let queue = Queue::new(&Size::new(4, 2, 2))?;
    /// # let pass = queue.pass()?;
    /// assert_eq!(queue.passes_out(), 1);
    /// drop(pass);
    /// assert_eq!(queue.passes_out(), 0);
    /// # Ok::<(), Box<dyn std::error::Error>>(())
    /// ```
    pub fn passes_out(&self) -> u32 {
        passes_out(&self.shared.lock())
    }

    /// The first listed IRP of a file object, or of any, in its present life: from the first on, or
    /// after this one (`CsqPeekNextIrp`). It may be one whose cancel routine a canceller has taken,
    /// which is listed until that canceller has run it. Another thread may remove it as soon as
    /// this returns. Takes the lock.
    ///
    /// # Errors
    ///
    /// [`NotListed`]: `after` isn't listed.
    ///
    /// ```
    /// # use csq::*;
    /// # let queue = Queue::new(&Size::new(4, 2, 2))?;
    /// # let pass = queue.pass()?;
    /// let _listed = (pass.insert(2, 0, Place::Back)?, pass.insert(3, 1, Place::Back)?);
    /// assert_eq!(queue.peek_next(None, Peek::Any)?, Some(Irp { irp: 2, life: 0 }));
    /// assert_eq!(queue.peek_next(Some(2), Peek::File(1))?, Some(Irp { irp: 3, life: 0 }));
    /// assert_eq!(queue.peek_next(Some(3), Peek::Any)?, None);
    /// # Ok::<(), Box<dyn std::error::Error>>(())
    /// ```
    pub fn peek_next(&self, after: Option<u32>, peek: Peek) -> Result<Option<Irp>, NotListed> {
        // In C this number stands for the first on; here it is an IRP that isn't listed.
        if after == Some(raw::ANY) {
            return Err(NotListed);
        }
        let mut irp = RawIrp::default();
        let locked = self.shared.lock();
        // SAFETY: the handle is locked.
        match unsafe {
            raw::csq_peek_next(&*locked, after.unwrap_or(raw::ANY), file_of(peek), &mut irp)
        } {
            raw::OK if peek != Peek::File(raw::ANY) => Ok(Some(Irp::of(irp))),
            raw::OK | raw::NONE => Ok(None),
            raw::NOT_LISTED => Err(NotListed),
            code => unreachable!("csq_peek_next returned {code}"),
        }
    }

    /// How many IRPs are listed. Takes the lock.
    ///
    /// ```
    /// # use csq::*;
    /// # let queue = Queue::new(&Size::new(4, 2, 2))?;
    /// # let pass = queue.pass()?;
    /// let _listed = pass.insert(0, 1, Place::Back)?;
    /// assert_eq!(queue.len(), 1);
    /// # Ok::<(), Box<dyn std::error::Error>>(())
    /// ```
    pub fn len(&self) -> u32 {
        let mut len = 0;
        // SAFETY: the handle is locked.
        let code = unsafe { raw::csq_len(&*self.shared.lock(), &mut len) };
        debug_assert_eq!(code, raw::OK);
        len
    }

    /// Whether none is listed. Takes the lock.
    ///
    /// ```
    /// # use csq::*;
    /// # let queue = Queue::new(&Size::new(4, 2, 2))?;
    /// # let pass = queue.pass()?;
    /// assert!(queue.is_empty());
    /// # Ok::<(), Box<dyn std::error::Error>>(())
    /// ```
    pub fn is_empty(&self) -> bool {
        self.len() == 0
    }

    /// How many IRPs are listed for a file object. Takes the lock.
    ///
    /// # Errors
    ///
    /// [`UnknownFile`]: there is no such file object.
    ///
    /// ```
    /// # use csq::*;
    /// # let queue = Queue::new(&Size::new(4, 2, 2))?;
    /// # let pass = queue.pass()?;
    /// let _listed = pass.insert(0, 1, Place::Back)?;
    /// assert_eq!((queue.file_len(0)?, queue.file_len(1)?), (0, 1));
    /// # Ok::<(), Box<dyn std::error::Error>>(())
    /// ```
    pub fn file_len(&self, file: u32) -> Result<u32, UnknownFile> {
        self.shared.file_len(file)
    }

    /// Closes the queue, once no pass is out.
    ///
    /// # Errors
    ///
    /// [`PassesOut`]: passes are out; the queue comes back.
    ///
    /// ```
    /// # use csq::*;
    /// # let queue = Queue::new(&Size::new(4, 2, 2))?;
    /// # let pass = queue.pass()?;
    /// drop(pass.insert(0, 1, Place::Back)?);
    /// let refused = queue.close().unwrap_err();
    /// drop(pass);
    /// let closed = refused.queue.close().expect("no pass is out");
    /// assert_eq!(closed.listed().count(), 1);
    /// # Ok::<(), Box<dyn std::error::Error>>(())
    /// ```
    pub fn close(self) -> Result<Closed, PassesOut> {
        let mut locked = self.shared.lock();
        // SAFETY: the handle is locked.
        match unsafe { raw::csq_close(&mut *locked) } {
            raw::OK => {
                drop(locked);
                Ok(Closed {
                    shared: self.shared,
                })
            }
            raw::PASSES_OUT => {
                let out = passes_out(&locked);
                drop(locked);
                Err(PassesOut { queue: self, out })
            }
            code => unreachable!("csq_close returned {code}"),
        }
    }
}

// How many passes of an open queue are out.
fn passes_out(handle: &RawQueue) -> u32 {
    let mut out = 0;
    // SAFETY: whoever has the handle so has the lock.
    let code = unsafe { raw::csq_count_passes_out(handle, &mut out) };
    debug_assert_eq!(code, raw::OK);
    out
}

/// A file object as it is passed to C.
#[inline]
pub(crate) fn file_of(peek: Peek) -> u32 {
    match peek {
        Peek::Any => raw::ANY,
        Peek::File(file) => file,
    }
}

/// A queue that was closed. It reports what is left.
pub struct Closed {
    shared: Arc<Shared>,
}

impl fmt::Debug for Closed {
    fn fmt(&self, f: &mut fmt::Formatter<'_>) -> fmt::Result {
        f.debug_struct("Closed").finish_non_exhaustive()
    }
}

impl Closed {
    /// The IRPs that are still listed, in the list's order.
    ///
    /// ```
    /// # use csq::*;
    /// # let queue = Queue::new(&Size::new(4, 2, 2))?;
    /// # let pass = queue.pass()?;
    /// drop((pass.insert(2, 0, Place::Back)?, pass.insert(1, 0, Place::Front)?));
    /// drop(pass);
    /// let closed = queue.close()?;
    /// assert_eq!(closed.listed().collect::<Vec<u32>>(), [1, 2]);
    /// # Ok::<(), Box<dyn std::error::Error>>(())
    /// ```
    pub fn listed(&self) -> Listed<'_> {
        Listed {
            queue: self,
            after: Some(raw::ANY),
        }
    }

    /// What is reported of an IRP. None for an unknown one.
    ///
    /// ```
    /// # use csq::*;
    /// # let queue = Queue::new(&Size::new(4, 2, 2))?;
    /// # let pass = queue.pass()?;
    /// drop(pass.insert(0, 1, Place::Back)?);
    /// pass.cancel(Irp { irp: 0, life: 0 })?;
    /// drop(pass);
    /// let left = queue.close()?.irp(0).expect("an IRP");
    /// assert_eq!(
    ///     (left.life, left.cancelled, left.status),
    ///     (0, true, Some(FinalStatus::CANCELLED))
    /// );
    /// # Ok::<(), Box<dyn std::error::Error>>(())
    /// ```
    pub fn irp(&self, irp: u32) -> Option<Left> {
        let mut left = RawLeft::default();
        // SAFETY: the handle is locked.
        let code = unsafe { raw::csq_read_left(&*self.shared.lock(), irp, &mut left) };
        (code == raw::OK).then(|| Left {
            life: left.life,
            cancelled: left.cancelled == 1,
            status: (left.completed == 1).then(|| FinalStatus::of(left.status)),
        })
    }
}

/// The IRPs that are listed in a closed queue, by their numbers.
#[derive(Debug)]
pub struct Listed<'queue> {
    queue: &'queue Closed,
    // None once the end was met.
    after: Option<u32>,
}

impl Iterator for Listed<'_> {
    type Item = u32;

    fn next(&mut self) -> Option<u32> {
        let mut irp = 0;
        let after = self.after?;
        // SAFETY: the handle is locked.
        let code = unsafe { raw::csq_read_listed(&*self.queue.shared.lock(), after, &mut irp) };
        self.after = (code == raw::OK).then_some(irp);
        self.after
    }
}
