//! The library's ledger of requests (`include/csq_ledger.h`): which request is under way, where it
//! is, and when it is due.

use crate::errors::{NewError, PutBackError, SubmitError, UnknownFile};
use crate::queue::file_of;
use crate::raw::{self, RawEnded, RawIrp, RawLedger, RawLook};
use crate::words::{FinalStatus, Irp, Peek, Place, Size, LAST_LIFE};
use std::ptr::null_mut;

/// A ledger's handle. A call on it borrows it, so it is in one call at a time.
pub(crate) struct Ledger {
    raw: RawLedger,
    irps: u32,
    /// How many numbers are past their last life.
    spent: u32,
}

// SAFETY: the library lets a ledger go from one thread to another; it keeps nothing of the thread.
unsafe impl Send for Ledger {}

/// Why a request ends without a worker, or why nobody waits for one that is taken.
#[derive(Clone, Copy, Debug, PartialEq, Eq)]
pub(crate) enum Why {
    Cancel,
    Drain,
    Cleanup,
    Close,
    Due,
}

impl Why {
    fn raw(self) -> u32 {
        match self {
            Why::Cancel => raw::why::CANCEL,
            Why::Drain => raw::why::DRAIN,
            Why::Cleanup => raw::why::CLEANUP,
            Why::Close => raw::why::FREE,
            Why::Due => raw::why::DUE,
        }
    }
}

/// What a cancel by name found.
pub(crate) enum Cancelled {
    /// It was listed, and is ending: its canceller completes it.
    Ending,
    /// It is taken, and the worker that has it learns of the cancel.
    Taken,
    /// It isn't under way.
    Stale,
}

/// A request that is due.
pub(crate) enum Due {
    /// It was listed, and is ending: its caller completes it.
    Ending(Irp),
    /// It is taken, and the worker that has it learns that it was due.
    Taken(Irp),
}

/// Why a request that was taken isn't listed again.
pub(crate) enum NotListedAgain {
    /// It was named by a cancel, or was due: it is completed as cancelled alone.
    Cancelled,
    /// Its file object or the list refuses it.
    Refused(PutBackError),
}

/// The end of a request: its file object, and what is quiet since.
#[derive(Clone, Copy)]
pub(crate) struct Ended {
    pub(crate) file: u32,
    pub(crate) file_is_quiet: bool,
    pub(crate) all_are_quiet: bool,
}

impl Ended {
    fn of(raw: RawEnded) -> Ended {
        Ended {
            file: raw.file,
            file_is_quiet: raw.file_is_quiet != 0,
            all_are_quiet: raw.all_are_quiet != 0,
        }
    }
}

/// How many requests are listed, and how many are under way, those among them.
#[derive(Clone, Copy)]
pub(crate) struct Counts {
    pub(crate) listed: u32,
    pub(crate) under_way: u32,
}

impl Ledger {
    /// A ledger of this size.
    pub(crate) fn new(size: &Size) -> Result<Ledger, NewError> {
        // SAFETY: the handle is empty, and both pointers are valid.
        Ledger::made(size, |ledger| unsafe {
            raw::csq_ledger_new(ledger, &size.raw())
        })
    }

    /// The same, with a limit for each file object.
    pub(crate) fn with_file_limits(size: &Size, file_limits: &[u32]) -> Result<Ledger, NewError> {
        let limits = file_limits.as_ptr();
        let count = file_limits.len();
        // SAFETY: the handle is empty, the pointers are valid, and there are this many limits.
        Ledger::made(size, |ledger| unsafe {
            raw::csq_ledger_new_with_file_limits(ledger, &size.raw(), limits, count)
        })
    }

    // The ledger doesn't look at the number of passes, which are the crate's own.
    fn made(size: &Size, make: impl FnOnce(&mut RawLedger) -> u32) -> Result<Ledger, NewError> {
        if !(1..=Size::MOST_PASSES).contains(&size.passes) {
            return Err(NewError::BadSize);
        }
        let mut raw = RawLedger { at: null_mut() };
        match make(&mut raw) {
            raw::OK => Ok(Ledger {
                raw,
                irps: size.irps,
                spent: 0,
            }),
            raw::BAD_SIZE => Err(NewError::BadSize),
            raw::NO_MEMORY => Err(NewError::NoMemory),
            code => unreachable!("csq_ledger_new returned {code}"),
        }
    }

    /// Refuses each further begin.
    pub(crate) fn close(&mut self) {
        // SAFETY: the handle is filled, and borrowed.
        let code = unsafe { raw::csq_ledger_close(&mut self.raw) };
        debug_assert_eq!(code, raw::OK);
    }

    /// Closes a file object for good.
    pub(crate) fn close_file(&mut self, file: u32) -> Result<(), UnknownFile> {
        // SAFETY: the handle is filled, and borrowed.
        match unsafe { raw::csq_ledger_close_file(&mut self.raw, file) } {
            raw::OK => Ok(()),
            _ => Err(UnknownFile),
        }
    }

    /// Lists a new request, due at this time, if it is ever due.
    #[inline]
    pub(crate) fn begin(
        &mut self,
        file: u32,
        place: Place,
        due: Option<u64>,
    ) -> Result<Irp, SubmitError> {
        let (due, mut name) = (due.unwrap_or(raw::NEVER), RawIrp::default());
        // SAFETY: the handle is filled, and borrowed; the name is valid.
        match unsafe { raw::csq_ledger_begin(&mut self.raw, file, place.raw(), due, &mut name) } {
            raw::OK => Ok(Irp::of(name)),
            code => Err(self.refusal(code)),
        }
    }

    // The ledger has one code for a queue without a free request, and for a list that is full.
    #[cold]
    fn refusal(&self, code: u32) -> SubmitError {
        match code {
            raw::UNKNOWN_FILE => SubmitError::UnknownFile,
            raw::CLOSED => SubmitError::ShutDown,
            raw::FILE_CLOSED => SubmitError::FileClosed,
            raw::LIVES_SPENT => SubmitError::LivesSpent,
            raw::FULL if !self.has_free() => SubmitError::NoIrp,
            raw::FILE_FULL => SubmitError::FileFull,
            raw::FULL => SubmitError::Full,
            code => unreachable!("csq_ledger_begin returned {code}"),
        }
    }

    fn has_free(&self) -> bool {
        let under_way = self.len(Peek::Any).map_or(0, |counts| counts.under_way);
        under_way + self.spent < self.irps
    }

    /// Takes the first listed match.
    #[inline]
    pub(crate) fn take(&mut self, peek: Peek) -> Option<(Irp, u32)> {
        let known = known_to_c(peek)?;
        let (mut name, mut file) = (RawIrp::default(), 0);
        // SAFETY: the handle is filled, and borrowed; the other pointers are valid.
        let code = unsafe { raw::csq_ledger_take(&mut self.raw, known, &mut name, &mut file) };
        (code == raw::OK).then(|| (Irp::of(name), file))
    }

    /// Lists a request again that is taken.
    pub(crate) fn put_back(&mut self, irp: Irp, place: Place) -> Result<(), NotListedAgain> {
        // SAFETY: the handle is filled, and borrowed.
        match unsafe { raw::csq_ledger_put_back(&mut self.raw, irp.raw(), place.raw()) } {
            raw::OK => Ok(()),
            raw::CANCELLED => Err(NotListedAgain::Cancelled),
            code => Err(NotListedAgain::Refused(PutBackError::of(code))),
        }
    }

    /// Completes and ends a request that is taken. None if it isn't.
    #[inline]
    pub(crate) fn finish(&mut self, irp: Irp, status: FinalStatus) -> Option<Ended> {
        let (status, mut ended) = (status.number(), RawEnded::default());
        // SAFETY: the handle is filled, and borrowed; the other pointer is valid.
        let code = unsafe { raw::csq_ledger_finish(&mut self.raw, irp.raw(), status, &mut ended) };
        (code == raw::OK).then(|| self.ended(irp, ended))
    }

    /// Completes and ends a request that is ending.
    pub(crate) fn end(&mut self, irp: Irp) -> Ended {
        let mut ended = RawEnded::default();
        // SAFETY: the handle is filled, and borrowed; the other pointer is valid.
        let code = unsafe { raw::csq_ledger_end(&mut self.raw, irp.raw(), &mut ended) };
        debug_assert_eq!(code, raw::OK);
        self.ended(irp, ended)
    }

    #[inline]
    fn ended(&mut self, irp: Irp, ended: RawEnded) -> Ended {
        self.spent += u32::from(irp.life == LAST_LIFE);
        Ended::of(ended)
    }

    /// Cancels a request by its name.
    pub(crate) fn cancel(&mut self, irp: Irp) -> Cancelled {
        // SAFETY: the handle is filled, and borrowed.
        match unsafe { raw::csq_ledger_cancel(&mut self.raw, irp.raw(), Why::Cancel.raw()) } {
            raw::OK => Cancelled::Ending,
            raw::NONE => Cancelled::Taken,
            _ => Cancelled::Stale,
        }
    }

    /// Takes the first listed match out: it is ending.
    pub(crate) fn drain_next(&mut self, peek: Peek, why: Why) -> Option<Irp> {
        let known = known_to_c(peek)?;
        let (why, mut name, mut file) = (why.raw(), RawIrp::default(), 0);
        // SAFETY: the handle is filled, and borrowed; the other pointers are valid.
        let code =
            unsafe { raw::csq_ledger_drain_next(&mut self.raw, known, why, &mut name, &mut file) };
        (code == raw::OK).then(|| Irp::of(name))
    }

    /// One that is due at this time or before, the one that is due first.
    pub(crate) fn expire(&mut self, now: u64) -> Option<Due> {
        let (mut name, mut stage) = (RawIrp::default(), 0);
        // SAFETY: the handle is filled, and borrowed; the other pointers are valid.
        match unsafe { raw::csq_ledger_expire(&mut self.raw, now, &mut name, &mut stage) } {
            raw::OK if stage == raw::stage::ENDING => Some(Due::Ending(Irp::of(name))),
            raw::OK => Some(Due::Taken(Irp::of(name))),
            _ => None,
        }
    }

    /// When the next one is due.
    pub(crate) fn next_due(&self) -> Option<u64> {
        let mut due = 0;
        // SAFETY: the handle is filled, and borrowed; the other pointer is valid.
        let code = unsafe { raw::csq_ledger_next_due(&self.raw, &mut due) };
        (code == raw::OK).then_some(due)
    }

    /// What named a request that is taken, the first if several did.
    pub(crate) fn named(&self, irp: Irp) -> Option<Why> {
        let mut look = RawLook::default();
        // SAFETY: the handle is filled, and borrowed; the other pointer is valid.
        let code = unsafe { raw::csq_ledger_look(&self.raw, irp.raw(), &mut look) };
        debug_assert_eq!(code, raw::OK);
        match look.why {
            raw::why::CANCEL => Some(Why::Cancel),
            raw::why::DUE => Some(Why::Due),
            _ => None,
        }
    }

    /// How many requests there are. None if there is no such file object.
    pub(crate) fn len(&self, peek: Peek) -> Option<Counts> {
        let known = known_to_c(peek)?;
        let (mut listed, mut under_way) = (0, 0);
        // SAFETY: the handle is filled, and borrowed; the other pointers are valid.
        let code = unsafe { raw::csq_ledger_len(&self.raw, known, &mut listed, &mut under_way) };
        (code == raw::OK).then_some(Counts { listed, under_way })
    }

    /// Takes out what is listed, as the first of it comes. Each is ended, and named.
    pub(crate) fn drain(&mut self, why: Why, mut each: impl FnMut(Irp)) {
        while let Some(irp) = self.drain_next(Peek::Any, why) {
            self.end(irp);
            each(irp);
        }
    }

    /// Ends a request that was taken and forgotten, if this is one.
    pub(crate) fn end_forgotten(&mut self, irp: Irp) {
        self.finish(irp, FinalStatus::CANCELLED);
    }
}

/// In C this number stands for any; here it is an unknown file object.
#[inline]
fn known_to_c(peek: Peek) -> Option<u32> {
    (peek != Peek::File(raw::ANY)).then(|| file_of(peek))
}

impl Drop for Ledger {
    fn drop(&mut self) {
        // SAFETY: the handle is filled, and borrowed. Nothing is under way: what was listed or
        // forgotten has ended before.
        let code = unsafe { raw::csq_ledger_free(&mut self.raw) };
        debug_assert_eq!(code, raw::OK);
    }
}
