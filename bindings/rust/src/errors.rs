//! Why a call is refused. A refusal changes nothing.

use crate::pass::Pass;
use crate::queue::Queue;
use crate::raw;
use std::error::Error;
use std::fmt;

/// A value that only its owner reaches, so that an error with it may be shared by threads though
/// the value may not.
struct Unshared<T>(T);

// SAFETY: no reference to this gives one to the value.
unsafe impl<T> Sync for Unshared<T> {}

// An error without parts prints what its variant's text says.
macro_rules! refusal {
    ($name:ident { $($variant:ident => $text:literal),+ $(,)? }) => {
        impl fmt::Display for $name {
            fn fmt(&self, f: &mut fmt::Formatter<'_>) -> fmt::Result {
                f.write_str(match self {
                    $($name::$variant => $text),+
                })
            }
        }

        impl Error for $name {}
    };
}

/// Why no queue is made, in the order in which the causes are tested.
#[derive(Clone, Copy, Debug, PartialEq, Eq, Hash)]
#[non_exhaustive]
pub enum NewError {
    /// A number is out of its range, or there aren't as many limits as file objects.
    BadSize,
    /// Memory was refused.
    NoMemory,
}

refusal!(NewError {
    BadSize => "a number is out of its range",
    NoMemory => "memory was refused",
});

/// Why no pass is handed out, in the order in which the causes are tested.
#[derive(Clone, Copy, Debug, PartialEq, Eq, Hash)]
#[non_exhaustive]
pub enum PassError {
    /// All passes of the queue are out.
    NoPass,
    /// Memory was refused. The pass can be asked for again.
    NoMemory,
}

refusal!(PassError {
    NoPass => "all passes are out",
    NoMemory => "memory was refused",
});

/// Why an insert is refused, in the order in which the causes are tested. The IRP stays with the
/// caller.
#[derive(Clone, Copy, Debug, PartialEq, Eq, Hash)]
#[non_exhaustive]
pub enum InsertError {
    /// The IRP's number isn't below the queue's number of IRPs.
    UnknownIrp,
    /// The file object's number isn't below the queue's number of file objects.
    UnknownFile,
    /// An insert accepted the IRP in its present life already.
    NotHome,
    /// The file object was closed. A driver returns `STATUS_FILE_CLOSED`.
    FileClosed,
    /// As many IRPs are listed for the file object as its own limit allows. A driver returns
    /// `STATUS_INSUFFICIENT_RESOURCES`.
    FileFull,
    /// As many IRPs are listed as the limit allows. A driver returns
    /// `STATUS_INSUFFICIENT_RESOURCES`.
    Full,
}

refusal!(InsertError {
    UnknownIrp => "there is no such IRP",
    UnknownFile => "there is no such file object",
    NotHome => "the IRP was inserted already",
    FileClosed => "the file object was closed",
    FileFull => "the file object has as many IRPs listed as it may",
    Full => "the queue has as many IRPs listed as it may",
});

impl InsertError {
    /// The cause that `csq_insert` returned as this code.
    pub(crate) fn of(code: u32) -> InsertError {
        match code {
            raw::UNKNOWN_IRP => InsertError::UnknownIrp,
            raw::UNKNOWN_FILE => InsertError::UnknownFile,
            raw::NOT_HOME => InsertError::NotHome,
            raw::FILE_CLOSED => InsertError::FileClosed,
            raw::FILE_FULL => InsertError::FileFull,
            raw::FULL => InsertError::Full,
            code => unreachable!("csq_insert returned {code}"),
        }
    }
}

/// Why what was removed isn't put back, in the order in which the causes are tested.
#[derive(Clone, Copy, Debug, PartialEq, Eq, Hash)]
#[non_exhaustive]
pub enum PutBackError {
    /// The file object was closed in the meantime. Its cleanup would have cancelled the IRP.
    FileClosed,
    /// As many IRPs are listed for the file object as its own limit allows: others were inserted in
    /// the meantime.
    FileFull,
    /// As many IRPs are listed as the limit allows.
    Full,
}

refusal!(PutBackError {
    FileClosed => "the file object was closed",
    FileFull => "the file object has as many IRPs listed as it may",
    Full => "the queue has as many IRPs listed as it may",
});

impl PutBackError {
    /// The cause that `csq_put_back` returned as this code. A token is of what its pass holds, so
    /// what is refused is refused for its file object or for the list alone.
    pub(crate) fn of(code: u32) -> PutBackError {
        match code {
            raw::FILE_CLOSED => PutBackError::FileClosed,
            raw::FILE_FULL => PutBackError::FileFull,
            raw::FULL => PutBackError::Full,
            code => unreachable!("csq_put_back returned {code}"),
        }
    }
}

/// What wasn't put back: a token ([`Removed`](crate::Removed)) or a request
/// ([`Request`](crate::Request)). It comes back.
pub struct NotPutBack<R> {
    /// What the pass holds as before. Dropped, it is completed with `STATUS_CANCELLED`.
    pub held: R,
    /// Why it wasn't put back.
    pub cause: PutBackError,
}

impl<R> fmt::Debug for NotPutBack<R> {
    fn fmt(&self, f: &mut fmt::Formatter<'_>) -> fmt::Result {
        f.debug_struct("NotPutBack")
            .field("cause", &self.cause)
            .finish_non_exhaustive()
    }
}

impl<R> fmt::Display for NotPutBack<R> {
    fn fmt(&self, f: &mut fmt::Formatter<'_>) -> fmt::Result {
        self.cause.fmt(f)
    }
}

impl<R> Error for NotPutBack<R> {}

/// By `?`: what wasn't put back is dropped, and so completed with `STATUS_CANCELLED`.
impl<R> From<NotPutBack<R>> for PutBackError {
    fn from(refused: NotPutBack<R>) -> PutBackError {
        refused.cause
    }
}

/// Why a cancel changed nothing, in the order in which the causes are tested.
#[derive(Clone, Copy, Debug, PartialEq, Eq, Hash)]
#[non_exhaustive]
pub enum CancelError {
    /// The IRP's number isn't below the queue's number of IRPs.
    UnknownIrp,
    /// The IRP is in another life than the one named.
    Stale,
}

refusal!(CancelError {
    UnknownIrp => "there is no such IRP",
    Stale => "the IRP is in another life",
});

/// Why an IRP isn't given its next life, in the order in which the causes are tested.
#[derive(Clone, Copy, Debug, PartialEq, Eq, Hash)]
#[non_exhaustive]
pub enum ReuseError {
    /// The IRP's number isn't below the queue's number of IRPs.
    UnknownIrp,
    /// The IRP is in another life than the one named.
    Stale,
    /// Its present life isn't completed.
    NotCompleted,
    /// Its present life is the last that there can be.
    LivesSpent,
}

refusal!(ReuseError {
    UnknownIrp => "there is no such IRP",
    Stale => "the IRP is in another life",
    NotCompleted => "the IRP isn't completed",
    LivesSpent => "the IRP is in its last life",
});

/// The IRP's number isn't below the queue's number of IRPs.
#[derive(Clone, Copy, Debug, PartialEq, Eq, Hash)]
pub struct UnknownIrp;

impl fmt::Display for UnknownIrp {
    fn fmt(&self, f: &mut fmt::Formatter<'_>) -> fmt::Result {
        f.write_str("there is no such IRP")
    }
}

impl Error for UnknownIrp {}

/// The file object's number isn't below the queue's number of file objects.
#[derive(Clone, Copy, Debug, PartialEq, Eq, Hash)]
pub struct UnknownFile;

impl fmt::Display for UnknownFile {
    fn fmt(&self, f: &mut fmt::Formatter<'_>) -> fmt::Result {
        f.write_str("there is no such file object")
    }
}

impl Error for UnknownFile {}

/// The IRP isn't in the queue's list.
#[derive(Clone, Copy, Debug, PartialEq, Eq, Hash)]
pub struct NotListed;

impl fmt::Display for NotListed {
    fn fmt(&self, f: &mut fmt::Formatter<'_>) -> fmt::Result {
        f.write_str("the IRP isn't listed")
    }
}

impl Error for NotListed {}

/// A pass that wasn't given back, since it holds or owes IRPs whose tokens were forgotten. It comes
/// back.
///
/// ```
/// # use csq::Pass;
/// fn end(pass: Pass) -> Result<(), Box<dyn std::error::Error + Send + Sync>> {
///     Ok(pass.give_back()?) // the error has the pass, which is dropped with it
/// }
/// ```
pub struct Holding {
    pass: Unshared<Pass>,
    /// How many IRPs it holds.
    pub held: u32,
    /// How many IRPs it owes.
    pub owed: u32,
}

impl Holding {
    pub(crate) fn of(pass: Pass) -> Holding {
        let (held, owed) = pass.holding();
        Holding {
            pass: Unshared(pass),
            held,
            owed,
        }
    }

    /// The pass.
    ///
    /// ```
    /// # use csq::*;
    /// # let queue = Queue::new(&Size::new(4, 2, 2))?;
    /// # let pass = queue.pass()?;
    /// drop(pass.insert(0, 1, Place::Back)?); // it is pending
    /// std::mem::forget(pass.remove_next(Peek::Any));
    /// let pass = pass.give_back().unwrap_err().into_pass();
    /// assert_eq!(pass.holding(), (1, 0));
    /// # Ok::<(), Box<dyn std::error::Error>>(())
    /// ```
    pub fn into_pass(self) -> Pass {
        self.pass.0
    }
}

impl fmt::Debug for Holding {
    fn fmt(&self, f: &mut fmt::Formatter<'_>) -> fmt::Result {
        f.debug_struct("Holding")
            .field("held", &self.held)
            .field("owed", &self.owed)
            .finish_non_exhaustive()
    }
}

impl fmt::Display for Holding {
    fn fmt(&self, f: &mut fmt::Formatter<'_>) -> fmt::Result {
        write!(f, "IRPs held: {}, owed: {}", self.held, self.owed)
    }
}

impl Error for Holding {}

/// A queue that wasn't closed, since passes are out. It comes back.
#[derive(Debug)]
pub struct PassesOut<Q = Queue> {
    /// The queue.
    pub queue: Q,
    /// How many passes are out.
    pub out: u32,
}

impl<Q> fmt::Display for PassesOut<Q> {
    fn fmt(&self, f: &mut fmt::Formatter<'_>) -> fmt::Result {
        write!(f, "passes out: {}", self.out)
    }
}

impl<Q: fmt::Debug> Error for PassesOut<Q> {}

/// Why a value isn't submitted, in the order in which the causes are tested.
#[derive(Clone, Copy, Debug, PartialEq, Eq, Hash)]
#[non_exhaustive]
pub enum SubmitError {
    /// The file object's number isn't below the queue's number of file objects.
    UnknownFile,
    /// The queue was shut down.
    ShutDown,
    /// The file object was closed. A driver returns `STATUS_FILE_CLOSED`.
    FileClosed,
    /// Each IRP has had its last life, so no request can be submitted any more.
    LivesSpent,
    /// No IRP is free, and some have a request under way: try again after a completion.
    NoIrp,
    /// As many requests are listed for the file object as its own limit allows. A driver returns
    /// `STATUS_INSUFFICIENT_RESOURCES`.
    FileFull,
    /// As many requests are listed as the limit allows. A driver returns
    /// `STATUS_INSUFFICIENT_RESOURCES`.
    Full,
}

refusal!(SubmitError {
    ShutDown => "the queue was shut down",
    NoIrp => "no IRP is free",
    LivesSpent => "each IRP has had its last life",
    UnknownFile => "there is no such file object",
    FileClosed => "the file object was closed",
    FileFull => "the file object has as many requests listed as it may",
    Full => "the queue has as many requests listed as it may",
});

impl SubmitError {
    /// Whether there was no room, so that a later submit may be accepted: `NoIrp`, `FileFull` and
    /// `Full`.
    pub fn is_want_of_room(self) -> bool {
        matches!(
            self,
            SubmitError::NoIrp | SubmitError::FileFull | SubmitError::Full
        )
    }
}

/// A value that wasn't submitted. It comes back.
///
/// By `?` it becomes a boxed error, which has the value, or a [`SubmitError`], which doesn't.
///
/// ```
/// # use csq::{Place, RequestPass};
/// # use std::cell::Cell;
/// fn send(pass: &RequestPass<Cell<u32>>) -> Result<(), Box<dyn std::error::Error + Send + Sync>> {
///     pass.submit(Cell::new(1), 0, Place::Back)?;
///     Ok(())
/// }
/// ```
pub struct Refused<T> {
    value: Unshared<T>,
    /// Why it wasn't submitted.
    pub cause: SubmitError,
}

impl<T> Refused<T> {
    pub(crate) fn of(value: T, cause: SubmitError) -> Refused<T> {
        Refused {
            value: Unshared(value),
            cause,
        }
    }

    /// The value.
    ///
    /// ```
    /// # use csq::*;
    /// # let queue = Requests::new(&Size::new(1, 1, 1))?;
    /// # let pass = queue.pass()?;
    /// let refused = pass.submit("for no file object", 9, Place::Back).unwrap_err();
    /// assert_eq!(refused.into_value(), "for no file object");
    /// # Ok::<(), Box<dyn std::error::Error>>(())
    /// ```
    pub fn into_value(self) -> T {
        self.value.0
    }
}

impl<T> fmt::Debug for Refused<T> {
    fn fmt(&self, f: &mut fmt::Formatter<'_>) -> fmt::Result {
        f.debug_struct("Refused")
            .field("cause", &self.cause)
            .finish_non_exhaustive()
    }
}

impl<T> fmt::Display for Refused<T> {
    fn fmt(&self, f: &mut fmt::Formatter<'_>) -> fmt::Result {
        self.cause.fmt(f)
    }
}

impl<T> Error for Refused<T> {}

/// By `?`, if the value isn't wanted back, or isn't `Send` or `'static`, as part of an error has to
/// be.
impl<T> From<Refused<T>> for SubmitError {
    fn from(refused: Refused<T>) -> SubmitError {
        refused.cause
    }
}

/// No request comes any more: the queue was shut down or dropped, and none is listed.
#[derive(Clone, Copy, Debug, PartialEq, Eq, Hash)]
pub struct RecvError;

impl fmt::Display for RecvError {
    fn fmt(&self, f: &mut fmt::Formatter<'_>) -> fmt::Result {
        f.write_str("the queue was shut down or dropped")
    }
}

impl Error for RecvError {}

/// Why no request is taken without waiting.
#[derive(Clone, Copy, Debug, PartialEq, Eq, Hash)]
#[non_exhaustive]
pub enum TryRecvError {
    /// None is listed that no canceller has.
    Empty,
    /// None is listed, and the queue was shut down or dropped.
    ShutDown,
}

refusal!(TryRecvError {
    Empty => "no request is listed",
    ShutDown => "the queue was shut down or dropped",
});

/// Why no request is taken in a time.
#[derive(Clone, Copy, Debug, PartialEq, Eq, Hash)]
#[non_exhaustive]
pub enum RecvTimeoutError {
    /// None came in time.
    Timeout,
    /// None is listed, and the queue was shut down or dropped.
    ShutDown,
}

refusal!(RecvTimeoutError {
    Timeout => "no request came in time",
    ShutDown => "the queue was shut down or dropped",
});

/// What named a request that was taken, so that nobody waits for it; the first, if several did.
#[derive(Clone, Copy, Debug, PartialEq, Eq, Hash)]
#[non_exhaustive]
pub enum CancelledBy {
    /// A cancel by its name ([`OwnedPass::cancel`](crate::OwnedPass::cancel)).
    Caller,
    /// Its deadline is over ([`OwnedPass::submit_until`](crate::OwnedPass::submit_until)).
    Deadline,
}

/// Why a cancel of a request got no value.
#[derive(Clone, Copy, Debug, PartialEq, Eq, Hash)]
#[non_exhaustive]
pub enum Missed {
    /// The request is of another queue.
    OtherQueue,
    /// The request was completed.
    Completed,
    /// Somebody else has the request. Whoever took it learns of the cancel
    /// ([`Request::is_cancelled`](crate::Request::is_cancelled)), also by a put-back
    /// ([`PutBack::Cancelled`](crate::PutBack::Cancelled)).
    Taken,
}

refusal!(Missed {
    OtherQueue => "the request is of another queue",
    Completed => "the request was completed",
    Taken => "somebody else has the request",
});
