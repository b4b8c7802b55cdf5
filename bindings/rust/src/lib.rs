//! The cancel-safe IRP queue of Windows drivers, as Microsoft's WDK describes it
//! (`IoCsqInsertIrpEx`, `IoCsqRemoveNextIrp`, `IoCsqRemoveIrp`, `IoSetCancelRoutine`,
//! `IoCancelIrp`, `IRP_MJ_CLEANUP`): safe bindings of the C library that `include/csq.h` describes.
//!
//! A [`Queue`] hands out a [`Pass`] for each thread that inserts, removes, cancels or completes.
//! What a pass has to complete is a token ([`Removed`], [`Cancelled`], [`Claim`]): it borrows its
//! pass, and one that is dropped completes its IRP with `STATUS_CANCELLED`. What was removed may be
//! put back instead ([`Removed::put_back`]). So once a queue is closed, each IRP that an insert
//! accepted was completed once or is listed.
//!
//! [`Requests`] is such a queue of values: it takes an IRP for each, and hands each value over
//! once. Workers wait for the next one, and threads may share a pass of it ([`OwnedPass`]).
//!
//! ```
//! use csq::{FinalStatus, Inserted, Peek, Place, Queue, Size};
//!
//! # fn main() -> Result<(), Box<dyn std::error::Error>> {
//! // A queue of 18 requests for 2 file objects, with 4 passes.
//! let queue = Queue::new(&Size::new(18, 2, 4))?;
//! let (reads, worker, caller) = (queue.pass()?, queue.pass()?, queue.pass()?);
//! std::thread::scope(|scope| {
//!     // A dispatch routine queues requests.
//!     scope.spawn(move || {
//!         for irp in 0..8 {
//!             match reads.insert(irp, 0, Place::Back).expect("queued") {
//!                 // The context could remove just this request later.
//!                 Inserted::Pending(_context) => {}
//!                 // The caller was faster.
//!                 Inserted::Cancelled(token) => token.complete(),
//!             }
//!         }
//!     });
//!     // The worker takes the next request, and completes it.
//!     scope.spawn(move || {
//!         if let Some(token) = worker.remove_next(Peek::File(0)) {
//!             token.complete(FinalStatus::SUCCESS);
//!         }
//!     });
//!     // A caller cancels a request in its first life, queued or not.
//!     scope.spawn(move || caller.cancel(csq::Irp { irp: 3, life: 0 }).expect("a request"));
//! });
//! // The last handle to a file object goes: what is queued for it is cancelled.
//! queue.pass()?.cleanup(0)?;
//! // All passes are back by now, so the queue can be closed.
//! let closed = queue.close()?;
//! assert_eq!(closed.listed().count(), 0);
//! assert!((0..8).all(|irp| matches!(closed.irp(irp), Some(csq::Left { status: Some(_), .. }))));
//! # Ok(())
//! # }
//! ```
//!
//! What the C header asks of its caller is upheld here: each call on a queue is made under its
//! lock, a pass has a share of its queue and is used with no other, and no thread uses a pass
//! beside another one. What is left to the program: `malloc`, `realloc` and `free` are of one
//! allocator and may be called by several threads at once, and no call is made in a signal handler,
//! in the forked child of a process with threads, or with less than a few kilobytes of the stack
//! left.
//!
//! A pass can't be shared by threads,
//!
//! ```compile_fail,E0277
//! # use csq::{Peek, Queue, Size};
//! let queue = Queue::new(&Size::new(1, 1, 1)).unwrap();
//! let pass = queue.pass().unwrap();
//! std::thread::scope(|scope| {
//!     scope.spawn(|| pass.holding());
//! });
//! ```
//!
//! nor be given back before its tokens are spent,
//!
//! ```compile_fail,E0505
//! # use csq::{Peek, Queue, Size};
//! let queue = Queue::new(&Size::new(1, 1, 1)).unwrap();
//! let pass = queue.pass().unwrap();
//! let token = pass.remove_next(Peek::Any);
//! pass.give_back().unwrap();
//! drop(token);
//! ```
//!
//! and a token is spent once.
//!
//! ```compile_fail,E0382
//! # use csq::{FinalStatus, Peek, Queue, Size};
//! let queue = Queue::new(&Size::new(1, 1, 1)).unwrap();
//! let pass = queue.pass().unwrap();
//! let token = pass.remove_next(Peek::Any).unwrap();
//! token.complete(FinalStatus::SUCCESS);
//! token.complete(FinalStatus::SUCCESS);
//! ```
//!
//! # How the C library is found
//!
//! The first of these that there is:
//!
//! 1. The variable `CSQ_LIBRARY` of the environment names the library's archives, in the linker's
//!    order, with colons between them. A relative path is of the folder from which the build is
//!    started.
//! 2. `pkg-config` finds an installed library (`c/install`).
//! 3. The feature `plain` builds the plain C queue by the C compiler (`CC`, otherwise `cc`), in a
//!    clone of the repository. Nothing of it is proved.
//!
//! Without any a build warns, and no program links. The crate's own tests turn `plain` on.
//!
//! # Features
//!
//! `plain`: as above. `async`: futures for any executor (`OwnedPass::recv_async`,
//! `OwnedPass::submit_async`, `OwnedPass::drain_async`, `OwnedRequest::cancelled`).
#![deny(
    missing_docs,
    unsafe_op_in_unsafe_fn,
    clippy::missing_errors_doc,
    clippy::undocumented_unsafe_blocks
)]

mod errors;
mod ledger;
mod lock;
mod pass;
mod queue;
mod raw;
mod requests;
mod token;
mod words;

pub use errors::{
    CancelError, CancelledBy, Holding, InsertError, Missed, NewError, NotListed, NotPutBack,
    PassError, PassesOut, PutBackError, RecvError, RecvTimeoutError, Refused, ReuseError,
    SubmitError, TryRecvError, UnknownFile, UnknownIrp,
};
pub use pass::Pass;
pub use queue::{Closed, Listed, Queue};
#[cfg(feature = "async")]
pub use requests::{CancelledFuture, DrainFuture, RecvFuture, SubmitFuture};
pub use requests::{OwnedPass, OwnedRequest, PutBack, Request, RequestId, RequestPass, Requests};
pub use token::{Cancelled, Claim, Inserted, Removed};
pub use words::{FinalStatus, Irp, Left, List, Peek, Place, Size, LAST_LIFE};

/// The version of the C library that the program is linked with: major, minor and patch.
///
/// ```
/// # use csq::*;
/// let (major, minor, _patch) = library_version();
/// assert!((major, minor) >= (1, 0));
/// # Ok::<(), Box<dyn std::error::Error>>(())
/// ```
pub fn library_version() -> (u32, u32, u32) {
    // SAFETY: the call takes and changes nothing.
    let version = unsafe { raw::csq_version() };
    (version / 10_000, version / 100 % 100, version % 100)
}
