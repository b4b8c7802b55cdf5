//! A queue of values: a submit puts one in, and who gets the request has it.

#[cfg(feature = "async")]
mod futures;
mod owned;
mod owned_request;
mod pass;
mod request;
mod shared;
mod state;
mod waiting;

#[cfg(feature = "async")]
pub use futures::{CancelledFuture, DrainFuture, RecvFuture, SubmitFuture};
pub use owned::OwnedPass;
pub use owned_request::OwnedRequest;
pub use pass::RequestPass;
pub use request::{PutBack, Request, RequestId};

use crate::errors::{NewError, PassError, PassesOut, UnknownFile};
use crate::ledger::{Ledger, Why};
use crate::words::{Peek, Size};
use pass::Share;
use shared::Shared;
use state::State;
use std::fmt;
use std::sync::Arc;

/// A cancel-safe queue of requests that carry a value, as an IRP carries its buffers.
///
/// [`RequestPass::submit`] puts a value in for a file object. It comes out once: to the worker that
/// takes the request ([`RequestPass::next`]), to the caller that cancels it
/// ([`RequestPass::cancel`]), to the cleanup of its file object ([`RequestPass::cleanup`]), or to
/// the close of the queue ([`Requests::close`]). Which IRPs the requests have, and in which lives,
/// is the queue's own affair: it takes a free one for each submit.
///
/// ```
/// # fn main() -> Result<(), Box<dyn std::error::Error>> {
/// # use csq::{Peek, Place, Requests, Size};
/// let reads = Requests::new(&Size::new(64, 2, 4))?; // 64 requests, 2 file objects, 4 passes
/// let (caller, worker) = (reads.pass()?, reads.pass()?);
///
/// let first = caller.submit(String::from("first"), 0, Place::Back)?;
/// caller.submit(String::from("second"), 0, Place::Back)?;
/// assert_eq!(caller.cancel(first)?, "first");             // the canceller has the value
///
/// if let Some(mut request) = worker.next(Peek::File(0)) { // the worker has the next one
///     request.value_mut().push_str(", served");
///     assert_eq!(request.complete(), "second, served");
/// }
/// caller.submit(String::from("third"), 1, Place::Back)?;
/// assert_eq!(worker.cleanup(1)?, ["third"]);              // the last handle to file object 1 went
/// # drop((caller, worker));
/// # assert!(reads.close()?.is_empty());
/// # Ok(())
/// # }
/// ```
///
/// At most [`Size::irps`] requests are under way at a time, submitted and not completed, and
/// [`Size::limit`] of them listed. In its whole life a queue has 2^30 requests for each IRP
/// ([`SubmitError::LivesSpent`]).
///
/// No value comes out twice, and none is dropped twice, whatever is dropped, forgotten
/// ([`std::mem::forget`]) or let go in a panic. What is still listed where queue and passes are
/// dropped is dropped with the last of them. A [`Request`] that is forgotten keeps its value, and
/// its number until queue and passes are dropped. (A forgotten [`OwnedRequest`] keeps its pass
/// too.)
///
/// A worker waits for the next request ([`RequestPass::recv`], [`RequestPass::recv_timeout`],
/// [`RequestPass::iter`]), and a submit or a put-back wakes one who waits for it, until the queue
/// is shut down ([`Requests::shutdown`]) or dropped. A submit waits for room
/// ([`RequestPass::submit_timeout`]), and ends or takes of requests wake those who wait for it.
///
/// A request may have a deadline ([`RequestPass::submit_until`]). When it is over, the next look
/// for those that are due cancels the request: by an event loop ([`OwnedPass::cancel_due`]) or by a
/// thread ([`OwnedPass::recv_due`]).
///
/// Passes borrow nothing, so a queue may be dropped while threads wait through them. Then all are
/// woken, and from then on nobody waits: what is listed is still taken, and where nothing is, a
/// worker learns what it learns after a shutdown; a submit that finds no room is refused at once.
/// Passes do the rest as before; only a shutdown refuses submits. So keep the queue for as long as
/// workers are to wait.
///
/// ```
/// # use csq::*;
/// let queue = Requests::new(&Size::new(4, 2, 2))?;
/// let pass = queue.owned_pass()?;
/// let worker = std::thread::spawn({
///     let pass = pass.clone();
///     move || pass.recv(Peek::Any).map(|request| request.complete())
/// });
/// drop(queue);
/// assert_eq!(worker.join().unwrap(), Err(RecvError));
/// pass.submit("job", 0, Place::Back)?;
/// assert_eq!(pass.recv(Peek::Any)?.complete(), "job");
/// # Ok::<(), Box<dyn std::error::Error>>(())
/// ```
///
/// What crosses threads, where its values may (`T: Send`): the queue and an [`OwnedPass`] are
/// shared by threads; these two, a [`RequestPass`] and an [`OwnedRequest`] go to others.
///
/// ```
/// # use csq::{OwnedPass, OwnedRequest, RequestPass, Requests};
/// fn is_shared<T: Sync + 'static>() {}
/// fn goes_anywhere<T: Send + 'static>() {}
/// is_shared::<Requests<String>>();
/// is_shared::<OwnedPass<String>>();
/// goes_anywhere::<Requests<String>>();
/// goes_anywhere::<RequestPass<String>>();
/// goes_anywhere::<OwnedPass<String>>();
/// goes_anywhere::<OwnedRequest<String>>();
/// ```
///
/// A [`RequestPass`] isn't shared,
///
/// ```compile_fail,E0277
/// # use csq::RequestPass;
/// fn is_shared<T: Sync>() {}
/// is_shared::<RequestPass<String>>();
/// ```
///
/// so a [`Request`], which borrows one, stays in its thread,
///
/// ```compile_fail,E0277
/// # use csq::Request;
/// fn goes_anywhere<T: Send>() {}
/// goes_anywhere::<Request<'static, String>>();
/// ```
///
/// and where values stay in their thread, what carries them does.
///
/// ```compile_fail,E0277
/// # use csq::{Requests, Size};
/// let queue = Requests::<std::rc::Rc<u32>>::new(&Size::new(1, 1, 1)).unwrap();
/// let pass = queue.pass().unwrap();
/// std::thread::spawn(move || pass.cleanup(0));
/// ```
///
/// ```compile_fail,E0277
/// # use csq::OwnedRequest;
/// fn goes_anywhere<T: Send>() {}
/// goes_anywhere::<OwnedRequest<std::rc::Rc<u32>>>();
/// ```
///
/// ```compile_fail,E0277
/// # use csq::OwnedPass;
/// fn is_shared<T: Sync>() {}
/// is_shared::<OwnedPass<std::rc::Rc<u32>>>();
/// ```
///
/// [`SubmitError::LivesSpent`]: crate::SubmitError::LivesSpent
pub struct Requests<T> {
    shared: Arc<Shared<T>>,
}

/// Ends all waits for a request, for room and for a time: passes may outlive the queue.
impl<T> Drop for Requests<T> {
    fn drop(&mut self) {
        self.shared.with(|state| state.waiting.end());
    }
}

impl<T> fmt::Debug for Requests<T> {
    fn fmt(&self, f: &mut fmt::Formatter<'_>) -> fmt::Result {
        f.debug_struct("Requests").finish_non_exhaustive()
    }
}

impl<T> Requests<T> {
    /// A queue of this size.
    ///
    /// # Errors
    ///
    /// [`NewError`]: a number is out of its range, or memory was refused.
    ///
    /// ```
    /// # use csq::*;
    /// let queue = Requests::<String>::new(&Size::new(64, 2, 4))?;
    /// assert!(queue.is_empty());
    /// # Ok::<(), Box<dyn std::error::Error>>(())
    /// ```
    pub fn new(size: &Size) -> Result<Requests<T>, NewError> {
        Requests::over(size, Ledger::new(size))
    }

    /// A queue of this size, each file object with a limit of its own: how many requests may be
    /// listed for it at a time, 1 to `irps`.
    ///
    /// # Errors
    ///
    /// [`NewError`]: as [`Requests::new`]; there also have to be as many limits as file objects.
    ///
    /// ```
    /// # use csq::*;
    /// let queue = Requests::with_file_limits(&Size::new(64, 2, 4), &[1, 63])?;
    /// let pass = queue.pass()?;
    /// pass.submit("first", 0, Place::Back)?;
    /// assert_eq!(pass.submit("second", 0, Place::Back).unwrap_err().cause, SubmitError::FileFull);
    /// # Ok::<(), Box<dyn std::error::Error>>(())
    /// ```
    pub fn with_file_limits(size: &Size, file_limits: &[u32]) -> Result<Requests<T>, NewError> {
        Requests::over(size, Ledger::with_file_limits(size, file_limits))
    }

    fn over(size: &Size, ledger: Result<Ledger, NewError>) -> Result<Requests<T>, NewError> {
        let shared = Arc::new(Shared::new(State::new(size, ledger)?));
        Ok(Requests { shared })
    }

    /// A pass. Takes the lock.
    ///
    /// # Errors
    ///
    /// [`PassError::NoPass`]: all passes are out.
    ///
    /// ```
    /// # use csq::*;
    /// let queue = Requests::new(&Size::new(4, 2, 1))?;
    /// let pass = queue.pass()?;
    /// pass.submit(1, 0, Place::Back)?;
    /// assert_eq!(queue.pass().unwrap_err(), PassError::NoPass);
    /// # Ok::<(), Box<dyn std::error::Error>>(())
    /// ```
    pub fn pass(&self) -> Result<RequestPass<T>, PassError> {
        Ok(RequestPass::of(Share::of(&self.shared)?))
    }

    /// A pass for several threads. Takes the lock.
    ///
    /// # Errors
    ///
    /// [`PassError::NoPass`]: all passes are out.
    ///
    /// ```
    /// # use csq::*;
    /// let queue = Requests::new(&Size::new(4, 2, 1))?;
    /// let pass = queue.owned_pass()?;
    /// let worker = std::thread::spawn({
    ///     let pass = pass.clone();
    ///     move || pass.recv(Peek::Any).expect("a request").complete()
    /// });
    /// pass.submit("job", 0, Place::Back)?;
    /// assert_eq!(worker.join().unwrap(), "job");
    /// # Ok::<(), Box<dyn std::error::Error>>(())
    /// ```
    pub fn owned_pass(&self) -> Result<OwnedPass<T>, PassError> {
        Ok(OwnedPass::of(Share::of(&self.shared)?))
    }

    /// How many passes are out.
    ///
    /// ```
    /// # use csq::*;
    /// let queue = Requests::<u32>::new(&Size::new(4, 2, 2))?;
    /// let pass = queue.pass()?;
    /// assert_eq!(queue.passes_out(), 1);
    /// # Ok::<(), Box<dyn std::error::Error>>(())
    /// ```
    pub fn passes_out(&self) -> u32 {
        self.shared.with(|state| state.passes_out())
    }

    /// How many requests are listed. Takes the lock.
    ///
    /// ```
    /// # use csq::*;
    /// # let queue = Requests::new(&Size::new(4, 2, 2))?;
    /// # let pass = queue.pass()?;
    /// pass.submit("job", 0, Place::Back)?;
    /// assert_eq!(queue.len(), 1);
    /// # Ok::<(), Box<dyn std::error::Error>>(())
    /// ```
    pub fn len(&self) -> u32 {
        let counts = self.shared.with(|state| state.counts(Peek::Any));
        counts.map_or(0, |counts| counts.listed)
    }

    /// Whether none is listed. Takes the lock.
    ///
    /// ```
    /// # use csq::*;
    /// # let queue = Requests::new(&Size::new(4, 2, 2))?;
    /// # let pass = queue.pass()?;
    /// assert!(queue.is_empty());
    /// pass.submit("job", 0, Place::Back)?;
    /// assert!(!queue.is_empty());
    /// # Ok::<(), Box<dyn std::error::Error>>(())
    /// ```
    pub fn is_empty(&self) -> bool {
        self.len() == 0
    }

    /// How many requests are listed for a file object. Takes the lock.
    ///
    /// # Errors
    ///
    /// [`UnknownFile`]: there is no such file object.
    ///
    /// ```
    /// # use csq::*;
    /// # let queue = Requests::new(&Size::new(4, 2, 2))?;
    /// # let pass = queue.pass()?;
    /// pass.submit("job", 1, Place::Back)?;
    /// assert_eq!((queue.file_len(0)?, queue.file_len(1)?), (0, 1));
    /// # Ok::<(), Box<dyn std::error::Error>>(())
    /// ```
    pub fn file_len(&self, file: u32) -> Result<u32, UnknownFile> {
        let counts = self.shared.with(|state| state.counts(Peek::File(file)));
        counts.map(|counts| counts.listed).ok_or(UnknownFile)
    }

    /// Shuts the queue down for good: each further submit is refused ([`SubmitError::ShutDown`]),
    /// and those who wait are woken. They get what is listed still, and then learn of the shutdown.
    /// What is taken may still be completed, put back and cancelled.
    ///
    /// [`SubmitError::ShutDown`]: crate::SubmitError::ShutDown
    ///
    /// ```
    /// # use csq::*;
    /// # let queue = Requests::new(&Size::new(4, 2, 2))?;
    /// # let pass = queue.pass()?;
    /// pass.submit("listed", 0, Place::Back)?;
    /// queue.shutdown();
    /// assert_eq!(pass.submit("late", 0, Place::Back).unwrap_err().cause, SubmitError::ShutDown);
    /// assert_eq!(pass.recv(Peek::Any)?.complete(), "listed");
    /// assert_eq!(pass.recv(Peek::Any).unwrap_err(), RecvError);
    /// # Ok::<(), Box<dyn std::error::Error>>(())
    /// ```
    pub fn shutdown(&self) {
        self.shared.with(State::shut_down);
    }

    /// Closes the queue, once no pass is out, and hands over the values that are still listed, in
    /// the list's order. Those who wait have passes, so a queue with workers is shut down first
    /// ([`Requests::shutdown`]).
    ///
    /// # Errors
    ///
    /// [`PassesOut`]: passes are out; the queue comes back.
    ///
    /// ```
    /// # use csq::*;
    /// # let queue = Requests::new(&Size::new(4, 2, 2))?;
    /// # let pass = queue.pass()?;
    /// pass.submit("left", 0, Place::Back)?;
    /// drop(pass);
    /// assert_eq!(queue.close()?, ["left"]);
    /// # Ok::<(), Box<dyn std::error::Error>>(())
    /// ```
    pub fn close(self) -> Result<Vec<T>, PassesOut<Requests<T>>> {
        match self.passes_out() {
            0 => Ok(self.shared.end_listed(Peek::Any, Why::Close)),
            out => Err(PassesOut { queue: self, out }),
        }
    }
}
