//! Tasks that are polled by hand, and count their wakes.
use csq::*;
use std::future::Future;
use std::pin::Pin;
use std::sync::atomic::{AtomicU32, Ordering::SeqCst};
use std::sync::Arc;
use std::task::{Context, Poll, Wake, Waker};

/// How often a task was woken.
#[derive(Default)]
pub struct Wakes(AtomicU32);

impl Wake for Wakes {
    fn wake(self: Arc<Self>) {
        self.0.fetch_add(1, SeqCst);
    }
}

/// A future with the wakes of its task.
pub struct Task<F> {
    pub future: F,
    pub wakes: Arc<Wakes>,
}

impl<F: Future + Unpin> Task<F> {
    pub fn of(future: F) -> Task<F> {
        let wakes = Arc::default();
        Task { future, wakes }
    }

    pub fn poll(&mut self) -> Poll<F::Output> {
        let waker = Waker::from(Arc::clone(&self.wakes));
        Pin::new(&mut self.future).poll(&mut Context::from_waker(&waker))
    }

    pub fn wakes(&self) -> u32 {
        self.wakes.0.load(SeqCst)
    }
}

pub fn queue_of<T>(irps: u32) -> (Requests<T>, OwnedPass<T>) {
    let queue = Requests::new(&Size::new(irps, 2, 2)).unwrap();
    let pass = queue.owned_pass().unwrap();
    (queue, pass)
}

pub fn value<T>(polled: Poll<Result<OwnedRequest<T>, RecvError>>) -> Option<T> {
    match polled {
        Poll::Ready(request) => request.ok().map(OwnedRequest::complete),
        Poll::Pending => None,
    }
}
