//! Futures of requests, by tasks that are polled by hand and by a thread.
#![cfg(feature = "async")]
mod tasks;

use csq::*;
use std::future::Future;
use std::sync::Arc;
use std::task::{Context, Poll, Wake, Waker};
use std::thread::{self, Thread};
use std::time::Duration;
use tasks::{queue_of, value, Task};

struct Unpark(Thread);

impl Wake for Unpark {
    fn wake(self: Arc<Self>) {
        self.0.unpark();
    }
}

/// Runs a task in this thread.
fn block_on<F: Future>(future: F) -> F::Output {
    let waker = Waker::from(Arc::new(Unpark(thread::current())));
    let mut future = Box::pin(future);
    loop {
        match future.as_mut().poll(&mut Context::from_waker(&waker)) {
            Poll::Ready(output) => return output,
            Poll::Pending => thread::park(),
        }
    }
}

fn goes_anywhere<T: Send + 'static>(_: &T) {}

#[test]
#[should_panic(expected = "there is no such file object")]
fn a_future_of_a_file_object_that_there_is_not_panics() {
    let queue: Requests<u32> = Requests::new(&Size::new(2, 2, 1)).unwrap();
    drop(queue.owned_pass().unwrap().recv_async(Peek::File(2)));
}

#[test]
fn a_task_waits_until_a_request_comes() {
    let (queue, pass) = queue_of(4);
    let mut task = Task::of(pass.recv_async(Peek::File(1)));
    goes_anywhere(&task.future);
    assert_eq!(value(task.poll()), None);
    assert_eq!(value(task.poll()), None);
    pass.submit("other", 0, Place::Back).unwrap();
    assert_eq!((task.wakes(), value(task.poll())), (0, None));
    pass.submit("mine", 1, Place::Back).unwrap();
    assert_eq!((task.wakes(), value(task.poll())), (1, Some("mine")));
    let mut task = Task::of(pass.recv_async(Peek::File(1)));
    assert!(task.poll().is_pending());
    queue.shutdown();
    assert_eq!(task.wakes(), 1);
    assert!(matches!(task.poll(), Poll::Ready(Err(RecvError))));
}

#[test]
fn a_drop_of_the_queue_wakes_tasks_too() {
    let (queue, pass) = queue_of(4);
    let mut task = Task::of(pass.recv_async(Peek::Any));
    assert!(task.poll().is_pending());
    drop(queue);
    assert_eq!(task.wakes(), 1);
    assert!(matches!(task.poll(), Poll::Ready(Err(RecvError))));
    pass.submit(7, 0, Place::Back).unwrap();
    let mut task = Task::of(pass.recv_async(Peek::Any));
    assert_eq!(value(task.poll()), Some(7));
    assert!(matches!(task.poll(), Poll::Ready(Err(RecvError))));
}

#[test]
fn a_task_that_is_dropped_passes_its_wake_on() {
    let (_queue, pass) = queue_of(4);
    let mut tasks = [(); 4].map(|()| Task::of(pass.recv_async(Peek::Any)));
    let mut other = Task::of(pass.recv_async(Peek::File(0)));
    for task in &mut tasks {
        assert!(task.poll().is_pending());
    }
    assert!(other.poll().is_pending());
    let [first, second, third, fourth] = tasks;
    // One that waits is just gone.
    drop(second);
    pass.submit(7, 1, Place::Back).unwrap();
    assert_eq!((first.wakes(), third.wakes(), other.wakes()), (1, 0, 0));
    drop(first);
    assert_eq!((third.wakes(), fourth.wakes(), other.wakes()), (1, 0, 0));
    let mut third = third;
    assert_eq!(value(third.poll()), Some(7));
    drop(third);
    // It had nothing to pass on.
    assert_eq!((fourth.wakes(), other.wakes()), (0, 0));
}

#[test]
fn a_wake_is_passed_on_to_one_who_waits_for_the_same() {
    let both = [Peek::Any, Peek::File(0)];
    for (peek, other) in [(both[0], both[1]), (both[1], both[0])] {
        let (_queue, pass) = queue_of(4);
        let mut tasks = [other, other, peek, peek].map(|peek| Task::of(pass.recv_async(peek)));
        for task in &mut tasks {
            assert!(task.poll().is_pending());
        }
        pass.submit(7, 0, Place::Back).unwrap();
        let [others @ .., first, mut second] = tasks;
        assert_eq!((first.wakes(), second.wakes()), (1, 0));
        drop(first);
        assert_eq!((second.wakes(), value(second.poll())), (1, Some(7)));
        assert_eq!((others[0].wakes(), others[1].wakes()), (1, 0));
    }
}

#[test]
fn the_waker_of_the_last_poll_is_woken() {
    let (_queue, pass) = queue_of(2);
    let id = pass.submit(1, 0, Place::Back).unwrap();
    let request = pass.try_recv(Peek::Any).unwrap();
    let (mut next, mut cancelled) = (
        Task::of(pass.recv_async(Peek::Any)),
        Task::of(request.cancelled()),
    );
    assert!(next.poll().is_pending() && cancelled.poll().is_pending());
    let before = [&mut next.wakes, &mut cancelled.wakes].map(std::mem::take);
    assert!(next.poll().is_pending() && cancelled.poll().is_pending());
    // The queue has let go of the one before.
    assert_eq!([0, 1].map(|at| Arc::strong_count(&before[at])), [1, 1]);
    pass.submit(2, 0, Place::Back).unwrap();
    assert_eq!(pass.cancel(id), Err(Missed::Taken));
    assert_eq!((next.wakes(), cancelled.wakes()), (1, 1));
    assert_eq!(value(next.poll()), Some(2));
    assert!(cancelled.poll().is_ready());
}

#[test]
fn a_future_that_is_dropped_leaves_no_waker() {
    let (_queue, pass) = queue_of(2);
    pass.submit(1, 0, Place::Back).unwrap();
    let request = pass.try_recv(Peek::Any).unwrap();
    let (mut next, mut cancelled) = (
        Task::of(pass.recv_async(Peek::Any)),
        Task::of(request.cancelled()),
    );
    assert!(next.poll().is_pending() && cancelled.poll().is_pending());
    let wakes = [Arc::clone(&next.wakes), Arc::clone(&cancelled.wakes)];
    drop((next, cancelled));
    assert_eq!(wakes.map(|wakes| Arc::strong_count(&wakes)), [1, 1]);
}

#[test]
fn a_thread_that_timed_out_is_not_woken_in_the_place_of_a_task() {
    let (_queue, pass) = queue_of(2);
    let timed_out = pass.recv_timeout(Peek::Any, Duration::from_millis(20));
    assert_eq!(timed_out.unwrap_err(), RecvTimeoutError::Timeout);
    let mut task = Task::of(pass.recv_async(Peek::Any));
    assert!(task.poll().is_pending());
    pass.submit(1, 0, Place::Back).unwrap();
    assert_eq!((task.wakes(), value(task.poll())), (1, Some(1)));
}

#[test]
fn a_task_learns_of_the_cancel_of_its_request() {
    let (_queue, pass) = queue_of(2);
    let ids = [1, 2].map(|value| pass.submit(value, 0, Place::Back).unwrap());
    let requests = [(); 2].map(|()| pass.try_recv(Peek::Any).unwrap());
    let mut cancelled = [0, 1, 1].map(|at: usize| Task::of(requests[at].cancelled()));
    goes_anywhere(&cancelled[0].future);
    for task in &mut cancelled {
        assert!(task.poll().is_pending());
    }
    assert_eq!(pass.cancel(ids[1]), Err(Missed::Taken));
    let wakes: Vec<u32> = cancelled.iter().map(Task::wakes).collect();
    assert_eq!(wakes, [0, 1, 1]);
    assert!(cancelled[0].poll().is_pending());
    assert!(cancelled[1].poll().is_ready() && cancelled[2].poll().is_ready());
    // One that comes late learns of it at once.
    assert!(Task::of(requests[1].cancelled()).poll().is_ready());
    drop(cancelled);
    assert_eq!(pass.cancel(ids[0]), Err(Missed::Taken));
}

#[test]
fn tasks_of_threads_take_each_value_once() {
    const VALUES: u32 = 5_000;
    let (queue, pass) = queue_of::<u32>(8);
    let sums = thread::scope(|scope| {
        let workers = [Peek::Any, Peek::File(0), Peek::File(1), Peek::Any].map(|peek| {
            let pass = pass.clone();
            scope.spawn(move || {
                block_on(async {
                    let mut sum = 0;
                    while let Ok(request) = pass.recv_async(peek).await {
                        sum += u64::from(request.complete());
                        // One that may be woken by the time that it is dropped.
                        if let Some(value) = value(Task::of(pass.recv_async(peek)).poll()) {
                            sum += u64::from(value);
                        }
                    }
                    sum
                })
            })
        });
        for value in 1..=VALUES {
            while pass.submit(value, value % 2, Place::Back).is_err() {
                thread::yield_now();
            }
        }
        while !queue.is_empty() {
            thread::yield_now();
        }
        queue.shutdown();
        workers.map(|worker| worker.join().unwrap())
    });
    let sum = u64::from(VALUES) * u64::from(VALUES + 1) / 2;
    assert_eq!(sums.iter().sum::<u64>(), sum);
}

/// A task that calls the queue as it is woken.
struct Looks(OwnedPass<u32>);

impl Wake for Looks {
    fn wake(self: Arc<Self>) {
        let _ = self.0.try_recv(Peek::Any);
    }
}

#[test]
fn a_task_may_call_the_queue_as_it_is_woken() {
    let (queue, pass) = queue_of(1);
    let waker = Waker::from(Arc::new(Looks(pass.clone())));
    let mut next = Box::pin(pass.recv_async(Peek::Any));
    let mut context = Context::from_waker(&waker);
    assert!(next.as_mut().poll(&mut context).is_pending());
    drop(queue);
    assert!(next.as_mut().poll(&mut context).is_ready());
}

#[test]
fn a_cancel_after_the_drop_of_the_queue_wakes_its_task() {
    let (queue, pass) = queue_of(1);
    let id = pass.submit(1, 0, Place::Back).unwrap();
    let request = pass.recv(Peek::Any).unwrap();
    let mut cancelled = Task::of(Box::pin(request.cancelled()));
    assert!(cancelled.poll().is_pending());
    drop(queue);
    assert_eq!(pass.cancel(id), Err(Missed::Taken));
    assert_eq!(cancelled.wakes(), 1);
    assert!(cancelled.poll().is_ready());
}

#[test]
fn the_future_of_a_completed_request_does_not_end_by_the_next_ones_cancel() {
    let (_queue, pass) = queue_of(1);
    pass.submit(1, 0, Place::Back).unwrap();
    let request = pass.recv(Peek::Any).unwrap();
    let mut cancelled = Task::of(Box::pin(request.cancelled()));
    assert!(cancelled.poll().is_pending());
    request.complete();
    let next = pass.submit(2, 0, Place::Back).unwrap();
    let again = pass.recv(Peek::Any).unwrap();
    assert_eq!(pass.cancel(next), Err(Missed::Taken));
    assert!(cancelled.poll().is_pending());
    again.complete();
}
