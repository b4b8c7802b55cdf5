//! Futures that wait for room, for quiet or for a deadline: whom they are woken for, and where they
//! stand.
#![cfg(feature = "async")]
mod tasks;

use csq::*;
use std::future::Future;
use std::pin::Pin;
use std::sync::Arc;
use std::task::{Context, Poll, RawWaker, RawWakerVTable, Wake, Waker};
use std::time::{Duration, Instant};
use tasks::{queue_of, value, Task};

#[test]
#[should_panic(expected = "there is no such file object")]
fn a_drain_of_a_file_object_that_there_is_not_panics() {
    let queue: Requests<u32> = Requests::new(&Size::new(2, 2, 1)).unwrap();
    drop(queue.owned_pass().unwrap().drain_async(Peek::File(2)));
}

#[test]
fn a_drain_ends_what_is_listed_and_waits_for_what_is_taken() {
    for peek in [Peek::Any, Peek::File(0)] {
        let (_queue, pass) = queue_of(4);
        for value in 1..=3 {
            pass.submit(value, 0, Place::Back).unwrap();
        }
        let [first, second] = [(); 2].map(|()| pass.try_recv(Peek::Any).unwrap());
        let mut drains = [peek, peek].map(|peek| Task::of(pass.drain_async(peek)));
        for drain in &mut drains {
            assert!(drain.poll().is_pending());
        }
        assert_eq!(first.complete(), 1);
        for drain in &mut drains {
            assert_eq!((drain.wakes(), drain.poll()), (0, Poll::Pending));
        }
        assert_eq!(second.put_back(Place::Back).unwrap(), PutBack::Pending);
        let wakes = [0, 1].map(|at: usize| drains[at].wakes());
        let ends = drains.map(|mut drain| drain.poll());
        assert_eq!(wakes, [1, 1]);
        assert_eq!(ends, [Poll::Ready(vec![3, 2]), Poll::Ready(vec![])]);
    }
}

#[test]
fn the_last_end_wakes_all_drains() {
    for peek in [Peek::Any, Peek::File(0)] {
        let (_queue, pass) = queue_of(4);
        pass.submit(1, 0, Place::Back).unwrap();
        let request = pass.try_recv(Peek::Any).unwrap();
        let mut drains = [peek, peek].map(|peek| Task::of(pass.drain_async(peek)));
        for drain in &mut drains {
            assert!(drain.poll().is_pending());
        }
        assert_eq!(request.complete(), 1);
        for drain in &mut drains {
            assert_eq!((drain.wakes(), drain.poll()), (1, Poll::Ready(vec![])));
        }
    }
}

#[test]
fn a_drain_keeps_the_last_waker_and_leaves_none() {
    let (_queue, pass) = queue_of(2);
    pass.submit(1, 0, Place::Back).unwrap();
    let request = pass.try_recv(Peek::Any).unwrap();
    let mut drain = Task::of(pass.drain_async(Peek::Any));
    assert!(drain.poll().is_pending());
    let before = std::mem::take(&mut drain.wakes);
    assert!(drain.poll().is_pending());
    assert_eq!(Arc::strong_count(&before), 1);
    let wakes = Arc::clone(&drain.wakes);
    drop(drain);
    assert_eq!(Arc::strong_count(&wakes), 1);
    assert_eq!(request.complete(), 1);
}

#[test]
fn a_cleanup_wakes_all_who_wait_for_room_in_its_file_object() {
    let queue = Requests::with_file_limits(&Size::new(4, 2, 1), &[1, 1]).unwrap();
    let pass = queue.owned_pass().unwrap();
    for file in [0, 1] {
        pass.submit(1, file, Place::Back).unwrap();
    }
    let mut tasks = [1, 1, 1, 0].map(|file| Task::of(pass.submit_async(2, file, Place::Back)));
    for task in &mut tasks {
        assert!(task.poll().is_pending());
    }
    assert_eq!(pass.cleanup(1), Ok(vec![1]));
    let wakes: Vec<u32> = tasks.iter().map(Task::wakes).collect();
    assert_eq!(wakes, [1, 1, 1, 0]);
    for task in &mut tasks[..3] {
        let refused = match task.poll() {
            Poll::Ready(ended) => ended.unwrap_err(),
            Poll::Pending => panic!("it waits for a file object that is closed"),
        };
        assert_eq!(refused.cause, SubmitError::FileClosed);
    }
    assert!(tasks[3].poll().is_pending());
}

#[test]
fn room_is_passed_on_to_one_who_waits_for_the_same() {
    let size = Size {
        limit: 2,
        ..Size::new(4, 2, 1)
    };
    let queue = Requests::with_file_limits(&size, &[1, 2]).unwrap();
    let pass = queue.owned_pass().unwrap();
    for file in [0, 1] {
        pass.submit(1, file, Place::Back).unwrap();
    }
    // Two find their file object full, and one the list.
    let tasks = [0, 0, 1].map(|file| {
        let mut task = Task::of(pass.submit_async(2, file, Place::Back));
        assert!(task.poll().is_pending());
        task
    });
    let [first, mut second, other] = tasks;
    let taken = pass.try_recv(Peek::File(0)).unwrap();
    assert_eq!((first.wakes(), second.wakes(), other.wakes()), (1, 0, 1));
    drop(first);
    assert_eq!((second.wakes(), other.wakes()), (1, 1));
    assert!(matches!(second.poll(), Poll::Ready(Ok(_))));
    assert_eq!(taken.complete(), 1);
}

#[test]
fn a_put_back_that_ends_a_cancelled_request_wakes_for_room_and_quiet() {
    let (_queue, pass) = queue_of(1);
    let id = pass.submit(1, 0, Place::Back).unwrap();
    let request = pass.try_recv(Peek::Any).unwrap();
    let mut submit = Task::of(pass.submit_async(2, 0, Place::Back));
    let mut drain = Task::of(pass.drain_async(Peek::File(0)));
    assert!(submit.poll().is_pending() && drain.poll().is_pending());
    assert_eq!(pass.cancel(id), Err(Missed::Taken));
    assert_eq!((submit.wakes(), drain.wakes()), (0, 0));
    let put_back = request.put_back(Place::Back).unwrap();
    assert_eq!(put_back, PutBack::Cancelled(1));
    assert_eq!((submit.wakes(), drain.wakes()), (1, 1));
    assert_eq!(drain.poll(), Poll::Ready(vec![]));
    assert!(matches!(submit.poll(), Poll::Ready(Ok(_))));
}

#[test]
fn a_submit_of_a_task_stands_where_it_is_to() {
    let (_queue, pass) = queue_of(3);
    for (value, place) in [(1, Place::Back), (2, Place::Front), (3, Place::Back)] {
        let mut task = Task::of(pass.submit_async(value, 0, place));
        assert!(matches!(task.poll(), Poll::Ready(Ok(_))));
    }
    assert_eq!(pass.drain(Peek::Any).unwrap(), [2, 1, 3]);
}

/// A task that submits a value as it is woken.
struct Submits(OwnedPass<u32>);

impl Wake for Submits {
    fn wake(self: Arc<Self>) {
        let late = self.0.submit(9, 0, Place::Back);
        assert_eq!(late.unwrap_err().cause, SubmitError::FileClosed);
    }
}

#[test]
fn a_cleanup_closes_the_file_object_before_it_ends_what_is_listed() {
    for owned in [true, false] {
        let (queue, pass) = queue_of(1);
        pass.submit(1, 0, Place::Back).unwrap();
        let waker = Waker::from(Arc::new(Submits(pass.clone())));
        let mut waits = Box::pin(pass.submit_async(2, 1, Place::Back));
        let mut context = Context::from_waker(&waker);
        assert!(waits.as_mut().poll(&mut context).is_pending());
        let values = match owned {
            true => pass.cleanup(0),
            false => queue.pass().unwrap().cleanup(0),
        };
        assert_eq!(values, Ok(vec![1]));
    }
}

#[test]
fn the_holder_of_a_request_learns_that_it_is_due() {
    let (_queue, pass) = queue_of(2);
    let due = Instant::now();
    pass.submit_until(1, 0, Place::Back, due).unwrap();
    let request = pass.recv(Peek::Any).unwrap();
    let mut cancelled = Task::of(request.cancelled());
    assert!(cancelled.poll().is_pending());
    let later = due + Duration::from_millis(1);
    assert_eq!(pass.cancel_due(later), (Vec::new(), None));
    assert!(cancelled.wakes() == 1 && cancelled.poll().is_ready());
    assert_eq!(request.cancelled_by(), Some(CancelledBy::Deadline));
    assert_eq!(
        request.put_back(Place::Back).unwrap(),
        PutBack::Cancelled(1)
    );
}

#[test]
fn a_batch_leaves_their_share_to_those_who_wait() {
    let (_queue, pass) = queue_of(8);
    let mut sleepers = [(); 4].map(|()| Task::of(pass.recv_async(Peek::Any)));
    for sleeper in &mut sleepers {
        assert!(sleeper.poll().is_pending());
    }
    for value in 0..3 {
        pass.submit(value, 0, Place::Back).unwrap();
    }
    // Three were woken, and one sleeps: of the two after the first one is left to it.
    let batch = pass.recv_many(Peek::Any, 9).unwrap();
    assert_eq!(OwnedRequest::complete_all(batch), [0, 1]);
    // Those who wait for something else have no share.
    drop(sleepers);
    drop(pass.drain(Peek::Any));
    let mut other = Task::of(pass.recv_async(Peek::File(0)));
    assert!(other.poll().is_pending());
    for value in 0..4 {
        pass.submit(value, 0, Place::Back).unwrap();
    }
    assert_eq!(pass.recv_many(Peek::Any, 3).unwrap().len(), 3);
    assert_eq!(pass.recv_many(Peek::Any, 3).unwrap().len(), 1);
}

#[test]
fn a_share_is_rounded_down_and_of_those_who_wait_for_the_same() {
    for peek in [Peek::Any, Peek::File(0)] {
        let (_queue, pass) = queue_of(8);
        let mut sleepers = [(); 3].map(|()| Task::of(pass.recv_async(peek)));
        for sleeper in &mut sleepers {
            assert!(sleeper.poll().is_pending());
        }
        for value in 0..2 {
            pass.submit(value, 0, Place::Back).unwrap();
        }
        // Two were woken, and one sleeps: the one after the first one is left to it.
        let batch = pass.recv_many(peek, 9).unwrap();
        assert_eq!(OwnedRequest::complete_all(batch), [0]);
    }
}

#[test]
fn a_submit_that_waited_has_its_deadline() {
    let (_queue, pass) = queue_of(1);
    pass.submit(0, 0, Place::Back).unwrap();
    let due = Instant::now();
    let mut submit = Task::of(pass.submit_async(1, 0, Place::Back).until(due));
    assert!(submit.poll().is_pending());
    assert_eq!(pass.recv(Peek::Any).unwrap().complete(), 0);
    assert!(submit.poll().is_ready());
    let later = due + Duration::from_millis(1);
    assert_eq!(pass.cancel_due(later), (vec![1], None));
}

#[test]
fn one_that_is_polled_again_keeps_its_place() {
    let (_queue, pass) = queue_of(1);
    let mut takers = [(); 2].map(|()| Task::of(pass.recv_async(Peek::Any)));
    for at in [0, 1, 0] {
        assert!(takers[at].poll().is_pending());
    }
    pass.submit(0, 0, Place::Back).unwrap();
    assert_eq!([takers[0].wakes(), takers[1].wakes()], [1, 0]);
    let mut submits = [1, 2].map(|value| Task::of(pass.submit_async(value, 0, Place::Back)));
    for at in [0, 1, 0] {
        assert!(submits[at].poll().is_pending());
    }
    let taken = takers[0].poll();
    assert_eq!([submits[0].wakes(), submits[1].wakes()], [1, 0]);
    assert_eq!(value(taken), Some(0));
    // Another one is faster: they wait where they did.
    pass.submit(3, 0, Place::Back).unwrap();
    for at in [1, 0] {
        assert!(submits[at].poll().is_pending());
    }
    let before = submits[0].wakes();
    let request = pass.recv(Peek::Any).unwrap();
    assert_eq!([submits[0].wakes(), submits[1].wakes()], [before + 1, 1]);
    assert_eq!(request.complete(), 3);
}

/// A waker of a pass that lives for ever. Each of its clones makes a call when it is dropped, which
/// doesn't return if the queue is locked by this thread.
fn caller(pass: OwnedPass<u32>) -> Waker {
    const TABLE: RawWakerVTable = RawWakerVTable::new(
        |at| RawWaker::new(at, &TABLE),
        |_| {},
        |_| {},
        |at| {
            // SAFETY: it is the address of a pass that lives for ever.
            let pass = unsafe { &*at.cast::<OwnedPass<u32>>() };
            drop(pass.try_recv(Peek::File(1)));
        },
    );
    let pass: *const OwnedPass<u32> = Box::leak(Box::new(pass));
    // SAFETY: the table's functions take the address of a pass that lives for ever, as this is.
    unsafe { Waker::from_raw(RawWaker::new(pass.cast(), &TABLE)) }
}

#[test]
fn a_waker_is_dropped_without_the_lock() {
    let (_queue, pass) = queue_of(2);
    let waker = caller(pass.clone());
    let mut context = Context::from_waker(&waker);
    let mut submit = pass.submit_async(0, 0, Place::Back);
    assert!(Pin::new(&mut submit).poll(&mut context).is_ready());
    let mut drain = pass.drain_async(Peek::Any);
    assert!(Pin::new(&mut drain).poll(&mut context).is_ready());
    let id = pass.submit(1, 0, Place::Back).unwrap();
    let mut taken = pass.recv_async(Peek::Any);
    let request = match Pin::new(&mut taken).poll(&mut context) {
        Poll::Ready(Ok(request)) => request,
        _ => panic!("a request is listed"),
    };
    assert_eq!(pass.cancel(id), Err(Missed::Taken));
    let mut cancelled = request.cancelled();
    assert!(Pin::new(&mut cancelled).poll(&mut context).is_ready());
    // Those that wait, and look again. Both requests are taken.
    pass.submit(2, 0, Place::Back).unwrap();
    let other = pass.recv(Peek::Any).unwrap();
    let mut waits: [Pin<Box<dyn Future<Output = ()> + '_>>; 4] = [
        Box::pin(async { drop(pass.recv_async(Peek::Any).await) }),
        Box::pin(async { drop(pass.submit_async(3, 0, Place::Back).await) }),
        Box::pin(async { drop(pass.drain_async(Peek::Any).await) }),
        Box::pin(other.cancelled()),
    ];
    for _ in 0..2 {
        for wait in &mut waits {
            assert!(wait.as_mut().poll(&mut context).is_pending());
        }
    }
}

#[test]
fn a_waker_that_panics_leaves_the_others_woken() {
    struct Panics;
    impl Wake for Panics {
        fn wake(self: Arc<Self>) {
            panic!("a waker");
        }
    }
    let (queue, pass) = queue_of::<u32>(1);
    let mut first = pass.recv_async(Peek::Any);
    let panics = Waker::from(Arc::new(Panics));
    let mut second = Task::of(pass.recv_async(Peek::Any));
    assert!(Pin::new(&mut first)
        .poll(&mut Context::from_waker(&panics))
        .is_pending());
    assert!(second.poll().is_pending());
    let shut_down = std::panic::AssertUnwindSafe(|| queue.shutdown());
    assert!(std::panic::catch_unwind(shut_down).is_err());
    assert_eq!(second.wakes(), 1);
}
