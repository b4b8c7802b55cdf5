//! What each call of a queue of requests answers, over both lists.
use csq::*;
use std::cell::Cell;
use std::panic::{catch_unwind, resume_unwind, AssertUnwindSafe};
use std::rc::Rc;

fn sizes(irps: u32, files: u32) -> [Size; 2] {
    let vector = Size::new(irps, files, 3);
    let list = List::Chains;
    [vector, Size { list, ..vector }]
}

/// A value whose drops are counted.
#[derive(Debug)]
struct Counted<'a>(&'a Cell<u32>);

impl Drop for Counted<'_> {
    fn drop(&mut self) {
        self.0.set(self.0.get() + 1);
    }
}

fn cause<T>(answer: Result<RequestId, Refused<T>>) -> SubmitError {
    answer.unwrap_err().cause
}

#[test]
fn values_come_out_in_order() {
    for size in sizes(5, 2) {
        let queue = Requests::new(&size).unwrap();
        let pass = queue.pass().unwrap();
        for value in 0..4 {
            let place = [Place::Back, Place::Front][usize::from(value == 2)];
            pass.submit(value, value % 2, place).unwrap();
        }
        let mut first = pass.next(Peek::Any).unwrap();
        let odd = pass.next(Peek::File(1)).unwrap();
        assert_eq!((first.value(), odd.value()), (&2, &1));
        assert_eq!(format!("{first:?}"), "Request(2)");
        *first.value_mut() += 40;
        // Two requests of one pass at once.
        assert_eq!((odd.complete(), first.complete()), (1, 42));
        assert!(pass.next(Peek::File(2)).is_none());
        let rest = [(); 3].map(|()| pass.next(Peek::Any).map(Request::complete));
        assert_eq!(rest, [Some(0), Some(3), None]);
    }
}

#[test]
fn a_cancel_hands_the_value_over_or_says_why_not() {
    for size in sizes(2, 1) {
        let (queue, other) = (Requests::new(&size).unwrap(), Requests::new(&size).unwrap());
        let (pass, caller) = (queue.pass().unwrap(), queue.pass().unwrap());
        let foreign = other.pass().unwrap();
        let id = pass.submit("a", 0, Place::Back).unwrap();
        foreign.submit("b", 0, Place::Back).unwrap();
        assert_eq!(foreign.cancel(id), Err(Missed::OtherQueue));
        assert_eq!(caller.cancel(id), Ok("a"));
        assert_eq!(caller.cancel(id), Err(Missed::Completed));
        // The same IRP in its next life is another request.
        let next = pass.submit("c", 0, Place::Back).unwrap();
        assert_eq!(caller.cancel(id), Err(Missed::Completed));
        let request = pass.next(Peek::Any).unwrap();
        assert_eq!((request.id(), request.is_cancelled()), (next, false));
        assert_eq!(caller.cancel(next), Err(Missed::Taken));
        assert!(request.is_cancelled());
        assert_eq!(request.complete(), "c");
        assert_eq!(caller.cancel(next), Err(Missed::Completed));
    }
}

#[test]
fn a_refusal_hands_the_value_back() {
    for size in sizes(4, 3) {
        let size = Size { limit: 2, ..size };
        let queue = Requests::with_file_limits(&size, &[1, 4, 4]).unwrap();
        let pass = queue.pass().unwrap();
        let refusal = |file| cause(pass.submit(String::from("x"), file, Place::Back));
        let refused = pass
            .submit(String::from("mine"), 3, Place::Back)
            .unwrap_err();
        assert_eq!(refused.to_string(), "there is no such file object");
        assert_eq!(format!("{refused:?}"), "Refused { cause: UnknownFile, .. }");
        assert_eq!(refused.into_value(), "mine");
        pass.submit(String::new(), 0, Place::Back).unwrap();
        assert_eq!(refusal(0), SubmitError::FileFull);
        pass.submit(String::new(), 1, Place::Back).unwrap();
        assert_eq!(refusal(1), SubmitError::Full);
        assert_eq!(pass.cleanup(2), Ok(Vec::new()));
        assert_eq!(refusal(2), SubmitError::FileClosed);
        assert_eq!(pass.cleanup(3), Err(UnknownFile));
        // No refusal has cost an IRP: all four can be under way.
        let served = [(); 2].map(|()| pass.next(Peek::Any).unwrap());
        pass.submit(String::new(), 0, Place::Back).unwrap();
        pass.submit(String::new(), 1, Place::Back).unwrap();
        assert_eq!(refusal(2), SubmitError::FileClosed);
        assert_eq!(refusal(0), SubmitError::NoIrp);
        drop(served);
        assert_eq!(refusal(0), SubmitError::FileFull);
    }
}

#[test]
fn lives_end() {
    for size in sizes(2, 1) {
        let size = Size {
            first_life: LAST_LIFE - 1,
            ..size
        };
        let queue = Requests::new(&size).unwrap();
        let pass = queue.pass().unwrap();
        for value in 0..3 {
            let id = pass.submit(value, 0, Place::Back).unwrap();
            assert_eq!(pass.next(Peek::Any).unwrap().complete(), value);
            assert_eq!(pass.cancel(id), Err(Missed::Completed));
        }
        let last = pass.submit(3, 0, Place::Back).unwrap();
        assert_eq!(cause(pass.submit(4, 0, Place::Back)), SubmitError::NoIrp);
        assert_eq!(pass.cancel(last), Ok(3));
        assert_eq!(pass.cancel(last), Err(Missed::Completed));
        assert_eq!(
            cause(pass.submit(4, 0, Place::Back)),
            SubmitError::LivesSpent
        );
    }
}

/// The number that has been free longest is used next, so that the queue keeps its size until its
/// last life.
#[test]
fn numbers_wear_evenly() {
    for size in sizes(3, 1) {
        let size = Size {
            first_life: LAST_LIFE - 1,
            ..size
        };
        let queue = Requests::new(&size).unwrap();
        let pass = queue.pass().unwrap();
        for value in 0..3 {
            // A refusal has its number put back where it was.
            for _ in 0..2 {
                let refused = cause(pass.submit(value, 1, Place::Back));
                assert_eq!(refused, SubmitError::UnknownFile);
            }
            pass.submit(value, 0, Place::Back).unwrap();
            assert_eq!(pass.next(Peek::Any).unwrap().complete(), value);
        }
        for value in 0..3 {
            pass.submit(value, 0, Place::Back).unwrap();
        }
        assert_eq!(cause(pass.submit(3, 0, Place::Back)), SubmitError::NoIrp);
        assert_eq!(pass.drain(Peek::Any).unwrap(), [0, 1, 2]);
        let refused = cause(pass.submit(3, 0, Place::Back));
        assert_eq!(refused, SubmitError::LivesSpent);
    }
}

#[test]
fn a_cleanup_hands_over_what_is_listed() {
    for size in sizes(5, 2) {
        let queue = Requests::new(&size).unwrap();
        let pass = queue.pass().unwrap();
        for value in 0..5 {
            pass.submit(value, value % 2, Place::Front).unwrap();
        }
        let taken = pass.next(Peek::File(0)).unwrap();
        assert_eq!(pass.cleanup(0), Ok(vec![2, 0]));
        assert_eq!(pass.cleanup(0), Ok(vec![]));
        assert_eq!(taken.complete(), 4);
        assert_eq!(pass.cleanup(1), Ok(vec![3, 1]));
    }
}

#[test]
fn no_number_of_a_file_object_stands_for_any() {
    for size in sizes(2, 2) {
        let queue = Requests::new(&size).unwrap();
        let pass = queue.pass().unwrap();
        pass.submit(1, 0, Place::Back).unwrap();
        for file in [2, u32::MAX] {
            let refused = cause(pass.submit(2, file, Place::Back));
            assert_eq!(refused, SubmitError::UnknownFile);
            assert!(pass.next(Peek::File(file)).is_none());
            assert_eq!(pass.drain(Peek::File(file)), Err(UnknownFile));
            assert_eq!(pass.cleanup(file), Err(UnknownFile));
            assert_eq!(queue.file_len(file), Err(UnknownFile));
        }
        assert_eq!(pass.drain(Peek::Any), Ok(vec![1]));
    }
}

#[test]
fn a_close_hands_over_what_is_left() {
    for size in sizes(4, 2) {
        let queue = Requests::new(&size).unwrap();
        let pass = queue.pass().unwrap();
        let ids = [0, 1, 2, 3].map(|value| pass.submit(value, value % 2, Place::Front).unwrap());
        assert_eq!(pass.cancel(ids[2]), Ok(2));
        let refused = queue.close().unwrap_err();
        assert_eq!(refused.to_string(), "passes out: 1");
        let queue = refused.queue;
        assert_eq!((refused.out, queue.passes_out()), (1, 1));
        drop(pass);
        assert_eq!(queue.passes_out(), 0);
        assert_eq!(queue.close().unwrap(), [3, 1, 0]);
    }
}

#[test]
fn values_are_dropped_with_queue_and_passes() {
    for size in sizes(3, 1) {
        let drops = Cell::new(0);
        let queue = Requests::new(&size).unwrap();
        let pass = queue.pass().unwrap();
        for _ in 0..3 {
            pass.submit(Counted(&drops), 0, Place::Back).unwrap();
        }
        drop(queue);
        // A pass has a share of its queue.
        drop(pass.next(Peek::Any));
        assert_eq!(drops.get(), 1);
        drop(pass);
        assert_eq!(drops.get(), 3);
    }
}

#[test]
fn a_panic_loses_no_value_and_no_irp() {
    for size in sizes(1, 1) {
        let drops = Cell::new(0);
        let queue = Requests::new(&size).unwrap();
        let pass = queue.pass().unwrap();
        for turn in 1..=3 {
            pass.submit(Counted(&drops), 0, Place::Back).unwrap();
            let panicked = catch_unwind(AssertUnwindSafe(|| {
                let _request = pass.next(Peek::Any);
                resume_unwind(Box::new("on purpose"));
            }));
            assert!(panicked.is_err());
            assert_eq!(drops.get(), turn);
        }
        drop(pass);
        assert!(queue.close().unwrap().is_empty());
    }
}

/// A value whose drop panics.
#[derive(Debug)]
struct Panics;

impl Drop for Panics {
    fn drop(&mut self) {
        if !std::thread::panicking() {
            resume_unwind(Box::new("on purpose"));
        }
    }
}

#[test]
fn a_value_whose_drop_panics_costs_no_irp() {
    for size in sizes(1, 1) {
        let queue = Requests::new(&size).unwrap();
        let pass = queue.pass().unwrap();
        for _ in 0..3 {
            pass.submit(Panics, 0, Place::Back).unwrap();
            let request = pass.next(Peek::Any);
            assert!(catch_unwind(AssertUnwindSafe(|| drop(request))).is_err());
        }
        pass.submit(Panics, 0, Place::Back).unwrap();
        assert!(catch_unwind(AssertUnwindSafe(|| drop(queue))).is_ok());
        assert!(catch_unwind(AssertUnwindSafe(|| drop(pass))).is_err());
    }
}

#[test]
fn what_is_forgotten_is_lost_and_never_comes_twice() {
    for size in sizes(2, 1) {
        let drops = Cell::new(0);
        let queue = Requests::new(&size).unwrap();
        let (pass, other) = (queue.pass().unwrap(), queue.pass().unwrap());
        let id = pass.submit(Counted(&drops), 0, Place::Back).unwrap();
        std::mem::forget(pass.next(Peek::Any));
        assert_eq!(other.cancel(id).err(), Some(Missed::Taken));
        pass.submit(Counted(&drops), 0, Place::Back).unwrap();
        assert_eq!(
            cause(pass.submit(Counted(&drops), 0, Place::Back)),
            SubmitError::NoIrp
        );
        assert_eq!(drops.get(), 1);
        drop(pass);
        assert_eq!(other.cancel(id).err(), Some(Missed::Taken));
        // A pass that is forgotten is out for ever, and so are the queue and its values.
        std::mem::forget(other);
        let queue = queue.close().unwrap_err().queue;
        drop(queue);
        assert_eq!(drops.get(), 1);
    }
}

#[test]
fn values_of_one_thread_need_not_be_sent() {
    let value = Rc::new(Cell::new(0));
    let queue = Requests::new(&Size::new(2, 1, 1)).unwrap();
    let pass = queue.pass().unwrap();
    pass.submit(Rc::clone(&value), 0, Place::Back).unwrap();
    pass.next(Peek::Any).unwrap().complete().set(7);
    assert_eq!((value.get(), Rc::strong_count(&value)), (7, 1));
}
