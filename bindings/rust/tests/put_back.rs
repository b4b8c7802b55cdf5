//! What was removed and is put back, over both lists: with a cancel before, in between and after,
//! and refused.
use csq::*;
use std::cell::Cell;

fn sizes(irps: u32, files: u32) -> [Size; 2] {
    let vector = Size::new(irps, files, 3);
    let list = List::Chains;
    [vector, Size { list, ..vector }]
}

fn pending(answer: Inserted<'_>) -> Irp {
    match answer {
        Inserted::Pending(irp) => irp,
        other => panic!("{other:?}"),
    }
}

/// When a cancel comes: never; before the worker takes the IRP; while it has it; after it has put
/// it back.
#[derive(Clone, Copy, Debug, PartialEq)]
enum Comes {
    Never,
    Before,
    Between,
    After,
}
use Comes::*;

#[test]
fn no_cancel_is_lost_whenever_it_comes() {
    for size in sizes(1, 1) {
        for comes in [Never, Before, Between, After] {
            let queue = Queue::new(&size).unwrap();
            let (worker, caller) = (queue.pass().unwrap(), queue.pass().unwrap());
            let irp = pending(worker.insert(0, 0, Place::Back).unwrap());
            let cancel_if = |now| (comes == now).then(|| caller.cancel(irp).unwrap());
            assert_ne!(cancel_if(Before), Some(false));
            if let Some(removed) = worker.remove_next(Peek::Any) {
                assert_ne!(cancel_if(Between), Some(true));
                match removed.put_back(Place::Front) {
                    Ok(Inserted::Pending(again)) => {
                        assert_eq!((again, comes == Between), (irp, false))
                    }
                    Ok(Inserted::Cancelled(token)) => {
                        assert_eq!((token.irp(), comes), (irp, Between));
                        token.complete();
                    }
                    Err(refused) => panic!("{refused}"),
                }
            }
            // It is left lying there: its cancel alone takes it.
            assert_ne!(cancel_if(After), Some(false));
            let status = match comes {
                Never => None,
                _ => Some(FinalStatus::CANCELLED),
            };
            assert_eq!(worker.status(0), Ok((0, status)));
            assert_eq!(queue.len(), u32::from(comes == Never));
            assert_eq!((worker.holding(), caller.holding()), ((0, 0), (0, 0)));
        }
    }
}

#[test]
fn it_stands_at_the_front_or_at_the_end() {
    for size in sizes(3, 2) {
        for (place, order) in [(Place::Front, [1, 0, 2]), (Place::Back, [0, 2, 1])] {
            let queue = Queue::new(&size).unwrap();
            let (pass, other) = (queue.pass().unwrap(), queue.pass().unwrap());
            for irp in 0..3 {
                pending(pass.insert(irp, irp % 2, Place::Back).unwrap());
            }
            let removed = pass.remove(Irp { irp: 1, life: 0 }).unwrap();
            assert_eq!(queue.file_len(1), Ok(0));
            let context = pending(removed.put_back(place).unwrap());
            assert_eq!((queue.file_len(1), pass.holding()), (Ok(1), (0, 0)));
            // Another pass goes on with it, in its order and by its context.
            for irp in order {
                let next = other.remove_next(Peek::Any).unwrap();
                assert_eq!(next.irp().irp, irp);
                pending(next.put_back(Place::Back).unwrap());
            }
            assert_eq!(pass.remove(context).unwrap().irp(), context);
        }
    }
}

#[test]
fn a_refusal_hands_the_token_back() {
    for size in sizes(4, 2) {
        let queue = Queue::with_file_limits(&Size { limit: 2, ..size }, &[1, 2]).unwrap();
        let pass = queue.pass().unwrap();
        let taken = |irp, file| {
            let irp = pending(pass.insert(irp, file, Place::Back).unwrap());
            pass.remove(irp).unwrap()
        };
        let (first, second) = (taken(0, 0), taken(1, 1));
        pending(pass.insert(2, 0, Place::Back).unwrap());
        let refused = first.put_back(Place::Back).unwrap_err();
        assert_eq!(refused.cause, PutBackError::FileFull);
        assert_eq!(format!("{refused:?}"), "NotPutBack { cause: FileFull, .. }");
        let text = "the file object has as many IRPs listed as it may";
        assert_eq!(refused.to_string(), text);
        pending(pass.insert(3, 1, Place::Back).unwrap());
        let held = second.put_back(Place::Front).unwrap_err();
        assert_eq!(held.cause, PutBackError::Full);
        let text = "the queue has as many IRPs listed as it may";
        assert_eq!(held.to_string(), text);
        // The pass holds both as before. What is dropped is completed, and what has a place is put
        // back.
        assert_eq!((pass.holding(), queue.len()), ((2, 0), 2));
        drop(refused);
        assert_eq!(pass.status(0), Ok((0, Some(FinalStatus::CANCELLED))));
        pass.remove_next(Peek::File(0))
            .unwrap()
            .complete(FinalStatus::SUCCESS);
        let irp = pending(held.held.put_back(Place::Front).unwrap());
        let removed = pass.remove(irp).unwrap();
        pass.close_file(1).unwrap();
        let refused = removed.put_back(Place::Back).unwrap_err();
        assert_eq!(refused.to_string(), "the file object was closed");
        refused.held.complete(FinalStatus::SUCCESS);
        assert_eq!(pass.status(1), Ok((0, Some(FinalStatus::SUCCESS))));
    }
}

/// A value whose drops are counted.
#[derive(Debug)]
struct Counted<'a>(u32, &'a Cell<u32>);

impl Drop for Counted<'_> {
    fn drop(&mut self) {
        self.1.set(self.1.get() + 1);
    }
}

#[test]
fn a_value_stays_in_and_comes_out_once() {
    for size in sizes(1, 1) {
        let drops = Cell::new(0);
        let queue = Requests::new(&size).unwrap();
        let (pass, caller) = (queue.pass().unwrap(), queue.pass().unwrap());
        let id = pass.submit(Counted(1, &drops), 0, Place::Back).unwrap();
        for _ in 0..3 {
            let mut request = pass.next(Peek::Any).unwrap();
            request.value_mut().0 += 10;
            assert_eq!(request.id(), id);
            assert!(matches!(
                request.put_back(Place::Front),
                Ok(PutBack::Pending)
            ));
            assert_eq!((queue.len(), drops.get()), (1, 0));
        }
        // Left lying there, it is its canceller's.
        assert_eq!(caller.cancel(id).unwrap().0, 31);
        assert_eq!((queue.len(), drops.get()), (0, 1));
        // One that was cancelled in between isn't listed any more, and its IRP is free.
        let id = pass.submit(Counted(2, &drops), 0, Place::Back).unwrap();
        let request = pass.next(Peek::Any).unwrap();
        assert_eq!(caller.cancel(id).err(), Some(Missed::Taken));
        match request.put_back(Place::Back) {
            Ok(PutBack::Cancelled(value)) => assert_eq!((value.0, drops.get()), (2, 1)),
            other => panic!("{other:?}"),
        }
        assert_eq!(drops.get(), 2);
        assert_eq!(caller.cancel(id).err(), Some(Missed::Completed));
        pass.submit(Counted(3, &drops), 0, Place::Back).unwrap();
        let request = pass.next(Peek::Any).unwrap();
        assert!(matches!(
            request.put_back(Place::Back),
            Ok(PutBack::Pending)
        ));
        assert_eq!(drops.get(), 2);
        drop((pass, caller));
        assert_eq!(queue.close().unwrap()[0].0, 3);
        assert_eq!(drops.get(), 3);
    }
}

#[test]
fn a_value_stands_at_the_front_or_at_the_end() {
    for size in sizes(3, 1) {
        for (place, order) in [
            (Place::Front, ["b", "a", "c"]),
            (Place::Back, ["a", "c", "b"]),
        ] {
            let queue = Requests::new(&size).unwrap();
            let (pass, other) = (queue.pass().unwrap(), queue.pass().unwrap());
            for value in ["a", "b", "c"] {
                pass.submit(value, 0, Place::Back).unwrap();
            }
            let first = pass.next(Peek::Any).unwrap();
            let second = pass.next(Peek::Any).unwrap();
            assert_eq!(first.put_back(Place::Front).unwrap(), PutBack::Pending);
            assert_eq!(second.put_back(place).unwrap(), PutBack::Pending);
            // Each is listed, so the IRP of none is free.
            let refused = pass.submit("d", 0, Place::Back).unwrap_err();
            assert_eq!(refused.cause, SubmitError::NoIrp);
            let next = || other.next(Peek::Any).map(Request::complete);
            assert_eq!(std::iter::from_fn(next).collect::<Vec<_>>(), order);
        }
    }
}

#[test]
fn a_refusal_hands_the_request_back() {
    for size in sizes(2, 1) {
        let queue = Requests::with_file_limits(&size, &[1]).unwrap();
        let pass = queue.pass().unwrap();
        let id = pass.submit("a", 0, Place::Back).unwrap();
        let request = pass.next(Peek::Any).unwrap();
        pass.submit("b", 0, Place::Back).unwrap();
        let NotPutBack { held, cause } = request.put_back(Place::Back).unwrap_err();
        assert_eq!(cause, PutBackError::FileFull);
        assert_eq!((held.id(), *held.value()), (id, "a"));
        assert_eq!(pass.cleanup(0), Ok(vec!["b"]));
        let NotPutBack { held, cause } = held.put_back(Place::Back).unwrap_err();
        assert_eq!(cause, PutBackError::FileClosed);
        // It is completed once, and its IRP is free then.
        assert_eq!(held.complete(), "a");
        assert_eq!(pass.cancel(id), Err(Missed::Completed));
        drop(pass);
        assert!(queue.close().unwrap().is_empty());
    }
}
