//! The largest queue, over each kind of list.
use csq::*;

const IRPS: u32 = Size::MOST_IRPS;
const FILES: u32 = Size::MOST_FILES;

fn largest(list: List) -> Size {
    Size {
        list,
        ..Size::new(IRPS, FILES, Size::MOST_PASSES)
    }
}

/// Of the vector, whose removals by file object take the longer the more are listed, a few file
/// objects alone.
fn files(list: List) -> impl Iterator<Item = u32> {
    let step = if list == List::Vector { 1024 } else { 1 };
    (0..FILES).rev().step_by(step)
}

#[test]
fn the_largest_queue_is_filled_and_emptied() {
    for list in [List::Vector, List::Chains, List::Auto] {
        let queue = Queue::new(&largest(list)).unwrap();
        let pass = queue.pass().unwrap();
        for irp in 0..IRPS {
            let inserted = pass.insert(irp, irp % FILES, Place::Back).unwrap();
            assert!(matches!(inserted, Inserted::Pending(context) if context.irp == irp));
        }
        let beyond = pass.insert(IRPS, 0, Place::Back).unwrap_err();
        assert_eq!(beyond, InsertError::UnknownIrp);
        for file in files(list) {
            for irp in (file..IRPS).step_by(FILES as usize) {
                let removed = pass.remove_next(Peek::File(file)).unwrap();
                assert_eq!(removed.irp().irp, irp);
            }
            assert!(pass.remove_next(Peek::File(file)).is_none());
        }
        while pass.remove_next(Peek::Any).is_some() {}
        for irp in [0, IRPS / 2, IRPS - 1] {
            let (life, status) = pass.status(irp).unwrap();
            assert_eq!((life, status), (0, Some(FinalStatus::CANCELLED)));
        }
        drop(pass);
        assert_eq!(queue.close().unwrap().listed().count(), 0);
    }
}

#[test]
fn all_passes_are_handed_out() {
    let queue = Queue::new(&Size::new(1, 1, Size::MOST_PASSES)).unwrap();
    let passes: Vec<_> = (0..Size::MOST_PASSES).map(|_| queue.pass()).collect();
    assert!(passes.iter().all(Result::is_ok));
    assert_eq!(queue.pass().unwrap_err(), PassError::NoPass);
}

#[test]
fn all_requests_of_the_largest_queue_carry_their_values() {
    let queue = Requests::new(&largest(List::Auto)).unwrap();
    let pass = queue.pass().unwrap();
    for life in 0..2 {
        for value in 0..IRPS {
            pass.submit((life, value), value % FILES, Place::Back)
                .unwrap();
        }
        let refused = pass.submit((life, IRPS), 0, Place::Back).unwrap_err();
        assert_eq!(refused.cause, SubmitError::NoIrp);
        for value in 0..IRPS {
            let request = pass.next(Peek::File(value % FILES)).unwrap();
            assert_eq!(request.complete(), (life, value));
        }
    }
}
