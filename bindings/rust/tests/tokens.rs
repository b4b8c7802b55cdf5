//! Tokens that are dropped, forgotten, or let go in a panic.
use csq::*;
use std::panic::{catch_unwind, AssertUnwindSafe};

fn queue_of(irps: u32) -> (Queue, Pass) {
    let queue = Queue::new(&Size::new(irps, 1, 2)).unwrap();
    let pass = queue.pass().unwrap();
    for irp in 0..irps {
        assert!(matches!(
            pass.insert(irp, 0, Place::Back),
            Ok(Inserted::Pending(_))
        ));
    }
    (queue, pass)
}

fn is_completed_as_cancelled(pass: &Pass, irp: u32) -> bool {
    pass.status(irp) == Ok((0, Some(FinalStatus::CANCELLED)))
}

#[test]
fn a_dropped_token_completes_its_irp_as_cancelled() {
    let (_queue, pass) = queue_of(3);
    drop(pass.remove_next(Peek::Any));
    assert!(is_completed_as_cancelled(&pass, 0));
    let claim = pass.mark_cancel(Irp { irp: 1, life: 0 }).unwrap().unwrap();
    drop(claim);
    assert!(is_completed_as_cancelled(&pass, 1));
    let claim = pass.mark_cancel(Irp { irp: 2, life: 0 }).unwrap().unwrap();
    drop(claim.run());
    assert!(is_completed_as_cancelled(&pass, 2));
    assert_eq!(pass.holding(), (0, 0));
    pass.give_back().unwrap();
}

#[test]
fn a_panic_leaves_no_irp_behind() {
    let (queue, pass) = queue_of(2);
    let panicked = catch_unwind(AssertUnwindSafe(|| {
        let _removed = pass.remove_next(Peek::Any);
        let _claim = pass.mark_cancel(Irp { irp: 1, life: 0 });
        std::panic::resume_unwind(Box::new("on purpose"));
    }));
    assert!(panicked.is_err());
    assert!(is_completed_as_cancelled(&pass, 0) && is_completed_as_cancelled(&pass, 1));
    pass.give_back().unwrap();
    assert_eq!(queue.close().unwrap().listed().count(), 0);
}

#[test]
fn a_dropped_pass_completes_forgotten_irps_above_the_limit() {
    let size = Size {
        limit: 1,
        ..Size::new(3, 1, 1)
    };
    let queue = Queue::new(&size).unwrap();
    let pass = queue.pass().unwrap();
    assert!(matches!(
        pass.insert(2, 0, Place::Back),
        Ok(Inserted::Pending(_))
    ));
    std::mem::forget(pass.remove_next(Peek::Any));
    drop(pass);
    assert_eq!(queue.passes_out(), 0);
}

#[test]
fn a_pass_with_forgotten_tokens_is_not_given_back() {
    let (queue, pass) = queue_of(3);
    std::mem::forget(pass.remove_next(Peek::Any));
    std::mem::forget(pass.mark_cancel(Irp { irp: 2, life: 0 }));
    let refused = pass.give_back().unwrap_err();
    assert_eq!((refused.held, refused.owed), (1, 1));
    assert_eq!(refused.to_string(), "IRPs held: 1, owed: 1");
    // It is as it was. Where it is dropped, all that it holds and owes is completed.
    let pass = refused.into_pass();
    assert_eq!(pass.holding(), (1, 1));
    drop(pass);
    let closed = queue.close().unwrap();
    assert_eq!(closed.listed().collect::<Vec<_>>(), [1]);
    for irp in [0, 2] {
        let status = closed.irp(irp).unwrap().status;
        assert_eq!(status, Some(FinalStatus::CANCELLED));
    }
}
