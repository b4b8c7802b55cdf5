//! What an open queue reports of its list, and calls that complete all that is listed.

use csq::{
    FinalStatus, Inserted, Irp, List, NotListed, Peek, Place, Queue, Requests, Size, UnknownFile,
};

fn queues() -> impl Iterator<Item = Queue> {
    [List::Vector, List::Chains].into_iter().map(|list| {
        let size = Size {
            list,
            first_life: 5,
            ..Size::new(6, 3, 2)
        };
        Queue::new(&size).unwrap()
    })
}

fn named(irp: u32) -> Irp {
    Irp { irp, life: 5 }
}

#[test]
fn peeks_go_through_the_list() {
    for queue in queues() {
        let pass = queue.pass().unwrap();
        assert!(queue.is_empty());
        assert_eq!(queue.peek_next(None, Peek::Any), Ok(None));
        assert_eq!(queue.peek_next(Some(0), Peek::Any), Err(NotListed));
        for irp in 0..4 {
            let inserted = pass.insert(irp, irp % 2, Place::Back).unwrap();
            assert!(matches!(inserted, Inserted::Pending(context) if context == named(irp)));
        }
        assert_eq!(queue.len(), 4);
        assert_eq!(
            [0, 1, 2].map(|file| queue.file_len(file)),
            [Ok(2), Ok(2), Ok(0)]
        );
        assert_eq!(queue.file_len(3), Err(UnknownFile));
        let mut found = Vec::new();
        let mut after = None;
        while let Some(irp) = queue.peek_next(after, Peek::Any).unwrap() {
            found.push(irp);
            after = Some(irp.irp);
        }
        assert_eq!(found, [0, 1, 2, 3].map(named));
        assert_eq!(queue.peek_next(Some(0), Peek::File(1)), Ok(Some(named(1))));
        assert_eq!(queue.peek_next(Some(2), Peek::File(0)), Ok(None));
        for file in [3, u32::MAX] {
            assert_eq!(queue.peek_next(None, Peek::File(file)), Ok(None));
        }
        assert_eq!(queue.peek_next(Some(u32::MAX), Peek::Any), Err(NotListed));
        pass.remove(named(1))
            .unwrap()
            .complete(FinalStatus::SUCCESS);
        assert_eq!(queue.peek_next(Some(1), Peek::Any), Err(NotListed));
        assert_eq!(queue.len(), 3);
        assert_eq!(pass.drain(Peek::Any), Ok(3));
    }
}

#[test]
fn a_drained_file_object_is_used_again() {
    for queue in queues() {
        let pass = queue.pass().unwrap();
        for irp in 0..5 {
            let _ = pass.insert(irp, irp % 2, Place::Back).unwrap();
        }
        let mut notified = Vec::new();
        let before = |irp: Irp| {
            assert_eq!(pass.status(irp.irp), Ok((5, None)));
            notified.push(irp);
        };
        assert_eq!(pass.drain_with(Peek::File(1), before), Ok(2));
        assert_eq!(notified, [1, 3].map(named));
        assert_eq!(pass.drain(Peek::File(1)), Ok(0));
        let _ = pass.insert(5, 1, Place::Back).unwrap();
        assert_eq!(pass.cleanup(1), Ok(1));
        assert!(pass.insert(1, 1, Place::Back).is_err());
        assert_eq!(pass.drain(Peek::File(3)), Err(UnknownFile));
        assert_eq!(pass.drain(Peek::Any), Ok(3));
        assert!(queue.is_empty());
    }
}

#[test]
fn whoever_waits_is_notified_before_the_completion() {
    for queue in queues() {
        let pass = queue.pass().unwrap();
        let _ = pass.insert(0, 0, Place::Back).unwrap();
        let _ = pass.insert(1, 0, Place::Back).unwrap();
        let mut notified = Vec::new();
        let cancelled = pass.cancel_with(named(0), |irp| {
            assert_eq!(pass.status(irp.irp), Ok((5, None)));
            notified.push(irp);
        });
        assert_eq!(cancelled, Ok(true));
        let status = Some(FinalStatus::CANCELLED);
        assert_eq!(pass.status(0), Ok((5, status)));
        assert_eq!(
            pass.cancel_with(named(0), |irp| notified.push(irp)),
            Ok(false)
        );
        assert_eq!(pass.cleanup_with(0, |irp| notified.push(irp)), Ok(1));
        assert_eq!(notified, [0, 1].map(named));
    }
}

#[test]
fn an_irp_is_completed_where_its_callback_panics() {
    for queue in queues() {
        let pass = queue.pass().unwrap();
        let _ = pass.insert(0, 0, Place::Back).unwrap();
        let call = || pass.cancel_with(named(0), |_| panic!("notified"));
        let caught = std::panic::catch_unwind(std::panic::AssertUnwindSafe(call));
        assert!(caught.is_err());
        assert_eq!(pass.status(0), Ok((5, Some(FinalStatus::CANCELLED))));
        pass.give_back().unwrap();
    }
}

#[test]
fn requests_are_counted_and_drained() {
    let requests = Requests::new(&Size::new(4, 2, 1)).unwrap();
    let pass = requests.pass().unwrap();
    for (value, file) in [("first", 0), ("second", 1), ("third", 0)] {
        pass.submit(value, file, Place::Back).unwrap();
    }
    assert_eq!((requests.len(), requests.is_empty()), (3, false));
    assert_eq!([0, 1].map(|file| requests.file_len(file)), [Ok(2), Ok(1)]);
    assert_eq!(pass.drain(Peek::File(0)), Ok(vec!["first", "third"]));
    assert_eq!(pass.drain(Peek::File(2)), Err(UnknownFile));
    pass.submit("fourth", 0, Place::Back).unwrap();
    assert_eq!(pass.drain(Peek::Any), Ok(vec!["second", "fourth"]));
    assert!(requests.is_empty());
}

#[test]
fn the_library_returns_its_version() {
    let version = csq::library_version();
    assert_eq!(
        format!("{}.{}.{}", version.0, version.1, version.2),
        env!("CARGO_PKG_VERSION")
    );
}
