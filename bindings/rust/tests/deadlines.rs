//! Deadlines and room in threads, whose waits end.
use csq::*;
use std::sync::atomic::{AtomicU32, Ordering::SeqCst};
use std::thread;
use std::time::{Duration, Instant};

const LONG: Duration = Duration::from_secs(600);

/// Waits for this, which another thread brings about.
fn until(what: impl Fn() -> bool) {
    let start = Instant::now();
    while !what() {
        assert!(start.elapsed() < Duration::from_secs(60), "it doesn't come");
        thread::yield_now();
    }
}

/// What `recv_due` hands over until it returns none.
fn clock(pass: &OwnedPass<u32>) -> thread::JoinHandle<Vec<u32>> {
    let pass = pass.clone();
    thread::spawn(move || std::iter::from_fn(|| pass.recv_due()).flatten().collect())
}

#[test]
fn a_clock_looks_again_if_an_earlier_deadline_comes() {
    let queue = Requests::new(&Size::new(4, 1, 1)).unwrap();
    let pass = queue.owned_pass().unwrap();
    let far = pass
        .submit_until(1, 0, Place::Back, Instant::now() + LONG)
        .unwrap();
    let clock = clock(&pass);
    thread::sleep(Duration::from_millis(20));
    let soon = Instant::now() + Duration::from_millis(2);
    pass.submit_until(2, 0, Place::Back, soon).unwrap();
    until(|| queue.len() == 1);
    // It goes on after the shutdown, for as long as there is a deadline.
    pass.shutdown();
    thread::sleep(Duration::from_millis(20));
    assert!(!clock.is_finished());
    assert_eq!(pass.cancel(far), Ok(1));
    until(|| clock.is_finished());
    assert_eq!(clock.join().unwrap(), [2]);
}

#[test]
fn a_shutdown_ends_all_clocks() {
    let queue = Requests::new(&Size::new(1, 1, 1)).unwrap();
    let pass = queue.owned_pass().unwrap();
    let clocks = [clock(&pass), clock(&pass)];
    thread::sleep(Duration::from_millis(20));
    pass.shutdown();
    until(|| clocks.iter().all(thread::JoinHandle::is_finished));
}

#[test]
fn a_submit_waits_without_a_limit_for_a_time_that_no_clock_reaches() {
    let queue = Requests::new(&Size::new(1, 1, 1)).unwrap();
    let pass = queue.owned_pass().unwrap();
    pass.submit(1, 0, Place::Back).unwrap();
    let waits = thread::spawn({
        let pass = pass.clone();
        move || pass.submit_timeout(2, 0, Place::Back, Duration::MAX)
    });
    thread::sleep(Duration::from_millis(20));
    assert_eq!(pass.recv(Peek::Any).unwrap().complete(), 1);
    assert!(waits.join().unwrap().is_ok());
}

#[test]
fn a_submit_waits_for_room_and_ends_with_the_queue() {
    let queue = Requests::new(&Size::new(1, 1, 2)).unwrap();
    let pass = queue.owned_pass().unwrap();
    pass.submit(1, 0, Place::Back).unwrap();
    let waits = |value| {
        let pass = pass.clone();
        thread::spawn(move || pass.submit_timeout(value, 0, Place::Back, LONG))
    };
    let first = waits(2);
    thread::sleep(Duration::from_millis(20));
    assert!(!first.is_finished());
    assert_eq!(pass.recv(Peek::Any).unwrap().complete(), 1);
    assert!(first.join().unwrap().is_ok());
    let second = waits(3);
    thread::sleep(Duration::from_millis(20));
    drop(queue);
    let refused = second.join().unwrap().unwrap_err();
    assert_eq!(
        (refused.cause, refused.into_value()),
        (SubmitError::NoIrp, 3)
    );
}

#[test]
fn what_was_forgotten_ends_with_its_queue() {
    for forgotten in 1..3 {
        let queue = Requests::new(&Size::new(3, 1, 1)).unwrap();
        let pass = queue.pass().unwrap();
        for value in 0..3 {
            pass.submit(value, 0, Place::Back).unwrap();
        }
        for _ in 0..forgotten {
            std::mem::forget(pass.next(Peek::Any));
        }
        drop(pass);
        let left: Vec<u32> = (forgotten..3).collect();
        assert_eq!(queue.close().unwrap(), left);
    }
}

/// Submitters wait for room, workers take batches and put back, some requests are due or cancelled:
/// each value comes out once.
#[test]
fn each_value_comes_out_once() {
    const EACH: u32 = 4_000;
    let queue = Requests::with_file_limits(&Size::new(8, 2, 1), &[3, 8]).unwrap();
    let pass = queue.owned_pass().unwrap();
    let outs: Vec<AtomicU32> = (0..3 * EACH).map(|_| AtomicU32::new(0)).collect();
    let out = |value: u32| assert_eq!(outs[value as usize].fetch_add(1, SeqCst), 0);
    thread::scope(|scope| {
        for worker in 0..2 {
            let (pass, out) = (pass.clone(), &out);
            scope.spawn(move || {
                while let Ok(batch) = pass.recv_many(Peek::Any, 1 + worker) {
                    OwnedRequest::complete_all(batch).into_iter().for_each(out);
                    if let Ok(request) = pass.try_recv(Peek::File(0)) {
                        match request.put_back(Place::Front) {
                            Ok(PutBack::Pending) => (),
                            Ok(PutBack::Cancelled(value)) => out(value),
                            Err(refused) => out(refused.held.complete()),
                        }
                    }
                }
            });
        }
        let (clock, out) = (pass.clone(), &out);
        scope.spawn(move || {
            std::iter::from_fn(|| clock.recv_due())
                .flatten()
                .for_each(out);
        });
        let submitters = [0, 1, 2].map(|by| {
            let pass = pass.clone();
            scope.spawn(move || {
                for value in by * EACH..(by + 1) * EACH {
                    let file = value % 2;
                    let id = match value % 3 {
                        0 => pass.submit_until(value, file, Place::Back, Instant::now()),
                        _ => pass.submit_timeout(value, file, Place::Back, LONG),
                    };
                    match id {
                        Ok(id) if value % 5 == 0 => drop(pass.cancel(id).map(out)),
                        Ok(_) => (),
                        Err(refused) => {
                            assert!(refused.cause != SubmitError::ShutDown);
                            out(refused.into_value());
                        }
                    }
                }
            })
        });
        for thread in submitters {
            thread.join().unwrap();
        }
        pass.shutdown();
    });
    drop(pass);
    queue.close().unwrap().into_iter().for_each(out);
    assert!(outs.iter().all(|count| count.load(SeqCst) == 1));
}
