//! Threads that wait for requests, and what wakes them.
use csq::*;
use std::sync::atomic::{AtomicU32, AtomicU8, Ordering::SeqCst};
use std::thread;
use std::time::{Duration, Instant};

const SHORT: Duration = Duration::from_millis(20);
/// Longer than any of these tests takes.
const LONG: Duration = Duration::from_secs(60);

fn queue_of(irps: u32, files: u32, passes: u32) -> Requests<u32> {
    Requests::new(&Size::new(irps, files, passes)).unwrap()
}

#[test]
fn none_comes_in_time() {
    let queue = queue_of(2, 2, 1);
    let pass = queue.pass().unwrap();
    pass.submit(1, 1, Place::Back).unwrap();
    assert_eq!(
        pass.try_recv(Peek::File(0)).unwrap_err(),
        TryRecvError::Empty
    );
    let start = Instant::now();
    let timed_out = pass.recv_timeout(Peek::File(0), SHORT).unwrap_err();
    assert_eq!(timed_out, RecvTimeoutError::Timeout);
    assert!(start.elapsed() >= SHORT);
    // What is listed is taken, however short the time.
    let request = pass.recv_timeout(Peek::File(1), Duration::ZERO).unwrap();
    assert_eq!(request.complete(), 1);
    // One that timed out waits no longer: it is not woken in the place of another.
    pass.submit(2, 0, Place::Back).unwrap();
    assert_eq!(pass.recv(Peek::Any).unwrap().complete(), 2);
}

#[test]
#[should_panic(expected = "there is no such file object")]
fn a_wait_for_a_file_object_that_there_is_not_panics() {
    let queue = queue_of(2, 2, 1);
    let pass = queue.pass().unwrap();
    assert_eq!(
        pass.try_recv(Peek::File(2)).unwrap_err(),
        TryRecvError::Empty
    );
    drop(pass.recv(Peek::File(2)));
}

#[test]
fn each_submit_wakes_one_who_waits() {
    const WAITING: u32 = 4;
    let queue = queue_of(8, 1, WAITING + 1);
    let (taken, start) = (AtomicU32::new(0), Instant::now());
    thread::scope(|scope| {
        for _ in 0..WAITING {
            let (pass, taken) = (queue.pass().unwrap(), &taken);
            scope.spawn(move || {
                let request = pass.recv_timeout(Peek::Any, LONG).unwrap();
                taken.fetch_or(1 << request.complete(), SeqCst);
            });
        }
        // By then they wait, most of them.
        thread::sleep(SHORT);
        let pass = queue.pass().unwrap();
        for value in 0..WAITING {
            let place = [Place::Back, Place::Front][value as usize % 2];
            pass.submit(value, 0, place).unwrap();
        }
    });
    assert_eq!(taken.into_inner(), (1 << WAITING) - 1);
    // Those who time out find it too.
    assert!(start.elapsed() < LONG);
}

#[test]
fn a_time_that_no_clock_reaches_is_without_a_limit() {
    let queue = queue_of(1, 1, 2);
    let (pass, other) = (queue.pass().unwrap(), queue.pass().unwrap());
    thread::scope(|scope| {
        let waiting = scope.spawn(move || {
            let request = other.recv_timeout(Peek::Any, Duration::MAX);
            request.map(Request::complete)
        });
        thread::sleep(SHORT);
        pass.submit(3, 0, Place::Back).unwrap();
        assert_eq!(waiting.join().unwrap(), Ok(3));
    });
}

#[test]
fn a_put_back_wakes_one_who_waits() {
    let queue = queue_of(1, 1, 2);
    let (pass, other) = (queue.pass().unwrap(), queue.pass().unwrap());
    pass.submit(7, 0, Place::Back).unwrap();
    let busy = pass.next(Peek::Any).unwrap();
    let start = Instant::now();
    thread::scope(|scope| {
        let waiting =
            scope.spawn(move || other.recv_timeout(Peek::File(0), LONG).unwrap().complete());
        thread::sleep(SHORT);
        assert_eq!(busy.put_back(Place::Back).unwrap(), PutBack::Pending);
        assert_eq!(waiting.join().unwrap(), 7);
    });
    assert!(start.elapsed() < LONG);
}

#[test]
fn a_shutdown_wakes_all_once_nothing_is_listed() {
    let queue = queue_of(4, 2, 4);
    let pass = queue.pass().unwrap();
    thread::scope(|scope| {
        let waiting = [0, 1, 0].map(|file| {
            let pass = queue.pass().unwrap();
            scope.spawn(move || pass.recv(Peek::File(file)).map(Request::complete))
        });
        thread::sleep(SHORT);
        pass.submit(5, 1, Place::Back).unwrap();
        queue.shutdown();
        let ends = waiting.map(|thread| thread.join().unwrap());
        assert_eq!(ends, [Err(RecvError), Ok(5), Err(RecvError)]);
    });
    let refused = pass.submit(6, 0, Place::Back).unwrap_err();
    assert_eq!(
        (refused.cause, refused.into_value()),
        (SubmitError::ShutDown, 6)
    );
    assert_eq!(
        pass.try_recv(Peek::Any).unwrap_err(),
        TryRecvError::ShutDown
    );
    assert_eq!(
        pass.recv_timeout(Peek::Any, LONG).unwrap_err(),
        RecvTimeoutError::ShutDown
    );
}

/// Passes outlive their queue, so a thread may wait while it is dropped. It is woken, and passes go
/// on but for waiting.
#[test]
fn a_drop_of_the_queue_wakes_all_once_nothing_is_listed() {
    let queue = queue_of(4, 2, 4);
    let (pass, start) = (queue.pass().unwrap(), Instant::now());
    let waiting = [0, 1, 0].map(|file| {
        let pass = queue.pass().unwrap();
        thread::spawn(move || {
            let taken = pass.recv_timeout(Peek::File(file), LONG);
            taken.map(Request::complete)
        })
    });
    thread::sleep(SHORT);
    pass.submit(5, 1, Place::Back).unwrap();
    drop(queue);
    let ends = waiting.map(|thread| thread.join().unwrap());
    let ended = Err(RecvTimeoutError::ShutDown);
    assert_eq!(ends, [ended, Ok(5), ended]);
    assert!(start.elapsed() < LONG);
    let id = pass.submit(6, 0, Place::Back).unwrap();
    pass.submit(7, 1, Place::Back).unwrap();
    assert_eq!(pass.recv(Peek::File(1)).unwrap().complete(), 7);
    assert_eq!(pass.cancel(id), Ok(6));
    assert_eq!(
        pass.try_recv(Peek::Any).unwrap_err(),
        TryRecvError::ShutDown
    );
    assert_eq!(pass.recv(Peek::Any).unwrap_err(), RecvError);
    pass.shutdown();
    let refused = pass.submit(8, 0, Place::Back).unwrap_err();
    assert_eq!(refused.cause, SubmitError::ShutDown);
}

/// A close that is refused drops nothing: those who wait go on.
#[test]
fn a_refused_close_wakes_nobody() {
    let queue = queue_of(1, 1, 2);
    let (pass, other) = (queue.pass().unwrap(), queue.pass().unwrap());
    let waiting = thread::spawn(move || other.recv(Peek::Any).map(Request::complete));
    thread::sleep(SHORT);
    let refused = queue.close().unwrap_err();
    assert_eq!(refused.out, 2);
    assert_eq!(pass.try_recv(Peek::Any).unwrap_err(), TryRecvError::Empty);
    pass.submit(3, 0, Place::Back).unwrap();
    assert_eq!(waiting.join().unwrap(), Ok(3));
}

#[test]
fn what_is_under_way_at_a_shutdown_is_ended_as_ever() {
    let queue = queue_of(4, 1, 1);
    let pass = queue.pass().unwrap();
    let ids = [0, 1, 2, 3].map(|value| pass.submit(value, 0, Place::Back).unwrap());
    let (first, second) = (pass.next(Peek::Any).unwrap(), pass.next(Peek::Any).unwrap());
    pass.shutdown();
    pass.shutdown();
    // That no IRP is free is tested after it.
    let refused = pass.submit(4, 0, Place::Back).unwrap_err();
    assert_eq!(refused.cause, SubmitError::ShutDown);
    assert_eq!(first.complete(), 0);
    assert_eq!(second.put_back(Place::Back).unwrap(), PutBack::Pending);
    assert_eq!(pass.cancel(ids[2]), Ok(2));
    let rest: Vec<u32> = pass.iter(Peek::Any).map(Request::complete).collect();
    assert_eq!(rest, [3, 1]);
    drop(pass);
    assert!(queue.close().unwrap().is_empty());
}

/// Workers that wait for all kinds of requests, some of which they put back: each value comes out
/// once, and nobody waits for what is listed.
#[test]
fn nobody_sleeps_while_a_request_for_it_is_listed() {
    const FILES: u32 = 2;
    const VALUES: u32 = 4_000;
    let peeks = [
        Peek::Any,
        Peek::File(0),
        Peek::File(1),
        Peek::File(1),
        Peek::Any,
    ];
    let queue = queue_of(16, FILES, 6);
    let out: Vec<AtomicU8> = (0..VALUES).map(|_| AtomicU8::new(0)).collect();
    let served = AtomicU32::new(0);
    thread::scope(|scope| {
        for peek in peeks {
            let (pass, out, served) = (queue.pass().unwrap(), &out, &served);
            scope.spawn(move || {
                for request in pass.iter(peek) {
                    let back = *request.value() % 7 == 0
                        && out[*request.value() as usize].fetch_or(2, SeqCst) == 0;
                    if back {
                        assert_eq!(request.put_back(Place::Front).unwrap(), PutBack::Pending);
                    } else {
                        assert_eq!(out[request.complete() as usize].fetch_or(1, SeqCst) & 1, 0);
                        served.fetch_add(1, SeqCst);
                    }
                }
            });
        }
        let pass = queue.pass().unwrap();
        for value in 0..VALUES {
            // One at a time now and then, so that the workers sleep.
            while value % 64 < 4 && served.load(SeqCst) < value {
                thread::yield_now();
            }
            while pass.submit(value, value % 3 % FILES, Place::Back).is_err() {
                thread::yield_now();
            }
        }
        while served.load(SeqCst) < VALUES {
            thread::yield_now();
        }
        queue.shutdown();
    });
    assert!(out.iter().all(|out| out.load(SeqCst) & 1 == 1));
}
