//! Passes that threads share, and requests that borrow nothing.
use csq::*;
use std::collections::HashMap;
use std::sync::atomic::{AtomicU8, Ordering::SeqCst};
use std::sync::mpsc;
use std::thread;
use std::time::{Duration, Instant};

fn goes_anywhere<T: Send + 'static>() {}
fn is_shared<T: Sync + 'static>() {}

fn queue_of<T>(irps: u32, passes: u32) -> Requests<T> {
    Requests::new(&Size::new(irps, 2, passes)).unwrap()
}

#[test]
fn what_is_owned_crosses_threads_where_its_value_does() {
    goes_anywhere::<OwnedPass<String>>();
    is_shared::<OwnedPass<String>>();
    goes_anywhere::<OwnedRequest<String>>();
    // A value that threads can't share, but that may be sent.
    goes_anywhere::<OwnedPass<std::cell::Cell<u8>>>();
    is_shared::<OwnedPass<std::cell::Cell<u8>>>();
    goes_anywhere::<OwnedRequest<std::cell::Cell<u8>>>();
    goes_anywhere::<Requests<String>>();
    is_shared::<Requests<String>>();
    goes_anywhere::<RequestPass<String>>();
    goes_anywhere::<NotPutBack<OwnedRequest<String>>>();
}

/// What a server keeps of each request that it serves.
struct Job {
    request: OwnedRequest<String>,
    steps: u32,
}

#[test]
fn a_request_is_kept_and_completed_by_another_thread() {
    let queue = queue_of(4, 1);
    let pass = queue.owned_pass().unwrap();
    let mut jobs = HashMap::new();
    for name in ["a", "b", "c"] {
        let id = pass.submit(name.to_string(), 0, Place::Back).unwrap();
        let request = pass.try_recv(Peek::Any).unwrap();
        assert_eq!(request.id(), id);
        jobs.insert(id, Job { request, steps: 2 });
    }
    let (to_pool, pool) = mpsc::channel::<Job>();
    let worker = thread::spawn(move || {
        let mut served: Vec<String> = pool
            .into_iter()
            .map(|Job { mut request, steps }| {
                request.value_mut().push_str(&steps.to_string());
                request.complete()
            })
            .collect();
        served.sort();
        served
    });
    for (_, job) in jobs.drain() {
        to_pool.send(job).unwrap();
    }
    drop((to_pool, pass));
    assert_eq!(worker.join().unwrap(), ["a2", "b2", "c2"]);
    assert_eq!(queue.passes_out(), 0);
    assert!(queue.close().unwrap().is_empty());
}

#[test]
fn an_owned_request_keeps_its_pass() {
    let queue = queue_of(1, 1);
    let pass = queue.owned_pass().unwrap();
    pass.clone().submit(1, 1, Place::Back).unwrap();
    let request = pass.recv(Peek::File(1)).unwrap();
    drop(pass);
    assert_eq!(queue.passes_out(), 1);
    assert_eq!(queue.owned_pass().unwrap_err(), PassError::NoPass);
    // Dropped, it is completed, and the pass given back.
    drop(request);
    assert_eq!(queue.passes_out(), 0);
    let pass = queue.owned_pass().unwrap();
    pass.submit(2, 0, Place::Back).unwrap();
    assert_eq!(pass.recv(Peek::Any).unwrap().complete(), 2);
}

/// A value that reports, as it is dropped, why its request can't be cancelled.
struct Looks(Option<(OwnedPass<Looks>, RequestId, mpsc::Sender<Option<Missed>>)>);

impl Drop for Looks {
    fn drop(&mut self) {
        if let Some((pass, id, found)) = self.0.take() {
            found.send(pass.cancel(id).err()).unwrap();
        }
    }
}

#[test]
fn a_request_is_completed_before_its_value_is_dropped() {
    let queue = queue_of(1, 1);
    let pass = queue.owned_pass().unwrap();
    let (to_test, found) = mpsc::channel();
    let id = pass.submit(Looks(None), 0, Place::Back);
    let mut request = pass.try_recv(Peek::Any).unwrap();
    request.value_mut().0 = Some((pass, id.ok().unwrap(), to_test));
    drop(request);
    assert_eq!(found.recv(), Ok(Some(Missed::Completed)));
    assert_eq!(queue.passes_out(), 0);
}

#[test]
fn an_owned_request_stands_where_it_was_put_back() {
    for (place, order) in [(Place::Front, ["a", "b"]), (Place::Back, ["b", "a"])] {
        let queue = queue_of(2, 1);
        let pass = queue.owned_pass().unwrap();
        pass.submit("b", 0, Place::Back).unwrap();
        pass.submit("a", 0, Place::Front).unwrap();
        let request = pass.try_recv(Peek::Any).unwrap();
        assert_eq!(request.put_back(place).unwrap(), PutBack::Pending);
        let rest = [(); 2].map(|()| pass.try_recv(Peek::Any).unwrap().complete());
        assert_eq!(rest, order);
    }
}

#[test]
fn an_owned_request_is_cancelled_put_back_and_refused_as_any() {
    let queue = queue_of(2, 2);
    let (pass, caller) = (queue.owned_pass().unwrap(), queue.pass().unwrap());
    let first = caller.submit("first", 0, Place::Back).unwrap();
    let second = caller.submit("second", 1, Place::Back).unwrap();
    let request = pass.recv(Peek::Any).unwrap();
    assert_eq!(format!("{request:?}"), "OwnedRequest(\"first\")");
    assert!(!request.is_cancelled());
    assert_eq!(caller.cancel(first), Err(Missed::Taken));
    assert!(request.is_cancelled());
    assert_eq!(
        request.put_back(Place::Front).unwrap(),
        PutBack::Cancelled("first")
    );
    let request = pass.recv(Peek::Any).unwrap();
    assert_eq!(request.put_back(Place::Back).unwrap(), PutBack::Pending);
    assert_eq!(pass.cancel(second), Ok("second"));
    assert_eq!(pass.cancel(second), Err(Missed::Completed));
    caller.submit("third", 1, Place::Back).unwrap();
    let request = pass.recv(Peek::Any).unwrap();
    assert_eq!(pass.cleanup(1), Ok(vec![]));
    let refused = request.put_back(Place::Back).unwrap_err();
    assert_eq!(refused.cause, PutBackError::FileClosed);
    assert_eq!(refused.held.value(), &"third");
    assert_eq!(refused.held.complete(), "third");
    pass.submit("fourth", 0, Place::Back).unwrap();
    assert_eq!(pass.drain(Peek::File(0)), Ok(vec!["fourth"]));
    assert_eq!(pass.drain(Peek::File(2)), Err(UnknownFile));
    let timed_out = pass.recv_timeout(Peek::Any, Duration::from_millis(1));
    assert_eq!(timed_out.unwrap_err(), RecvTimeoutError::Timeout);
    pass.shutdown();
    assert_eq!(pass.recv(Peek::Any).unwrap_err(), RecvError);
    assert_eq!(
        pass.try_recv(Peek::Any).unwrap_err(),
        TryRecvError::ShutDown
    );
}

#[test]
fn threads_wait_through_one_pass() {
    let queue = queue_of::<u32>(4, 1);
    let pass = queue.owned_pass().unwrap();
    thread::scope(|scope| {
        let waiting = [0, 1, 2].map(|way| {
            let pass = pass.clone();
            scope.spawn(move || match way {
                0 => pass.recv(Peek::Any).ok(),
                1 => pass.recv_timeout(Peek::Any, Duration::from_secs(60)).ok(),
                _ => pass.iter(Peek::Any).next(),
            })
        });
        thread::sleep(Duration::from_millis(20));
        for value in [1, 10, 100] {
            pass.submit(value, 0, Place::Back).unwrap();
        }
        let taken = waiting.map(|thread| thread.join().unwrap().map(OwnedRequest::complete));
        assert_eq!(taken.into_iter().flatten().sum::<u32>(), 111);
    });
}

/// More threads than a queue has passes, which share one; requests are completed by whatever thread
/// gets them, and cancelled by all.
#[test]
fn threads_share_one_pass() {
    const THREADS: u32 = 8;
    const VALUES: u32 = 1_500;
    let queue = queue_of::<u32>(16, 1);
    let pass = queue.owned_pass().unwrap();
    let out: Vec<AtomicU8> = (0..THREADS * VALUES).map(|_| AtomicU8::new(0)).collect();
    let count = |value: u32| assert_eq!(out[value as usize].fetch_add(1, SeqCst), 0);
    let (to_others, from_others) = mpsc::sync_channel::<OwnedRequest<u32>>(4);
    thread::scope(|scope| {
        let count = &count;
        for thread in 0..THREADS {
            let (pass, to_others) = (pass.clone(), to_others.clone());
            scope.spawn(move || {
                for value in thread * VALUES..(thread + 1) * VALUES {
                    let id = loop {
                        match pass.submit(value, value % 2, Place::Back) {
                            Ok(id) => break id,
                            Err(_) => pass
                                .try_recv(Peek::Any)
                                .into_iter()
                                .for_each(|request| count(request.complete())),
                        }
                    };
                    match value % 4 {
                        0 => pass.cancel(id).into_iter().for_each(count),
                        1 => pass
                            .try_recv(Peek::Any)
                            .into_iter()
                            .for_each(|request| to_others.send(request).unwrap()),
                        2 => pass
                            .try_recv(Peek::File(0))
                            .into_iter()
                            .for_each(|request| count(request.complete())),
                        _ => pass
                            .drain(Peek::File(1))
                            .unwrap()
                            .into_iter()
                            .for_each(count),
                    }
                }
            });
        }
        drop(to_others);
        for request in from_others {
            count(request.complete());
        }
    });
    pass.drain(Peek::Any).unwrap().into_iter().for_each(count);
    assert!(out.iter().all(|out| out.load(SeqCst) == 1));
    drop(pass);
    assert!(queue.close().unwrap().is_empty());
}

#[test]
fn what_is_submitted_through_an_owned_pass_stands_where_it_is_to() {
    let queue = queue_of(4, 1);
    let pass = queue.owned_pass().unwrap();
    pass.submit(1, 0, Place::Back).unwrap();
    let long = Duration::from_secs(60);
    pass.submit_timeout(2, 0, Place::Front, long).unwrap();
    let due = Instant::now() + long;
    pass.submit_until(3, 0, Place::Front, due).unwrap();
    pass.submit(4, 0, Place::Back).unwrap();
    assert_eq!(pass.drain(Peek::File(0)), Ok(vec![3, 2, 1, 4]));
}

#[test]
fn requests_of_several_queues_are_completed_each_in_its_own() {
    let queues = [queue_of(3, 1), queue_of(3, 1)];
    let passes = [0, 1].map(|at: usize| queues[at].owned_pass().unwrap());
    let requests = [0, 1, 1, 0].map(|at: usize| {
        passes[at].submit(at, 0, Place::Back).unwrap();
        passes[at].recv(Peek::Any).unwrap()
    });
    let ids: Vec<_> = requests.iter().map(OwnedRequest::id).collect();
    let values = OwnedRequest::complete_all(Vec::from(requests));
    assert_eq!(values, [0, 1, 1, 0]);
    for (at, id) in values.into_iter().zip(ids) {
        assert_eq!(passes[at].cancel(id), Err(Missed::Completed));
    }
}
