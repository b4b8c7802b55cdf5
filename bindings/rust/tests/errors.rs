//! Errors that are handed on by `?`.
use csq::*;
use std::cell::Cell;
use std::error::Error;

type Whatever = Box<dyn Error + Send + Sync>;

fn give_back(pass: Pass) -> Result<(), Whatever> {
    Ok(pass.give_back()?)
}

#[test]
fn a_pass_that_is_not_given_back_is_dropped_by_a_question_mark() {
    let queue = Queue::new(&Size::new(1, 1, 1)).unwrap();
    let pass = queue.pass().unwrap();
    let _ = pass.insert(0, 0, Place::Back).unwrap();
    std::mem::forget(pass.remove_next(Peek::Any));
    let error = give_back(pass).unwrap_err();
    assert_eq!(error.to_string(), "IRPs held: 1, owed: 0");
    // The error has the pass, until it is dropped.
    assert_eq!(queue.passes_out(), 1);
    let pass = error.downcast::<Holding>().unwrap().into_pass();
    assert_eq!(pass.holding(), (1, 0));
    drop(pass);
    assert_eq!(queue.passes_out(), 0);
}

fn submit<T: Send + 'static>(pass: &RequestPass<T>, value: T) -> Result<(), Whatever> {
    pass.submit(value, 9, Place::Back)?;
    Ok(())
}

fn submit_alone<T>(pass: &RequestPass<T>, value: T) -> Result<RequestId, SubmitError> {
    Ok(pass.submit(value, 9, Place::Back)?)
}

#[test]
fn a_refused_submit_goes_through_a_question_mark() {
    let text = "there is no such file object";
    let queue = Requests::new(&Size::new(1, 1, 1)).unwrap();
    let pass = queue.pass().unwrap();
    let refused = submit(&pass, 1).unwrap_err();
    assert_eq!(refused.to_string(), text);
    assert_eq!(refused.downcast::<Refused<i32>>().unwrap().into_value(), 1);
    // A value that threads can't share is part of such an error too.
    let queue = Requests::new(&Size::new(1, 1, 1)).unwrap();
    let pass = queue.pass().unwrap();
    let refused = submit(&pass, Cell::new(1)).unwrap_err();
    assert_eq!(refused.to_string(), text);
    let refused = refused.downcast::<Refused<Cell<i32>>>().unwrap();
    assert_eq!(refused.into_value(), Cell::new(1));
    let refused = submit_alone(&pass, Cell::new(1)).unwrap_err();
    assert_eq!(refused, SubmitError::UnknownFile);
}

fn put_back(request: OwnedRequest<i32>) -> Result<PutBack<i32>, Whatever> {
    Ok(request.put_back(Place::Back).map_err(PutBackError::from)?)
}

#[test]
fn a_refused_put_back_goes_through_a_question_mark() {
    let queue = Requests::new(&Size::new(1, 1, 1)).unwrap();
    let pass = queue.owned_pass().unwrap();
    pass.submit(1, 0, Place::Back).unwrap();
    let request = pass.try_recv(Peek::Any).unwrap();
    pass.cleanup(0).unwrap();
    let refused = put_back(request).unwrap_err();
    assert_eq!(refused.to_string(), "the file object was closed");
    // It was dropped, so its IRP is free.
    drop(pass);
    assert!(queue.close().unwrap().is_empty());
}
