//! What only a look from inside of a queue of requests shows.

use super::*;
use crate::ledger::Ledger;
use crate::words::Size;

fn queue() -> Shared<u32> {
    let size = Size::new(1, 1, 1);
    Shared::new(State::new(&size, Ledger::new(&size)).unwrap())
}

// What is listed between its last look and the end of its time woke nobody else.
#[test]
#[cfg_attr(miri, ignore)]
fn who_runs_out_of_time_looks_once_more() {
    let (shared, mut ticket) = (queue(), None);
    let polled = shared.poll_take(Peek::Any, &mut ticket, thread_waker());
    assert!(polled.is_pending());
    assert!(shared.submit(Submission::new(7, 0, Place::Back)).is_ok());
    match shared.take_at_last(Peek::Any, ticket) {
        Ok((held, value)) => {
            assert_eq!(value, 7);
            shared.complete(held, FinalStatus::SUCCESS);
        }
        Err(cause) => panic!("{cause:?}"),
    }
}

// Later deadlines don't wake its thread.
#[test]
#[cfg_attr(miri, ignore)]
fn who_has_what_was_due_waits_no_more() {
    let shared = queue();
    let due = shared.due_at(Instant::now());
    let submission = Submission::new(7, 0, Place::Back).due_at(due);
    assert!(shared.submit(submission).is_ok());
    assert_eq!(shared.wait_due(), Some(vec![7]));
    assert_eq!(shared.with(|state| state.waiting.clock.count(())), 0);
}
