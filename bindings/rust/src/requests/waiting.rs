//! Those who wait at a queue of requests, and are woken.

use crate::ledger::Ended;
use crate::words::{Irp, Peek};
use std::collections::BTreeMap;
use std::sync::Arc;
use std::task::{Wake, Waker};
use std::thread::{self, Thread};

/// Names one who waits to the list, beside what it waits for, until it is woken or gives up.
#[derive(Clone, Copy, Debug, PartialEq, Eq, PartialOrd, Ord)]
pub(crate) struct Ticket(u64);

impl Ticket {
    const FIRST: Ticket = Ticket(0);
    const LAST: Ticket = Ticket(u64::MAX);
}

/// Those who wait for events of one kind, for each event the first of them first. No call but
/// `take_all` looks through all of them, and none but `count` and `take_those` through all that
/// wait for one event.
///
/// One that waits has found nothing, and is taken out when it is woken. Its ticket is its place: if
/// it looks again and finds nothing, it waits where it did. Each event wakes one of
/// those who wait for just it. So as long as any waits for an event, at least as many were woken
/// and have not looked yet as there is for them. One that is woken and makes no use of it has to
/// pass it on.
pub(crate) struct Waiters<K> {
    wakers: BTreeMap<(K, Ticket), Waker>,
    tickets: u64,
}

impl<K> Default for Waiters<K> {
    fn default() -> Waiters<K> {
        Waiters {
            wakers: BTreeMap::new(),
            tickets: 0,
        }
    }
}

impl<K: Ord + Copy> Waiters<K> {
    /// Adds one who waits for this: in the place of the ticket that it had, or as the last.
    pub(crate) fn add(&mut self, event: K, had: Option<Ticket>, waker: Waker) -> Ticket {
        let ticket = had.unwrap_or_else(|| {
            self.tickets += 1;
            Ticket(self.tickets)
        });
        self.wakers.insert((event, ticket), waker);
        ticket
    }

    /// Takes one out that waits for this and wasn't woken. The caller drops the waker once the lock
    /// is free.
    pub(crate) fn remove(&mut self, event: K, ticket: Ticket) -> Option<Waker> {
        self.wakers.remove(&(event, ticket))
    }

    fn those(&self, event: K) -> impl Iterator<Item = (K, Ticket)> + '_ {
        let those = (event, Ticket::FIRST)..=(event, Ticket::LAST);
        self.wakers.range(those).map(|(key, _)| *key)
    }

    /// How many wait for just this.
    pub(crate) fn count(&self, event: K) -> usize {
        self.those(event).count()
    }

    /// Takes the first out that waits for just this.
    pub(crate) fn take_first(&mut self, event: K) -> Option<Waker> {
        let first = self.those(event).next()?;
        self.wakers.remove(&first)
    }

    // All that wait for just this.
    fn take_those(&mut self, event: K) -> impl Iterator<Item = Waker> + '_ {
        std::iter::from_fn(move || self.take_first(event))
    }

    fn take_all(&mut self) -> impl Iterator<Item = Waker> {
        std::mem::take(&mut self.wakers).into_values()
    }

    #[inline]
    fn is_empty(&self) -> bool {
        self.wakers.is_empty()
    }
}

/// What a peek waits for: a file object, or none for any.
pub(crate) fn file_of(peek: Peek) -> Option<u32> {
    match peek {
        Peek::Any => None,
        Peek::File(file) => Some(file),
    }
}

/// Those who wait at a queue of requests. The queue's lock guards it.
#[derive(Default)]
pub(crate) struct Waiting {
    /// For a request that is listed for this file object, or for any.
    pub(crate) listed: Waiters<Option<u32>>,
    /// For room in the list of this file object, or for a further request at all.
    pub(crate) room: Waiters<Option<u32>>,
    /// Until none of this file object is under way, or none at all; they look again at what is
    /// listed.
    pub(crate) quiet: Waiters<Option<u32>>,
    /// Until the next request is due, or another one is to be due next.
    pub(crate) clock: Waiters<()>,
    /// For a cancel of this request, or the end of its time.
    pub(crate) cancel: Waiters<Irp>,
    /// Whether nobody waits for a request, for room or for a time any more, since the queue was
    /// shut down or dropped.
    pub(crate) ended: bool,
    /// Those who are woken once the lock is free.
    pub(crate) woken: Vec<Waker>,
}

impl Waiting {
    /// A request of this file object is listed, for the first time or again.
    #[inline]
    pub(crate) fn was_listed(&mut self, file: u32) {
        if !self.listed.is_empty() {
            self.woken.extend(self.listed.take_first(None));
            self.woken.extend(self.listed.take_first(Some(file)));
        }
        if !self.quiet.is_empty() {
            self.wake_drains(file);
        }
    }

    #[cold]
    fn wake_drains(&mut self, file: u32) {
        self.woken.extend(self.quiet.take_those(Some(file)));
        self.woken.extend(self.quiet.take_those(None));
    }

    /// A request of this file object isn't listed any more.
    #[inline]
    pub(crate) fn was_unlisted(&mut self, file: u32) {
        if !self.room.is_empty() {
            self.woken.extend(self.room.take_first(Some(file)));
            self.woken.extend(self.room.take_first(None));
        }
    }

    /// A request has ended.
    #[inline]
    pub(crate) fn ended(&mut self, ended: Ended) {
        if !self.room.is_empty() {
            self.woken.extend(self.room.take_first(None));
        }
        if !self.quiet.is_empty() {
            self.wake_quiet(ended);
        }
        if self.ended && !self.clock.is_empty() {
            // It may have been the last one with a time.
            self.wake_clocks();
        }
    }

    #[cold]
    fn wake_quiet(&mut self, ended: Ended) {
        if ended.file_is_quiet {
            self.woken.extend(self.quiet.take_those(Some(ended.file)));
        }
        if ended.all_are_quiet {
            self.woken.extend(self.quiet.take_those(None));
        }
    }

    /// Wakes the next that waits for this room.
    pub(crate) fn pass_room_on(&mut self, room: Option<u32>) {
        self.woken.extend(self.room.take_first(room));
    }

    /// Wakes the next that waits for a request of this file object, or for any.
    #[cfg(feature = "async")]
    pub(crate) fn pass_request_on(&mut self, file: Option<u32>) {
        self.woken.extend(self.listed.take_first(file));
    }

    /// Wakes those who wait until a request is due.
    pub(crate) fn wake_clocks(&mut self) {
        self.woken.extend(self.clock.take_all());
    }

    /// Wakes those who wait for a cancel of this request.
    pub(crate) fn wake_watchers(&mut self, irp: Irp) {
        self.woken.extend(self.cancel.take_those(irp));
    }

    /// Wakes each submit that waits for room and may be for this file object.
    pub(crate) fn wake_for_room(&mut self, file: u32) {
        self.woken.extend(self.room.take_those(Some(file)));
        self.woken.extend(self.room.take_those(None));
    }

    /// Ends all waits for a request, for room and for a time.
    pub(crate) fn end(&mut self) {
        self.ended = true;
        self.woken.extend(self.listed.take_all());
        self.woken.extend(self.room.take_all());
        self.wake_clocks();
    }
}

struct Unpark(Thread);

impl Wake for Unpark {
    fn wake(self: Arc<Self>) {
        self.0.unpark();
    }
}

/// What ends a `thread::park` of this thread.
pub(crate) fn thread_waker() -> Waker {
    Waker::from(Arc::new(Unpark(thread::current())))
}

#[cfg(test)]
mod tests {
    use super::*;
    use std::sync::atomic::{AtomicU32, Ordering::SeqCst};

    #[derive(Default)]
    struct Count(AtomicU32);

    impl Wake for Count {
        fn wake(self: Arc<Self>) {
            self.0.fetch_add(1, SeqCst);
        }
    }

    type Counted<const N: usize> = [(Ticket, Arc<Count>); N];

    // Those who wait for these, each with a count of its wakes.
    fn add<K: Ord + Copy, const N: usize>(waiters: &mut Waiters<K>, events: [K; N]) -> Counted<N> {
        events.map(|event| {
            let count = Arc::<Count>::default();
            (waiters.add(event, None, Arc::clone(&count).into()), count)
        })
    }

    fn wakes<const N: usize>(waiting: &mut Waiting, waiters: &Counted<N>) -> [u32; N] {
        waiting.woken.drain(..).for_each(Waker::wake);
        std::array::from_fn(|at| waiters[at].1 .0.load(SeqCst))
    }

    #[test]
    fn a_request_wakes_one_of_each_kind_the_first_first() {
        let mut waiting = Waiting::default();
        let events = [Some(1), None, Some(0), None, Some(0)];
        let waiters = add(&mut waiting.listed, events);
        for (file, expected) in [
            (0, [0, 1, 1, 0, 0]),
            (2, [0, 1, 1, 1, 0]),
            (0, [0, 1, 1, 1, 1]),
            (0, [0, 1, 1, 1, 1]),
            (1, [1, 1, 1, 1, 1]),
        ] {
            waiting.was_listed(file);
            assert_eq!(wakes(&mut waiting, &waiters), expected);
        }
    }

    #[test]
    fn one_that_gives_up_is_not_woken() {
        let mut waiting = Waiting::default();
        let waiters = add(&mut waiting.listed, [None, None]);
        assert!(waiting.listed.remove(None, waiters[0].0).is_some());
        assert!(waiting.listed.remove(None, waiters[0].0).is_none());
        waiting.was_listed(0);
        assert!(waiting.listed.remove(None, waiters[1].0).is_none());
        assert_eq!(wakes(&mut waiting, &waiters), [0, 1]);
    }

    #[test]
    fn an_end_wakes_those_who_wait_for_requests_room_and_times() {
        let mut waiting = Waiting::default();
        let irp = Irp { irp: 0, life: 0 };
        let ends = (
            add(&mut waiting.listed, [Some(7), None]),
            add(&mut waiting.room, [None]),
            add(&mut waiting.clock, [()]),
        );
        let stays = (
            add(&mut waiting.quiet, [None]),
            add(&mut waiting.cancel, [irp]),
        );
        waiting.end();
        assert!(waiting.ended);
        assert_eq!(wakes(&mut waiting, &ends.0), [1, 1]);
        assert_eq!(wakes(&mut waiting, &ends.1), [1]);
        assert_eq!(wakes(&mut waiting, &ends.2), [1]);
        assert_eq!(wakes(&mut waiting, &stays.0), [0]);
        assert_eq!(wakes(&mut waiting, &stays.1), [0]);
        waiting.wake_watchers(irp);
        assert_eq!(wakes(&mut waiting, &stays.1), [1]);
    }

    #[test]
    fn an_end_of_a_request_wakes_for_room_and_quiet() {
        let mut waiting = Waiting::default();
        let rooms = add(&mut waiting.room, [None, Some(1)]);
        let quiets = add(&mut waiting.quiet, [Some(1), Some(1), None]);
        let mut ended = Ended {
            file: 1,
            file_is_quiet: false,
            all_are_quiet: false,
        };
        waiting.ended(ended);
        assert_eq!(wakes(&mut waiting, &rooms), [1, 0]);
        assert_eq!(wakes(&mut waiting, &quiets), [0, 0, 0]);
        ended.file_is_quiet = true;
        waiting.ended(ended);
        assert_eq!(wakes(&mut waiting, &quiets), [1, 1, 0]);
        waiting.was_unlisted(1);
        assert_eq!(wakes(&mut waiting, &rooms), [1, 1]);
        // A drain looks again at what is listed for it.
        waiting.was_listed(0);
        assert_eq!(wakes(&mut waiting, &quiets), [1, 1, 1]);
    }
}
