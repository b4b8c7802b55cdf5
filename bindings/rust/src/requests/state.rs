//! What the lock of a queue of requests guards.

use super::waiting::Waiting;
use super::PutBack;
use crate::errors::{NewError, PassError, PutBackError, SubmitError, UnknownFile};
use crate::ledger::{Cancelled, Counts, Due, Ledger, NotListedAgain, Why};
use crate::words::{FinalStatus, Irp, Peek, Place, Size};

/// A request that was taken, and the file object that it was submitted for.
#[derive(Clone, Copy)]
pub(super) struct Held {
    pub(super) irp: Irp,
    file: u32,
}

/// A value and where it is to go.
pub(super) struct Submission<T> {
    pub(super) value: T,
    pub(super) file: u32,
    pub(super) place: Place,
    /// When it is due, by the queue's clock.
    pub(super) due: Option<u64>,
}

impl<T> Submission<T> {
    /// This value, for this file object, with no deadline.
    pub(super) fn new(value: T, file: u32, place: Place) -> Submission<T> {
        Submission {
            value,
            file,
            place,
            due: None,
        }
    }

    /// The same, due at this time of the queue's clock.
    pub(super) fn due_at(self, due: u64) -> Submission<T> {
        Submission {
            due: Some(due),
            ..self
        }
    }
}

/// The requests of a queue, their values, and those who wait. No code of the caller runs while it
/// is locked.
pub(super) struct State<T> {
    ledger: Ledger,
    // By IRP: the value of what is listed, in the life in which it is.
    slots: Box<[Slot<T>]>,
    pub(super) waiting: Waiting,
    passes_out: u32,
    passes: u32,
}

struct Slot<T> {
    life: u32,
    value: Option<T>,
}

impl<T> State<T> {
    pub(super) fn new(size: &Size, ledger: Result<Ledger, NewError>) -> Result<State<T>, NewError> {
        let ledger = ledger?;
        let empty = |_| Slot {
            life: 0,
            value: None,
        };
        Ok(State {
            ledger,
            slots: (0..size.irps).map(empty).collect(),
            waiting: Waiting::default(),
            passes_out: 0,
            passes: size.passes,
        })
    }

    /// Counts one more pass.
    pub(super) fn take_pass(&mut self) -> Result<(), PassError> {
        if self.passes_out == self.passes {
            return Err(PassError::NoPass);
        }
        self.passes_out += 1;
        Ok(())
    }

    pub(super) fn give_pass_back(&mut self) {
        self.passes_out -= 1;
    }

    pub(super) fn passes_out(&self) -> u32 {
        self.passes_out
    }

    /// How many requests there are. None if there is no such file object.
    pub(super) fn counts(&self, peek: Peek) -> Option<Counts> {
        self.ledger.len(peek)
    }

    /// Lists a value, and takes those out to be woken whom it concerns.
    #[inline]
    pub(super) fn submit(
        &mut self,
        it: Submission<T>,
    ) -> Result<Irp, (Submission<T>, SubmitError)> {
        let irp = match self.ledger.begin(it.file, it.place, it.due) {
            Ok(irp) => irp,
            Err(cause) => return Err((it, cause)),
        };
        self.slots[irp.irp as usize] = Slot {
            life: irp.life,
            value: Some(it.value),
        };
        self.waiting.was_listed(it.file);
        if it.due.is_some() {
            self.waiting.wake_clocks();
        }
        Ok(irp)
    }

    fn take_value(&mut self, irp: Irp) -> T {
        let value = self.slots[irp.irp as usize].value.take();
        value.expect("the value that its submit put there")
    }

    /// The first match that is listed.
    #[inline]
    pub(super) fn take(&mut self, peek: Peek) -> Option<(Held, T)> {
        let (irp, file) = self.ledger.take(peek)?;
        self.waiting.was_unlisted(file);
        Some((Held { irp, file }, self.take_value(irp)))
    }

    /// Completes a request that was taken, and makes its number free.
    #[inline]
    pub(super) fn complete(&mut self, held: Held, status: FinalStatus) {
        let ended = self.ledger.finish(held.irp, status);
        self.waiting.ended(ended.expect("a request that is taken"));
    }

    /// Lists a request again that was taken, with its value. A refusal hands it back.
    pub(super) fn put_back(
        &mut self,
        held: Held,
        value: T,
        place: Place,
    ) -> Result<PutBack<T>, (PutBackError, T)> {
        match self.ledger.put_back(held.irp, place) {
            Ok(()) => {
                self.slots[held.irp.irp as usize].value = Some(value);
                self.waiting.was_listed(held.file);
                Ok(PutBack::Pending)
            }
            Err(NotListedAgain::Cancelled) => {
                self.complete(held, FinalStatus::CANCELLED);
                Ok(PutBack::Cancelled(value))
            }
            Err(NotListedAgain::Refused(cause)) => Err((cause, value)),
        }
    }

    // The value of a request that is ending, which ends here.
    fn end(&mut self, irp: Irp) -> T {
        let ended = self.ledger.end(irp);
        self.waiting.was_unlisted(ended.file);
        self.waiting.ended(ended);
        self.take_value(irp)
    }

    /// Cancels a request by its name: its value, or whether somebody has it.
    pub(super) fn cancel(&mut self, irp: Irp) -> Result<T, IsTaken> {
        match self.ledger.cancel(irp) {
            Cancelled::Ending => Ok(self.end(irp)),
            Cancelled::Taken => {
                self.waiting.wake_watchers(irp);
                Err(IsTaken(true))
            }
            Cancelled::Stale => Err(IsTaken(false)),
        }
    }

    /// Ends the first match that is listed.
    pub(super) fn end_next(&mut self, peek: Peek, why: Why) -> Option<T> {
        let irp = self.ledger.drain_next(peek, why)?;
        Some(self.end(irp))
    }

    /// Ends what is due at this time and listed, and wakes those who wait for a cancel of what is
    /// taken.
    pub(super) fn end_due(&mut self, now: u64) -> Vec<T> {
        let mut values = Vec::new();
        while let Some(due) = self.ledger.expire(now) {
            match due {
                Due::Ending(irp) => values.push(self.end(irp)),
                Due::Taken(irp) => self.waiting.wake_watchers(irp),
            }
        }
        values
    }

    /// When the next one is due.
    pub(super) fn next_due(&self) -> Option<u64> {
        self.ledger.next_due()
    }

    /// What named a request that is taken.
    pub(super) fn named(&self, irp: Irp) -> Option<Why> {
        self.ledger.named(irp)
    }

    /// Closes a file object for good.
    pub(super) fn close_file(&mut self, file: u32) -> Result<(), UnknownFile> {
        self.ledger.close_file(file)?;
        self.waiting.wake_for_room(file);
        Ok(())
    }

    /// Refuses each further submit, and takes all out to be woken.
    pub(super) fn shut_down(&mut self) {
        self.ledger.close();
        self.waiting.end();
    }
}

/// Whether a request that a cancel didn't get is taken, or isn't under way.
pub(super) struct IsTaken(pub(super) bool);

/// What is listed is dropped with its values, and what was forgotten ends.
impl<T> Drop for State<T> {
    fn drop(&mut self) {
        let slots = &mut self.slots;
        self.ledger
            .drain(Why::Close, |irp| slots[irp.irp as usize].life = irp.life);
        let under_way = self
            .ledger
            .len(Peek::Any)
            .map_or(0, |counts| counts.under_way);
        if under_way > 0 {
            for (irp, slot) in (0..).zip(self.slots.iter()) {
                self.ledger.end_forgotten(Irp {
                    irp,
                    life: slot.life,
                });
            }
        }
    }
}
