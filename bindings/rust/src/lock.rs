//! How a thread waits for a queue's lock.

use std::hint::spin_loop;
use std::sync::{Mutex, MutexGuard, PoisonError, TryLockError};

/// How often a thread tries the lock again before it sleeps, and for how many spin-loop hints it
/// pauses before the first and, at most, before the last of these tries: as the proved queue waits
/// (`docs/DECISIONS.md`).
const TRIES: u32 = 11;
const FIRST_PAUSE: u32 = 128;
const LONGEST_PAUSE: u32 = 1024;

/// Locks, whether or not a thread has panicked with the lock: no code of the caller runs while it
/// is locked, so what it guards is whole.
#[inline]
pub(crate) fn lock<L>(mutex: &Mutex<L>) -> MutexGuard<'_, L> {
    match mutex.try_lock() {
        Ok(locked) => locked,
        Err(TryLockError::Poisoned(poisoned)) => poisoned.into_inner(),
        Err(TryLockError::WouldBlock) => wait_for(mutex),
    }
}

#[cold]
fn wait_for<L>(mutex: &Mutex<L>) -> MutexGuard<'_, L> {
    let mut pause = FIRST_PAUSE;
    for _ in 0..TRIES {
        (0..pause).for_each(|_| spin_loop());
        match mutex.try_lock() {
            Ok(locked) => return locked,
            Err(TryLockError::Poisoned(poisoned)) => return poisoned.into_inner(),
            Err(TryLockError::WouldBlock) => pause = LONGEST_PAUSE.min(2 * pause),
        }
    }
    mutex.lock().unwrap_or_else(PoisonError::into_inner)
}
