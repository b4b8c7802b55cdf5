//! What `include/csq.h` and `include/csq_ledger.h` declare, written again by hand.

use std::os::raw::c_void;
use std::ptr::null_mut;

pub(crate) const OK: u32 = 0;
pub(crate) const UNKNOWN_IRP: u32 = 1;
pub(crate) const UNKNOWN_FILE: u32 = 2;
pub(crate) const NOT_HOME: u32 = 3;
pub(crate) const FILE_CLOSED: u32 = 4;
pub(crate) const FULL: u32 = 5;
pub(crate) const FILE_FULL: u32 = 6;
pub(crate) const CANCELLED: u32 = 7;
pub(crate) const NONE: u32 = 8;
pub(crate) const STALE: u32 = 9;
pub(crate) const NOT_COMPLETED: u32 = 10;
pub(crate) const LIVES_SPENT: u32 = 11;
pub(crate) const HOLDING: u32 = 16;
pub(crate) const PASSES_OUT: u32 = 17;
pub(crate) const NO_PASS: u32 = 18;
pub(crate) const BAD_SIZE: u32 = 19;
pub(crate) const NO_MEMORY: u32 = 20;
pub(crate) const EMPTY_HANDLE: u32 = 21;
pub(crate) const NOT_LISTED: u32 = 23;
pub(crate) const CLOSED: u32 = 24;

/// In the place of a file object or of a listed IRP: any.
pub(crate) const ANY: u32 = u32::MAX;

#[repr(C)]
pub(crate) struct RawQueue {
    pub(crate) at: *mut c_void,
    pub(crate) number: u64,
}

#[repr(C)]
pub(crate) struct RawPass {
    pub(crate) at: *mut c_void,
    queue: u64,
}

#[repr(C)]
pub(crate) struct RawLedger {
    pub(crate) at: *mut c_void,
}

impl RawQueue {
    /// An empty handle.
    pub(crate) const EMPTY: RawQueue = RawQueue {
        at: null_mut(),
        number: 0,
    };
}

impl RawPass {
    /// An empty handle.
    pub(crate) const EMPTY: RawPass = RawPass {
        at: null_mut(),
        queue: 0,
    };
}

#[repr(C)]
pub(crate) struct RawSize {
    pub(crate) irps: u32,
    pub(crate) files: u32,
    pub(crate) limit: u32,
    pub(crate) passes: u32,
    pub(crate) first_life: u32,
    pub(crate) list: u32,
}

#[repr(C)]
#[derive(Default)]
pub(crate) struct RawLeft {
    pub(crate) life: u32,
    pub(crate) cancelled: u32,
    pub(crate) completed: u32,
    pub(crate) status: u32,
}

#[repr(C)]
#[derive(Clone, Copy, Default)]
pub(crate) struct RawIrp {
    pub(crate) irp: u32,
    pub(crate) life: u32,
}

/// In the place of a time: none.
pub(crate) const NEVER: u64 = u64::MAX;

/// Why a request ends without a worker, or isn't waited for (`enum csq_why`).
pub(crate) mod why {
    pub(crate) const CANCEL: u32 = 1;
    pub(crate) const DRAIN: u32 = 2;
    pub(crate) const CLEANUP: u32 = 3;
    pub(crate) const FREE: u32 = 4;
    pub(crate) const DUE: u32 = 5;
}

/// Where a request is (`enum csq_stage`).
pub(crate) mod stage {
    pub(crate) const ENDING: u32 = 3;
}

#[repr(C)]
#[derive(Clone, Copy, Default)]
pub(crate) struct RawLook {
    pub(crate) stage: u32,
    pub(crate) file: u32,
    pub(crate) why: u32,
}

#[repr(C)]
#[derive(Clone, Copy, Default)]
pub(crate) struct RawEnded {
    pub(crate) file: u32,
    pub(crate) file_is_quiet: u32,
    pub(crate) all_are_quiet: u32,
}

extern "C" {
    pub(crate) fn csq_ledger_new(ledger: *mut RawLedger, size: *const RawSize) -> u32;
    pub(crate) fn csq_ledger_new_with_file_limits(
        ledger: *mut RawLedger,
        size: *const RawSize,
        limits: *const u32,
        count: usize,
    ) -> u32;
    pub(crate) fn csq_ledger_free(ledger: *mut RawLedger) -> u32;
    pub(crate) fn csq_ledger_close(ledger: *mut RawLedger) -> u32;
    pub(crate) fn csq_ledger_close_file(ledger: *mut RawLedger, file: u32) -> u32;
    pub(crate) fn csq_ledger_begin(
        ledger: *mut RawLedger,
        file: u32,
        front: u32,
        due: u64,
        name: *mut RawIrp,
    ) -> u32;
    pub(crate) fn csq_ledger_take(
        ledger: *mut RawLedger,
        file: u32,
        name: *mut RawIrp,
        of_file: *mut u32,
    ) -> u32;
    pub(crate) fn csq_ledger_put_back(ledger: *mut RawLedger, name: RawIrp, front: u32) -> u32;
    pub(crate) fn csq_ledger_finish(
        ledger: *mut RawLedger,
        name: RawIrp,
        status: u32,
        ended: *mut RawEnded,
    ) -> u32;
    pub(crate) fn csq_ledger_cancel(ledger: *mut RawLedger, name: RawIrp, why: u32) -> u32;
    pub(crate) fn csq_ledger_drain_next(
        ledger: *mut RawLedger,
        file: u32,
        why: u32,
        name: *mut RawIrp,
        of_file: *mut u32,
    ) -> u32;
    pub(crate) fn csq_ledger_expire(
        ledger: *mut RawLedger,
        now: u64,
        name: *mut RawIrp,
        stage: *mut u32,
    ) -> u32;
    pub(crate) fn csq_ledger_next_due(ledger: *const RawLedger, due: *mut u64) -> u32;
    pub(crate) fn csq_ledger_end(ledger: *mut RawLedger, name: RawIrp, ended: *mut RawEnded)
        -> u32;
    pub(crate) fn csq_ledger_look(
        ledger: *const RawLedger,
        name: RawIrp,
        look: *mut RawLook,
    ) -> u32;
    pub(crate) fn csq_ledger_len(
        ledger: *const RawLedger,
        file: u32,
        listed: *mut u32,
        under_way: *mut u32,
    ) -> u32;
    pub(crate) fn csq_new_queue(queue: *mut RawQueue, size: *const RawSize) -> u32;
    pub(crate) fn csq_new_queue_with_file_limits(
        queue: *mut RawQueue,
        size: *const RawSize,
        file_limits: *const u32,
        count: usize,
    ) -> u32;
    pub(crate) fn csq_free_queue(queue: *mut RawQueue) -> u32;
    pub(crate) fn csq_count_passes_out(queue: *const RawQueue, out: *mut u32) -> u32;
    pub(crate) fn csq_close(queue: *mut RawQueue) -> u32;
    pub(crate) fn csq_read_listed(queue: *const RawQueue, after: u32, irp: *mut u32) -> u32;
    pub(crate) fn csq_read_left(queue: *const RawQueue, irp: u32, left: *mut RawLeft) -> u32;
    pub(crate) fn csq_version() -> u32;
    pub(crate) fn csq_take_pass(queue: *mut RawQueue, pass: *mut RawPass) -> u32;
    pub(crate) fn csq_give_back(queue: *mut RawQueue, pass: *mut RawPass) -> u32;
    pub(crate) fn csq_count_held(pass: *const RawPass, held: *mut u32, owed: *mut u32) -> u32;
    pub(crate) fn csq_insert(
        queue: *mut RawQueue,
        pass: *mut RawPass,
        irp: u32,
        file: u32,
        front: u32,
        context: *mut RawIrp,
    ) -> u32;
    pub(crate) fn csq_remove_next(
        queue: *mut RawQueue,
        pass: *mut RawPass,
        file: u32,
        irp: *mut RawIrp,
    ) -> u32;
    pub(crate) fn csq_remove(queue: *mut RawQueue, pass: *mut RawPass, irp: RawIrp) -> u32;
    pub(crate) fn csq_put_back(
        queue: *mut RawQueue,
        pass: *mut RawPass,
        irp: RawIrp,
        front: u32,
        context: *mut RawIrp,
    ) -> u32;
    pub(crate) fn csq_cancel_routine(queue: *mut RawQueue, pass: *mut RawPass, irp: RawIrp) -> u32;
    pub(crate) fn csq_cancel_owed(queue: *mut RawQueue, pass: *mut RawPass, irp: RawIrp) -> u32;
    pub(crate) fn csq_close_file(queue: *mut RawQueue, pass: *mut RawPass, file: u32) -> u32;
    pub(crate) fn csq_reuse(
        queue: *mut RawQueue,
        pass: *mut RawPass,
        irp: RawIrp,
        life: *mut u32,
    ) -> u32;
    pub(crate) fn csq_peek_next(
        queue: *const RawQueue,
        after: u32,
        file: u32,
        irp: *mut RawIrp,
    ) -> u32;
    pub(crate) fn csq_len(queue: *const RawQueue, len: *mut u32) -> u32;
    pub(crate) fn csq_file_len(queue: *const RawQueue, file: u32, len: *mut u32) -> u32;
    pub(crate) fn csq_mark_cancel(pass: *mut RawPass, irp: RawIrp, found: *mut u32) -> u32;
    pub(crate) fn csq_complete(pass: *mut RawPass, irp: RawIrp, status: u32) -> u32;
    pub(crate) fn csq_complete_cancelled(pass: *mut RawPass, irp: RawIrp) -> u32;
    pub(crate) fn csq_read_cancel(
        pass: *mut RawPass,
        irp: u32,
        life: *mut u32,
        cancelled: *mut u32,
    ) -> u32;
    pub(crate) fn csq_read_status(
        pass: *mut RawPass,
        irp: u32,
        life: *mut u32,
        status: *mut u32,
    ) -> u32;
}

#[cfg(test)]
mod tests {
    use super::*;

    // A pass has a share of its queue in this crate, so no call meets this code but here.
    const OTHER_QUEUE: u32 = 26;

    // A C header, which stands in the repository and not in the package: `tests/documents.rs`,
    // which isn't in the package either, asks for it.
    fn header_named(name: &str) -> Option<String> {
        let headers = concat!(env!("CARGO_MANIFEST_DIR"), "/../../include/");
        std::fs::read_to_string(headers.to_owned() + name).ok()
    }

    fn header() -> Option<String> {
        header_named("csq.h")
    }

    // The number that the header gives a code.
    fn in_header(header: &str, name: &str) -> Option<u32> {
        let line = header
            .lines()
            .map(str::trim)
            .find_map(|line| line.strip_prefix(name)?.strip_prefix(" = "))?;
        let number = line.split(',').next()?.split(' ').next()?;
        number.parse().ok()
    }

    #[test]
    fn the_whys_and_stages_are_those_of_the_ledgers_header() {
        let numbers = [
            ("CSQ_WHY_CANCEL", why::CANCEL),
            ("CSQ_WHY_DRAIN", why::DRAIN),
            ("CSQ_WHY_CLEANUP", why::CLEANUP),
            ("CSQ_WHY_FREE", why::FREE),
            ("CSQ_WHY_DUE", why::DUE),
            ("CSQ_STAGE_ENDING", stage::ENDING),
        ];
        if let Some(header) = header_named("csq_ledger.h") {
            for (name, number) in numbers {
                assert_eq!(in_header(&header, name), Some(number), "{name}");
            }
        }
    }

    #[test]
    fn the_codes_are_those_of_the_header() {
        let codes = [
            ("CSQ_OK", OK),
            ("CSQ_UNKNOWN_IRP", UNKNOWN_IRP),
            ("CSQ_UNKNOWN_FILE", UNKNOWN_FILE),
            ("CSQ_NOT_HOME", NOT_HOME),
            ("CSQ_FILE_CLOSED", FILE_CLOSED),
            ("CSQ_FULL", FULL),
            ("CSQ_FILE_FULL", FILE_FULL),
            ("CSQ_CANCELLED", CANCELLED),
            ("CSQ_NONE", NONE),
            ("CSQ_STALE", STALE),
            ("CSQ_NOT_COMPLETED", NOT_COMPLETED),
            ("CSQ_LIVES_SPENT", LIVES_SPENT),
            ("CSQ_HOLDING", HOLDING),
            ("CSQ_PASSES_OUT", PASSES_OUT),
            ("CSQ_NO_PASS", NO_PASS),
            ("CSQ_BAD_SIZE", BAD_SIZE),
            ("CSQ_NO_MEMORY", NO_MEMORY),
            ("CSQ_EMPTY_HANDLE", EMPTY_HANDLE),
            ("CSQ_NOT_LISTED", NOT_LISTED),
            ("CSQ_CLOSED", CLOSED),
            ("CSQ_OTHER_QUEUE", OTHER_QUEUE),
        ];
        if let Some(header) = header() {
            for (name, code) in codes {
                assert_eq!(in_header(&header, name), Some(code), "{name}");
            }
        }
    }

    #[test]
    fn the_kinds_of_list_are_those_of_the_header() {
        let vector = crate::Size::AUTO_VECTOR_IRPS;
        let kinds = format!(
            "enum {{ CSQ_VECTOR = 0, CSQ_CHAINS = 1, CSQ_AUTO = 2, \
             CSQ_AUTO_VECTOR_IRPS = {vector} }};"
        );
        if let Some(header) = header() {
            assert!(header.contains(&kinds), "{kinds}");
        }
        let size = crate::Size::new(1, 1, 1);
        assert_eq!(size.raw().list, 2);
        for (list, number) in [(crate::List::Vector, 0), (crate::List::Chains, 1)] {
            assert_eq!(crate::Size { list, ..size }.raw().list, number);
        }
    }

    #[test]
    fn the_most_of_each_are_those_of_the_header() {
        type Size = crate::Size;
        let most = [
            ("IRPS", Size::MOST_IRPS),
            ("FILES", Size::MOST_FILES),
            ("PASSES", Size::MOST_PASSES),
        ];
        if let Some(header) = header() {
            for (of, number) in most {
                let text = format!("CSQ_MOST_{of} = {number},");
                assert!(header.contains(&text), "{text}");
            }
        }
    }

    fn queue_and_pass() -> (RawQueue, RawPass) {
        let (mut queue, mut pass) = (RawQueue::EMPTY, RawPass::EMPTY);
        // SAFETY: the handles are empty, and the pointers valid.
        unsafe {
            let size = crate::Size::new(1, 1, 1).raw();
            assert_eq!(csq_new_queue(&mut queue, &size), OK);
            queue.number = queue.at as u64;
            assert_eq!(csq_take_pass(&mut queue, &mut pass), OK);
        }
        (queue, pass)
    }

    #[test]
    #[cfg_attr(miri, ignore)]
    fn a_pass_of_another_queue_is_refused() {
        let (mut queue, mut pass) = queue_and_pass();
        let (mut other, mut its_pass) = queue_and_pass();
        let mut irp = RawIrp::default();
        // SAFETY: the handles are filled, and this thread alone has them.
        unsafe {
            let code = csq_insert(&mut other, &mut pass, 9, 9, 0, &mut irp);
            assert_eq!(code, OTHER_QUEUE);
            assert_eq!(csq_give_back(&mut queue, &mut its_pass), OTHER_QUEUE);
            assert_eq!(csq_give_back(&mut queue, &mut pass), OK);
            assert_eq!(csq_give_back(&mut other, &mut its_pass), OK);
            assert_eq!(csq_free_queue(&mut queue), OK);
            assert_eq!(csq_free_queue(&mut other), OK);
            // An empty handle is freed, as null is by `free`.
            assert_eq!(csq_free_queue(&mut other), OK);
        }
    }

    #[test]
    fn the_structs_are_as_large_as_in_c() {
        assert_eq!(std::mem::size_of::<RawIrp>(), 8);
        assert_eq!(std::mem::size_of::<RawSize>(), 24);
        assert_eq!(std::mem::size_of::<RawLeft>(), 16);
        assert_eq!(std::mem::size_of::<RawQueue>(), 16);
        assert_eq!(std::mem::size_of::<RawPass>(), 16);
    }
}
