//! The calls of a pass that its tokens are made of. What a token names its pass holds or owes, so
//! none of these is refused but for what the list says.

use super::Pass;
use crate::errors::{CancelError, InsertError, PutBackError};
use crate::raw::{self, RawIrp};
use crate::token::{Cancelled, Inserted};
use crate::words::{FinalStatus, Irp, Place};

impl Pass {
    /// An IRP that an insert or a put-back accepted with this code.
    fn inserted(&self, code: u32, context: RawIrp) -> Inserted<'_> {
        let irp = Irp::of(context);
        match code {
            raw::OK => Inserted::Pending(irp),
            _ => Inserted::Cancelled(Cancelled { pass: self, irp }),
        }
    }

    /// Lists an IRP, which may be found cancelled.
    #[inline]
    pub(super) fn list(
        &self,
        irp: u32,
        file: u32,
        place: Place,
    ) -> Result<Inserted<'_>, InsertError> {
        let (mut context, front) = (RawIrp::default(), place.raw());
        // SAFETY: the queue is locked, and this thread alone has the pass.
        let code = self.locked(|queue, pass| unsafe {
            raw::csq_insert(queue, pass, irp, file, front, &mut context)
        });
        match code {
            raw::OK | raw::CANCELLED => Ok(self.inserted(code, context)),
            code => Err(InsertError::of(code)),
        }
    }

    /// Whether the routine was there. Then the pass owes the IRP.
    #[inline]
    pub(super) fn mark(&self, irp: Irp) -> Result<bool, CancelError> {
        let mut found = 0;
        // SAFETY: this thread alone has the pass.
        match unsafe { raw::csq_mark_cancel(self.handle.get(), irp.raw(), &mut found) } {
            raw::OK => Ok(found == 1),
            raw::UNKNOWN_IRP => Err(CancelError::UnknownIrp),
            raw::STALE => Err(CancelError::Stale),
            code => unreachable!("csq_mark_cancel returned {code}"),
        }
    }

    pub(crate) fn put_back(&self, irp: Irp, place: Place) -> Result<Inserted<'_>, PutBackError> {
        let (mut context, front) = (RawIrp::default(), place.raw());
        // SAFETY: the queue is locked, and this thread alone has the pass.
        let code = self.locked(|queue, pass| unsafe {
            raw::csq_put_back(queue, pass, irp.raw(), front, &mut context)
        });
        match code {
            raw::OK | raw::CANCELLED => Ok(self.inserted(code, context)),
            code => Err(PutBackError::of(code)),
        }
    }

    #[inline]
    pub(crate) fn complete(&self, irp: Irp, status: FinalStatus) {
        // SAFETY: this thread alone has the pass.
        let code = unsafe { raw::csq_complete(self.handle.get(), irp.raw(), status.number()) };
        debug_assert_eq!(code, raw::OK);
    }

    #[inline]
    pub(crate) fn complete_cancelled(&self, irp: Irp) {
        // SAFETY: this thread alone has the pass.
        let code = unsafe { raw::csq_complete_cancelled(self.handle.get(), irp.raw()) };
        debug_assert_eq!(code, raw::OK);
    }

    pub(crate) fn cancel_routine(&self, irp: Irp) {
        // SAFETY: the queue is locked, and this thread alone has the pass.
        let code =
            self.locked(|queue, pass| unsafe { raw::csq_cancel_routine(queue, pass, irp.raw()) });
        debug_assert_eq!(code, raw::OK);
    }

    pub(crate) fn cancel_owed(&self, irp: Irp) {
        // SAFETY: the queue is locked, and this thread alone has the pass.
        let code =
            self.locked(|queue, pass| unsafe { raw::csq_cancel_owed(queue, pass, irp.raw()) });
        debug_assert_eq!(code, raw::OK);
    }
}
