//! Names, places and statuses.

use crate::raw::{self, RawIrp};
use std::fmt;

/// An IRP in one of its lives. From an insert it is the insert context (`IO_CSQ_IRP_CONTEXT`).
#[derive(Clone, Copy, Debug, PartialEq, Eq, PartialOrd, Ord, Hash)]
pub struct Irp {
    /// Its number, from 0 on.
    pub irp: u32,
    /// Its life, from 0 to [`LAST_LIFE`].
    pub life: u32,
}

/// The last life that an IRP can have.
pub const LAST_LIFE: u32 = 0x3FFF_FFFF;

/// The number, with the life after it if that isn't 0, as `3` or `3@1`.
impl fmt::Display for Irp {
    fn fmt(&self, f: &mut fmt::Formatter<'_>) -> fmt::Result {
        match self.life {
            0 => write!(f, "{}", self.irp),
            life => write!(f, "{}@{life}", self.irp),
        }
    }
}

impl Irp {
    #[inline]
    pub(crate) fn of(raw: RawIrp) -> Irp {
        Irp {
            irp: raw.irp,
            life: raw.life,
        }
    }

    #[inline]
    pub(crate) fn raw(self) -> RawIrp {
        RawIrp {
            irp: self.irp,
            life: self.life,
        }
    }
}

/// Where an insert puts its IRP.
#[derive(Clone, Copy, Debug, PartialEq, Eq, Hash)]
pub enum Place {
    /// After all that are listed.
    Back,
    /// Before all that are listed.
    Front,
}

impl Place {
    /// The number that the library has for it.
    #[inline]
    pub(crate) fn raw(self) -> u32 {
        u32::from(self == Place::Front)
    }
}

/// Which IRPs a removal takes (the peek context of `IoCsqRemoveNextIrp`).
#[derive(Clone, Copy, Debug, PartialEq, Eq, Hash)]
pub enum Peek {
    /// Any IRP.
    Any,
    /// Those of this file object. If there is no such file object, none.
    File(u32),
}

/// How a queue keeps its list.
#[derive(Clone, Copy, Debug, Default, PartialEq, Eq, Hash)]
pub enum List {
    /// In one vector, used as a ring: the faster one if the next IRP is removed whatever its file
    /// object. A removal from its middle moves the IRPs on the shorter side.
    Vector,
    /// In chains, one over all listed IRPs and one for each file object: as many steps however many
    /// are listed.
    Chains,
    /// In the vector if the queue has at most [`Size::AUTO_VECTOR_IRPS`] IRPs, else in the chains.
    #[default]
    Auto,
}

/// How large a queue is to be.
#[derive(Clone, Copy, Debug, PartialEq, Eq, Hash)]
pub struct Size {
    /// The number of IRPs, 1 to [`Size::MOST_IRPS`].
    pub irps: u32,
    /// The number of file objects, 1 to [`Size::MOST_FILES`].
    pub files: u32,
    /// How many IRPs may be listed at a time, 1 to `irps`.
    pub limit: u32,
    /// The number of passes, 1 to [`Size::MOST_PASSES`].
    pub passes: u32,
    /// The life in which all IRPs begin, 0 to [`LAST_LIFE`].
    pub first_life: u32,
    /// How the list is kept.
    pub list: List,
}

impl Size {
    /// The most IRPs of a queue.
    pub const MOST_IRPS: u32 = 65_535;

    /// The most file objects of a queue.
    pub const MOST_FILES: u32 = 16_384;

    /// The most passes of a queue.
    pub const MOST_PASSES: u32 = 1_024;

    /// The most IRPs of a queue that [`List::Auto`] keeps in a vector.
    pub const AUTO_VECTOR_IRPS: u32 = 64;

    /// A queue in which all IRPs may be listed and begin in life 0, with its list as [`List::Auto`]
    /// has it.
    ///
    /// ```
    /// # use csq::*;
    /// let size = Size { list: List::Chains, limit: 16, ..Size::new(64, 2, 4) };
    /// assert_eq!((size.irps, size.first_life), (64, 0));
    /// # Ok::<(), Box<dyn std::error::Error>>(())
    /// ```
    pub fn new(irps: u32, files: u32, passes: u32) -> Size {
        Size {
            irps,
            files,
            limit: irps,
            passes,
            first_life: 0,
            list: List::Auto,
        }
    }

    pub(crate) fn raw(&self) -> raw::RawSize {
        raw::RawSize {
            irps: self.irps,
            files: self.files,
            limit: self.limit,
            passes: self.passes,
            first_life: self.first_life,
            list: match self.list {
                List::Vector => 0,
                List::Chains => 1,
                List::Auto => 2,
            },
        }
    }
}

/// A status with which an IRP may be completed: any but `STATUS_PENDING`.
#[derive(Clone, Copy, PartialEq, Eq, Hash)]
pub struct FinalStatus(u32);

impl FinalStatus {
    /// `STATUS_SUCCESS`.
    pub const SUCCESS: FinalStatus = FinalStatus(0);

    /// `STATUS_CANCELLED`.
    pub const CANCELLED: FinalStatus = FinalStatus(0xC000_0120);

    /// The status of this number, as Windows numbers them. None for `STATUS_PENDING`.
    ///
    /// ```
    /// # use csq::*;
    /// assert_eq!(FinalStatus::new(0), Some(FinalStatus::SUCCESS));
    /// assert_eq!(FinalStatus::new(0x103), None); // STATUS_PENDING
    /// # Ok::<(), Box<dyn std::error::Error>>(())
    /// ```
    pub const fn new(number: u32) -> Option<FinalStatus> {
        match number {
            0x103 => None,
            _ => Some(FinalStatus(number)),
        }
    }

    /// Its number.
    ///
    /// ```
    /// # use csq::*;
    /// assert_eq!(FinalStatus::CANCELLED.number(), 0xC000_0120);
    /// # Ok::<(), Box<dyn std::error::Error>>(())
    /// ```
    pub const fn number(self) -> u32 {
        self.0
    }

    pub(crate) fn of(number: u32) -> FinalStatus {
        FinalStatus(number)
    }
}

/// As `FinalStatus(0xC0000120)`.
impl fmt::Debug for FinalStatus {
    fn fmt(&self, f: &mut fmt::Formatter<'_>) -> fmt::Result {
        write!(f, "FinalStatus({:#010X})", self.0)
    }
}

/// Eight hexadecimal digits.
impl fmt::Display for FinalStatus {
    fn fmt(&self, f: &mut fmt::Formatter<'_>) -> fmt::Result {
        write!(f, "{:08X}", self.0)
    }
}

/// What a closed queue reports of an IRP in its present life.
#[derive(Clone, Copy, Debug, PartialEq, Eq, Hash)]
pub struct Left {
    /// Its present life.
    pub life: u32,
    /// Whether its Cancel flag is set.
    pub cancelled: bool,
    /// What it was completed with. None if it wasn't.
    pub status: Option<FinalStatus>,
}
