//! Why a call is refused, and the codes by which the library says so.
use std::ffi::CStr;
use std::fmt;

use crate::raw;

/// The code of a call that has found or changed what it sought.
pub(crate) const YES: i32 = 1;

/// The code of a compare-exchange that has found another value.
pub(crate) const OTHER_VALUE: i32 = 2;

/// The code of a call that has more to tell than its array has room for.
pub(crate) const NO_ROOM: i32 = -8;

// The codes of a map. The last one is a map's alone.
const BAD_KEY: i32 = Refused::BadKey.code();
const BAD_START: i32 = Refused::BadStart.code();
const NO_MEMORY: i32 = Refused::NoMemory.code();
const FORKED: i32 = -18;

// Room for the text of each code, and the 0 behind it.
const TEXT_ROOM: usize = 64;

/// The error of a call on a [`Map`](crate::Map) or a [`TypedMap`](crate::TypedMap). A call that returns one has changed nothing, if it does not
/// say otherwise.
#[derive(Clone, Copy, Debug, PartialEq, Eq, Hash)]
#[non_exhaustive]
pub enum MapError {
    /// A key is above [`KEY_MAX`](crate::KEY_MAX).
    BadKey,
    /// The keys that a map is to be made of do not ascend strictly.
    BadStart,
    /// Memory was refused, when the map was made or at a renewal that the call needed. The same call may be made again.
    NoMemory,
    /// The map is of another process, of which this one is a forked child.
    Forked,
}

/// The result of a call on a [`Map`](crate::Map) or a [`TypedMap`](crate::TypedMap).
pub type MapResult<T> = std::result::Result<T, MapError>;

impl MapError {
    fn code(self) -> i32 {
        match self {
            MapError::BadKey => BAD_KEY,
            MapError::BadStart => BAD_START,
            MapError::NoMemory => NO_MEMORY,
            MapError::Forked => FORKED,
        }
    }

    // A map refuses a call by these four codes alone.
    fn of_code(code: i32) -> MapError {
        match code {
            BAD_KEY => MapError::BadKey,
            BAD_START => MapError::BadStart,
            FORKED => MapError::Forked,
            _ => MapError::NoMemory,
        }
    }
}

/// Writes the library's text of the error.
///
/// ```
/// assert_eq!(elltree::MapError::NoMemory.to_string(), elltree::Refused::NoMemory.to_string());
/// ```
impl fmt::Display for MapError {
    fn fmt(&self, f: &mut fmt::Formatter<'_>) -> fmt::Result {
        write_text(self.code(), f)
    }
}

impl std::error::Error for MapError {}

/// Returns whether a code of a map's call is yes, or why the call was refused.
pub(crate) fn map_answer(code: i32) -> MapResult<bool> {
    if code < 0 { Err(MapError::of_code(code)) } else { Ok(code == YES) }
}

/// The error of a call on a [`Tree`](crate::Tree) or a [`Handle`](crate::Handle). A call that returns one has changed nothing.
#[derive(Clone, Copy, Debug, PartialEq, Eq, Hash)]
#[non_exhaustive]
pub enum Refused {
    /// Something was in the way of each try, or changed the value first. The same call may be made again.
    Busy,
    /// All cards of the tree are given out. Calls that only read still work, and [`Handle::cards_left`](crate::Handle::cards_left) tells beforehand
    /// how many are left. Where cards come back, no card could be taken, and the same call [may be made again](crate::Tree::open_reusing).
    Spent,
    /// The call allows no try.
    NoTries,
    /// The number of cards is not 1 to [`CARDS_MAX`](crate::CARDS_MAX).
    BadCards,
    /// A key is above [`KEY_MAX`](crate::KEY_MAX).
    BadKey,
    /// The start keys do not ascend strictly, or are more than [`START_MAX`](crate::START_MAX).
    BadStart,
    /// Memory was refused.
    NoMemory,
    /// The tree makes no more handles: see [`Tree::handle`](crate::Tree::handle).
    TooManyHandles,
    /// Another code of the library.
    Other(i32),
}

/// The result of a call on a [`Tree`](crate::Tree) or a [`Handle`](crate::Handle).
pub type Result<T> = std::result::Result<T, Refused>;

// The refusals that have names of their own.
const NAMED: [Refused; 8] = [
    Refused::Busy,
    Refused::Spent,
    Refused::NoTries,
    Refused::BadCards,
    Refused::BadKey,
    Refused::BadStart,
    Refused::NoMemory,
    Refused::TooManyHandles,
];

impl Refused {
    /// Returns the library's code of the refusal.
    ///
    /// # Examples
    ///
    /// ```
    /// assert_eq!(elltree::Refused::Spent.code(), -2);
    /// ```
    #[must_use]
    pub const fn code(self) -> i32 {
        match self {
            Refused::Busy => -1,
            Refused::Spent => -2,
            Refused::NoTries => -4,
            Refused::BadCards => -5,
            Refused::BadKey => -6,
            Refused::BadStart => -7,
            Refused::NoMemory => -9,
            Refused::TooManyHandles => -16,
            Refused::Other(code) => code,
        }
    }

    fn of_code(code: i32) -> Refused {
        NAMED.into_iter().find(|why| why.code() == code).unwrap_or(Refused::Other(code))
    }
}

/// Writes the library's text of the code.
///
/// ```
/// assert_eq!(elltree::Refused::Spent.to_string(), "no card is free for the change");
/// assert_eq!(elltree::Refused::Other(7).to_string(), "no code of elltree");
/// ```
impl fmt::Display for Refused {
    fn fmt(&self, f: &mut fmt::Formatter<'_>) -> fmt::Result {
        write_text(self.code(), f)
    }
}

impl std::error::Error for Refused {}

/// Returns whether a code of a handle's call is yes, or why the call was refused.
pub(crate) fn answer(code: i32) -> Result<bool> {
    match code {
        0 => Ok(false),
        YES => Ok(true),
        _ => Err(Refused::of_code(code)),
    }
}

// Writes what the library says of a code, of a handle's call or of a map's.
fn write_text(code: i32, f: &mut fmt::Formatter<'_>) -> fmt::Result {
    let mut text = [0; TEXT_ROOM];
    // SAFETY: the array is as long as said.
    unsafe { raw::elltree_code_text(code, text.as_mut_ptr().cast(), text.len()) };
    let text = CStr::from_bytes_until_nul(&text).unwrap_or_default();
    f.write_str(&text.to_string_lossy())
}
