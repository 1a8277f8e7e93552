//! Why a call was refused.

use std::error::Error;
use std::fmt;

/// Why a call was refused, by 01's numbers and names. A refused call has changed nothing.
///
/// ```
/// use tg18::{Memories, Refusal, Unit};
///
/// let (mut unit, mut memories) = (Unit::fresh(), Memories::new());
/// let refused = unit.write(&mut memories, 0x1000_0000, 4, 1);
/// assert_eq!(refused, Err(Refusal::StrayWrite));
/// assert_eq!(Refusal::StrayWrite.number(), 6);
/// ```
#[derive(Clone, Copy, Debug, PartialEq, Eq, Hash, PartialOrd, Ord)]
#[repr(u32)]
pub enum Refusal {
    /// A time is not finite, has its sign bit set or is above 2,097,152.0; or an advance goes back, or would take game
    /// time above 2,147,483,648.0.
    BadTime = 1,
    /// A turbo is outside 1/1024 to 1024, or not a number.
    BadTurbo = 2,
    /// 64 presses are not over.
    KeysFull = 3,
    /// 256 words without storage of their own are not zero.
    RegistersFull = 4,
    /// 256 sound events wait.
    SoundFull = 5,
    /// A write's first byte is neither memory nor register.
    StrayWrite = 6,
    /// A memory has not the length of a unit's.
    BadMemory = 7,
    /// A key is not 0, 1 or 2.
    BadKey = 8,
    /// An access has another size than 1, 2 or 4.
    BadSize = 9,
    /// A script has a count above 4,096, another length than its counts say, or a kind outside 1 to 12.
    BadScript = 10,
    /// There is too little room for what is answered.
    OutTooShort = 11,
    /// No sound event waits. Only a script's step answers this.
    NoEvent = 12,
    /// The next event's time is not finite.
    NoNextTime = 13,
    /// Bytes are no saved session; docs/SESSIONS.md says when.
    BadSave = 14,
    /// There is too little room for the session.
    SaveTooShort = 15,
    /// There was no memory for a stack, and nothing was run. Only [`scrubbed`](crate::scrubbed) answers this.
    NoStack = 256,
}

impl Refusal {
    /// Every refusal, by rising numbers.
    pub const ALL: [Refusal; 16] = [
        Refusal::BadTime,
        Refusal::BadTurbo,
        Refusal::KeysFull,
        Refusal::RegistersFull,
        Refusal::SoundFull,
        Refusal::StrayWrite,
        Refusal::BadMemory,
        Refusal::BadKey,
        Refusal::BadSize,
        Refusal::BadScript,
        Refusal::OutTooShort,
        Refusal::NoEvent,
        Refusal::NoNextTime,
        Refusal::BadSave,
        Refusal::SaveTooShort,
        Refusal::NoStack,
    ];

    /// The refusal of this number; 0, which is none, has none either.
    ///
    /// ```
    /// use tg18::Refusal;
    ///
    /// assert_eq!(Refusal::from_number(9), Some(Refusal::BadSize));
    /// assert_eq!(Refusal::from_number(0), None);
    /// ```
    pub fn from_number(number: u32) -> Option<Refusal> {
        Refusal::ALL.into_iter().find(|refusal| refusal.number() == number)
    }

    /// 01's number.
    ///
    /// ```
    /// assert_eq!(tg18::Refusal::NoNextTime.number(), 13);
    /// ```
    pub fn number(self) -> u32 {
        self as u32
    }

    /// What the library answered: 0 is done. The library has no other numbers than these.
    #[inline]
    pub(crate) fn answered(number: u32) -> Result<(), Refusal> {
        match number {
            0 => Ok(()),
            _ => Err(Refusal::known(number)),
        }
    }

    #[cold]
    fn known(number: u32) -> Refusal {
        let refusal = Refusal::from_number(number);
        refusal.unwrap_or_else(|| panic!("libtg18 answered {number}: it is of another version"))
    }

    fn why(self) -> &'static str {
        match self {
            Refusal::BadTime => "the time is out of range, or before the unit's",
            Refusal::BadTurbo => "the turbo is not within 1/1024 and 1024",
            Refusal::KeysFull => "64 presses are not over",
            Refusal::RegistersFull => "256 words without storage of their own are not zero",
            Refusal::SoundFull => "256 sound events wait",
            Refusal::StrayWrite => "a write to neither memory nor register",
            Refusal::BadMemory => "a memory has not the length of a unit's",
            Refusal::BadKey => "no such key",
            Refusal::BadSize => "the size is not 1, 2 or 4",
            Refusal::BadScript => "not a script",
            Refusal::OutTooShort => "too little room for the answers",
            Refusal::NoEvent => "no sound event waits",
            Refusal::NoNextTime => "the next event's time is not finite",
            Refusal::BadSave => "not a saved session",
            Refusal::SaveTooShort => "too little room for the session",
            Refusal::NoStack => "no memory for a stack",
        }
    }
}

/// 01's name, and what it means: `BadSize: the size is not 1, 2 or 4`.
impl fmt::Display for Refusal {
    fn fmt(&self, to: &mut fmt::Formatter) -> fmt::Result {
        write!(to, "{self:?}: {}", self.why())
    }
}

impl Error for Refusal {}

/// A number that is no refusal's.
///
/// ```
/// use tg18::{NoRefusal, Refusal};
///
/// assert_eq!(Refusal::try_from(7), Ok(Refusal::BadMemory));
/// assert_eq!(Refusal::try_from(16), Err(NoRefusal(16)));
/// assert_eq!(NoRefusal(16).to_string(), "16 is the number of no refusal");
/// ```
#[derive(Clone, Copy, Debug, PartialEq, Eq, Hash)]
pub struct NoRefusal(
    /// The number.
    pub u32,
);

impl fmt::Display for NoRefusal {
    fn fmt(&self, to: &mut fmt::Formatter) -> fmt::Result {
        write!(to, "{} is the number of no refusal", self.0)
    }
}

impl Error for NoRefusal {}

impl TryFrom<u32> for Refusal {
    type Error = NoRefusal;

    fn try_from(number: u32) -> Result<Refusal, NoRefusal> {
        Refusal::from_number(number).ok_or(NoRefusal(number))
    }
}

impl From<Refusal> for u32 {
    fn from(refusal: Refusal) -> u32 {
        refusal.number()
    }
}
