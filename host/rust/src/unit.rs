//! The unit: every live call.

use std::cell::Cell;
use std::fmt;
use std::marker::PhantomData;

use crate::{ffi, Memories, Refusal};

/// Bytes of a unit.
pub const UNIT_BYTES: usize = 8 * WORDS;

const WORDS: usize = 1_265;

/// Bytes that a saved session has at most.
pub const SAVE_MOST: usize = 17_872_533;

/// All state of a unit beside its memories: plain data without pointers, of [`UNIT_BYTES`].
///
/// It is `Send` and not `Sync`: two calls with one unit must not run at once. A clone is a unit of its own; with a
/// clone of the memories it goes on as the other would.
///
/// ```
/// use tg18::{Memories, Unit};
///
/// let (mut unit, mut memories) = (Unit::fresh(), Memories::new());
/// unit.advance(&mut memories, 3.0)?;
/// let (kept, kept_memories) = (unit.clone(), memories.clone());
/// unit.wipe(&mut memories)?;
/// (unit, memories) = (kept, kept_memories);
/// assert_eq!(unit.tod(), 3);
/// # Ok::<(), tg18::Refusal>(())
/// ```
#[derive(Clone)]
#[repr(C, align(8))]
pub struct Unit {
    words: [u64; WORDS],
    not_sync: PhantomData<Cell<u64>>,
}

/// A change of the buzzer, laid out as C's.
#[derive(Clone, Copy, Debug, Default, PartialEq)]
#[repr(C)]
pub struct Event {
    /// When, in seconds.
    pub time: f64,
    /// In Hz; 0 is off.
    pub frequency: f64,
    /// Of 0.05 to 0.95, the part of a period that is high.
    pub duty: f64,
}

/// What [`Unit::counters`] tells.
#[derive(Clone, Copy, Debug, Default, PartialEq, Eq)]
pub struct Counters {
    /// Frames drawn.
    pub frames: u64,
    /// Writes of the flash: programs, and erases but for the whole chip's.
    pub flash_writes: u64,
    /// The power is off.
    pub powered_off: bool,
}

/// A key. Calls that take one take any number as well, and refuse those that are no key's.
///
/// ```
/// use tg18::{Key, Refusal, Unit};
///
/// let mut unit = Unit::fresh();
/// assert_eq!(unit.press(Key::C, 1.0), Ok(()));
/// assert_eq!(unit.press(3u32, 1.0), Err(Refusal::BadKey));
/// ```
#[derive(Clone, Copy, Debug, PartialEq, Eq, Hash)]
#[repr(u32)]
pub enum Key {
    /// Key A, 0.
    A = 0,
    /// Key B, 1.
    B = 1,
    /// Key C, 2.
    C = 2,
}

impl From<Key> for u32 {
    fn from(key: Key) -> u32 {
        key as u32
    }
}

/// Making one.
impl Unit {
    /// A unit in the fresh state.
    ///
    /// # Panics
    /// Where the library that was linked has units of another size.
    ///
    /// ```
    /// assert_eq!(tg18::Unit::fresh().tod(), 0);
    /// ```
    pub fn fresh() -> Unit {
        let mut unit = Unit::of([0; WORDS]);
        unit.make_fresh();
        unit
    }

    /// The library would read and write behind a unit that is shorter than its own.
    fn of(words: [u64; WORDS]) -> Unit {
        let here = size_of::<Unit>();
        assert_eq!(ffi::unit_bytes(), here, "libtg18 has units of another size: it is of another version");
        Unit { words, not_sync: PhantomData }
    }

    /// The unit that [`bytes`](Unit::bytes) gave, or one of any bytes, all of which are a unit's; or `None` for
    /// another number of bytes. Only those of the same version of the library mean the same.
    ///
    /// ```
    /// use tg18::{Unit, UNIT_BYTES};
    ///
    /// let mut unit = Unit::from_bytes(&[0xA5; UNIT_BYTES]).unwrap();
    /// unit.make_fresh();
    /// assert_eq!(unit.bytes(), Unit::fresh().bytes());
    /// assert!(Unit::from_bytes(&[0; 8]).is_none());
    /// ```
    pub fn from_bytes(bytes: &[u8]) -> Option<Unit> {
        let mut words = [0; WORDS];
        if bytes.len() != UNIT_BYTES {
            return None;
        }
        for (word, bytes) in words.iter_mut().zip(bytes.chunks_exact(8)) {
            *word = u64::from_ne_bytes(bytes.try_into().ok()?);
        }
        Some(Unit::of(words))
    }

    /// Its bytes, to keep. What stands where is not for hosts to read.
    ///
    /// ```
    /// use tg18::Unit;
    ///
    /// let mut unit = Unit::fresh();
    /// unit.press(1u32, 0.5)?;
    /// let kept = unit.bytes();
    /// assert_eq!(Unit::from_bytes(&kept).unwrap().bytes(), kept);
    /// # Ok::<(), tg18::Refusal>(())
    /// ```
    pub fn bytes(&self) -> Vec<u8> {
        self.words.iter().flat_map(|word| word.to_ne_bytes()).collect()
    }

    /// The fresh state, whatever the unit held. Memories stay.
    ///
    /// ```
    /// let mut unit = tg18::Unit::fresh();
    /// unit.live_key(0u32, true)?;
    /// unit.make_fresh();
    /// assert_eq!(unit.keys_held(), [false; 3]);
    /// # Ok::<(), tg18::Refusal>(())
    /// ```
    pub fn make_fresh(&mut self) {
        ffi::fresh(self);
    }

    /// The fresh state, and all four memories zero.
    ///
    /// ```
    /// use tg18::{Memories, Unit};
    ///
    /// let (mut unit, mut memories) = (Unit::fresh(), Memories::new());
    /// memories.ram_mut().fill(0xFF);
    /// unit.wipe(&mut memories)?;
    /// assert!(memories.ram().iter().all(|&byte| byte == 0));
    /// # Ok::<(), tg18::Refusal>(())
    /// ```
    pub fn wipe(&mut self, memories: &mut Memories) -> Result<(), Refusal> {
        Refusal::answered(ffi::wipe(self, memories.slices_mut()))
    }
}

/// The bus.
impl Unit {
    /// Reads 1, 2 or 4 bytes. A read can change the unit, and never a memory. What is neither memory nor register
    /// reads 0. [`Memories::read_plain32`] is a shorter way for RAM and SRAM.
    ///
    /// ```
    /// use tg18::{Memories, Refusal, Unit};
    ///
    /// let (mut unit, memories) = (Unit::fresh(), Memories::new());
    /// assert_eq!(unit.read(&memories, 0xD000_003C, 4), Ok(1));
    /// assert_eq!(unit.read(&memories, 0xD000_003C, 3), Err(Refusal::BadSize));
    /// ```
    #[inline]
    pub fn read(&mut self, memories: &Memories, address: u32, size: u32) -> Result<u32, Refusal> {
        let (number, value) = ffi::read(self, memories.slices(), address, size);
        Refusal::answered(number).map(|()| value)
    }

    /// Writes 1, 2 or 4 bytes of a value.
    ///
    /// ```
    /// use tg18::{Memories, Refusal, Unit};
    ///
    /// let (mut unit, mut memories) = (Unit::fresh(), Memories::new());
    /// unit.write(&mut memories, 0xC010_0003, 2, 0xBEEF)?;
    /// assert_eq!(unit.read(&memories, 0xC010_0000, 4), Ok(0xEF00_0000));
    /// # Ok::<(), Refusal>(())
    /// ```
    #[inline]
    pub fn write(&mut self, memories: &mut Memories, address: u32, size: u32, value: u32) -> Result<(), Refusal> {
        Refusal::answered(ffi::write(self, memories.slices_mut(), address, size, value))
    }

    /// The byte at an address, without side effects: of a memory, as stored of a register, or 0.
    ///
    /// ```
    /// use tg18::{Memories, Unit};
    ///
    /// let (mut unit, mut memories) = (Unit::fresh(), Memories::new());
    /// unit.write(&mut memories, 0xC010_0000, 4, 0x1234)?;
    /// assert_eq!(unit.peek8(&memories, 0xC010_0001), Ok(0x12));
    /// # Ok::<(), tg18::Refusal>(())
    /// ```
    pub fn peek8(&self, memories: &Memories, address: u32) -> Result<u8, Refusal> {
        let (number, value) = ffi::peek8(self, memories.slices(), address);
        Refusal::answered(number).map(|()| value)
    }

    /// Four such bytes, the lowest first.
    ///
    /// ```
    /// use tg18::{Memories, Unit};
    ///
    /// let (unit, mut memories) = (Unit::fresh(), Memories::new());
    /// memories.gpio_mut()[..4].copy_from_slice(&[1, 2, 3, 4]);
    /// assert_eq!(unit.peek32(&memories, 0xC000_0000), Ok(0x0403_0201));
    /// ```
    pub fn peek32(&self, memories: &Memories, address: u32) -> Result<u32, Refusal> {
        let (number, value) = ffi::peek32(self, memories.slices(), address);
        Refusal::answered(number).map(|()| value)
    }

    /// As many such bytes as there is room for; whether they are a whole block of one memory, as tg18.h says it.
    ///
    /// ```
    /// use tg18::{Memories, Unit};
    ///
    /// let (unit, mut memories) = (Unit::fresh(), Memories::new());
    /// memories.ram_mut()[..3].copy_from_slice(b"abc");
    /// let mut bytes = [0; 3];
    /// assert_eq!(unit.read_block(&memories, 0x2000_0000, &mut bytes), Ok(true));
    /// assert_eq!(&bytes, b"abc");
    /// ```
    pub fn read_block(&self, memories: &Memories, address: u32, bytes: &mut [u8]) -> Result<bool, Refusal> {
        let (number, whole) = ffi::read_block(self, memories.slices(), address, bytes);
        Refusal::answered(number).map(|()| whole != 0)
    }

    /// Lays bytes into memories; those that fall elsewhere are dropped.
    ///
    /// ```
    /// use tg18::{Memories, Unit};
    ///
    /// let (mut unit, mut memories) = (Unit::fresh(), Memories::new());
    /// unit.poke(&mut memories, 0xF800_0000, b"abc")?;
    /// assert_eq!(memories.sram()[..3], *b"abc");
    /// # Ok::<(), tg18::Refusal>(())
    /// ```
    pub fn poke(&mut self, memories: &mut Memories, address: u32, bytes: &[u8]) -> Result<(), Refusal> {
        Refusal::answered(ffi::poke(self, memories.slices_mut(), address, bytes))
    }
}

/// Time.
impl Unit {
    /// Goes to a time, in seconds since the unit was fresh.
    ///
    /// ```
    /// use tg18::{Memories, Refusal, Unit};
    ///
    /// let (mut unit, mut memories) = (Unit::fresh(), Memories::new());
    /// unit.advance(&mut memories, 1.5)?;
    /// assert_eq!(unit.advance(&mut memories, 1.0), Err(Refusal::BadTime));
    /// # Ok::<(), Refusal>(())
    /// ```
    pub fn advance(&mut self, memories: &mut Memories, now: f64) -> Result<(), Refusal> {
        Refusal::answered(ffi::advance(self, memories.slices_mut(), now))
    }

    /// When something can happen next.
    ///
    /// ```
    /// use tg18::{Memories, Unit};
    ///
    /// let (unit, memories) = (Unit::fresh(), Memories::new());
    /// assert_eq!(unit.next_event(&memories), Ok(1.0 / 60.0)); // the vertical sync
    /// ```
    pub fn next_event(&self, memories: &Memories) -> Result<f64, Refusal> {
        let (number, time) = ffi::next_event(self, memories.slices());
        Refusal::answered(number).map(|()| time)
    }

    /// The interrupt that waits: 1, 8, 27 or 29, or 0 for none.
    ///
    /// ```
    /// assert_eq!(tg18::Unit::fresh().pending_irq(), 0);
    /// ```
    pub fn pending_irq(&self) -> u32 {
        ffi::pending_irq(self)
    }

    /// One waits, and interrupts are on.
    ///
    /// ```
    /// assert!(!tg18::Unit::fresh().irq_wanted());
    /// ```
    pub fn irq_wanted(&self) -> bool {
        ffi::irq_wanted(self) != 0
    }

    /// How many times as fast as time game time goes.
    ///
    /// ```
    /// use tg18::{Memories, Unit};
    ///
    /// let (mut unit, mut memories) = (Unit::fresh(), Memories::new());
    /// unit.turbo(60.0)?;
    /// unit.advance(&mut memories, 1.0)?;
    /// assert_eq!(unit.tod(), 60);
    /// # Ok::<(), tg18::Refusal>(())
    /// ```
    pub fn turbo(&mut self, factor: f64) -> Result<(), Refusal> {
        Refusal::answered(ffi::turbo(self, factor))
    }

    /// Seconds of the day.
    ///
    /// ```
    /// assert_eq!(tg18::Unit::fresh().tod(), 0);
    /// ```
    pub fn tod(&self) -> i64 {
        ffi::tod(self)
    }

    /// Ticks of the RTC, at 32,768 Hz.
    ///
    /// ```
    /// use tg18::{Memories, Unit};
    ///
    /// let (mut unit, mut memories) = (Unit::fresh(), Memories::new());
    /// unit.advance(&mut memories, 2.0)?;
    /// assert_eq!(unit.ticks(), 65_536);
    /// # Ok::<(), tg18::Refusal>(())
    /// ```
    pub fn ticks(&self) -> i64 {
        ffi::ticks(self)
    }

    /// The ticks of the alarm, if one is on.
    ///
    /// ```
    /// assert_eq!(tg18::Unit::fresh().alarm_ticks(), None);
    /// ```
    pub fn alarm_ticks(&self) -> Option<i64> {
        let (on, ticks) = ffi::alarm_ticks(self);
        (on != 0).then_some(ticks)
    }
}

/// Keys, sound, counters, scripts.
impl Unit {
    /// A key goes down or up; that is seen on its line at the next advance.
    ///
    /// ```
    /// use tg18::{Key, Memories, Unit};
    ///
    /// let (mut unit, mut memories) = (Unit::fresh(), Memories::new());
    /// unit.live_key(Key::A, true)?;
    /// unit.advance(&mut memories, 0.1)?;
    /// assert_eq!(memories.gpio()[0x20], 0x20);
    /// # Ok::<(), tg18::Refusal>(())
    /// ```
    pub fn live_key(&mut self, key: impl Into<u32>, down: bool) -> Result<(), Refusal> {
        Refusal::answered(ffi::live_key(self, key.into(), down.into()))
    }

    /// A tap: the key is held until a time.
    ///
    /// ```
    /// use tg18::{Key, Unit};
    ///
    /// let mut unit = Unit::fresh();
    /// unit.hold_until(Key::C, 0.25)?;
    /// assert_eq!(unit.keys_held(), [false, false, true]);
    /// # Ok::<(), tg18::Refusal>(())
    /// ```
    pub fn hold_until(&mut self, key: impl Into<u32>, until: f64) -> Result<(), Refusal> {
        Refusal::answered(ffi::hold_until(self, key.into(), until))
    }

    /// A press at a time, for 0.15 s.
    ///
    /// ```
    /// use tg18::{Key, Memories, Unit};
    ///
    /// let (mut unit, mut memories) = (Unit::fresh(), Memories::new());
    /// unit.press(Key::B, 1.0)?;
    /// unit.advance(&mut memories, 1.1)?;
    /// assert_eq!(unit.keys_held(), [false, true, false]);
    /// # Ok::<(), tg18::Refusal>(())
    /// ```
    pub fn press(&mut self, key: impl Into<u32>, at: f64) -> Result<(), Refusal> {
        Refusal::answered(ffi::press(self, key.into(), at))
    }

    /// Which of A, B and C are down at the unit's time.
    ///
    /// ```
    /// assert_eq!(tg18::Unit::fresh().keys_held(), [false; 3]);
    /// ```
    pub fn keys_held(&self) -> [bool; 3] {
        let held = ffi::keys_held(self);
        [1, 2, 4].map(|key| held & key != 0)
    }

    /// Takes sound events, oldest first, as many as wait or as there is room for, and says how many. Later records
    /// stay.
    ///
    /// ```
    /// use tg18::{Event, Memories, Unit};
    ///
    /// let (mut unit, mut memories) = (Unit::fresh(), Memories::new());
    /// unit.write(&mut memories, 0xC002_0088, 4, 0xE890)?; // timer 4: reload, 6,000 ticks
    /// unit.write(&mut memories, 0xC002_0080, 4, 0x2000)?; // and control: run
    /// let mut events = [Event::default(); 8];
    /// assert_eq!(unit.take_events(&mut events), 1);
    /// assert_eq!(events[0].frequency, 2_000.0);
    /// # Ok::<(), tg18::Refusal>(())
    /// ```
    pub fn take_events(&mut self, records: &mut [Event]) -> usize {
        ffi::take_events(self, records)
    }

    /// Frames, writes of the flash, and whether the power is off.
    ///
    /// ```
    /// use tg18::{Memories, Unit};
    ///
    /// let (mut unit, mut memories) = (Unit::fresh(), Memories::new());
    /// unit.write(&mut memories, 0xD000_0078, 4, 0)?;
    /// assert!(unit.counters().powered_off);
    /// # Ok::<(), tg18::Refusal>(())
    /// ```
    pub fn counters(&self) -> Counters {
        let (frames, flash_writes, off) = ffi::counters(self);
        Counters { frames, flash_writes, powered_off: off != 0 }
    }

    /// Runs a script from where the unit stands. It is refused as [`run_script`](crate::run_script), which is this on a
    /// fresh unit.
    ///
    /// ```
    /// use tg18::{out_bytes, script_bytes, Memories, Unit};
    ///
    /// let (mut unit, mut memories) = (Unit::fresh(), Memories::new());
    /// let (script, mut out) = (vec![0; script_bytes(0, 0)], vec![0xFF; out_bytes(0, 0)]);
    /// unit.continue_script(&mut memories, &script, &mut out)?;
    /// assert_eq!(out, [0, 0, 0, 0]);
    /// # Ok::<(), tg18::Refusal>(())
    /// ```
    pub fn continue_script(&mut self, memories: &mut Memories, script: &[u8], out: &mut [u8]) -> Result<(), Refusal> {
        Refusal::answered(ffi::continue_script(self, memories.slices_mut(), script, out))
    }
}

/// Sessions.
impl Unit {
    /// Saves the session, unit and memories, and says how many bytes of `out` it took; what is behind them stays.
    /// [`SAVE_MOST`] are always enough, and [`Refusal::SaveTooShort`] says that there were too few.
    /// docs/SESSIONS.md has the layout.
    ///
    /// ```
    /// use tg18::{Memories, Unit, SAVE_MOST};
    ///
    /// let (mut unit, mut memories) = (Unit::fresh(), Memories::new());
    /// unit.advance(&mut memories, 3.0)?;
    /// let mut saved = vec![0; SAVE_MOST];
    /// let bytes = unit.save(&memories, &mut saved)?;
    /// unit.wipe(&mut memories)?;
    /// unit.resume(&mut memories, &saved[..bytes])?;
    /// assert_eq!(unit.tod(), 3);
    /// # Ok::<(), tg18::Refusal>(())
    /// ```
    pub fn save(&self, memories: &Memories, out: &mut [u8]) -> Result<usize, Refusal> {
        let (number, written) = ffi::save(self, memories.slices(), out);
        Refusal::answered(number).map(|()| written as usize)
    }

    /// Resumes a session: unit and memories are then as they were saved, whatever they held. Bytes that are no saved
    /// session are refused.
    ///
    /// ```
    /// use tg18::{Memories, Refusal, Unit};
    ///
    /// let (mut unit, mut memories) = (Unit::fresh(), Memories::new());
    /// assert_eq!(unit.resume(&mut memories, b"no session"), Err(Refusal::BadSave));
    /// ```
    pub fn resume(&mut self, memories: &mut Memories, saved: &[u8]) -> Result<(), Refusal> {
        Refusal::answered(ffi::resume(self, memories.slices_mut(), saved))
    }
}

/// No bytes: they may hold what is not to be shown.
impl fmt::Debug for Unit {
    fn fmt(&self, to: &mut fmt::Formatter) -> fmt::Result {
        to.debug_struct("Unit").finish_non_exhaustive()
    }
}

impl Default for Unit {
    fn default() -> Self {
        Unit::fresh()
    }
}
