//! The four memories of a unit, and the short way to plain memory.

use std::fmt;

use crate::ffi::{self, Slices};
use crate::Refusal;

/// Bytes of RAM, at [`RAM_BASE`]. The first 8 MiB are the flash's array.
pub const RAM_BYTES: usize = 16_777_216;
/// Bytes of SRAM, at [`SRAM_BASE`].
pub const SRAM_BYTES: usize = 1_048_576;
/// Bytes of GPIO, at 0xC0000000.
pub const GPIO_BYTES: usize = 4_096;
/// Bytes of the framebuffer, which is not on the bus.
pub const FRAMEBUFFER_BYTES: usize = 32_768;
/// Pixels in a row of the screen.
pub const SCREEN_WIDTH: usize = 128;
/// Rows of the screen.
pub const SCREEN_HEIGHT: usize = 128;
/// Bytes that [`Memories::screen`] lays.
pub const SCREEN_BYTES: usize = 49_152;

/// The bus address of RAM's first byte.
pub const RAM_BASE: u32 = 0x2000_0000;
/// The bus address of SRAM's first byte.
pub const SRAM_BASE: u32 = 0xF800_0000;

const LENGTHS: [usize; 4] = [RAM_BYTES, SRAM_BYTES, GPIO_BYTES, FRAMEBUFFER_BYTES];

/// The four memories of a unit: its own, or lent by the host for `'a`.
///
/// They are plain bytes, of which the port keeps no copy. So the host may read and change them directly, also between
/// two calls of a unit: what [`ram_mut`](Memories::ram_mut) and [`write_plain32`](Memories::write_plain32) store is
/// what a store of the unit's program to the same bytes is. The first 8 MiB of RAM are the array of the flash, which
/// answers and programs the bytes that lie there, and the SRAM word at 0xF80090A4 is the timers' clock. In GPIO, the
/// lines of the keys are set by [`advance`](crate::Unit::advance) where a key has changed.
///
/// It is `Send` and not `Sync`: two calls over the same memories must not run at once.
///
/// ```
/// use tg18::{Memories, Unit};
///
/// let (mut unit, mut memories) = (Unit::fresh(), Memories::new());
/// memories.ram_mut()[..4].copy_from_slice(&[1, 2, 3, 4]);
/// assert_eq!(unit.read(&memories, 0x2000_0000, 4), Ok(0x0403_0201));
/// ```
pub struct Memories<'a> {
    slices: Slices<'a>,
    right: bool,
}

impl<'a> Memories<'a> {
    /// Memories of their own, all zero.
    ///
    /// ```
    /// let memories = tg18::Memories::new();
    /// assert_eq!(memories.ram().len(), tg18::RAM_BYTES);
    /// ```
    pub fn new() -> Memories<'a> {
        Memories::of(Slices::owned(LENGTHS.map(|length| vec![0; length].into_boxed_slice())))
    }

    /// The host's memories, which may have any lengths; with wrong ones every call is refused as
    /// [`Refusal::BadMemory`].
    ///
    /// ```
    /// use tg18::{Memories, Refusal, Unit};
    ///
    /// let (mut ram, mut sram, mut gpio) = (vec![0; tg18::RAM_BYTES], vec![0; tg18::SRAM_BYTES], [0; 4096]);
    /// let mut framebuffer = [0; 32_767];
    /// let memories = Memories::lent(&mut ram, &mut sram, &mut gpio, &mut framebuffer);
    /// assert_eq!(Unit::fresh().read(&memories, 0x2000_0000, 4), Err(Refusal::BadMemory));
    /// ```
    pub fn lent(
        ram: &'a mut [u8],
        sram: &'a mut [u8],
        gpio: &'a mut [u8],
        framebuffer: &'a mut [u8],
    ) -> Memories<'a> {
        Memories::of(Slices::lent([ram, sram, gpio, framebuffer]))
    }

    fn of(slices: Slices<'a>) -> Memories<'a> {
        let all = [slices.ram(), slices.sram(), slices.gpio(), slices.framebuffer()];
        let right = all.map(<[u8]>::len) == LENGTHS;
        Memories { slices, right }
    }

    pub(crate) fn slices(&self) -> &Slices<'a> {
        &self.slices
    }

    pub(crate) fn slices_mut(&mut self) -> &mut Slices<'a> {
        &mut self.slices
    }

    /// RAM, whose first 8 MiB are the flash's array.
    ///
    /// ```
    /// assert_eq!(tg18::Memories::new().ram()[0], 0);
    /// ```
    #[inline]
    pub fn ram(&self) -> &[u8] {
        self.slices.ram()
    }

    /// RAM, to change: an image of the flash is laid here.
    ///
    /// ```
    /// let mut memories = tg18::Memories::new();
    /// memories.ram_mut()[..3].copy_from_slice(b"abc");
    /// ```
    #[inline]
    pub fn ram_mut(&mut self) -> &mut [u8] {
        self.slices.ram_mut()
    }

    /// SRAM.
    ///
    /// ```
    /// assert_eq!(tg18::Memories::new().sram()[0], 0);
    /// ```
    #[inline]
    pub fn sram(&self) -> &[u8] {
        self.slices.sram()
    }

    /// SRAM, to change.
    ///
    /// ```
    /// tg18::Memories::new().sram_mut()[0x90A4..][..4].copy_from_slice(&48_000_000u32.to_le_bytes());
    /// ```
    #[inline]
    pub fn sram_mut(&mut self) -> &mut [u8] {
        self.slices.sram_mut()
    }

    /// GPIO.
    ///
    /// ```
    /// assert_eq!(tg18::Memories::new().gpio().len(), 4096);
    /// ```
    #[inline]
    pub fn gpio(&self) -> &[u8] {
        self.slices.gpio()
    }

    /// GPIO, to change.
    ///
    /// ```
    /// tg18::Memories::new().gpio_mut().fill(0);
    /// ```
    #[inline]
    pub fn gpio_mut(&mut self) -> &mut [u8] {
        self.slices.gpio_mut()
    }

    /// The framebuffer: two bytes a pixel, row by row, the lower first.
    ///
    /// ```
    /// assert_eq!(tg18::Memories::new().framebuffer().len(), 2 * 128 * 128);
    /// ```
    #[inline]
    pub fn framebuffer(&self) -> &[u8] {
        self.slices.framebuffer()
    }

    /// The framebuffer, to change.
    ///
    /// ```
    /// tg18::Memories::new().framebuffer_mut().fill(0xFF);
    /// ```
    #[inline]
    pub fn framebuffer_mut(&mut self) -> &mut [u8] {
        self.slices.framebuffer_mut()
    }

    /// Lays the screen, row by row, three bytes a pixel, into [`SCREEN_BYTES`]. [`Refusal::BadMemory`] where there are
    /// fewer or more, which then stay as they were.
    ///
    /// ```
    /// let mut memories = tg18::Memories::new();
    /// memories.framebuffer_mut()[..2].copy_from_slice(&0x8410u16.to_le_bytes());
    /// let mut rgb = vec![0; tg18::SCREEN_BYTES];
    /// memories.screen(&mut rgb)?;
    /// assert_eq!(rgb[..3], [131, 129, 131]);
    /// # Ok::<(), tg18::Refusal>(())
    /// ```
    pub fn screen(&self, rgb: &mut [u8]) -> Result<(), Refusal> {
        Refusal::answered(ffi::screen(&self.slices, rgb))
    }
}

enum Place {
    Ram(usize),
    Sram(usize),
}

/// The short way.
impl Memories<'_> {
    /// Where an address of RAM or SRAM lies. With wrong lengths there is none, as the unit then refuses.
    #[inline(always)]
    fn place(&self, address: u32) -> Option<Place> {
        let behind = |base: u32| address.wrapping_sub(base) as usize;
        match (behind(RAM_BASE), behind(SRAM_BASE)) {
            _ if !self.right => None,
            (at, _) if at < RAM_BYTES => Some(Place::Ram(at)),
            (_, at) if at < SRAM_BYTES => Some(Place::Sram(at)),
            _ => None,
        }
    }

    /// An access that passes the end reads zeros.
    #[inline(always)]
    fn load<const SIZE: usize>(&self, address: u32) -> Option<[u8; SIZE]> {
        let bytes = match self.place(address)? {
            Place::Ram(at) => self.ram()[at..].first_chunk(),
            Place::Sram(at) => self.sram()[at..].first_chunk(),
        };
        Some(bytes.copied().unwrap_or([0; SIZE]))
    }

    /// An access that passes the end stores nothing.
    #[inline(always)]
    fn store<const SIZE: usize>(&mut self, address: u32, bytes: [u8; SIZE]) -> bool {
        let place = match self.place(address) {
            Some(Place::Ram(at)) => self.ram_mut()[at..].first_chunk_mut(),
            Some(Place::Sram(at)) => self.sram_mut()[at..].first_chunk_mut(),
            None => return false,
        };
        if let Some(place) = place {
            *place = bytes;
        }
        true
    }

    /// What [`Unit::read`](crate::Unit::read) would answer with size 1, without a call, where the address is one of
    /// RAM or SRAM; else `None`, and the unit is to be asked.
    ///
    /// ```
    /// let mut memories = tg18::Memories::new();
    /// memories.sram_mut()[5] = 7;
    /// assert_eq!(memories.read_plain8(0xF800_0005), Some(7));
    /// ```
    #[inline]
    pub fn read_plain8(&self, address: u32) -> Option<u8> {
        self.load(address).map(u8::from_le_bytes)
    }

    /// The same with size 2. One that passes the memory's end reads 0, as the unit's does.
    ///
    /// ```
    /// let mut memories = tg18::Memories::new();
    /// memories.ram_mut().fill(1);
    /// assert_eq!(memories.read_plain16(0x20FF_FFFE), Some(0x0101));
    /// assert_eq!(memories.read_plain16(0x20FF_FFFF), Some(0));
    /// ```
    #[inline]
    pub fn read_plain16(&self, address: u32) -> Option<u16> {
        self.load(address).map(u16::from_le_bytes)
    }

    /// The same with size 4.
    ///
    /// ```
    /// use tg18::{Memories, Refusal, Unit};
    ///
    /// /// A processor's load: plain memory directly, all else by the unit.
    /// fn load(unit: &mut Unit, memories: &Memories, address: u32) -> Result<u32, Refusal> {
    ///     memories.read_plain32(address).map_or_else(|| unit.read(memories, address, 4), Ok)
    /// }
    ///
    /// let (mut unit, mut memories) = (Unit::fresh(), Memories::new());
    /// memories.ram_mut()[0] = 5;
    /// assert_eq!(load(&mut unit, &memories, 0x2000_0000), Ok(5));
    /// assert_eq!(load(&mut unit, &memories, 0xC009_0010), Ok(1)); // a register
    /// ```
    #[inline]
    pub fn read_plain32(&self, address: u32) -> Option<u32> {
        self.load(address).map(u32::from_le_bytes)
    }

    /// Does what [`Unit::write`](crate::Unit::write) would with size 1, without a call, where the address is one of
    /// RAM or SRAM, and says `true`; else `false`, and the unit is to be asked.
    ///
    /// ```
    /// let mut memories = tg18::Memories::new();
    /// assert!(memories.write_plain8(0x2000_0001, 9));
    /// assert_eq!(memories.ram()[..2], [0, 9]);
    /// ```
    #[inline]
    #[must_use = "where it says false nothing was written"]
    pub fn write_plain8(&mut self, address: u32, value: u8) -> bool {
        self.store(address, value.to_le_bytes())
    }

    /// The same with size 2. One that passes the memory's end stores nothing, as the unit's does, and is done.
    ///
    /// ```
    /// let mut memories = tg18::Memories::new();
    /// assert!(memories.write_plain16(0x20FF_FFFF, 0x0101));
    /// assert_eq!(memories.ram().last(), Some(&0));
    /// ```
    #[inline]
    #[must_use = "where it says false nothing was written"]
    pub fn write_plain16(&mut self, address: u32, value: u16) -> bool {
        self.store(address, value.to_le_bytes())
    }

    /// The same with size 4.
    ///
    /// ```
    /// use tg18::{Memories, Refusal, Unit};
    ///
    /// /// A processor's store: plain memory directly, all else by the unit.
    /// fn store(unit: &mut Unit, memories: &mut Memories, address: u32, value: u32) -> Result<(), Refusal> {
    ///     match memories.write_plain32(address, value) {
    ///         true => Ok(()),
    ///         false => unit.write(memories, address, 4, value),
    ///     }
    /// }
    ///
    /// let (mut unit, mut memories) = (Unit::fresh(), Memories::new());
    /// store(&mut unit, &mut memories, 0xF800_0000, 5)?;
    /// store(&mut unit, &mut memories, 0xD000_001C, 0x8000)?; // a register
    /// assert_eq!(memories.sram()[0], 5);
    /// assert_eq!(unit.read(&memories, 0xD000_003C, 4), Ok(2));
    /// # Ok::<(), Refusal>(())
    /// ```
    #[inline]
    #[must_use = "where it says false nothing was written"]
    pub fn write_plain32(&mut self, address: u32, value: u32) -> bool {
        self.store(address, value.to_le_bytes())
    }
}

impl Default for Memories<'_> {
    fn default() -> Self {
        Memories::new()
    }
}

/// A copy of all bytes, in memories of its own.
impl Clone for Memories<'_> {
    fn clone(&self) -> Self {
        let all = [self.ram(), self.sram(), self.gpio(), self.framebuffer()];
        Memories::of(Slices::owned(all.map(Box::from)))
    }
}

/// The lengths, and no bytes: they may hold what is not to be shown.
impl fmt::Debug for Memories<'_> {
    fn fmt(&self, to: &mut fmt::Formatter) -> fmt::Result {
        let all = [self.ram(), self.sram(), self.gpio(), self.framebuffer()];
        to.debug_tuple("Memories").field(&all.map(<[u8]>::len)).finish()
    }
}
