//! The families for register words: merged words, and room for 256 others.

use super::families::Author;
use super::map::*;
use crate::common::numbers::*;

/// The edges of the three ranges, and neighbours of own words.
#[rustfmt::skip]
const OTHER_WORDS: [u32; 25] = [
    REGISTERS_C, REGISTERS_C + 4, TIMER_BASE - 4, TIMER_BASE + 0xC0, RTC_IRQ_BASE - 4,
    RTC_IRQ_BASE + 0xC, RTC_IRQ_BASE + 0x50, RTC_IRQ_BASE + 0x5C, 0xC006_0000, 0xC006_0010,
    SPI2_BASE + 4, RTC_BUS + 0x18, ADC_BASE + 0xC, OTHER_WORD, SPIFC_BASE + 0x10,
    REGISTERS_C_END - 4, REGISTERS_D, REGISTERS_D + 0x18, INTC_MASK + 4, LCD_BASE + 0x144,
    REGISTERS_D_END - 4, REGISTERS_F, 0xFF12_3454, REGISTERS_F_END - 8, REGISTERS_F_END - 4,
];

pub fn words(author: &mut Author) {
    let word = author.any_word();
    let value = author.value(&[0, 1, 0x08, 0x40, 0x80, 0x2040, 0xFFFF_FFFF]);
    match author.random.below(8) {
        0..=4 => {
            author.put_part(word, value);
            author.get(word);
        }
        5 => {
            author.put(word, value);
            author.list.read(word);
        }
        6 => {
            author.get_part(word);
            author.list.peek32(word);
            let at = author.random.below(4) as u32;
            author.list.peek8(word + at);
        }
        _ => {
            author.list.block(word & !0xFF, 0x100);
            if author.random.one_in(4) {
                author.pass();
            }
        }
    }
}

pub fn others(author: &mut Author) {
    if author.list.taken() < REGISTER_PLACES && author.random.one_in(12) {
        author.fill_others();
    }
    match author.random.below(10) {
        0..=2 => author.other_write(),
        3 => author.give_back(),
        4 | 5 => author.write_taken(),
        6 => author.zero_writes(),
        7 => author.needs_no_room(),
        8 => author.empties(),
        _ => {
            let word = author.other_word();
            author.get(word);
            author.list.peek32(word);
        }
    }
}

impl Author {
    /// Own words in turn, those never stored, and others.
    pub fn any_word(&mut self) -> u32 {
        let own: Vec<u32> = own_words().chain(NEVER_STORED).collect();
        match self.random.below(4) {
            0 => self.random.pick(&OTHER_WORDS),
            1 => self.other_word(),
            _ => own[self.next_turn(own.len())],
        }
    }

    pub fn other_word(&mut self) -> u32 {
        let at = self.bits();
        let word = match self.random.below(4) {
            0 => self.random.pick(&OTHER_WORDS),
            1 => REGISTERS_C + at % 0x00FF_F000,
            2 => REGISTERS_D + at % 0x0100_0000,
            _ => REGISTERS_F + at % 0x00FF_F000,
        };
        if takes_room(word & !3) {
            word & !3
        } else {
            OTHER_WORD
        }
    }

    fn taken_word(&mut self) -> Option<u32> {
        let taken = super::map::others(self.list.system());
        (!taken.is_empty()).then(|| self.random.pick(&taken))
    }

    pub fn fill_others(&mut self) {
        while self.list.taken() < REGISTER_PLACES {
            let (word, value) = (self.other_word(), self.bits());
            self.list.write(word, value | 1);
        }
    }

    /// With all places taken it is refused, if the word holds zero.
    fn other_write(&mut self) {
        let (word, value) = (self.other_word(), self.bits());
        self.put_part(word, value);
        self.list.read(word);
    }

    /// A zero word that is given back takes another's value.
    fn give_back(&mut self) {
        let Some(word) = self.taken_word() else { return };
        let (other, value) = (self.other_word(), self.bits());
        self.list.write(other, value | 1);
        self.list.write(word, 0);
        self.list.write(other, value | 1);
        self.list.write(word, value | 1);
        self.list.read(other);
        self.list.read(word);
    }

    fn write_taken(&mut self) {
        let Some(word) = self.taken_word() else { return };
        let value = self.bits();
        self.put_part(word, value);
        self.get(word);
    }

    /// Writes that leave a zero word zero need no room: the value is 0, or
    /// what is not 0 is cut off.
    fn zero_writes(&mut self) {
        let (word, at) = (self.other_word(), self.random.below(4) as u32);
        let (size, value) = match self.random.below(3) {
            0 => (self.size(), 0),
            1 => (1, self.bits() << 8),
            _ => (2, self.bits() << 16),
        };
        self.list.write_sized(size, word + at, value);
        self.list.write(word + 3, 0xFFFF_FF00);
        self.list.read(word);
    }

    fn needs_no_room(&mut self) {
        let word = self.random.pick(&NEVER_STORED);
        let own = self.random.pick(&OWN[..3]);
        let value = self.bits();
        self.put_part(word, value | 1);
        self.list.write(own, value);
        self.list.read(own);
        let address = self.address();
        self.list.write_sized(1, address, value);
    }

    /// Some places become free, byte for byte or at once.
    fn empties(&mut self) {
        for _ in 0..self.random.between(1, 6) {
            let Some(word) = self.taken_word() else { return };
            self.put(word, 0);
        }
    }
}
