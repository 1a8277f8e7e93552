//! The family for what is damaged on the way to flash and panel.

use super::families::Author;
use super::flash::with_address;
use crate::common::numbers::PAINT;

/// Bytes of a transaction or of pixels are missing, added or changed, and then
/// comes the same without damage.
pub fn damage(author: &mut Author) {
    if author.random.one_in(2) {
        author.damaged_flash();
    } else {
        author.damaged_pixels();
    }
    author.list.counters();
}

impl Author {
    fn damaged_flash(&mut self) {
        let address = self.flash_address();
        let data = self.data(4);
        let command = self.random.pick(&[0x02, 0x02, 0x02, 0x20, 0x52]);
        let good = with_address(command, address, &data);
        let mut bad = good.clone();
        self.random.damage(&mut bad);
        self.frame(&[0x06]);
        self.frame(&bad);
        self.list.digest(0);
        self.frame(&[0x06]);
        self.frame(&good);
        self.frame(&with_address(0x03, address, &[0; 4]));
        self.list.digest(0);
    }

    /// A few pixels with damage, and then the same without.
    fn damaged_pixels(&mut self) {
        self.window();
        let good = self.data(12);
        let mut bad = good.clone();
        for _ in 0..self.random.between(1, 3) {
            self.random.damage(&mut bad);
        }
        for bytes in [bad, good] {
            self.send_command(PAINT);
            self.send(&bytes);
            self.list.digest(3);
            self.pixel();
        }
    }
}
