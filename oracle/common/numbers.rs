//! Every number that the port has, too: one constant a line, and nothing else
//! on it, so that a script can compare them with another list. Where document
//! 000 names a number the name is its own, and `device.rs` holds them equal.

// Memories: where they begin, the first address behind them (behind GPIO are
// registers), and their bytes. The flash's array is the first bytes of RAM.
pub const FLASH_BASE: u32 = 0x2000_0000;
pub const RAM_END: u32 = 0x2100_0000;
pub const SRAM_BASE: u32 = 0xF800_0000;
pub const SRAM_END: u32 = 0xF810_0000;
pub const GPIO_BASE: u32 = 0xC000_0000;
pub const RAM_BYTES: usize = 0x100_0000;
pub const FLASH_BYTES: usize = 0x80_0000;
pub const SRAM_BYTES: usize = 0x10_0000;
pub const GPIO_BYTES: usize = 0x1000;
pub const FRAMEBUFFER_BYTES: usize = 0x8000;
pub const SCREEN_BYTES: usize = 0xC000;
pub const PIXELS: usize = 0x4000;
pub const LCD_W: usize = 128;
pub const LCD_H: usize = 128;

// RAM, array and SRAM of the programs that read lists.
pub const SMALL_BYTES: usize = 0x1_0000;

// The three ranges of registers: the first address of each, and the first
// behind it.
pub const REGISTERS_C: u32 = 0xC000_1000;
pub const REGISTERS_C_END: u32 = 0xC100_0000;
pub const REGISTERS_D: u32 = 0xD000_0000;
pub const REGISTERS_D_END: u32 = 0xD100_0000;
pub const REGISTERS_F: u32 = 0xFF00_0000;
pub const REGISTERS_F_END: u32 = 0xFFFF_F000;

// The words of memories that devices read or write.
pub const KEY_LINES: u32 = 0xC000_0020;
pub const SYSCLK_VAR: u32 = 0xF800_90A4;

// Timers: where the first begins, how many they are, how far apart, and all
// their words; then the words of one that do something.
pub const TIMER_BASE: u32 = 0xC002_0000;
pub const TIMER_COUNT: usize = 6;
pub const TIMER_STEP: u32 = 0x20;
pub const TIMER_WORDS: u32 = 48;
pub const SOUND_TIMER: usize = 4;
pub const CONTROL_AT: u32 = 0x00;
pub const RELOAD_AT: u32 = 0x08;
pub const COMPARE_AT: u32 = 0x0C;
pub const COUNTER_AT: u32 = 0x10;

// The time of day, and its tick.
pub const RTC_IRQ_BASE: u32 = 0xC004_0000;
pub const RTC_SECONDS: u32 = 0xC004_0000;
pub const RTC_MINUTES: u32 = 0xC004_0004;
pub const RTC_HOURS: u32 = 0xC004_0008;
pub const RTC_IRQ_STATUS: u32 = 0xC004_0054;
pub const RTC_IRQ_ENABLE: u32 = 0xC004_0058;
pub const RTC_TICK_BIT: u32 = 0x2;

// The second serial port.
pub const SPI2_BASE: u32 = 0xC008_0000;
pub const SPI2_SEND: u32 = 0xC008_0008;
pub const SPI2_STATUS: u32 = 0xC008_000C;
pub const SPI2_ANSWER: u32 = 0xC008_0010;
pub const SPI2_IDLE: u32 = 0x00;

// The RTC chip's bus.
pub const RTC_BUS: u32 = 0xC009_0000;
pub const RTC_ADDRESS: u32 = 0xC009_0004;
pub const RTC_DATA: u32 = 0xC009_0008;
pub const RTC_COMMAND: u32 = 0xC009_000C;
pub const RTC_READY: u32 = 0xC009_0010;
pub const RTC_OUT: u32 = 0xC009_0014;

// The ADC.
pub const ADC_BASE: u32 = 0xC00C_0000;
pub const ADC_CONTROL: u32 = 0xC00C_0004;
pub const ADC_RESULT: u32 = 0xC00C_0008;
pub const ADC_BATTERY: u32 = 0xC000;

// The flash, and the bit that selects it.
pub const SPIFC_BASE: u32 = 0xC015_0000;
pub const SPIFC_SELECT: u32 = 0xC015_0000;
pub const SPIFC_STATUS: u32 = 0xC015_0004;
pub const SPIFC_SEND: u32 = 0xC015_0008;
pub const SPIFC_ANSWER: u32 = 0xC015_000C;
pub const FLASH_SELECTED: u32 = 0x40;

// Clock switch, power and interrupts.
pub const CLOCK_SWITCH: u32 = 0xD000_001C;
pub const CLOCK_STATUS: u32 = 0xD000_003C;
pub const POWER_REG: u32 = 0xD000_0078;
pub const INTC_PENDING: u32 = 0xD010_0028;
pub const INTC_PENDING_FIQ: u32 = 0xD010_002C;
pub const INTC_MASK: u32 = 0xD010_0030;
pub const INTC_DISABLE: u32 = 0xD010_0038;
pub const RTC_IRQ: u32 = 1;
pub const TIMER_IRQ: u32 = 8;
pub const LCD_IRQ: u32 = 27;
pub const ADC_IRQ: u32 = 29;

// The panel, what its control starts, and its commands.
pub const LCD_BASE: u32 = 0xD050_0000;
pub const LCD_CONTROL: u32 = 0xD050_0140;
pub const LCD_DATA: u32 = 0xD050_016C;
pub const LCD_ENABLE: u32 = 0xD050_0188;
pub const LCD_STATUS: u32 = 0xD050_018C;
pub const LCD_DMA: u32 = 0xD050_033C;
pub const SEND_COMMAND: u32 = 0x81;
pub const SEND_BYTE: u32 = 0x20A1;
pub const SEND_TWO: u32 = 0xA1;
pub const START_DMA: u32 = 0xD1;
pub const COLUMNS: u8 = 0x2A;
pub const ROWS: u8 = 0x2B;
pub const PAINT: u8 = 0x2C;
pub const VSYNC_HZ: f64 = 60.0;

// Limits: times, turbos, and how many presses, register words without storage
// of their own, and sound events have a place.
pub const LAST_TIME: f64 = 2_097_152.0;
pub const LAST_GAME_TIME: f64 = 2_147_483_648.0;
pub const SLOWEST: f64 = 0.000_976_562_5;
pub const FASTEST: f64 = 1_024.0;
pub const KEY_HOLD: f64 = 0.15;
pub const KEY_PLACES: usize = 64;
pub const REGISTER_PLACES: usize = 256;
pub const SOUND_PLACES: usize = 256;

// Scripts: their limits, and the bytes of what stands in them.
pub const MOST_PRESSES: usize = 4_096;
pub const MOST_STEPS: usize = 4_096;
pub const PRESS_BYTES: usize = 9;
pub const STEP_BYTES: usize = 16;
pub const ANSWER_BYTES: usize = 25;

// Kinds of steps.
pub const READ: u8 = 1;
pub const WRITE: u8 = 2;
pub const ADVANCE: u8 = 3;
pub const NEXT: u8 = 4;
pub const PENDING: u8 = 5;
pub const TURBO: u8 = 6;
pub const KEY: u8 = 7;
pub const HOLD: u8 = 8;
pub const SOUND: u8 = 9;
pub const COUNTERS: u8 = 10;
pub const COLOUR: u8 = 11;
pub const WIPE: u8 = 12;

// Refusals.
pub const BAD_TIME: u8 = 1;
pub const BAD_TURBO: u8 = 2;
pub const KEYS_FULL: u8 = 3;
pub const REGISTERS_FULL: u8 = 4;
pub const SOUND_FULL: u8 = 5;
pub const STRAY_WRITE: u8 = 6;
pub const BAD_MEMORY: u8 = 7;
pub const BAD_KEY: u8 = 8;
pub const BAD_SIZE: u8 = 9;
pub const BAD_SCRIPT: u8 = 10;
pub const OUT_TOO_SHORT: u8 = 11;
pub const NO_EVENT: u8 = 12;
pub const NO_NEXT_TIME: u8 = 13;
pub const BAD_SAVE: u8 = 14;
pub const SAVE_TOO_SHORT: u8 = 15;
