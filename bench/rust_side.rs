//! The Rust device at a script's steps, with nothing around it that it does not
//! need: no step of these scripts is refused, so of what a step may be refused
//! for nothing is tested here that the device does not test itself. The kinds of
//! all steps are read before the first is run, as the port must.

use crate::bytes::KINDS;
use crate::common::numbers::*;
use crate::cpu::Bus;
use crate::sys::{Key, System};

fn word(bytes: &[u8], at: usize) -> u32 {
    u32::from_le_bytes(bytes[at..at + 4].try_into().unwrap())
}

fn wide(bytes: &[u8], at: usize) -> u64 {
    u64::from_le_bytes(bytes[at..at + 8].try_into().unwrap())
}

fn key(number: u32) -> Key {
    Key::all()[number as usize]
}

fn read(system: &mut System, size: u8, address: u32) -> u32 {
    match size {
        1 => system.read8(address).into(),
        2 => system.read16(address).into(),
        _ => system.read32(address),
    }
}

fn write(system: &mut System, size: u8, address: u32, value: u32) {
    match size {
        1 => system.write8(address, value as u8),
        2 => system.write16(address, value as u16),
        _ => system.write32(address, value),
    }
}

/// One pixel, as `rgb` gives it for all of them.
fn colour(system: &System, pixel: u32) -> u64 {
    let at = 2 * (pixel as usize % PIXELS);
    let v = u32::from(u16::from_le_bytes([system.lcd.fb[at], system.lcd.fb[at + 1]]));
    let (r, g, b) = (v >> 11 & 0x1F, v >> 5 & 0x3F, v & 0x1F);
    let (r, g, b) = (r * 255 / 31, g * 255 / 63, b * 255 / 31);
    (r << 16 | g << 8 | b).into()
}

/// The device has no wipe: its memories are cleared, and what is beside them
/// is that of a new one.
fn wipe(system: &mut System, fresh: &System) {
    for memory in [&mut system.ram, &mut system.sram, &mut system.gpio, &mut system.lcd.fb] {
        memory.fill(0);
    }
    system.regs.clear();
    system.timers.clone_from(&fresh.timers);
    (system.now, system.game_time, system.turbo) = (0.0, 0.0, 1.0);
    (system.powered_off, system.adc_converting) = (false, false);
    let fb = std::mem::take(&mut system.lcd.fb);
    let (cmd, args, half) = (None, Vec::new(), None);
    system.lcd = crate::sys::Lcd { fb, cmd, args, half, ..fresh.lcd.clone() };
    system.rtc = fresh.rtc.clone();
    system.rtc_irq = fresh.rtc_irq.clone();
    system.sound = fresh.sound.clone();
    system.flash = fresh.flash.clone();
    system.key_script.clear();
    (system.live_keys, system.hold_until) = ([false; 3], [0.0; 3]);
    system.gpio_applied = [0; 8];
}

fn step(system: &mut System, fresh: &System, step: &[u8]) -> [u64; 3] {
    let (address, value) = (word(step, 4), wide(step, 8));
    let number = f64::from_bits(value);
    let one = |a: u64| [a, 0, 0];
    match step[0] {
        READ => return one(read(system, step[1], address).into()),
        WRITE => write(system, step[1], address, value as u32),
        ADVANCE => system.advance(number),
        NEXT => return one(system.next_event().to_bits()),
        PENDING => return one(system.pending_irq().into()),
        TURBO => system.turbo = number,
        KEY => system.live_keys[address as usize] = value != 0,
        HOLD => system.hold_until[address as usize] = number,
        SOUND => {
            let (time, frequency, duty) = system.sound.events.remove(0);
            return [time, frequency, duty].map(f64::to_bits);
        }
        COUNTERS => return [system.lcd.frames, system.flash.writes, system.powered_off.into()],
        COLOUR => return one(colour(system, address)),
        _ => wipe(system, fresh),
    }
    [0; 3]
}

fn lay(answer: [u64; 3], to: &mut [u8]) {
    to[0] = 0;
    for (number, to) in answer.iter().zip(to[1..].chunks_exact_mut(8)) {
        to.copy_from_slice(&number.to_le_bytes());
    }
}

/// All of them, and no end at the first bad one: so it is quickest for a script that is right.
fn kinds_known(steps: &[u8]) -> bool {
    let known = |step: &[u8]| KINDS.contains(&step[0]);
    steps.chunks_exact(STEP_BYTES).fold(true, |all, step| all & known(step))
}

/// As `tg18_run_script`, from a device that is new, for a script whose counts are right.
pub fn run(system: &mut System, fresh: &System, script: &[u8], out: &mut [u8]) -> u32 {
    let presses = word(script, 0) as usize;
    let first = 8 + PRESS_BYTES * presses;
    if !kinds_known(&script[first..]) {
        return BAD_SCRIPT.into();
    }
    run_all(system, fresh, script, out);
    0
}

/// By itself, so that it is compiled as if no kinds had been read.
#[inline(never)]
fn run_all(system: &mut System, fresh: &System, script: &[u8], out: &mut [u8]) {
    let presses = word(script, 0) as usize;
    let first = 8 + PRESS_BYTES * presses;
    let steps = word(script, first - 4) as usize;
    let (count, answers) = out.split_at_mut(4);
    count.copy_from_slice(&((presses + steps) as u32).to_le_bytes());
    let (pressed, stepped) = answers.split_at_mut(ANSWER_BYTES * presses);
    let entries = script[4..first - 4].chunks_exact(PRESS_BYTES);
    for (press, to) in entries.zip(pressed.chunks_exact_mut(ANSWER_BYTES)) {
        system.key_script.push((f64::from_bits(wide(press, 1)), key(press[0].into())));
        lay([0; 3], to);
    }
    let entries = script[first..].chunks_exact(STEP_BYTES);
    for (entry, to) in entries.zip(stepped.chunks_exact_mut(ANSWER_BYTES)) {
        lay(step(system, fresh, entry), to);
    }
}
