//! What stood at the cuts.

use std::collections::{BTreeMap, BTreeSet};

use crate::bus::map::others;
use crate::common::numbers::*;
use crate::layout::waiting;
use crate::sys::System;

/// Every command of the flash that does or answers something.
#[rustfmt::skip]
const COMMANDS: [u8; 17] = [
    0x02, 0x03, 0x04, 0x05, 0x06, 0x0B, 0x15, 0x20, 0x35, 0x4B, 0x52, 0x60, 0x90, 0x9F, 0xAB, 0xC7,
    0xD8,
];

#[derive(Default)]
pub struct Situations {
    cuts: u64,
    commands: BTreeMap<String, u64>,
    selected: BTreeMap<&'static str, u64>,
    unselected: BTreeMap<&'static str, u64>,
    panel: BTreeMap<String, u64>,
    devices: BTreeMap<&'static str, u64>,
    each: BTreeMap<String, u64>,
}

fn bytes_come(count: usize) -> &'static str {
    match count {
        0 => "0 bytes",
        1 => "1 byte",
        2 => "2 bytes",
        3 => "3 bytes",
        4 => "4 bytes",
        5..=260 => "5 to 260",
        _ => "over 260",
    }
}

fn print<K: std::fmt::Display>(name: &str, counts: &BTreeMap<K, u64>) {
    let each: Vec<String> = counts.iter().map(|(key, count)| format!("{key}: {count}")).collect();
    println!("at the cuts, {name}: {}", each.join(", "));
}

impl Situations {
    /// The device is looked at, and its timers' counts for what `timers_resync`
    /// would make of them.
    pub fn look(&mut self, system: &mut System) {
        self.cuts += 1;
        self.flash(system);
        self.panel(system);
        self.each(system);
        let presses = waiting(system).len();
        let before: Vec<u64> = system.timers.iter().map(|timer| timer.periods_seen).collect();
        let timers = system.timers.clone();
        system.timers_resync();
        let changed =
            system.timers.iter().zip(&before).any(|(timer, &was)| timer.periods_seen != was);
        system.timers = timers;
        let runs = |timer: &crate::sys::Timer| system.reg(timer.base) & 0x2000 != 0;
        let full = |count, most| count >= most;
        for (name, stands) in [
            ("presses that wait", presses > 0),
            ("presses that have expired", presses < system.key_script.len()),
            ("64 presses", full(presses, KEY_PLACES)),
            ("other words", !others(system).is_empty()),
            ("256 other words", full(others(system).len(), REGISTER_PLACES)),
            ("sound events", !system.sound.events.is_empty()),
            ("256 sound events", full(system.sound.events.len(), SOUND_PLACES)),
            ("a tone", system.sound.state.0 != 0.0),
            ("a conversion under way", system.adc_converting),
            ("timers running", system.timers.iter().any(runs)),
            ("timers pending", system.timers.iter().any(|timer| timer.pending)),
            (
                "timers running and pending",
                system.timers.iter().any(|timer| runs(timer) && timer.pending),
            ),
            ("period counts that the resync changes", changed),
            ("power off", system.powered_off),
            ("turbo not 1", system.turbo != 1.0),
            ("game time not now", system.game_time != system.now),
            ("keys down", system.live_keys.contains(&true)),
            ("keys held on", system.hold_until.iter().any(|&until| until > system.now)),
            ("lines applied", system.gpio_applied[1] != 0),
            ("RTC set", system.rtc.base_ticks != 0),
            ("an alarm on", system.rtc.alarm_ticks().is_some()),
            ("time of day set", system.rtc_irq.tod_base != 0),
            ("write enable", system.flash.wel),
            ("late: now over 2,000,000", system.now > 2_000_000.0),
            ("fresh in time: now 0", system.now == 0.0),
        ] {
            *self.devices.entry(name).or_default() += u64::from(stands);
        }
    }

    fn flash(&mut self, system: &System) {
        let flash = &system.flash;
        let come = bytes_come(flash.buf.len());
        if !flash.cs {
            *self.unselected.entry(come).or_default() += 1;
            return;
        }
        *self.selected.entry(come).or_default() += 1;
        // A fast read has a dummy byte as well.
        let header = if flash.buf.first() == Some(&0x0B) { 5 } else { 4 };
        let amid = if flash.buf.len() > header { "data" } else { "header" };
        let command = match flash.buf.first() {
            None => "none yet".to_string(),
            Some(byte) if COMMANDS.contains(byte) => format!("{byte:02x} {amid}"),
            Some(_) => "other".to_string(),
        };
        *self.commands.entry(command).or_default() += 1;
    }

    /// The timers and keys one by one.
    fn each(&mut self, system: &System) {
        let mut stands = |name: String| *self.each.entry(name).or_default() += 1;
        for (n, timer) in system.timers.iter().enumerate() {
            if system.reg(timer.base) & 0x2000 != 0 {
                stands(format!("timer {n} running"));
            }
            if timer.pending {
                stands(format!("timer {n} pending"));
            }
        }
        for n in 0..3 {
            if system.live_keys[n] {
                stands(format!("key {n} down"));
            }
            if system.hold_until[n] > system.now {
                stands(format!("key {n} held on"));
            }
            if waiting(system).iter().any(|&(key, _)| key as usize == n) {
                stands(format!("key {n} with a press"));
            }
        }
    }

    fn panel(&mut self, system: &System) {
        let lcd = &system.lcd;
        let stands = match lcd.cmd {
            Some(command @ (COLUMNS | ROWS)) => {
                format!("{command:02x} with {} arguments", lcd.args.len().min(5))
            }
            Some(PAINT) => {
                let whole = if lcd.half.is_some() { "half a pixel held" } else { "no half" };
                let amid = (lcd.x, lcd.y) != (lcd.x0, lcd.y0);
                format!("2c, {whole}, {} the window", if amid { "amid" } else { "at the start of" })
            }
            Some(_) => format!("another command with {} arguments", lcd.args.len().min(5)),
            None => "no command".to_string(),
        };
        *self.panel.entry(stands).or_default() += 1;
    }

    pub fn report(&self) {
        println!("cuts {}", self.cuts);
        print("commands of the flash, selected", &self.commands);
        print("bytes of its transaction, selected", &self.selected);
        print("bytes of its transaction, not selected", &self.unselected);
        print("panel", &self.panel);
        print("there were", &self.devices);
        print("timers and keys", &self.each);
    }

    /// All that stood.
    pub fn names(&self) -> BTreeSet<String> {
        let come = [("selected", &self.selected), ("not selected", &self.unselected)];
        let come = come
            .into_iter()
            .flat_map(|(how, counts)| counts.keys().map(move |name| format!("{how}, {name}")));
        let devices = self.devices.iter().filter(|(_, &count)| count > 0);
        let devices = devices.map(|(name, _)| name.to_string());
        let others = self.commands.keys().chain(self.panel.keys()).chain(self.each.keys());
        come.chain(devices).chain(others.cloned()).collect()
    }

    /// Situations that never stood: among them each command of the flash with
    /// its header under way, and past it.
    pub fn missing(&self) -> Vec<String> {
        let devices = self.devices.iter().filter(|(_, &count)| count == 0);
        let devices = devices.map(|(name, _)| name.to_string());
        let commands = COMMANDS
            .iter()
            .flat_map(|byte| ["header", "data"].map(|amid| format!("{byte:02x} {amid}")));
        let commands = commands.filter(|name| !self.commands.contains_key(name));
        let come = ["0 bytes", "1 byte", "2 bytes", "3 bytes", "4 bytes", "5 to 260", "over 260"];
        let come = come.into_iter().filter(|&name| {
            !self.selected.contains_key(name) || !self.unselected.contains_key(name)
        });
        devices.chain(commands).chain(come.map(str::to_string)).collect()
    }
}
