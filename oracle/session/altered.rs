//! The Rust's side with one thing altered at each cut: the comparison must
//! find it by what is answered and left, without a look at the session.

use crate::bus::map::{others, own_words};
use crate::bus::steps::Board;
use crate::common::step::Device;
use crate::layout::waiting;
use crate::pairs::Pair;
use crate::run::continue_script;
use crate::starts::put_into;
use crate::sys::System;

/// Whether it changes anything that is there.
type Change = fn(&mut System) -> bool;

pub struct Alteration {
    pub name: &'static str,
    change: Change,
    /// The timers' periods are counted anew.
    resync: bool,
}

const fn of(name: &'static str, change: Change) -> Alteration {
    Alteration { name, change, resync: true }
}

pub const ALTERATIONS: [Alteration; 41] = [
    Alteration { resync: false, ..of("no timers_resync", without_resync) },
    Alteration { resync: false, ..of("period counts 0", counts_zero) },
    of("a timer's start", |s| running(s).map(|n| s.timers[n].start = s.now).is_some()),
    of("a timer's pending lost", |s| {
        s.timers.iter_mut().find(|timer| timer.pending).map(|timer| timer.pending = false).is_some()
    }),
    of("an own word lost", |s| {
        let word = own_words().find(|&word| s.reg(word) != 0);
        word.and_then(|word| s.regs.insert(word, 0)).is_some()
    }),
    of("an other word lost", |s| {
        let word = others(s).first().copied();
        word.and_then(|word| s.regs.insert(word, 0)).is_some()
    }),
    of("the last other word lost", |s| {
        let word = others(s).last().copied();
        word.and_then(|word| s.regs.insert(word, 0)).is_some()
    }),
    of("a conversion lost", |s| std::mem::take(&mut s.adc_converting)),
    of("power on again", |s| std::mem::take(&mut s.powered_off)),
    of("the panel's command lost", |s| s.lcd.cmd.take().is_some()),
    of("the panel's last argument lost", |s| s.lcd.args.pop().is_some()),
    of("half a pixel lost", |s| s.lcd.half.take().is_some()),
    of("half a pixel of another byte", |s| s.lcd.half.as_mut().map(|half| *half ^= 0x10).is_some()),
    of("the panel's column", |s| changed(&mut s.lcd.x, 0)),
    of("the panel's row", |s| changed(&mut s.lcd.y, 0)),
    of("the window's last column", |s| changed(&mut s.lcd.x1, 127)),
    of("the window's first row", |s| changed(&mut s.lcd.y0, 0)),
    of("frames", |s| changed(&mut s.lcd.frames, 0)),
    of("turbo 1 again", |s| changed(&mut s.turbo, 1.0)),
    of("game time is now", |s| {
        let now = s.now;
        changed(&mut s.game_time, now)
    }),
    of("the day's base", |s| changed(&mut s.rtc_irq.tod_base, 0)),
    of("when the day was set", |s| changed(&mut s.rtc_irq.tod_set_at, 0.0)),
    of("ticks fired", |s| changed(&mut s.rtc_irq.fired, 0)),
    of("the last vsync", |s| changed(&mut s.lcd.last_vsync, 0)),
    of("the RTC's base", |s| changed(&mut s.rtc.base_ticks, 0)),
    of("when the RTC's base was set", |s| changed(&mut s.rtc.base_time, 0.0)),
    of("what the RTC shows", |s| changed(&mut s.rtc.data_out, 0)),
    of("a register of the RTC", |s| {
        s.rtc.regs.iter_mut().find(|byte| **byte != 0).map(|byte| *byte = 0).is_some()
    }),
    of("the tone lost", |s| changed(&mut s.sound.state, (0.0, 0.5))),
    of("the oldest event lost", |s| {
        !s.sound.events.is_empty() && s.sound.events.remove(0).0 >= 0.0
    }),
    of("the newest event lost", |s| s.sound.events.pop().is_some()),
    of("the flash selected or not", |s| std::mem::take(&mut s.flash.cs)),
    of("write enable lost", |s| std::mem::take(&mut s.flash.wel)),
    of("flash writes", |s| changed(&mut s.flash.writes, 0)),
    of("the flash's answer", |s| changed(&mut s.flash.rx, 0)),
    of("a byte of the transaction lost", |s| s.flash.buf.pop().is_some()),
    of("a byte of the transaction's header", |s| {
        s.flash.buf.get_mut(2).map(|byte| *byte ^= 1).is_some()
    }),
    of("a press lost", |s| {
        let first = waiting(s).first().copied();
        let lost = first.and_then(|(_, time)| s.key_script.iter().position(|&(at, _)| at == time));
        lost.map(|at| s.key_script.remove(at)).is_some()
    }),
    of("a key up again", |s| {
        s.live_keys.iter_mut().find(|down| **down).map(|down| *down = false).is_some()
    }),
    of("a key held no more", |s| {
        let now = s.now;
        s.hold_until.iter_mut().find(|until| **until > now).map(|until| *until = 0.0).is_some()
    }),
    of("lines applied forgotten", |s| changed(&mut s.gpio_applied, [0; 8])),
];

fn running(system: &System) -> Option<usize> {
    let late = |n: &usize| system.timers[*n].start < system.now;
    (0..system.timers.len()).filter(late).find(|&n| system.reg(system.timers[n].base) & 0x2000 != 0)
}

fn changed<T: PartialEq>(place: &mut T, to: T) -> bool {
    let other = *place != to;
    *place = to;
    other
}

/// Whether it would have changed a count.
fn without_resync(system: &mut System) -> bool {
    let before = system.timers.clone();
    system.timers_resync();
    let seen = |timers: &[crate::sys::Timer]| -> Vec<u64> {
        timers.iter().map(|timer| timer.periods_seen).collect()
    };
    let other = seen(&system.timers) != seen(&before);
    system.timers = before;
    other
}

/// Whether a count would be another.
fn counts_zero(system: &mut System) -> bool {
    system.timers_resync();
    let zeros = system.timers.iter_mut().map(|timer| changed(&mut timer.periods_seen, 0));
    zeros.fold(false, |any, other| any | other)
}

impl Alteration {
    /// Whether it comes in the pair, as far as memories that are zero tell:
    /// the device alone is run, which is quick.
    pub fn comes(&'static self, pair: &Pair) -> bool {
        let mut alter = Alter { alteration: self, came: false };
        answers(pair, |system| alter.change(system));
        alter.came
    }

    /// Whether it comes and the answers tell.
    pub fn shows(&'static self, pair: &Pair) -> bool {
        let mut alter = Alter { alteration: self, came: false };
        let altered = answers(pair, |system| alter.change(system));
        alter.came && altered != answers(pair, System::timers_resync)
    }
}

/// What the device alone answers from memories that are zero, with something
/// done to it at each cut.
fn answers(pair: &Pair, mut at_cut: impl FnMut(&mut System)) -> Vec<Vec<u8>> {
    let mut board = Board::start();
    put_into(&mut board.system, &pair.puts);
    let mut outs = Vec::new();
    for (at, (script, out)) in pair.scripts.iter().enumerate() {
        if at > 0 {
            at_cut(&mut board.system);
        }
        outs.push(vec![0; *out]);
        continue_script(&mut board, script, &mut outs[at]);
    }
    outs
}

/// One alteration in a run.
pub struct Alter {
    pub alteration: &'static Alteration,
    pub came: bool,
}

impl Alter {
    pub fn change(&mut self, system: &mut System) {
        self.came |= (self.alteration.change)(system);
        if self.alteration.resync {
            system.timers_resync();
        }
    }
}
