//! Runs a processor over a bus as the Rust's machine does: in slices between
//! which the hardware is brought up to date, with interrupts taken at their
//! beginnings, and with idle time skipped.

use crate::board::{Board, Event};
use crate::common::numbers::{ADC_IRQ, LCD_IRQ, RTC_IRQ, TIMER_IRQ};
use crate::cpu::{Cpu, FLAG_I, MODE_IRQ};
use crate::hand::Hand;
use crate::note::{Look, Note};

// The machine's own numbers: `core/src/machine.rs` of the Rust sources has them,
// which needs more than is there to be compiled.
pub const CPU_HZ: f64 = 96_000_000.0;
const RESET_PC: u32 = 0x2000_0048;
const IRQ_VECTOR: u32 = 0x2000_03C4;
const SLICE: u64 = 1_000;
const IDLE_PROBE: u64 = 10_000;
const IDLE_PASSES: usize = 3;
const IDLE_BACKOFF: u32 = 20;

/// So many instructions run between two notes of the state, and sound events are
/// taken as often: programs make fewer in them than the 256 that have a place.
const CHUNK: u64 = 250;

/// An address at which no instruction can stand.
const NOWHERE: u32 = 1;

pub const NUMBERS: [u32; 4] = [RTC_IRQ, TIMER_IRQ, LCD_IRQ, ADC_IRQ];

#[derive(Clone, Copy, Default)]
pub struct Tally {
    pub instructions: u64,
    /// In the order of `NUMBERS`.
    pub interrupts: [u64; 4],
    pub skips: u64,
    pub events: u64,
}

pub struct Machine<B> {
    pub cpu: Cpu,
    pub board: B,
    /// Instructions executed or skipped: time.
    executed: u64,
    hand: Hand,
    wait: u32,
    pub tally: Tally,
    /// Whether notes are taken.
    pub watched: bool,
    pub notes: Vec<Note>,
    events: Vec<Event>,
}

impl<B: Board> Machine<B> {
    pub fn new(board: B, executed: u64, seed: u64) -> Machine<B> {
        let mut cpu = Cpu::new();
        cpu.r[15] = RESET_PC;
        Machine {
            cpu,
            board,
            executed,
            hand: Hand::new(seed),
            wait: 0,
            tally: Tally::default(),
            watched: false,
            notes: Vec::new(),
            events: Vec::new(),
        }
    }

    pub fn over(&self) -> bool {
        self.board.stopped() || self.cpu.fault.is_some()
    }

    fn note(&mut self, note: Note) {
        if self.watched {
            self.notes.push(note);
        }
    }

    /// One slice, and what comes before and after it.
    pub fn turn(&mut self) {
        let now = self.executed as f64 / CPU_HZ;
        self.board.advance(now);
        self.hand.act(&mut self.board, now);
        self.look();
        if self.board.irq_wanted() && self.cpu.cpsr & FLAG_I == 0 {
            self.interrupt();
        }
        self.exec(SLICE, NOWHERE);
        if !self.over() {
            self.look_for_idling();
        }
    }

    /// Not at once again where it was in vain.
    fn look_for_idling(&mut self) {
        if self.wait > 0 {
            self.wait -= 1;
        } else if !self.try_skip() {
            self.wait = IDLE_BACKOFF;
        }
    }

    /// Notes what a host can ask.
    pub fn look(&mut self) {
        if self.watched {
            let look = Look::at(&mut self.board);
            self.notes.push(Note::Look(look));
        }
    }

    fn interrupt(&mut self) {
        let number = self.board.pending_irq();
        for (known, count) in NUMBERS.iter().zip(&mut self.tally.interrupts) {
            *count += u64::from(number == *known);
        }
        self.note(Note::Taken(number));
        self.cpu.enter_irq(IRQ_VECTOR);
    }

    /// Up to so many instructions, or until it comes to this address.
    fn exec(&mut self, most: u64, watch: u32) -> u64 {
        let mut done = 0;
        while done < most {
            let wished = CHUNK.min(most - done);
            let ran = self.chunk(wished, watch);
            done += ran;
            self.take_events();
            if self.watched {
                self.notes.push(Note::State(self.cpu.state(), self.cpu.fault));
            }
            if ran < wished || self.cpu.r[15] == watch || self.over() {
                break;
            }
        }
        self.executed += done;
        self.tally.instructions += done;
        done
    }

    fn chunk(&mut self, most: u64, watch: u32) -> u64 {
        for done in 1..=most {
            self.cpu.step(&mut self.board);
            if self.cpu.r[15] == watch || self.over() {
                return done;
            }
        }
        most
    }

    fn take_events(&mut self) {
        self.board.take_events(&mut self.events);
        self.tally.events += self.events.len() as u64;
        if self.watched {
            self.notes.extend(self.events.iter().map(|&event| Note::Sound(event)));
        }
        self.events.clear();
    }

    fn visible(&self) -> ([u32; 16], u32) {
        (self.cpu.r, self.cpu.cpsr)
    }

    /// If the processor goes round a loop and leaves all as it was, time goes on to
    /// the next event.
    fn try_skip(&mut self) -> bool {
        if self.cpu.mode() == MODE_IRQ {
            return false;
        }
        for _ in 0..IDLE_PASSES {
            self.board.track();
            let round = self.goes_round();
            let undone = self.board.undone();
            if !round {
                return false;
            }
            if undone {
                self.skip();
                return true;
            }
        }
        false
    }

    /// Whether it comes back to where it is with all registers as they are.
    fn goes_round(&mut self) -> bool {
        let (before, pc) = (self.visible(), self.cpu.r[15]);
        let mut left = IDLE_PROBE;
        loop {
            left -= self.exec(left, pc);
            if self.over() || self.cpu.r[15] != pc {
                return false;
            }
            if self.visible() == before {
                return true;
            }
            if left == 0 {
                return false;
            }
        }
    }

    fn skip(&mut self) {
        let next = self.board.next_event();
        self.note(Note::Jump(next.to_bits()));
        let target = (next * CPU_HZ) as u64 + 1;
        if target > self.executed {
            self.executed = target;
            self.tally.skips += 1;
        }
    }
}
