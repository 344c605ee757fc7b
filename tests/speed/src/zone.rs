//! The zone part: one zone, lent to every step.

use crate::{everybody, fewest, has_gates, is_edition, FIRST_EDITION};

/// The stock and the own events that a mark keeps.
#[repr(C)]
#[derive(Clone, Copy, Debug, Default, PartialEq, Eq)]
pub struct Saved {
    pub stock: u16,
    pub events: u16,
}

/// A zone. Mark 0 is none, 1 provisional, 2 firm. The fields stand as in c/cut/zone.h, so that the same
/// zone can be lent to the proved code.
#[repr(C)]
#[derive(Clone, Copy, Debug, Default, PartialEq, Eq)]
pub struct Zone {
    pub number: u8,
    pub count: u8,
    pub deps: u8,
    pub edition: u8,
    pub stock: u16,
    pub events: u16,
    pub saved: Saved,
    pub mark: u32,
}

/// What a step answers beside the zone: the marked bit of a hand-over, the zones to be sent a request
/// and the set that each request carries.
#[derive(Clone, Copy, Debug, Default, PartialEq, Eq)]
pub struct Answer {
    pub refusal: u8,
    pub flag: u8,
    pub to: u8,
    pub carried: u8,
}

impl Answer {
    fn refused(refusal: u8) -> Answer {
        Answer {
            refusal,
            ..Answer::default()
        }
    }
}

const MOST_EVENTS: u16 = 1_000;

impl Zone {
    /// Opens a zone; a refused opening gives zone 1 of 2 with stock 0 and edition 1.
    #[inline(never)]
    pub fn open(&mut self, edition: u8, count: u8, number: u8, stock: u16) -> u8 {
        let refusal = if !is_edition(edition) {
            15
        } else if !(2..=8).contains(&count) {
            2
        } else if number.wrapping_sub(1) >= count {
            5
        } else {
            0
        };
        let (edition, number, count, stock) = match refusal {
            0 => (edition, number, count, stock),
            _ => (FIRST_EDITION, 1, 2, 0),
        };
        *self = Zone {
            number,
            count,
            deps: 1 << ((number - 1) % 8),
            stock,
            edition,
            ..Zone::default()
        };
        refusal
    }

    /// Question 1.
    #[inline(always)]
    fn is_sound(&self) -> bool {
        (2..=8).contains(&self.count)
            && self.number.wrapping_sub(1) < self.count
            && self.deps & !everybody(self.count) == 0
            && self.events <= MOST_EVENTS
            && self.mark <= 2
            && is_edition(self.edition)
    }

    /// Question 5 for the other zone of a hand-over.
    #[inline(always)]
    fn is_other(&self, zone: u8) -> bool {
        zone.wrapping_sub(1) < self.count && zone != self.number
    }

    /// Says whether a hand-over is traffic.
    #[inline(always)]
    fn is_traffic(&self, cars: u8) -> bool {
        u16::from(cars) >= fewest(self.edition)
    }

    #[inline(always)]
    fn save(&mut self) {
        self.saved = Saved {
            stock: self.stock,
            events: self.events,
        };
    }

    #[inline(never)]
    pub fn send(&mut self, to: u8, cars: u8) -> Answer {
        if !self.is_sound() {
            return Answer::refused(1);
        }
        if !self.is_other(to) {
            return Answer::refused(5);
        }
        if self.events >= MOST_EVENTS {
            return Answer::refused(6);
        }
        let Some(stock) = self.stock.checked_sub(u16::from(cars)) else {
            return Answer::refused(7);
        };
        self.stock = stock;
        self.events += u16::from(self.is_traffic(cars));
        Answer {
            flag: u8::from(self.mark != 0),
            ..Answer::default()
        }
    }

    #[inline(never)]
    pub fn receive(&mut self, from: u8, cars: u8, flag: bool) -> Answer {
        if !self.is_sound() {
            return Answer::refused(1);
        }
        if !self.is_other(from) {
            return Answer::refused(5);
        }
        if self.events >= MOST_EVENTS {
            return Answer::refused(6);
        }
        let Some(stock) = self.stock.checked_add(u16::from(cars)) else {
            return Answer::refused(20);
        };
        if !self.is_traffic(cars) {
            return Answer::default();
        }
        if self.mark == 0 {
            if flag {
                self.save();
                self.mark = 1;
            } else {
                self.deps |= 1 << ((from - 1) % 8);
            }
        }
        self.stock = stock;
        self.events += 1;
        Answer::default()
    }

    /// The zone turns firm and asks the zones of its heard set that are not in the received one.
    #[inline(always)]
    fn turn_firm(&mut self, received: u8) -> Answer {
        if self.mark == 0 {
            self.save();
        }
        self.mark = 2;
        let to = self.deps & !(received | 1 << ((self.number - 1) % 8));
        Answer {
            to,
            carried: if to == 0 { 0 } else { self.deps | received },
            ..Answer::default()
        }
    }

    #[inline(never)]
    pub fn request(&mut self, set: u8) -> Answer {
        if !self.is_sound() {
            return Answer::refused(1);
        }
        if set & !everybody(self.count) != 0 {
            return Answer::refused(5);
        }
        if self.mark == 2 {
            return Answer::default();
        }
        self.turn_firm(set)
    }

    #[inline(never)]
    pub fn start(&mut self) -> Answer {
        if !self.is_sound() {
            return Answer::refused(1);
        }
        if self.mark != 0 {
            return Answer::refused(11);
        }
        self.turn_firm(0)
    }

    /// Questions 1, 15 and 6 at the gate, and then the stock with the cars; without one it is the number
    /// of the last question.
    #[inline(always)]
    fn gate(&mut self, stock: Option<u16>, refusal: u8) -> Answer {
        if !self.is_sound() {
            return Answer::refused(1);
        }
        if !has_gates(self.edition) {
            return Answer::refused(15);
        }
        if self.events >= MOST_EVENTS {
            return Answer::refused(6);
        }
        let Some(stock) = stock else {
            return Answer::refused(refusal);
        };
        self.stock = stock;
        self.events += 1;
        Answer::default()
    }

    #[inline(never)]
    pub fn enter(&mut self, cars: u8) -> Answer {
        self.gate(self.stock.checked_add(u16::from(cars)), 20)
    }

    #[inline(never)]
    pub fn leave(&mut self, cars: u8) -> Answer {
        self.gate(self.stock.checked_sub(u16::from(cars)), 7)
    }
}
