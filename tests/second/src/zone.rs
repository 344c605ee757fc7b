//! One zone: the bare rules of its steps, and the zone part that asks its questions first.

use crate::edition::{has_gates, is_known, is_traffic};

/// The stock and the number of own events that a mark keeps.
#[derive(Clone, Copy, Debug, PartialEq, Eq)]
pub struct Saved {
    pub stock: u32,
    pub events: u32,
}

#[derive(Clone, Copy, Debug, PartialEq, Eq)]
pub enum Mark {
    None,
    Provisional(Saved),
    Firm(Saved),
}

/// What a zone keeps, apart from its own number, the zone count and the edition.
#[derive(Clone, Copy, Debug, PartialEq, Eq)]
pub struct Body {
    pub stock: u32,
    pub events: u32,
    pub heard: u8,
    pub mark: Mark,
}

/// The zones that are sent a request, and the set that each request carries.
#[derive(Clone, Copy, Debug, PartialEq, Eq)]
pub struct Requests {
    pub to: u8,
    pub carried: u8,
}

pub const NO_REQUESTS: Requests = Requests { to: 0, carried: 0 };

/// Says whether a zone number is one of the site's.
pub fn on_site(zone: u32, count: u32) -> bool {
    1 <= zone && zone <= count
}

/// The set that has one zone, which must be 1 to 8.
pub fn only(zone: u32) -> u8 {
    1 << (zone - 1)
}

/// Says whether a set names only zones of a site of 2 to 8 zones.
pub fn set_on_site(set: u8, count: u32) -> bool {
    u32::from(set) < 1 << count
}

/// Requests to the zones of `to`; without any, the carried set is empty too.
fn requests(to: u8, carried: u8) -> Requests {
    if to == 0 {
        NO_REQUESTS
    } else {
        Requests { to, carried }
    }
}

/// The bare rules: these ask nothing, their callers have asked.
impl Body {
    pub fn opened(zone: u32, stock: u16) -> Body {
        Body {
            stock: u32::from(stock),
            events: 0,
            heard: only(zone),
            mark: Mark::None,
        }
    }

    fn now(&self) -> Saved {
        Saved {
            stock: self.stock,
            events: self.events,
        }
    }

    pub fn is_firm(&self) -> bool {
        matches!(self.mark, Mark::Firm(_))
    }

    /// Sends cars and gives the marked bit of the hand-over, which a line check has too.
    pub fn send(&mut self, edition: u32, cars: u8) -> bool {
        self.stock -= u32::from(cars);
        self.events += u32::from(is_traffic(edition, cars));
        self.mark != Mark::None
    }

    /// Takes a hand-over: the heard set or the mark changes before the stock rises. A line check
    /// changes nothing.
    pub fn take(&mut self, edition: u32, sender: u32, cars: u8, marked: bool) {
        if !is_traffic(edition, cars) {
            return;
        }
        if self.mark == Mark::None {
            if marked {
                self.mark = Mark::Provisional(self.now());
            } else {
                self.heard |= only(sender);
            }
        }
        self.stock += u32::from(cars);
        self.events += 1;
    }

    /// Cars drive in from the street: an own event, "also with 0 cars". The heard set and the mark
    /// stay, and no request is sent.
    pub fn enter(&mut self, cars: u8) {
        self.stock += u32::from(cars);
        self.events += 1;
    }

    /// Cars drive out to the street, with the same effect but on the stock.
    pub fn leave(&mut self, cars: u8) {
        self.stock -= u32::from(cars);
        self.events += 1;
    }

    pub fn start(&mut self, own: u32) -> Requests {
        self.mark = Mark::Firm(self.now());
        requests(self.heard & !only(own), self.heard)
    }

    pub fn request(&mut self, own: u32, received: u8) -> Requests {
        match self.mark {
            Mark::Firm(_) => return NO_REQUESTS,
            Mark::Provisional(saved) => self.mark = Mark::Firm(saved),
            Mark::None => self.mark = Mark::Firm(self.now()),
        }
        requests(self.heard & !only(own) & !received, self.heard | received)
    }
}

/// The zone part's state, with any values, unsound ones included.
#[derive(Clone, Copy, Debug, PartialEq, Eq)]
pub struct Zone {
    pub edition: u32,
    pub number: u32,
    pub count: u32,
    pub body: Body,
}

/// What a step of the zone part answers beside the next state.
#[derive(Clone, Copy, Debug, PartialEq, Eq)]
pub struct Answer {
    pub refusal: u32,
    pub requests: Requests,
    pub marked: bool,
}

fn refused(refusal: u32) -> Answer {
    Answer {
        refusal,
        requests: NO_REQUESTS,
        marked: false,
    }
}

fn accepted(requests: Requests, marked: bool) -> Answer {
    Answer {
        refusal: 0,
        requests,
        marked,
    }
}

impl Zone {
    /// Opens a zone; a refused opening hands back zone 1 of 2 with stock 0 and edition 1.
    pub fn open(edition: u32, number: u32, count: u32, stock: u16) -> (u32, Zone) {
        let refusal = if !is_known(edition) {
            15
        } else if !(2..=8).contains(&count) {
            2
        } else if !on_site(number, count) {
            5
        } else {
            0
        };
        let (edition, number, count, stock) = if refusal == 0 {
            (edition, number, count, stock)
        } else {
            (1, 1, 2, 0)
        };
        let body = Body::opened(number, stock);
        let zone = Zone {
            edition,
            number,
            count,
            body,
        };
        (refusal, zone)
    }

    pub fn sound(&self) -> bool {
        is_known(self.edition)
            && (2..=8).contains(&self.count)
            && on_site(self.number, self.count)
            && set_on_site(self.body.heard, self.count)
            && self.body.stock <= 65_535
            && self.body.events <= 1_000
    }

    /// Says whether the other zone is on the site and not this one.
    fn other(&self, zone: u32) -> bool {
        on_site(zone, self.count) && zone != self.number
    }

    pub fn send(mut self, receiver: u32, cars: u8) -> (Zone, Answer) {
        if !self.sound() {
            return (self, refused(1));
        }
        if !self.other(receiver) {
            return (self, refused(5));
        }
        if self.body.events >= 1_000 {
            return (self, refused(6));
        }
        if self.body.stock < u32::from(cars) {
            return (self, refused(7));
        }
        let marked = self.body.send(self.edition, cars);
        (self, accepted(NO_REQUESTS, marked))
    }

    pub fn take_hand_over(mut self, sender: u32, cars: u8, marked: bool) -> (Zone, Answer) {
        if !self.sound() {
            return (self, refused(1));
        }
        if !self.other(sender) {
            return (self, refused(5));
        }
        if self.body.events >= 1_000 {
            return (self, refused(6));
        }
        if self.body.stock + u32::from(cars) > 65_535 {
            return (self, refused(20));
        }
        self.body.take(self.edition, sender, cars, marked);
        (self, accepted(NO_REQUESTS, false))
    }

    /// An entry at this zone's gate. No zone is named, so 5 is not asked.
    pub fn enter(mut self, cars: u8) -> (Zone, Answer) {
        let refusal = self.at_gate();
        if refusal != 0 {
            return (self, refused(refusal));
        }
        if self.body.stock + u32::from(cars) > 65_535 {
            return (self, refused(20));
        }
        self.body.enter(cars);
        (self, accepted(NO_REQUESTS, false))
    }

    /// An exit at this zone's gate.
    pub fn leave(mut self, cars: u8) -> (Zone, Answer) {
        let refusal = self.at_gate();
        if refusal != 0 {
            return (self, refused(refusal));
        }
        if self.body.stock < u32::from(cars) {
            return (self, refused(7));
        }
        self.body.leave(cars);
        (self, accepted(NO_REQUESTS, false))
    }

    /// The questions that both gate steps ask first: 1, 15 and 6.
    fn at_gate(&self) -> u32 {
        if !self.sound() {
            1
        } else if !has_gates(self.edition) {
            15
        } else if self.body.events >= 1_000 {
            6
        } else {
            0
        }
    }

    pub fn take_request(mut self, set: u8) -> (Zone, Answer) {
        if !self.sound() {
            return (self, refused(1));
        }
        if !set_on_site(set, self.count) {
            return (self, refused(5));
        }
        let requests = self.body.request(self.number, set);
        (self, accepted(requests, false))
    }

    pub fn start(mut self) -> (Zone, Answer) {
        if !self.sound() {
            return (self, refused(1));
        }
        if self.body.mark != Mark::None {
            return (self, refused(11));
        }
        let requests = self.body.start(self.number);
        (self, accepted(requests, false))
    }
}
