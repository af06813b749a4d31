//! The watchdog: how long it is, by document 01 and by document 02, Req 07, and what the table of outcomes is told of
//! that. A tick is 1 ms. When it counts and what its end leads to is in ledger.rs.

use crate::draft::{BASE_1_MS, MASTER_POINT, SET_PRM};
use crate::ledger::Ledger;
use crate::outcome::Outcome;
use crate::telegram::{self, Telegram, EXTENSION};

/// Octet 7 of Set_Prm, the first one that need not be there.
const OCTET_OF_BASE: usize = 7;

/// The least LE of a Set_Prm with octet 7: three octets of the head, DSAP, SSAP and eight of data.
const LEAST_LE: u8 = 13;

/// The most ticks of a count of 16 bits, and the most of all: 10 x 255 x 255.
const MOST_OF_16_BITS: u32 = 65_535;
const MOST: u32 = 650_250;

/// Numbers of ticks.
#[derive(Clone)]
pub struct Watchdog {
    /// How many ticks the product of the factors is taken times: 1 or 10.
    pub base: u32,
    /// What it is refilled to.
    pub period: u32,
    pub left: u32,
}

impl Watchdog {
    /// The one that a good Set_Prm with this data turns on, if it does.
    pub fn asked_for(data: &[u8]) -> Option<Watchdog> {
        let base = base(data);
        let ticks = base * u32::from(data[1]) * u32::from(data[2]);
        is_asked_for(data).then_some(Watchdog {
            base,
            period: ticks,
            left: ticks,
        })
    }

    fn counted(&self) -> u32 {
        self.period - self.left
    }
}

/// "Bit 2 set for a 1 ms base", "without octet 7 the base is 10 ms". The octet is there only if this telegram has it,
/// whatever came before, and its other bits have no effect.
fn base(data: &[u8]) -> u32 {
    match has_bit_2(data) {
        true => 1,
        false => 10,
    }
}

fn has_bit_2(data: &[u8]) -> bool {
    let octet = data.get(OCTET_OF_BASE);
    octet.is_some_and(|octet| octet & BASE_1_MS != 0)
}

/// An octet of the parameters that are shown: octet 7, with the bit of the base of 1 ms.
pub fn shows_base(index: u32, octet: u8) -> bool {
    index == OCTET_OF_BASE as u32 && octet & BASE_1_MS != 0
}

pub fn is_asked_for(data: &[u8]) -> bool {
    data[0] & 0x08 != 0
}

/// On either base.
pub fn factor_fault(data: &[u8]) -> Option<Outcome> {
    match (data[1], data[2]) {
        (0, _) | (_, 0) => Some(Outcome::PrmFactorZero),
        (1, 1) => Some(Outcome::PrmFactorsOne),
        _ => None,
    }
}

/// What the table of outcomes is told of a Set_Prm, before it is carried out.
impl Ledger {
    /// A good one, behind another one that may have had bit 2.
    pub fn note_base(&mut self, data: &[u8], earlier: Option<Outcome>) {
        self.bit_2_before = has_bit_2(data).then_some(Outcome::PrmBase10BehindGood);
        let Some(asked) = Watchdog::asked_for(data) else {
            return self.note_if(has_bit_2(data), Outcome::PrmBase1Off);
        };
        let octet = data.get(OCTET_OF_BASE).copied();
        self.note(match (asked.base, octet) {
            (1, Some(BASE_1_MS)) => Outcome::PrmBase1,
            (1, _) => Outcome::PrmBase1OtherBits,
            (_, Some(0)) => Outcome::PrmBase10Clear,
            (_, Some(_)) => Outcome::PrmBase10OtherBits,
            (_, None) => Outcome::PrmBase10,
        });
        if let (None, Some(behind)) = (octet, earlier) {
            self.note(behind);
        }
        self.note_if(asked.period == 2, Outcome::PrmGoodWatchdogTwo);
        self.note_if(asked.period > MOST_OF_16_BITS, Outcome::PrmAbove16Bits);
        self.note_if(asked.period == MOST, Outcome::PrmMostTicks);
        match (self.base_in_force(), asked.base) {
            (Some(1), 10) => self.note(Outcome::PrmBase10For1),
            (Some(10), 1) => self.note(Outcome::PrmBase1For10),
            _ => {}
        }
    }

    fn base_in_force(&self) -> Option<u32> {
        self.watchdog.as_ref().map(|watchdog| watchdog.base)
    }

    /// What is reached if this one is good and has no octet 7. It counts as no good one itself until it is found to be
    /// good.
    pub fn trace_set_prm(&mut self, data: &[u8]) -> Option<Outcome> {
        let not_good = has_bit_2(data).then_some(Outcome::PrmBase10BehindNotGood);
        std::mem::replace(&mut self.bit_2_before, not_good)
    }

    /// A repeat is not carried out, but its octets may be a Set_Prm's.
    pub fn trace_repeat(&mut self, again: &Telegram) {
        if set_prm_data(again).is_some_and(has_bit_2) {
            self.bit_2_before = Some(Outcome::PrmBase10BehindRepeat);
        }
    }

    /// Octets that were heard of a telegram before it was broken off: a Set_Prm to this station was to come of them.
    pub fn trace_broken_off(&mut self, octets: &[u8]) {
        let [telegram::SD2, le, _, _, destination, source, control, SET_PRM, MASTER_POINT, data @ ..] =
            octets
        else {
            return;
        };
        let to_us = u32::from(*destination) == self.values.address | u32::from(EXTENSION);
        let acts = source & 0x7F <= 126 && matches!(control & 0xCF, 0x4C | 0x4D);
        if to_us && acts && *le >= LEAST_LE && has_bit_2(data) {
            self.bit_2_before = Some(Outcome::PrmBase10BehindBrokenOff);
        }
    }

    pub fn note_factors_of_base(&mut self, data: &[u8], fault: Outcome) {
        match (fault, base(data)) {
            (Outcome::PrmFactorsOne, 1) => self.note(Outcome::PrmFactorsOneBase1),
            (Outcome::PrmFactorsOne, _) => self.note(Outcome::PrmFactorsOneBase10),
            (Outcome::PrmFactorZero, 1) => self.note(Outcome::PrmFactorZeroBase1),
            _ => {}
        }
    }

    /// One that is longer than the set length: the shortest, where octet 7 is the first that has no room.
    pub fn note_base_without_room(&mut self, data: &[u8]) {
        let no_room = self.values.parameters == OCTET_OF_BASE as u32;
        let first_beyond = data.len() == OCTET_OF_BASE + 1 && has_bit_2(data);
        self.note_if(no_room && first_beyond, Outcome::PrmLongByBase);
    }

    /// One with bit 7 clear.
    pub fn note_base_left(&mut self, data: &[u8]) {
        let in_force = self.base_in_force();
        let other = in_force.is_some_and(|in_force| in_force != base(data));
        self.note_if(other, Outcome::PrmBit7ClearOtherBase);
    }
}

/// What it is told of the watchdog in force.
impl Ledger {
    /// Before it is refilled.
    pub fn note_refill(&mut self) {
        let Some(watchdog) = &self.watchdog else {
            return;
        };
        let (counted, base) = (watchdog.counted(), watchdog.base);
        let above = watchdog.period > MOST_OF_16_BITS;
        self.note_if(counted > 0 && base == 1, Outcome::RefilledBase1);
        self.note_if(counted % 10 > 0 && base == 10, Outcome::RefilledBase10);
        self.note_if(counted > 0 && above, Outcome::RefilledAbove16Bits);
    }

    /// After a tick that it counted and that was not its last.
    pub fn note_counted(&mut self, left: u32) {
        let across = left & MOST_OF_16_BITS == MOST_OF_16_BITS;
        self.note(Outcome::TickCounts);
        self.note_if(left > MOST_OF_16_BITS, Outcome::TickAbove16Bits);
        self.note_if(across, Outcome::TickAcross16Bits);
    }

    pub fn note_expired(&mut self) {
        self.note(match self.base_in_force() {
            Some(1) => Outcome::ExpiredBase1,
            _ => Outcome::ExpiredBase10,
        });
    }

    /// At the tick that carries out a noted clear, whatever was counted by then: a base of 10 ms does not make it wait.
    pub fn note_tick_of_clear(&mut self) {
        let is_no_tenth = |watchdog: &Watchdog| watchdog.base == 10 && watchdog.counted() % 10 != 9;
        let no_tenth = self.watchdog.as_ref().is_some_and(is_no_tenth);
        self.note_if(no_tenth, Outcome::ClearTickNoTenth);
    }

    /// The owner's repeat of a request that drew E5, where it refills the watchdog: that may be the Set_Prm that set it.
    pub fn note_set_prm_again(&mut self, earlier: &Telegram, again: &Telegram) {
        let data = set_prm_data(earlier).filter(|data| data[0] & 0xC0 == 0x80);
        let (Some(_), Some(in_force)) = (data, self.base_in_force()) else {
            return;
        };
        let other = set_prm_data(again).is_some_and(|data| base(data) != in_force);
        self.note_if(in_force == 1, Outcome::RepeatSetPrmBase1);
        self.note_if(other, Outcome::RepeatSetPrmOtherBase);
    }
}

/// The data of a telegram to Set_Prm's point that has enough of it.
fn set_prm_data(telegram: &Telegram) -> Option<&[u8]> {
    let asked = telegram.extended().filter(|asked| asked.dsap == SET_PRM);
    asked
        .map(|asked| asked.data)
        .filter(|data| data.len() >= OCTET_OF_BASE)
}
