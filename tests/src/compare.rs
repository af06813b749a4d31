//! Both implementations side by side: every call goes to both, every answer is compared.

use crate::call::{Call, StartValues, STATE};
use crate::card::{Card, Memory};
use crate::image::{self, chain_octets, CHAIN};
use crate::ledger::{Ledger, Station};
use crate::outcome::{Outcome, Tally};
use crate::random::Random;
use std::collections::VecDeque;
use std::fmt;

/// How many calls before a difference are shown.
const RECENT: usize = 20;

/// One call in this many finds the memory at another place than the call before it.
const MOVE_EVERY: usize = 50;

#[derive(Clone)]
pub struct Pair {
    pub station: Station,
    pub card: Card,
    pub tally: Tally,
    pub random: Random,
    recent: VecDeque<(usize, Call, i64)>,
    calls: usize,
}

/// The first call on which the two do not agree, or that did something forbidden to the memory.
pub struct Difference {
    number: usize,
    call: Call,
    /// None where the second implementation was not asked.
    ledger: Option<i64>,
    library: String,
    recent: VecDeque<(usize, Call, i64)>,
}

impl Pair {
    pub fn new(random: Random) -> Pair {
        Pair {
            station: Station::default(),
            card: Card::new(),
            tally: Tally::new(),
            random,
            recent: VecDeque::new(),
            calls: 0,
        }
    }

    /// A copy that goes its own way, with a table of its own.
    pub fn branch(&self) -> Pair {
        Pair {
            tally: Tally::new(),
            ..self.clone()
        }
    }

    pub fn step(&mut self, call: &Call) -> Result<i64, Box<Difference>> {
        self.calls += 1;
        self.maybe_move();
        let in_use = self.station.ledger.is_some();
        let (expected, reached) = self.station.answer(call);
        match self.card.answer(call, &mut self.random) {
            Ok(answer) if answer == expected => {}
            Ok(answer) => return Err(self.difference(call, expected, answered(answer))),
            Err(misdeed) => return Err(self.difference(call, expected, misdeed)),
        }
        self.check_state(call, expected)?;
        reached
            .into_iter()
            .for_each(|outcome| self.tally.add(outcome));
        if let (Call::Start(values), 0) = (call, expected) {
            self.check_started(call, values, in_use)?;
        }
        self.remember(call, expected);
        Ok(expected)
    }

    pub fn run(&mut self, calls: &[Call]) -> Result<(), Box<Difference>> {
        calls.iter().try_for_each(|call| self.step(call).map(drop))
    }

    /// What shows in answers only later shows in the memory at once: the chain of retries when a request follows, the
    /// watchdog when it expires, the ident number when parameters or a Slave_Diag come. The channels' lengths show nowhere
    /// else yet.
    fn check_state(&self, call: &Call, expected: i64) -> Result<(), Box<Difference>> {
        let Some(ledger) = &self.station.ledger else {
            return Ok(());
        };
        let state = self.card.state();
        let misdeed = wrong_chain(state, ledger)
            .or_else(|| wrong_watchdog(state, ledger))
            .or_else(|| wrong_ident(state, ledger))
            .or_else(|| wrong_channels(state, ledger));
        match misdeed {
            Some(misdeed) => Err(self.difference(call, expected, misdeed)),
            None => Ok(()),
        }
    }

    /// Other ticks of the watchdog, which is on, in both: a count that would take long to reach.
    pub fn put_ticks(&mut self, left: u32, refilled: u32) {
        let ledger = self.station.ledger.as_mut();
        if let Some(watchdog) = ledger.and_then(|ledger| ledger.watchdog.as_mut()) {
            (watchdog.left, watchdog.period) = (left, refilled);
            image::put_ticks(self.card.memory.contents_mut(), left, refilled);
        }
    }

    fn maybe_move(&mut self) {
        if self.random.below(MOVE_EVERY) == 0 {
            self.card.move_elsewhere(&mut self.random);
            self.tally.add(Outcome::Moved);
        }
    }

    fn remember(&mut self, call: &Call, answer: i64) {
        if self.recent.len() == RECENT {
            self.recent.pop_front();
        }
        self.recent.push_back((self.calls, call.clone(), answer));
    }

    /// Start's image does not depend on the octets that were there before. Those that belong to no field are zeros, and so
    /// are the buffers but for the Get_Cfg slice.
    fn check_started(
        &mut self,
        call: &Call,
        values: &StartValues,
        in_use: bool,
    ) -> Result<(), Box<Difference>> {
        let end = values.end_of_buffers() as usize;
        let mut fresh = Memory::new(&vec![0; values.memory], 0);
        fresh.call(call);
        if fresh.contents()[..end] != self.card.memory.contents()[..end] {
            let misdeed = "leaves another memory than on zeros".to_string();
            return Err(self.difference(call, 0, misdeed));
        }
        if !is_fresh(fresh.contents(), values) {
            let misdeed = "leaves more than zeros and the Get_Cfg slice".to_string();
            return Err(self.difference(call, 0, misdeed));
        }
        self.tally.add(Outcome::StartSameImage);
        if in_use {
            self.tally.add(Outcome::StartAgain);
        }
        if end < values.memory {
            self.tally.add(Outcome::StartKeepsRest);
        }
        self.maybe_fill_free();
        Ok(())
    }

    /// Half of the stations live on with any octets where none belongs to a field.
    fn maybe_fill_free(&mut self) {
        if self.random.chance(50) {
            self.card.fill_free(&mut self.random);
            self.tally.add(Outcome::FreeFilled);
        }
    }

    fn difference(
        &self,
        call: &Call,
        ledger: impl Into<Option<i64>>,
        library: String,
    ) -> Box<Difference> {
        Box::new(Difference {
            number: self.calls,
            call: call.clone(),
            ledger: ledger.into(),
            library,
            recent: self.recent.clone(),
        })
    }

    /// A difference that another check found after the last call.
    pub fn found(&self, call: &Call, misdeed: String) -> Box<Difference> {
        self.difference(call, None, misdeed)
    }
}

/// Zeros where no field is and in the buffers, and the Get_Cfg slice in its place ahead of the channels' buffers.
fn is_fresh(memory: &[u8], values: &StartValues) -> bool {
    let end = values.end_of_buffers() as usize;
    let room_of_slice = values.get_cfg.len().div_ceil(8) * 8;
    let slice_at = values.end_without_channels() as usize - room_of_slice;
    let (before, from_slice) = memory[STATE..end].split_at(slice_at - STATE);
    let (slice, behind) = from_slice.split_at(values.get_cfg.len());
    let [ahead_of_rows, behind_rows] = image::free(memory);
    let zeros = [ahead_of_rows, behind_rows, before, behind];
    zeros.concat().iter().all(|octet| *octet == 0) && slice == values.get_cfg
}

fn wrong_chain(state: &[u8], ledger: &Ledger) -> Option<String> {
    let chain = CHAIN.map(|(at, _)| state[at]);
    let right = chain_octets(ledger.chain);
    (chain != right)
        .then(|| format!("has the chain {chain:02X?} in its memory and not {right:02X?}"))
}

/// Where the watchdog is off, what remains of it is any number.
fn wrong_watchdog(state: &[u8], ledger: &Ledger) -> Option<String> {
    let (left, refilled) = image::ticks(state);
    let right = match &ledger.watchdog {
        Some(watchdog) => (watchdog.left, watchdog.period),
        None => (left, 0),
    };
    ((left, refilled) != right)
        .then(|| format!("has {left} of {refilled} ticks in its memory and not {right:?}"))
}

fn wrong_ident(state: &[u8], ledger: &Ledger) -> Option<String> {
    let (ident, right) = (image::ident(state), ledger.values.ident);
    (ident != right)
        .then(|| format!("has the ident number {ident:04X} in its memory and not {right:04X}"))
}

/// The lengths are Start's; no telegram fills a channel yet, so none of their octets is in use.
fn wrong_channels(state: &[u8], ledger: &Ledger) -> Option<String> {
    let right = &ledger.values.channels;
    let rows = &state[image::ALL_ROWS];
    (!image::are_free_channels(state, right))
        .then(|| format!("has the channels {rows:02X?} in its memory, by Start {right:02X?}"))
}

/// An answer with a word on what it means if it is a refusal.
pub fn answered(answer: i64) -> String {
    format!("answers {answer}{}", meaning(answer))
}

fn meaning(answer: i64) -> &'static str {
    match answer {
        -1 => " (refused: memory length)",
        -2 => " (refused: address)",
        -3 => " (refused: a length or the slice)",
        -4 => " (refused: buffers end beyond the memory)",
        -5 => " (refused: damaged memory, or no Start yet)",
        -6 => " (refused: no set to judge)",
        -7 => " (refused: out of range)",
        -8 => " (refused: nothing there to read or write now)",
        -9 => " (refused: a new diagnosis is delayed already)",
        -10 => " (refused: no address of the window)",
        _ => "",
    }
}

impl fmt::Display for Difference {
    fn fmt(&self, f: &mut fmt::Formatter<'_>) -> fmt::Result {
        writeln!(f, "call {}: {}", self.number, self.call)?;
        if let Some(answer) = self.ledger {
            writeln!(f, "  the second implementation {}", answered(answer))?;
        }
        writeln!(f, "  the C library {}", self.library)?;
        writeln!(f, "the calls before it, with the answers of both:")?;
        for (number, call, answer) in &self.recent {
            writeln!(f, "  {number:>6}  {call}  ->  {answer}")?;
        }
        Ok(())
    }
}
