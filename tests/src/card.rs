//! The C library under test, and the memory that is lent to it, with guard octets on both sides.

use crate::call::{Call, Order, StartValues, STATE};
use crate::image;
use crate::random::Random;

mod library {
    //! Slices are a pointer and a length of 64 bits; every answer is an int64_t, a refusal negated.
    extern "C" {
        pub fn dp_start(
            memory: *mut u8,
            len: u64,
            address: u32,
            ident: u16,
            output_len: u32,
            input_len: u32,
            parameter_len: u32,
            configuration_len: u32,
            diagnosis_len: u32,
            get_cfg: *const u8,
            get_cfg_len: u64,
            channels: *const u8,
            channels_len: u64,
        ) -> i64;
        pub fn dp_octet(memory: *mut u8, len: u64, octet: u8, bad: u8) -> i64;
        pub fn dp_gap(memory: *mut u8, len: u64) -> i64;
        pub fn dp_send(memory: *mut u8, len: u64) -> i64;
        pub fn dp_tick(memory: *mut u8, len: u64) -> i64;
        pub fn dp_take_outputs(memory: *mut u8, len: u64) -> i64;
        pub fn dp_read(memory: *mut u8, len: u64, kind: u32, index: u32) -> i64;
        pub fn dp_write(memory: *mut u8, len: u64, kind: u32, index: u32, octet: u8) -> i64;
        pub fn dp_hand_over_inputs(memory: *mut u8, len: u64) -> i64;
        pub fn dp_new_diagnosis(memory: *mut u8, len: u64, count: u32, flags: u32) -> i64;
        pub fn dp_judge_parameters(memory: *mut u8, len: u64, judgement: u32) -> i64;
        pub fn dp_judge_configuration(memory: *mut u8, len: u64, judgement: u32) -> i64;
        pub fn dp_events(memory: *mut u8, len: u64) -> i64;
        pub fn dp_acknowledge(memory: *mut u8, len: u64, mask: u16) -> i64;
        pub fn dp_pending(memory: *mut u8, len: u64) -> i64;
        pub fn dp_leave_master(memory: *mut u8, len: u64) -> i64;
        pub fn dp_window_read(memory: *mut u8, len: u64, order: u32, address: u32) -> i64;
        pub fn dp_window_write(
            memory: *mut u8,
            len: u64,
            order: u32,
            address: u32,
            octet: u8,
        ) -> i64;
    }
}

const GUARD: usize = 128;

/// A memory that can be lent, between two guards of 128 octets.
#[derive(Clone)]
pub struct Memory {
    octets: Vec<u8>,
    at: usize,
    length: usize,
}

impl Memory {
    /// A memory filled with `fill`, its first octet `offset` octets behind the guard: C promises no alignment.
    pub fn new(fill: &[u8], offset: usize) -> Memory {
        let at = GUARD + offset;
        Memory {
            octets: [&PATTERN[..at], fill, &PATTERN[..GUARD]].concat(),
            at,
            length: fill.len(),
        }
    }

    pub fn random(random: &mut Random, length: usize) -> Memory {
        let fill = random.octets(length);
        Memory::new(&fill, random.below(8))
    }

    pub fn contents(&self) -> &[u8] {
        &self.octets[self.at..self.at + self.length]
    }

    pub fn contents_mut(&mut self) -> &mut [u8] {
        &mut self.octets[self.at..self.at + self.length]
    }

    pub fn length(&self) -> usize {
        self.length
    }

    pub fn guards_are_whole(&self) -> bool {
        let before = &self.octets[..self.at];
        let behind = &self.octets[self.at + self.length..];
        before == &PATTERN[..before.len()] && behind == &PATTERN[..behind.len()]
    }

    /// Takes over the contents of a memory of the same length.
    pub fn copy_from(&mut self, other: &Memory) {
        self.contents_mut().copy_from_slice(other.contents());
    }

    /// Lends the memory for one call.
    pub fn call(&mut self, call: &Call) -> i64 {
        call_library(self.contents_mut(), call)
    }
}

/// The guards' octets: a pattern that no stray zero, copy or shift repeats by chance.
const PATTERN: [u8; 2 * GUARD] = pattern();

const fn pattern() -> [u8; 2 * GUARD] {
    let mut octets = [0; 2 * GUARD];
    let mut place = 0;
    while place < octets.len() {
        octets[place] = ((place * 151) >> 3) as u8 ^ 0x5A;
        place += 1;
    }
    octets
}

/// Intel is 0, Motorola any other value: these have to act alike.
const INTEL: u32 = 0;
const MOTOROLA: [u32; 6] = [1, 2, 0x100, 0x1_0000, 0x8000_0000, u32::MAX];

/// The order of a window access as C takes it. Which of Motorola's values it is follows from the state part and the
/// address, so that a list makes the same calls whenever it is run.
fn order_in_c(memory: &[u8], call: &Call) -> u32 {
    let (Call::WindowRead { order, address } | Call::WindowWrite { order, address, .. }) = call
    else {
        return INTEL;
    };
    let state = memory.iter().take(STATE);
    let sum = state.fold(*address, |sum, octet| sum.wrapping_add((*octet).into()));
    match order {
        Order::Intel => INTEL,
        Order::Motorola => MOTOROLA[sum as usize % MOTOROLA.len()],
    }
}

/// One call of the library on a lent slice. The slice alone is lent: nothing else may be read or changed.
pub fn call_library(memory: &mut [u8], call: &Call) -> i64 {
    let len = memory.len() as u64;
    let order = order_in_c(memory, call);
    let at = memory.as_mut_ptr();
    // Sound: pointer and length are those of a slice that is lent mutably for the time of the call.
    unsafe {
        match *call {
            Call::Start(ref values) => start(at, len, values),
            Call::Octet { octet, bad } => library::dp_octet(at, len, octet, bad.into()),
            Call::Gap => library::dp_gap(at, len),
            Call::Send => library::dp_send(at, len),
            Call::Tick => library::dp_tick(at, len),
            Call::Take => library::dp_take_outputs(at, len),
            Call::Read { kind, index } => library::dp_read(at, len, kind, index),
            Call::Write { kind, index, octet } => library::dp_write(at, len, kind, index, octet),
            Call::HandOver => library::dp_hand_over_inputs(at, len),
            Call::NewDiagnosis { count, flags } => library::dp_new_diagnosis(at, len, count, flags),
            Call::JudgeParameters(judgement) => library::dp_judge_parameters(at, len, judgement),
            Call::JudgeConfiguration(judgement) => {
                library::dp_judge_configuration(at, len, judgement)
            }
            Call::Events => library::dp_events(at, len),
            Call::Acknowledge(mask) => library::dp_acknowledge(at, len, mask),
            Call::Pending => library::dp_pending(at, len),
            Call::Leave => library::dp_leave_master(at, len),
            Call::WindowRead { address, .. } => library::dp_window_read(at, len, order, address),
            Call::WindowWrite { address, octet, .. } => {
                library::dp_window_write(at, len, order, address, octet)
            }
        }
    }
}

/// The caller answers for pointer and length.
unsafe fn start(at: *mut u8, len: u64, values: &StartValues) -> i64 {
    library::dp_start(
        at,
        len,
        values.address,
        values.ident,
        values.outputs,
        values.inputs,
        values.parameters,
        values.configuration,
        values.diagnosis,
        values.get_cfg.as_ptr(),
        values.get_cfg.len() as u64,
        values.channels.as_ptr(),
        values.channels.len() as u64,
    )
}

/// Whether the answer is one that the documents give this call in some state.
pub fn is_possible(call: &Call, answer: i64) -> bool {
    match call {
        Call::Start(_) => matches!(answer, -4..=0),
        Call::Octet { .. } | Call::Gap | Call::Tick => matches!(answer, -5 | 0),
        Call::HandOver | Call::Acknowledge(_) | Call::Leave => matches!(answer, -5 | 0),
        Call::Send => matches!(answer, -5 | 0..=256),
        Call::Take => matches!(answer, -5 | 0..=2),
        Call::Read { .. } => matches!(answer, -8 | -7 | -5 | 0..=255),
        Call::Write { .. } => matches!(answer, -8 | -7 | -5 | 0),
        Call::NewDiagnosis { .. } => matches!(answer, -9 | -7 | -5 | 0),
        Call::JudgeParameters(_) | Call::JudgeConfiguration(_) => {
            matches!(answer, -7..=-5 | 0 | 1)
        }
        Call::Events => matches!(answer, -5 | 0..=0xFFFF),
        Call::Pending => matches!(answer, -5 | 0..=16),
        Call::WindowRead { address, .. } => is_possible_in_window(*address, answer),
        Call::WindowWrite { address, .. } => match address {
            0x00..=0x15 => matches!(answer, -5 | 0),
            _ => matches!(answer, -10 | -5),
        },
    }
}

/// The same of a read of the window. A call behind it is never out of range, so that no 7 is among them; Motorola
/// exchanges only addresses with the same answers.
fn is_possible_in_window(address: u32, answer: i64) -> bool {
    match address {
        0x00..=0x03 => matches!(answer, -5 | 0..=255),
        0x0B => matches!(answer, -5 | 0..=2),
        0x0D => matches!(answer, -9 | -5 | 0),
        0x0E..=0x11 => matches!(answer, -6 | -5 | 0 | 1),
        0x04..=0x15 => matches!(answer, -5 | 0),
        _ => matches!(answer, -10 | -5),
    }
}

/// Calls that only look: no rule lets them change anything.
pub fn only_looks(call: &Call) -> bool {
    match call {
        Call::Read { .. } | Call::Events | Call::Pending => true,
        Call::WindowRead { address, .. } => !matches!(address, 0x09 | 0x0B | 0x0D..=0x11),
        Call::WindowWrite { address, .. } => !matches!(address, 0x02 | 0x03),
        _ => false,
    }
}

/// The station of the library: the memory it lives in and where its buffers end.
#[derive(Clone)]
pub struct Card {
    pub memory: Memory,
    buffers_end: usize,
}

impl Card {
    /// Before the first Start: a memory of zeros, which is the image of no state.
    pub fn new() -> Card {
        Card {
            memory: Memory::new(&[0; 1536], 0),
            buffers_end: STATE,
        }
    }

    /// The answer to a call, or what the call did to the memory that it must not do.
    pub fn answer(&mut self, call: &Call, random: &mut Random) -> Result<i64, String> {
        match call {
            Call::Start(values) => self.start(values, random),
            _ => {
                let before = self.memory.contents().to_vec();
                let answer = self.memory.call(call);
                self.check(call, answer, &before)?;
                Ok(answer)
            }
        }
    }

    /// A Start on a memory as long as the one in use is made there, refused or not; any other on a memory of its own,
    /// which takes the place of the one in use if Start answers 0.
    fn start(&mut self, values: &StartValues, random: &mut Random) -> Result<i64, String> {
        let call = Call::Start(values.clone());
        let mut lent = Card {
            memory: if values.memory == self.memory.length() {
                self.memory.clone()
            } else {
                Memory::random(random, values.memory)
            },
            buffers_end: values.end_of_buffers().min(values.memory as u64) as usize,
        };
        let before = lent.memory.contents().to_vec();
        let answer = lent.memory.call(&call);
        lent.check(&call, answer, &before)?;
        if answer == 0 {
            *self = lent;
        }
        Ok(answer)
    }

    fn check(&self, call: &Call, answer: i64, before: &[u8]) -> Result<(), String> {
        let now = self.memory.contents();
        if !self.memory.guards_are_whole() {
            return Err("changed octets outside the lent memory".into());
        }
        if !is_possible(call, answer) {
            return Err(format!("answers {answer}, which this call never answers"));
        }
        if (answer < 0 || only_looks(call)) && now != before {
            return Err(format!(
                "answers {answer} and changed the memory{}",
                first_change(before, now)
            ));
        }
        if !matches!(call, Call::Start(_)) && image::free(now) != image::free(before) {
            return Err(format!(
                "changed octets of the state part that belong to no field{}",
                first_change(before, now)
            ));
        }
        if now[self.buffers_end..] != before[self.buffers_end..] {
            return Err(format!(
                "changed the memory behind the buffers{}",
                first_change(before, now)
            ));
        }
        Ok(())
    }

    /// Puts the memory somewhere else: between calls the library may keep nothing, not even where the memory was.
    pub fn move_elsewhere(&mut self, random: &mut Random) {
        self.memory = Memory::new(self.memory.contents(), random.below(8));
    }

    /// Any octets where none belongs to a field: no call but Start may read or change them.
    pub fn fill_free(&mut self, random: &mut Random) {
        for octets in image::FREE {
            let fill = random.octets(octets.len());
            self.memory.contents_mut()[octets].copy_from_slice(&fill);
        }
    }

    pub fn state(&self) -> &[u8] {
        &self.memory.contents()[..STATE]
    }
}

pub fn first_change(before: &[u8], now: &[u8]) -> String {
    match before.iter().zip(now).position(|(old, new)| old != new) {
        Some(at) => format!(
            " (first at octet {at}: {:02X} became {:02X})",
            before[at], now[at]
        ),
        None => String::new(),
    }
}
