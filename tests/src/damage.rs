//! Memories that somebody damaged, and lengths that are not the memory's. The second implementation has no memory, so
//! these checks hold the C library to the documents alone: an image that is no state's is refused with 5 by every call
//! but Start and stays as it is; one that is a state's is never refused with 5, whatever is called. Which images are
//! a state's is said by docs/memory.md (image.rs), and every image here is held to it. In all cases no octet outside
//! the lent memory is touched, every answer is one that the call can have, and Pending fits Events.

use crate::call::{Call, Order, StartValues, CHANNELS, STATE};
use crate::card::{call_library, first_change, is_possible, only_looks, Card, Memory};
use crate::draft::{self, Draft};
use crate::image::{self, is_state, sides, ALL_ROWS, CHAIN, FIELDS, FREE, LENGTHS, ROWS, UNUSED};
use crate::ledger::{smallest_event, LONGEST_MEMORY};
use crate::outcome::{Outcome, Tally};
use crate::random::Random;
use crate::telegram::{self, Form, Telegram};
use std::ops::Range;

/// The longest reply: SD2 with LE 249.
const LONGEST_REPLY: usize = 249 + 6;

/// Calls on an image that passed for a state, and how many such images are walked on from: one in this many.
const WALK: usize = 40;
const WALK_EVERY: usize = 8;

/// Lengths are tried from 0 to here, beyond the longest memory.
const LONGEST_LENGTH: usize = LONGEST_MEMORY + 16;

/// What lies behind a state in a memory that is made longer.
const FILLER: u8 = 0xC3;

/// Octets of the state part that are tried at their limits: docs/memory.md. Phase, count and how many are done, of the
/// telegram that is read and of the reply; the counts that are shown and that wait, of parameters and of configuration;
/// the counts of diagnosis and of a delayed one.
const LINES: [[usize; 3]; 2] = [[31, 32, 33], [17, 14, 15]];
const SETS: [[usize; 2]; 2] = [[58, 59], [60, 61]];
const DIAGNOSIS: [usize; 2] = [56, 57];

/// The counts of a fresh station, which every length allows.
const FRESH_COUNTS: [(usize, u8); 6] = [(56, 6), (57, 0), (58, 0), (59, 0), (60, 0), (61, 0)];

/// The octets that know the four output buffers, each with the most it may be: the buffer that Read_Outputs leaves
/// from, the roles, the marks; and the modes.
const OUTPUTS: [(usize, u8); 4] = [(19, 3), (22, 23), (29, 7), (27, 15)];

/// The master of the chains that are put into a memory.
const CHAINED_MASTER: u8 = 2;

/// Codes of octet 18.
const DRAWN_NOTHING: u8 = 0;
const DRAWN_E5: u8 = 1;
const DRAWN_STATUS: u8 = 2;
const DRAWN_RS: u8 = 3;
const DRAWN_EXCHANGE: u8 = 4;
const DRAWN_READ_INPUTS: u8 = 5;
const DRAWN_READ_OUTPUTS: u8 = 6;
const DRAWN_GET_CFG: u8 = 7;
const DRAWN_SLAVE_DIAG: u8 = 8;

/// Where the events stand, low octet first.
const EVENTS: Range<usize> = 4..6;

/// Where Diag_Flag stands, and its bit.
const DIAG_FLAG: (usize, u8) = (3, 0x40);

/// Lengths at their limits, at the longest that fits every memory if all are (64) and beside them.
const LENGTHS_TRIED: [u8; 18] = [
    0, 1, 5, 6, 7, 32, 63, 64, 65, 95, 96, 97, 128, 200, 243, 244, 245, 255,
];
const LENGTHS_TRIALS: usize = 400;

/// Lengths of outputs and inputs that are tried together: none, few, at the limits and beside them, and on both sides of
/// what a check that takes several lengths at once may take for short.
const SIDES_TRIED: [u8; 20] = [
    0, 1, 2, 7, 8, 9, 31, 32, 33, 63, 64, 65, 88, 127, 128, 129, 243, 244, 245, 255,
];

/// The lengths beside them, from the parameters to the Get_Cfg slice: the least ones, short, longer and the longest; and
/// three times one of them too short or too long.
const BESIDE_SIDES: [[u8; 4]; 7] = [
    [7, 1, 6, 1],
    [32, 32, 32, 32],
    [128, 127, 128, 127],
    [244, 244, 244, 244],
    [6, 1, 6, 1],
    [7, 1, 6, 0],
    [7, 245, 6, 1],
];

/// Lengths of a channel's buffers that are tried together: none, at the limits and beside them, and some between.
const CHANNELS_TRIED: [u8; 10] = [0, 1, 3, 4, 5, 127, 128, 240, 241, 255];

/// Lengths with which it is tried how many octets are in use.
const CHANNELS_IN_USE: [[u8; 2]; 4] = [[0, 0], [4, 5], [240, 9], [128, 240]];

/// What one channel's buffers take at most.
const ROOM_OF_CHANNEL: usize = 480;

/// The six lengths of stations whose channels are tried in memories of every length that may matter: short, just too long
/// to be short, without one of the sides, and the longest.
const LENGTHS_BESIDE_CHANNELS: [[u8; 6]; 7] = [
    [1, 1, 7, 1, 6, 1],
    [64, 64, 64, 64, 64, 64],
    [65, 64, 64, 64, 64, 64],
    [0, 64, 64, 64, 64, 64],
    [0, 65, 7, 1, 6, 1],
    [64, 0, 64, 64, 64, 64],
    [244, 244, 244, 244, 244, 244],
];
const ROOM_TRIALS: usize = 60;
const ROWS_TRIALS: usize = 300;

/// Every pair of these values.
fn pairs(values: &[u8]) -> Vec<(u8, u8)> {
    let with = |first: u8| values.iter().map(move |second| (first, *second));
    values.iter().flat_map(|first| with(*first)).collect()
}

/// All calls but Start.
fn every_call() -> Vec<Call> {
    vec![
        Call::Events,
        Call::Pending,
        Call::Send,
        Call::Gap,
        Call::Octet {
            octet: 0x10,
            bad: false,
        },
        Call::Octet {
            octet: 0x10,
            bad: true,
        },
        Call::Tick,
        Call::Take,
        Call::Read { kind: 1, index: 0 },
        Call::Read { kind: 9, index: 0 },
        Call::Write {
            kind: 4,
            index: 0,
            octet: 0xA5,
        },
        Call::Write {
            kind: 1,
            index: 0,
            octet: 0xA5,
        },
        Call::HandOver,
        Call::NewDiagnosis { count: 6, flags: 5 },
        Call::NewDiagnosis { count: 5, flags: 8 },
        Call::JudgeParameters(1),
        Call::JudgeParameters(2),
        Call::JudgeConfiguration(0),
        Call::Acknowledge(0xFFFF),
        Call::Leave,
        Call::WindowRead {
            order: Order::Intel,
            address: 0x01,
        },
        Call::WindowRead {
            order: Order::Motorola,
            address: 0x0B,
        },
        Call::WindowRead {
            order: Order::Intel,
            address: 0x0D,
        },
        Call::WindowRead {
            order: Order::Motorola,
            address: 0x11,
        },
        Call::WindowRead {
            order: Order::Intel,
            address: 0x16,
        },
        Call::WindowWrite {
            order: Order::Motorola,
            address: 0x02,
            octet: 0xFF,
        },
        Call::WindowWrite {
            order: Order::Intel,
            address: u32::MAX,
            octet: 0xFF,
        },
    ]
}

/// Every word of events in a memory that is not damaged: each is a state's, also with numbers that no rule sets. Events
/// answers it, Pending its smallest number, and the memory stays as it is. Answers the number of calls.
pub fn try_every_event_word(mut memory: Memory) -> Result<u64, String> {
    let mut calls = 0;
    for word in 0..=u16::MAX {
        memory.contents_mut()[EVENTS].copy_from_slice(&word.to_le_bytes());
        let right = [
            (Call::Events, word.into()),
            (Call::Pending, smallest_event(word)),
        ];
        for (call, expected) in right {
            only_answers(&mut memory, &call, expected)
                .map_err(|misdeed| format!("with the events {word:04X} {misdeed}"))?;
            calls += 1;
        }
    }
    Ok(calls)
}

/// The call answers this and leaves the memory as it is.
fn only_answers(memory: &mut Memory, call: &Call, expected: i64) -> Result<(), String> {
    let before = memory.contents().to_vec();
    let answer = memory.call(call);
    if answer != expected {
        return Err(format!("answers {answer} to {call} instead of {expected}"));
    }
    unchanged(&before, memory.contents())?;
    guards(memory)
}

/// The damage that is tried on one reached state.
pub struct Trial<'a> {
    pub card: &'a Card,
    pub values: &'a StartValues,
    pub random: &'a mut Random,
    pub tally: &'a mut Tally,
}

impl Trial<'_> {
    /// Each octet of a field in turn, changed to each of its 255 other values or to several of them.
    pub fn change_every_octet(&mut self, all_values: bool) -> Result<(), String> {
        let mut memory = self.card.memory.clone();
        for at in FIELDS.chain(ALL_ROWS) {
            let good = memory.contents()[at];
            for value in self.other_values(good, all_values) {
                memory.contents_mut()[at] = value;
                let refused = self.judge(&mut memory).map_err(|misdeed| {
                    format!(
                        "with state octet {at} changed from {good:02X} to {value:02X} {misdeed}"
                    )
                })?;
                self.tally.add(match refused {
                    true => Outcome::DamageRefused,
                    false => Outcome::DamageOtherState,
                });
                memory.contents_mut()[at] = good;
            }
        }
        Ok(())
    }

    fn other_values(&mut self, good: u8, all_values: bool) -> Vec<u8> {
        let mut values: Vec<u8> = match all_values {
            true => (0..=255).collect(),
            false => {
                let bits = (0..8).map(|bit| good ^ 1 << bit);
                let nearby = [0, 255, good.wrapping_add(1), good.wrapping_sub(1)];
                let any = [self.random.octet(), self.random.octet()];
                bits.chain(nearby).chain(any).collect()
            }
        };
        values.retain(|value| *value != good);
        values
    }

    /// Images of chance, and the two that memories have after power comes. Half of those of chance have no channels, or they
    /// would be refused for these alone.
    pub fn random_images(&mut self, count: usize) -> Result<(), String> {
        for number in 0..count {
            let mut image = match number {
                0 => vec![0; STATE],
                1 => vec![0xFF; STATE],
                _ => self.random.octets(STATE),
            };
            if number % 2 == 0 {
                image[ALL_ROWS].fill(0);
            }
            let refused = self.judge_image(&image, "random image")?;
            if refused {
                self.tally.add(Outcome::RandomRefused);
            }
        }
        Ok(())
    }

    /// Images made of octets of this state and of another one of the same list.
    pub fn spliced_images(&mut self, other: &[u8], count: usize) -> Result<(), String> {
        for _ in 0..count {
            let from_other = self.random.pick(&[5, 20, 50, 80, 95]);
            let mut image = self.card.state().to_vec();
            for (place, octet) in image.iter_mut().zip(other) {
                if self.random.chance(from_other) {
                    *place = *octet;
                }
            }
            let refused = self.judge_image(&image, "image spliced of two states")?;
            self.tally.add(match refused {
                true => Outcome::SplicedRefused,
                false => Outcome::SplicedOtherState,
            });
        }
        Ok(())
    }

    /// Counts at their limits and one past them.
    pub fn try_counts(&mut self) -> Result<(), String> {
        for [phase, count, done] in LINES {
            for value in 0..=13 {
                for (first, second) in pairs(&[0, 1, 2, 245, 246, 247, 255]) {
                    self.try_octets(&[(phase, value), (count, first), (done, second)])?;
                }
            }
        }
        let lengths = [self.values.parameters, self.values.configuration];
        for ([shown, waiting], length) in SETS.into_iter().zip(lengths) {
            for (first, second) in pairs(&[0, 1, 6, 7, length as u8, length as u8 + 1]) {
                self.try_octets(&[(shown, first), (waiting, second)])?;
            }
        }
        let length = self.values.diagnosis as u8;
        for (count, delayed) in pairs(&[0, 5, 6, length, length + 1]) {
            self.try_octets(&[(DIAGNOSIS[0], count), (DIAGNOSIS[1], delayed)])?;
        }
        Ok(())
    }

    /// The output buffers' octets and the modes, each at its limit and one past it, in every combination.
    pub fn try_outputs(&mut self) -> Result<(), String> {
        let tried = |(at, most)| [(at, 0), (at, most), (at, most + 1)];
        let [sources, roles, marks, modes] = OUTPUTS.map(tried);
        for source in sources {
            for role in roles {
                for mark in marks {
                    for mode in modes {
                        self.try_octets(&[source, role, mark, mode])?;
                    }
                }
            }
        }
        Ok(())
    }

    /// The chain's octets at their limits and one past them, in every combination; and what each code makes a repeat
    /// draw, in the state as it is and with one side of it taken away.
    pub fn try_chain(&mut self) -> Result<(), String> {
        let [(counted, _), (master, _)] = CHAIN;
        for code in [0, 1, 2, 8, 16, 17, 18, 19, 0x7F, 0x80, 0xFF] {
            for address in [0, 1, 126, 127, 128, 0xFF] {
                self.try_octets(&[(counted, code), (master, address)])?;
            }
        }
        for changes in self.other_sides() {
            for code in 0..=17 {
                self.repeat_by_code(code, &changes).map_err(|misdeed| {
                    format!(
                        "with octets changed ({changes:?}) and the code {code} in octet {counted} {misdeed}"
                    )
                })?;
            }
        }
        Ok(())
    }

    /// Octets that change the state: none of them, no outputs, no inputs with Diag_Flag clear and with Diag_Flag set. No
    /// list leads to a chain of Data_Exchange without inputs whose Diag_Flag is clear again, but it is a state.
    fn other_sides(&self) -> Vec<Vec<(usize, u8)>> {
        let image = self.card.state();
        let [outputs, inputs] = sides(image);
        let (at, bit) = DIAG_FLAG;
        let mut changes = vec![vec![]];
        if inputs != 0 {
            changes.push(vec![(LENGTHS, 0)]);
        }
        if outputs != 0 {
            changes.push(vec![(LENGTHS + 1, 0), (at, image[at] & !bit)]);
            changes.push(vec![(LENGTHS + 1, 0), (at, image[at] | bit)]);
        }
        changes
    }

    /// A request of the chain's master with the code's FCB is a repeat, with the other FCB it is not. A new one with
    /// function 9 draws the status and with function 0 nothing.
    fn repeat_by_code(&mut self, code: u8, changes: &[(usize, u8)]) -> Result<(), String> {
        let again = code >> 1;
        let (function, new) = match again {
            DRAWN_STATUS => (0x40, DRAWN_NOTHING),
            _ => (draft::STATUS, DRAWN_STATUS),
        };
        let [(counted, _), (master, _)] = CHAIN;
        let mut memory = self.card.memory.clone();
        let chain = [(counted, code), (master, CHAINED_MASTER)];
        put_octets(memory.contents_mut(), &chain);
        put_octets(memory.contents_mut(), changes);
        for (bit, drawn) in [(code & 1, again), (!code & 1, new)] {
            let control = function | draft::FCV | bit << 5;
            let (reply, image) = self.drawn_by(memory.clone(), control)?;
            if !is_drawn(drawn, &reply, &image) {
                return Err(format!("draws {reply:02X?} by the FC {control:02X}"));
            }
            if drawn == DRAWN_EXCHANGE && reply == [0xE5] {
                self.tally.add(Outcome::ChainWithoutDiagFlag);
            }
        }
        Ok(())
    }

    /// What the chain's master draws by an SD1 with this FC, and the state part as it was then.
    fn drawn_by(&self, mut memory: Memory, control: u8) -> Result<(Vec<u8>, Vec<u8>), String> {
        let request = telegram::sd1(self.values.address as u8, CHAINED_MASTER, control);
        let octets = request.into_iter();
        let octets = octets.map(|octet| Call::Octet { octet, bad: false });
        for call in std::iter::once(Call::Gap).chain(octets) {
            checked_on_state(&mut memory, &call)?;
        }
        let image = memory.contents()[..STATE].to_vec();
        let mut reply = Vec::new();
        while let Ok(octet) = u8::try_from(checked_on_state(&mut memory, &Call::Send)?) {
            reply.push(octet);
            if reply.len() > LONGEST_REPLY {
                return Err("draws a reply that does not end".into());
            }
        }
        Ok((reply, image))
    }

    /// The two octets that are not used, together.
    pub fn try_unused(&mut self) -> Result<(), String> {
        let [first, second] = UNUSED;
        for (one, other) in pairs(&[0x00, 0x01, 0x7F, 0x80, 0xFF]) {
            self.try_octets(&[(first, one), (second, other)])?;
        }
        Ok(())
    }

    /// The octets that belong to no field: each changed by itself, and all of them together.
    pub fn try_free(&mut self) -> Result<(), String> {
        for at in FREE.into_iter().flatten() {
            let value = self.card.state()[at] ^ self.random.pick(&[0x01, 0x80, 0xFF]);
            self.goes_on_as_before(&[(at, value)])
                .map_err(|misdeed| format!("with octet {at} changed to {value:02X} {misdeed}"))?;
        }
        for value in [0x00, 0x01, 0x80, 0xFF] {
            let all: Vec<(usize, u8)> = FREE.into_iter().flatten().map(|at| (at, value)).collect();
            self.goes_on_as_before(&all)
                .map_err(|misdeed| format!("with {value:02X} wherever no field is {misdeed}"))?;
        }
        Ok(())
    }

    /// With these octets, which belong to no field, every call does as it does without them.
    fn goes_on_as_before(&mut self, octets: &[(usize, u8)]) -> Result<(), String> {
        let usual = &self.card.memory;
        let mut changed = usual.clone();
        put_octets(changed.contents_mut(), octets);
        for call in every_call() {
            alike(&mut usual.clone(), &mut changed.clone(), &call)?;
        }
        if self.random.below(WALK_EVERY) == 0 {
            let mut usual = usual.clone();
            for call in self.wild_calls() {
                alike(&mut usual, &mut changed, &call)?;
            }
        }
        self.tally.add(Outcome::FreeLeft);
        Ok(())
    }

    /// Each channel with lengths at their limits and beside them, in every two, and with none, some or all of its octets in
    /// use or one more; beside the state's other channels, in a memory that has room for it.
    pub fn try_channels(&mut self) -> Result<(), String> {
        for number in 0..CHANNELS {
            for (indication, response) in pairs(&CHANNELS_TRIED) {
                self.try_channel(number, [indication, response, 0, 0])?;
            }
            for [indication, response] in CHANNELS_IN_USE {
                for asked in counts_about(indication) {
                    for given in counts_about(response) {
                        self.try_channel(number, [indication, response, asked, given])?;
                    }
                }
            }
        }
        Ok(())
    }

    fn try_channel(&mut self, number: usize, octets: [u8; 4]) -> Result<(), String> {
        let mut image = self.card.state().to_vec();
        put_channel(&mut image, number, octets);
        let length = self.values.end_of_buffers() as usize + ROOM_OF_CHANNEL;
        self.try_rows(&image, length.max(1536))
    }

    /// Channels of chance that keep the rules, with some of their octets in use, and with one octet of them changed.
    pub fn try_rows_of_chance(&mut self) -> Result<(), String> {
        for _ in 0..ROWS_TRIALS {
            let mut image = self.card.state().to_vec();
            self.put_channels(&mut image);
            self.try_rows(&image, LONGEST_MEMORY)?;
            let at = ALL_ROWS.start + self.random.below(ALL_ROWS.len());
            image[at] = self.random.octet();
            self.try_rows(&image, LONGEST_MEMORY)?;
        }
        Ok(())
    }

    /// Some channels set up, of each some octets in use.
    fn put_channels(&mut self, image: &mut [u8]) {
        let set_up = self.random.pick(&[5, 30, 70, 100]);
        let longest = self.random.pick(&[9, 64, 240]);
        for number in 0..CHANNELS {
            let octets = match self.random.chance(set_up) {
                true => self.channel_of_chance(longest),
                false => [0; 4],
            };
            put_channel(image, number, octets);
        }
    }

    fn channel_of_chance(&mut self, longest: usize) -> [u8; 4] {
        let [indication, response] = [(); 2].map(|()| self.random.between(4, longest));
        let [asked, given] = [indication, response].map(|length| self.random.below(length + 1));
        [indication, response, asked, given].map(|octet| octet as u8)
    }

    fn try_rows(&mut self, image: &[u8], length: usize) -> Result<(), String> {
        let refused = self.judge_in(image, length, "image with other channels")?;
        self.tally.add(match refused {
            true => Outcome::ChannelsRefused,
            false => Outcome::ChannelsTaken,
        });
        Ok(())
    }

    /// Channels of chance beside several lengths, in memories that end with the last buffer or 8 octets from it, and in
    /// those at whose lengths a check need no longer add all buffers up.
    pub fn try_room_of_channels(&mut self) -> Result<(), String> {
        for _ in 0..ROOM_TRIALS {
            let mut image = self.card.state().to_vec();
            self.put_channels(&mut image);
            if self.random.chance(80) {
                let lengths = self.random.pick(&LENGTHS_BESIDE_CHANNELS);
                image[LENGTHS..LENGTHS + 6].copy_from_slice(&lengths);
                put_octets(&mut image, &FRESH_COUNTS);
            }
            let (own, end) = (end_without_channels(&image), image::end_of_buffers(&image));
            for limit in [end, 1536 + end - own, 4480 + end - own] {
                for length in [limit - 8, limit, limit + 8] {
                    self.try_room(&image, length)?;
                }
            }
        }
        Ok(())
    }

    fn try_room(&mut self, image: &[u8], length: usize) -> Result<(), String> {
        if !(1536..=LONGEST_MEMORY).contains(&length) {
            return Ok(());
        }
        let refused = self.judge_in(image, length, "image with other channels")?;
        let (own, end) = (end_without_channels(image), image::end_of_buffers(image));
        match refused {
            true if own <= length => self.tally.add(Outcome::ChannelsRoomRefused),
            false if own < end && end == length => self.tally.add(Outcome::ChannelsRoomTaken),
            _ => {}
        }
        Ok(())
    }

    /// Other lengths, with whatever counts the state has.
    pub fn try_lengths(&mut self) -> Result<(), String> {
        for trial in 0..LENGTHS_TRIALS {
            let one = self.random.pick(&LENGTHS_TRIED);
            let octets: Vec<(usize, u8)> = (LENGTHS..LENGTHS + 6)
                .map(|at| match trial % 2 {
                    0 => (at, self.random.pick(&LENGTHS_TRIED)),
                    _ => (at, one),
                })
                .collect();
            self.try_octets(&octets)?;
        }
        Ok(())
    }

    /// Outputs and inputs of every two lengths, beside the state's other lengths with its counts, and beside others.
    pub fn try_sides(&mut self) -> Result<(), String> {
        for (outputs, inputs) in pairs(&SIDES_TRIED) {
            let sides = [(LENGTHS, outputs), (LENGTHS + 1, inputs)];
            self.try_octets(&sides)?;
            for others in BESIDE_SIDES {
                let others: Vec<(usize, u8)> = (LENGTHS + 2..).zip(others).collect();
                self.try_octets(&[&sides[..], &others, &FRESH_COUNTS].concat())?;
            }
        }
        Ok(())
    }

    /// The image with these octets.
    fn try_octets(&mut self, octets: &[(usize, u8)]) -> Result<(), String> {
        let mut image = self.card.state().to_vec();
        put_octets(&mut image, octets);
        let refused = self.judge_image(&image, "image with other counts or lengths")?;
        self.tally.add(match refused {
            true => Outcome::CountsRefused,
            false => Outcome::CountsTaken,
        });
        match (sides(&image), refused) {
            ([0, 0], true) => self.tally.add(Outcome::NeitherRefused),
            ([0, _], false) => self.tally.add(Outcome::NoOutputsTaken),
            ([_, 0], false) => self.tally.add(Outcome::NoInputsTaken),
            _ => {}
        }
        Ok(())
    }

    fn judge_image(&mut self, image: &[u8], what: &str) -> Result<bool, String> {
        self.judge_in(image, self.card.memory.length(), what)
    }

    /// The image in a memory of this length.
    fn judge_in(&mut self, image: &[u8], length: usize, what: &str) -> Result<bool, String> {
        let mut octets = self.card.memory.contents().to_vec();
        octets.resize(length, FILLER);
        octets[..STATE].copy_from_slice(image);
        let mut memory = Memory::new(&octets, self.random.below(8));
        self.judge(&mut memory).map_err(|misdeed| {
            format!("with the {what} {image:02X?} in a memory of {length} {misdeed}")
        })
    }

    /// True if the image is refused. The memory is as before when this is over.
    fn judge(&mut self, memory: &mut Memory) -> Result<bool, String> {
        let refused = memory.call(&Call::Events) == -5;
        match (
            is_state(&memory.contents()[..STATE], memory.length()),
            refused,
        ) {
            (true, true) => return Err("refuses a state with 5".into()),
            (false, false) => return Err("takes it for a state".into()),
            _ => (),
        }
        if refused {
            refused_by_all(memory)?;
            return Ok(true);
        }
        let mut lent = memory.clone();
        for call in every_call() {
            lent.copy_from(memory);
            let answer = checked_on_state(&mut lent, &call)?;
            if answer < 0 || only_looks(&call) {
                unchanged(memory.contents(), lent.contents())?;
            }
        }
        if self.random.below(WALK_EVERY) == 0 {
            self.walk(memory.clone())?;
        }
        Ok(false)
    }

    /// Goes on from an image that passed for a state; every reply must end.
    fn walk(&mut self, mut memory: Memory) -> Result<(), String> {
        for call in self.wild_calls() {
            checked_on_state(&mut memory, &call)?;
        }
        for _ in 0..LONGEST_REPLY {
            checked_on_state(&mut memory, &Call::Send)?;
        }
        match memory.call(&Call::Send) {
            256 => Ok(()),
            answer => Err(format!(
                "answers {answer} to send after {LONGEST_REPLY} octets, the longest reply"
            )),
        }
    }

    /// Calls of chance, and a telegram.
    fn wild_calls(&mut self) -> Vec<Call> {
        let calls: Vec<Call> = (0..WALK).map(|_| self.wild_call()).collect();
        [calls, self.wild_telegram()].concat()
    }

    fn wild_call(&mut self) -> Call {
        let random = &mut *self.random;
        match random.below(18) {
            0 | 1 => Call::Send,
            2 => Call::Gap,
            3 | 4 => Call::Octet {
                octet: random.pick(&[0x10, 0x68, 0xA2, 0xDC, 5, 5, 0x16]),
                bad: random.chance(5),
            },
            5 => Call::Tick,
            6 => Call::Take,
            7 => Call::Read {
                kind: random.between(1, 5) as u32,
                index: random.below(256) as u32,
            },
            8 => Call::Write {
                kind: random.between(4, 5) as u32,
                index: random.below(256) as u32,
                octet: random.octet(),
            },
            9 => Call::HandOver,
            10 => Call::NewDiagnosis {
                count: random.below(256) as u32,
                flags: random.below(8) as u32,
            },
            11 => Call::JudgeParameters(random.below(2) as u32),
            12 => Call::JudgeConfiguration(random.below(2) as u32),
            13 => Call::Acknowledge(random.next() as u16),
            14 => Call::Pending,
            15 => Call::WindowRead {
                order: random.pick(&[Order::Intel, Order::Motorola]),
                address: random.below(0x18) as u32,
            },
            16 => Call::WindowWrite {
                order: random.pick(&[Order::Intel, Order::Motorola]),
                address: random.below(0x18) as u32,
                octet: random.octet(),
            },
            _ => Call::Leave,
        }
    }

    /// A telegram to the station, which may live at another address by now.
    fn wild_telegram(&mut self) -> Vec<Call> {
        let station = self.values.address as u8;
        let master = self.random.pick(&[0, 1, 2, 3, 60, 125, 126]);
        let outputs = self.random.octets(self.values.outputs as usize);
        let parameters_of = match self.random.chance(50) {
            true => draft::fast_parameters,
            false => draft::good_parameters,
        };
        let parameters = parameters_of(self.values.ident, Some((1, 2)), 1, draft::ALLOW_BOTH);
        let draft = match self.random.below(6) {
            0 => Draft::exchange(station, master, outputs),
            1 => Draft::to_point(station, master, draft::SET_PRM, parameters),
            2 => Draft::to_point(station, master, draft::SLAVE_DIAG, Vec::new()),
            3 => Draft::to_point(station, master, draft::GET_CFG, Vec::new()),
            4 => Draft::global_control(station, master, self.random.octet(), 0),
            _ => Draft::to_point(station, master, draft::READ_OUTPUTS, Vec::new()),
        };
        let draft = match self.random.below(3) {
            0 => draft,
            bit => draft.counted(bit == 1),
        };
        let octets = draft.octets().into_iter();
        let octets = octets.map(|octet| Call::Octet { octet, bad: false });
        std::iter::once(Call::Gap).chain(octets).collect()
    }

    /// Every length from 0 to beyond 16,384, with the state as it is. A length is refused exactly if it is out of its
    /// range, no multiple of 8, or below the end of the buffers; with any other the answer is the usual one.
    pub fn try_every_length(&mut self) -> Result<(), String> {
        let mut room: Vec<u8> = self.card.memory.contents().to_vec();
        room.resize(LONGEST_LENGTH, FILLER);
        for length in 0..=LONGEST_LENGTH {
            let fits = length >= self.values.end_of_buffers() as usize;
            let allowed = (1536..=LONGEST_MEMORY).contains(&length) && length % 8 == 0;
            match (allowed, fits) {
                (true, true) => self.other_length(&room, length),
                (true, false) => self.refused_length(&mut room, length, Outcome::LengthTooShort),
                (false, _) => self
                    .refused_length(&mut room, length, Outcome::LengthRefused)
                    .and_then(|()| self.refused_start(&mut room, length)),
            }
            .map_err(|misdeed| format!("with the length {length} {misdeed}"))?;
        }
        Ok(())
    }

    fn refused_length(
        &mut self,
        room: &mut [u8],
        length: usize,
        outcome: Outcome,
    ) -> Result<(), String> {
        let before = room.to_vec();
        for call in every_call() {
            let answer = call_library(&mut room[..length], &call);
            if answer != -5 {
                return Err(format!("answers {answer} to {call} instead of -5"));
            }
        }
        unchanged(&before, room)?;
        self.tally.add(outcome);
        Ok(())
    }

    fn refused_start(&mut self, room: &mut [u8], length: usize) -> Result<(), String> {
        let before = room.to_vec();
        let call = Call::Start(self.values.clone());
        let answer = call_library(&mut room[..length], &call);
        if answer != -1 {
            return Err(format!("answers {answer} to Start instead of -1"));
        }
        unchanged(&before, room)?;
        self.tally.add(Outcome::LengthStart);
        Ok(())
    }

    fn other_length(&mut self, room: &[u8], length: usize) -> Result<(), String> {
        for call in every_call() {
            let mut lent = room.to_vec();
            let mut usual = self.card.memory.clone();
            let answer = call_library(&mut lent[..length], &call);
            let expected = usual.call(&call);
            if answer != expected {
                return Err(format!(
                    "answers {answer} to {call}, with the length of Start {expected}"
                ));
            }
            let common = length.min(usual.length());
            unchanged(&usual.contents()[..common], &lent[..common])?;
            unchanged(&room[common..], &lent[common..])?;
        }
        self.tally.add(Outcome::LengthOther);
        Ok(())
    }
}

/// Counts of octets in use, for a buffer of this length: none, at the limit and beside it.
fn counts_about(length: u8) -> [u8; 5] {
    [0, length.saturating_sub(1), length, length + 1, 255]
}

fn end_without_channels(image: &[u8]) -> usize {
    let mut own = image.to_vec();
    own[ALL_ROWS].fill(0);
    image::end_of_buffers(&own)
}

fn put_octets(image: &mut [u8], octets: &[(usize, u8)]) {
    for (at, octet) in octets {
        image[*at] = *octet;
    }
}

/// The lengths of a channel's indication and response, and how many octets of each are in use.
fn put_channel(image: &mut [u8], number: usize, octets: [u8; 4]) {
    for (row, octet) in ROWS.into_iter().zip(octets) {
        image[row + number] = octet;
    }
}

/// One call on two memories that differ in octets of no field alone: the same answer, the same done to all others, and
/// these stay.
fn alike(usual: &mut Memory, other: &mut Memory, call: &Call) -> Result<(), String> {
    let before = other.contents().to_vec();
    let (expected, answer) = (usual.call(call), other.call(call));
    if answer != expected {
        return Err(format!("answers {answer} to {call} instead of {expected}"));
    }
    let mut right = usual.contents().to_vec();
    for octets in FREE {
        right[octets.clone()].copy_from_slice(&before[octets]);
    }
    unchanged(&right, other.contents()).map_err(|misdeed| format!("by {call} {misdeed}"))?;
    guards(other)
}

/// Whether a reply is of the service that a code of octet 18 stands for, with the counts of the image in which it was
/// drawn.
fn is_drawn(code: u8, reply: &[u8], image: &[u8]) -> bool {
    let [outputs, inputs] = sides(image);
    match code {
        DRAWN_NOTHING => reply.is_empty(),
        DRAWN_E5 => reply == [0xE5],
        DRAWN_STATUS => matches!(reply, [0x10, _, _, 0x00, _, 0x16]),
        DRAWN_RS => matches!(reply, [0x10, _, _, 0x03, _, 0x16]),
        DRAWN_EXCHANGE => is_drawn_by_exchange(reply, inputs, has_diag_flag(image)),
        DRAWN_READ_INPUTS => is_drawn_from(draft::READ_INPUTS, reply, inputs),
        DRAWN_READ_OUTPUTS => is_drawn_from(draft::READ_OUTPUTS, reply, outputs),
        DRAWN_GET_CFG => is_drawn_from(draft::GET_CFG, reply, image[LENGTHS + 5]),
        DRAWN_SLAVE_DIAG => is_drawn_from(draft::SLAVE_DIAG, reply, image[DIAGNOSIS[0]]),
        _ => false,
    }
}

/// Without inputs it is E5, or with Diag_Flag one octet 00.
fn is_drawn_by_exchange(reply: &[u8], inputs: u8, diag_flag: bool) -> bool {
    let data = |control| data_of(reply, control).filter(|sent| sent.extended().is_none());
    match (inputs, diag_flag) {
        (0, false) => reply == [0xE5],
        (0, true) => data(0x0A).is_some_and(|sent| sent.data == [0x00]),
        (_, false) => data(0x08).is_some_and(|sent| sent.data.len() == usize::from(inputs)),
        (_, true) => data(0x0A).is_some_and(|sent| sent.data.len() == usize::from(inputs)),
    }
}

/// From this point, with this number of octets behind the two points.
fn is_drawn_from(point: u8, reply: &[u8], count: u8) -> bool {
    data_of(reply, 0x08).is_some_and(|sent| {
        sent.extended().is_some_and(|sent| {
            (sent.dsap, sent.ssap) == (draft::MASTER_POINT, point)
                && sent.data.len() == usize::from(count)
        })
    })
}

/// The reply if it is an SD2 with this FC.
fn data_of(reply: &[u8], control: u8) -> Option<Telegram> {
    let sent = telegram::read(reply)?;
    (sent.form == Form::Sd2 && sent.control == control).then_some(sent)
}

fn has_diag_flag(image: &[u8]) -> bool {
    let (at, bit) = DIAG_FLAG;
    image[at] & bit != 0
}

fn refused_by_all(memory: &mut Memory) -> Result<(), String> {
    let before = memory.contents().to_vec();
    for call in every_call() {
        let answer = memory.call(&call);
        if answer != -5 {
            return Err(format!(
                "refuses events with 5 and answers {answer} to {call}"
            ));
        }
    }
    unchanged(&before, memory.contents())?;
    guards(memory)
}

/// One call on a memory that passed for a state: never 5, and Pending fits what Events answers right behind it.
fn checked_on_state(memory: &mut Memory, call: &Call) -> Result<i64, String> {
    let answer = memory.call(call);
    if answer == -5 || !is_possible(call, answer) {
        return Err(format!(
            "takes it for a state and then answers {answer} to {call}"
        ));
    }
    if matches!(call, Call::Pending) {
        fits_events(answer, memory.call(&Call::Events))?;
    }
    guards(memory)?;
    Ok(answer)
}

fn fits_events(pending: i64, events: i64) -> Result<(), String> {
    match u16::try_from(events).map(smallest_event) {
        Ok(smallest) if smallest == pending => Ok(()),
        _ => Err(format!(
            "answers {pending} to pending and {events} to events"
        )),
    }
}

fn unchanged(before: &[u8], now: &[u8]) -> Result<(), String> {
    match before == now {
        true => Ok(()),
        false => Err(format!("changed the memory{}", first_change(before, now))),
    }
}

fn guards(memory: &Memory) -> Result<(), String> {
    match memory.guards_are_whole() {
        true => Ok(()),
        false => Err("changed octets outside the lent memory".into()),
    }
}
