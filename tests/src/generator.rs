//! Lists of calls that reach deep, made from a seed. The second implementation runs along and its state steers: most
//! telegrams make sense in the phase the station is in, and the scenarios walk straight to the places that chance
//! alone would hardly find. The rest of the list is disorder on purpose.

use crate::call::{Call, Order, StartValues, CHANNELS, NO_CHANNELS};
use crate::draft::{self, Draft};
use crate::ledger::{
    smallest_event, Drawn, Ledger, Phase, Station, DIAGNOSIS_HEAD, LONGEST_MEMORY,
};
use crate::random::Random;
use crate::telegram::{self, Form, EXTENSION};

/// The list with this number of this seed: the same calls whenever it is made.
pub fn list(seed: u64, number: u64, length: usize) -> Vec<Call> {
    let mut random = Random::for_list(seed, number);
    let habits = Habits::choose(&mut random);
    let mut generator = Generator {
        random,
        habits,
        station: Station::default(),
        calls: Vec::with_capacity(length),
        length,
        window_alone: None,
    };
    generator.opening();
    generator.change_vat_program();
    while !generator.is_full() {
        generator.episode();
    }
    generator.calls
}

/// What makes one list unlike another.
struct Habits {
    /// How often, in 1,000 places inside telegrams and replies, other calls come between.
    interruptions: usize,
    /// How many of 100 telegrams are damaged on the way.
    damage: usize,
    /// How many of 100 requests have FCV set.
    counted: usize,
    /// How many of 100 telegrams come a second time, as if their reply had not been heard.
    again: usize,
    /// How many of 100 stretches are those of an older vat program, which uses the window alone.
    older: usize,
    masters: Vec<u8>,
}

impl Habits {
    fn choose(random: &mut Random) -> Habits {
        Habits {
            interruptions: random.pick(&[0, 5, 20, 60, 150]),
            damage: random.pick(&[0, 5, 15]),
            counted: random.pick(&[0, 50, 90, 100]),
            again: random.pick(&[0, 5, 15, 30]),
            older: random.pick(&[0, 0, 25, 50, 100]),
            masters: vec![
                random.pick(&[0, 1, 2]),
                random.pick(&[3, 60, 125]),
                random.pick(&[126, 2, 5]),
            ],
        }
    }
}

/// The ways a telegram is spoiled between master and station.
#[derive(Clone, Copy)]
enum Spoil {
    OneOctet,
    OneBit,
    OneOctetWithGoodCheckSum,
    MarkInOneAddress,
    CutShort,
    TooLong,
    Lost,
    Doubled,
    FlaggedBad,
    GapInside,
    SecondLength,
    Length,
    ShortestLengthExtended,
}

const SPOILS: [Spoil; 13] = [
    Spoil::OneOctet,
    Spoil::OneBit,
    Spoil::OneOctetWithGoodCheckSum,
    Spoil::MarkInOneAddress,
    Spoil::CutShort,
    Spoil::TooLong,
    Spoil::Lost,
    Spoil::Doubled,
    Spoil::FlaggedBad,
    Spoil::GapInside,
    Spoil::SecondLength,
    Spoil::Length,
    Spoil::ShortestLengthExtended,
];

/// Factors of watchdogs that are 4, 6, 8, 12 and 12 ticks above a multiple of 65,536 where the base is 10 ms: a count
/// of 16 bits would expire by then.
const ABOVE_16_BITS: [(u8, u8); 5] = [(58, 113), (107, 245), (58, 226), (87, 226), (214, 245)];

/// Lengths of memories that Start refuses.
const BAD_MEMORIES: [usize; 16] = [
    0, 8, 64, 512, 1528, 1535, 1537, 2001, 4095, 4097, 16_380, 16_383, 16_385, 16_392, 20_480,
    65_536,
];

/// Lengths of slices for channels that Start refuses. Of the last two the lowest octet is that of a good one.
const BAD_CHANNELS_SLICES: [usize; 10] = [0, 1, 16, 30, 31, 33, 34, 64, 288, 65_568];

/// Lengths of a channel that Start refuses.
const BAD_CHANNELS: [[u8; 2]; 14] = [
    [0, 4],
    [4, 0],
    [0, 240],
    [240, 0],
    [3, 4],
    [4, 3],
    [1, 240],
    [240, 1],
    [241, 240],
    [240, 241],
    [255, 4],
    [4, 255],
    [3, 0],
    [0, 241],
];

struct Generator {
    random: Random,
    habits: Habits,
    station: Station,
    calls: Vec<Call>,
    length: usize,
    /// The order in which an older vat program uses the window now, if it is one.
    window_alone: Option<Order>,
}

/// Calls and what they lead to.
impl Generator {
    fn is_full(&self) -> bool {
        self.calls.len() >= self.length
    }

    /// Puts a call on the list, or the accesses by which an older vat program does the same.
    fn call(&mut self, call: Call) {
        let calls = match self.window_alone {
            Some(order) => self.through_the_window(order, call),
            None => vec![call],
        };
        calls.into_iter().for_each(|call| self.put_on_list(call));
    }

    /// A full list takes no more, so that a scenario may simply go on to its end.
    fn put_on_list(&mut self, call: Call) {
        if !self.is_full() {
            self.station.answer(&call);
            self.calls.push(call);
        }
    }

    fn ledger(&self) -> &Ledger {
        self.station
            .ledger
            .as_ref()
            .expect("the opening ends with a Start that answers 0")
    }

    fn address(&self) -> u8 {
        self.ledger().values.address as u8
    }

    fn any_master(&mut self) -> u8 {
        let masters = self.habits.masters.clone();
        self.random.pick(&masters)
    }

    /// Mostly the owner, if there is one.
    fn likely_master(&mut self) -> u8 {
        let owner = self.ledger().owner;
        match owner {
            Some(owner) if self.random.chance(85) => owner,
            _ => self.any_master(),
        }
    }

    fn owner_or_any(&mut self) -> u8 {
        match self.ledger().owner {
            Some(owner) => owner,
            None => self.any_master(),
        }
    }

    fn other_master(&mut self) -> u8 {
        let owner = self.ledger().owner;
        (0..126)
            .map(|_| self.random.below(127) as u8)
            .find(|master| Some(*master) != owner)
            .unwrap_or(0)
    }
}

/// Starts.
impl Generator {
    fn opening(&mut self) {
        if self.random.chance(25) {
            self.calls_before_start();
        }
        let values = self.good_start();
        for _ in 0..self.random.pick(&[0, 0, 1, 2, 3]) {
            self.refused_start(&values);
        }
        self.length = self.length.max(self.calls.len() + 1);
        self.call(Call::Start(values));
    }

    fn calls_before_start(&mut self) {
        let calls = [
            Call::Gap,
            Call::Octet {
                octet: telegram::SD1,
                bad: false,
            },
            Call::Send,
            Call::Tick,
            Call::Take,
            Call::Read { kind: 1, index: 0 },
            Call::Write {
                kind: 4,
                index: 0,
                octet: 7,
            },
            Call::HandOver,
            Call::NewDiagnosis { count: 6, flags: 0 },
            Call::JudgeParameters(1),
            Call::JudgeConfiguration(2),
            Call::Events,
            Call::Acknowledge(1),
            Call::Pending,
            Call::Leave,
            Call::WindowRead {
                order: Order::Intel,
                address: 0x0B,
            },
            Call::WindowRead {
                order: Order::Motorola,
                address: 0x16,
            },
            Call::WindowWrite {
                order: Order::Motorola,
                address: 0x02,
                octet: 0xFF,
            },
            Call::WindowWrite {
                order: Order::Intel,
                address: u32::MAX,
                octet: 0xFF,
            },
        ];
        calls.into_iter().for_each(|call| self.call(call));
    }

    /// Half of the memories, of stations with channels and without, are the shortest that will do.
    fn good_start(&mut self) -> StartValues {
        let lengths = self.good_lengths();
        let [outputs, inputs, parameters, configuration, diagnosis, slice] = lengths;
        let mut values = StartValues {
            memory: 0,
            address: self.random.pick(&[5, 5, 0, 1, 2, 60, 125, 126]),
            ident: self.random.pick(&[0x80B3, 0x0000, 0xFFFF, 0x1234]),
            outputs,
            inputs,
            parameters,
            configuration,
            diagnosis,
            get_cfg: self.random.octets(slice as usize),
            channels: self.good_channels(lengths),
        };
        let least = (values.end_of_buffers() as usize).max(1536);
        values.memory = match self.random.below(8) {
            0..=3 => least,
            4 | 5 => (least + 8 * self.random.below(20)).min(LONGEST_MEMORY),
            6 => self.random.pick(&[4096, 4104, 8192]).max(least),
            _ => LONGEST_MEMORY,
        };
        values
    }

    /// Channels are set up in one station of three. Where all other lengths are the longest, now and then these are too.
    fn good_channels(&mut self, others: [u32; 6]) -> Vec<u8> {
        if others == [244; 6] && self.random.chance(30) {
            return vec![240; 2 * CHANNELS];
        }
        if self.random.below(3) != 0 {
            return NO_CHANNELS.to_vec();
        }
        let alone = self.some_channel();
        let of_100 = self.random.pick(&[0, 0, 20, 60, 100]);
        let longest = self.random.pick(&[4, 9, 9, 40, 240]);
        let mut channels = NO_CHANNELS.to_vec();
        for (number, lengths) in channels.chunks_mut(2).enumerate() {
            if number == alone || self.random.chance(of_100) {
                lengths.fill_with(|| self.length_of_a_channel(longest));
            }
        }
        channels
    }

    /// Often the first or the last.
    fn some_channel(&mut self) -> usize {
        match self.random.below(3) {
            0 => 0,
            1 => CHANNELS - 1,
            _ => self.random.below(CHANNELS),
        }
    }

    fn length_of_a_channel(&mut self, longest: usize) -> u8 {
        match self.random.below(4) {
            0 => longest as u8,
            _ => self.random.between(4, longest) as u8,
        }
    }

    /// Outputs, inputs, parameters, configuration, diagnosis, Get_Cfg slice. One station in four has no outputs or no
    /// inputs.
    fn good_lengths(&mut self) -> [u32; 6] {
        let lengths = self.two_sided_lengths();
        match self.random.below(8) {
            0 => self.without_side(0, lengths),
            1 => self.without_side(1, lengths),
            _ => lengths,
        }
    }

    /// Now and then the others are so long that the buffers go beyond the shortest memory, where it shows that the side
    /// takes no room.
    fn without_side(&mut self, side: usize, mut lengths: [u32; 6]) -> [u32; 6] {
        if self.random.chance(25) {
            lengths = lengths.map(|_| self.random.between(170, 244) as u32);
        }
        lengths[side] = 0;
        lengths
    }

    /// Short ones let a list go far, long ones reach the limits; 8 outputs are what an SD3 carries.
    fn two_sided_lengths(&mut self) -> [u32; 6] {
        let random = &mut self.random;
        match random.weighted(&[28, 33, 12, 18, 6, 8, 4]) {
            0 => [1, 1, random.pick(&[7, 8, 8]), 1, 6, 1],
            1 => [
                random.between(1, 9) as u32,
                random.between(1, 9) as u32,
                random.between(7, 12) as u32,
                random.between(1, 9) as u32,
                random.between(6, 12) as u32,
                random.between(1, 9) as u32,
            ],
            2 => [8, 3, 10, 7, 9, 2],
            3 => [random.pick(&[64, 64, 96, 96, 97]); 6],
            4 => [244; 6],
            5 => [
                random.between(1, 244) as u32,
                random.between(1, 244) as u32,
                random.between(7, 244) as u32,
                random.between(1, 244) as u32,
                random.between(6, 244) as u32,
                random.between(1, 244) as u32,
            ],
            _ => [
                random.pick(&[1, 244]),
                random.pick(&[1, 244]),
                random.pick(&[7, 244]),
                random.pick(&[1, 244]),
                random.pick(&[6, 244]),
                random.pick(&[1, 244]),
            ],
        }
    }

    /// Start with one or two values spoiled; the memory in use must not notice.
    fn refused_start(&mut self, good: &StartValues) {
        let mut values = good.clone();
        for _ in 0..self.random.pick(&[1, 1, 2]) {
            self.spoil_start(&mut values);
        }
        self.call(Call::Start(values));
    }

    fn spoil_start(&mut self, values: &mut StartValues) {
        let random = &mut self.random;
        let too_long = random.pick(&[245, 246, 255, 256, 257, 500, u32::MAX - 7, u32::MAX]);
        let below = |least: u32, zero: bool| if zero { 0 } else { least - 1 };
        let short = random.chance(50);
        let zero = random.chance(50);
        let bad = |least: u32| {
            if short {
                below(least, zero)
            } else {
                too_long
            }
        };
        match random.below(15) {
            0 | 1 => values.memory = random.pick(&BAD_MEMORIES),
            2 => values.address = random.pick(&[127, 128, 255, 256, 261, u32::MAX]),
            3 => values.outputs = too_long,
            4 => values.inputs = too_long,
            5 => values.parameters = bad(7),
            6 => values.configuration = bad(1),
            7 => values.diagnosis = bad(6),
            8 => values.get_cfg = vec![7; random.pick(&[0, 245, 256, 300])],
            9 => (values.outputs, values.inputs) = (0, 0),
            10 => values.channels.resize(random.pick(&BAD_CHANNELS_SLICES), 0),
            11 | 12 => self.spoil_channel(values),
            13 => self.without_room_for_channels(values),
            _ => self.without_room(values),
        }
    }

    fn without_room(&mut self, values: &mut StartValues) {
        let sides = [(244, 244), (0, 244), (244, 0)];
        (values.outputs, values.inputs) = self.random.pick(&sides);
        (values.parameters, values.configuration) = (244, 244);
        let beyond = values.end_without_channels() as usize - 8;
        values.memory = beyond.min(LONGEST_MEMORY);
    }

    /// All other buffers end in the memory.
    fn without_room_for_channels(&mut self, values: &mut StartValues) {
        if values.channels == NO_CHANNELS || values.end_of_buffers() <= 1536 {
            let length = self.random.pick(&[40, 64, 240]);
            values.channels = vec![length; 2 * CHANNELS];
        }
        let beyond = values.end_of_buffers() as usize - 8;
        values.memory = beyond.min(LONGEST_MEMORY);
    }

    /// One channel's lengths, one of them or both out of their range, or one without the other. The slice may be one of a
    /// wrong length already.
    fn spoil_channel(&mut self, values: &mut StartValues) {
        let number = self.some_channel();
        let spoilt = self.random.pick(&BAD_CHANNELS);
        if let Some(lengths) = values.channels.chunks_exact_mut(2).nth(number) {
            lengths.copy_from_slice(&spoilt);
        }
    }

    /// A Start in the middle of everything, on the memory in use or on another one.
    fn restart(&mut self) {
        let mut values = self.good_start();
        if self.random.chance(50) {
            let memory = self.ledger().values.memory;
            if values.end_of_buffers() <= memory as u64 {
                values.memory = memory;
            }
        }
        self.call(Call::Start(values));
    }
}

/// Episodes: the pieces a list is made of.
impl Generator {
    fn episode(&mut self) {
        if self.random.chance(15) {
            self.change_vat_program();
        }
        let weights = [34, 9, 7, 16, 6, 6, 3, 25];
        match self.random.weighted(&weights) {
            0 => self.sensible_telegram(),
            1 => self.spoiled_telegram(),
            2 => self.odd_telegram(),
            3 => self.user_work(),
            4 => self.ticks(),
            5 => self.out_of_range(),
            6 => self.noise(),
            _ => self.scenario(),
        }
    }

    fn scenario(&mut self) {
        if self.is_one_sided() && self.random.chance(40) {
            return self.one_sided();
        }
        if self.has_channels() && self.random.chance(5) {
            return self.ask_a_channel();
        }
        match self.random.weighted(&[
            10, 14, 22, 10, 10, 8, 10, 10, 6, 1, 6, 12, 10, 10, 8, 10, 60, 4, 10, 8, 6, 6,
        ]) {
            0 => self.reach_exchange(),
            1 => self.delayed_diagnosis(),
            2 => self.clear_on_a_busy_line(),
            3 => self.parameters_that_wait(),
            4 => self.configurations_that_wait(),
            5 => self.outputs_taken_under_their_reply(),
            6 => self.bad_judgement_on_a_busy_line(),
            7 => self.diagnosis_seen_by_all(),
            8 => self.owner_changes(),
            9 => self.restart(),
            10 => self.controls(),
            11 => self.outputs_in_sync(),
            12 => self.inputs_frozen(),
            13 => self.modes_that_end(),
            14 => self.writes_without_effect(),
            15 => self.points_asked_in_turn(),
            16 => self.retries(),
            17 => self.retry_of_an_early_request(),
            18 => self.branch_on_pending(),
            19 => self.octet_7_from_before(),
            20 => self.watchdog_above_16_bits(),
            _ => self.set_prm_again(),
        }
    }

    fn sensible_telegram(&mut self) {
        let draft = self.sensible_draft();
        if self.random.chance(self.habits.damage) {
            self.put_spoiled(&draft.octets());
        } else {
            self.put(&draft.octets());
        }
        self.hear_reply();
        if self.random.chance(self.habits.again) {
            let again = self.changed_where_a_repeat_may(&draft);
            self.put(&again.octets());
            self.hear_reply();
        }
        if self.random.chance(5) {
            self.status_without_a_gap();
        }
    }

    fn spoiled_telegram(&mut self) {
        let draft = self.sensible_draft();
        self.put_spoiled(&draft.octets());
        if self.random.chance(20) {
            self.status_without_a_gap();
        }
        self.hear_reply();
    }

    /// A whole telegram that is heard only if octets are not ignored here.
    fn status_without_a_gap(&mut self) {
        let draft = Draft::status(self.address(), 1);
        self.put_part(&draft.octets());
        self.call(Call::Send);
    }

    fn odd_telegram(&mut self) {
        let draft = self.odd_draft();
        self.put(&draft.octets());
        self.hear_reply();
    }

    /// The vat program at work: what it would do in this state, now and then out of order.
    fn user_work(&mut self) {
        for _ in 0..self.random.between(1, 5) {
            let call = self.useful_call();
            self.call(call);
        }
    }

    /// Around the moment at which the watchdog expires, if it is near.
    fn ticks(&mut self) {
        let count = match self.ticks_left() {
            Some(left) => (left + self.random.below(3)).saturating_sub(1),
            None => self.random.between(1, 3),
        };
        self.tick(count);
    }

    fn tick(&mut self, count: usize) {
        for _ in 0..count {
            self.call(Call::Tick);
        }
    }

    /// What remains of the watchdog, if its end is near: the shortest ones on a base of 10 ms have 20 to 40 ticks.
    fn ticks_left(&self) -> Option<usize> {
        let watchdog = self.ledger().watchdog.as_ref();
        watchdog
            .map(|watchdog| watchdog.left as usize)
            .filter(|left| *left <= 40)
    }

    /// Octets that no master sends.
    fn noise(&mut self) {
        let starts = [
            telegram::SD1,
            telegram::SD2,
            telegram::SD3,
            telegram::SD4,
            0xE5,
            0x16,
        ];
        if self.random.chance(80) {
            self.call(Call::Gap);
        }
        for _ in 0..self.random.between(1, 6) {
            let octet = match self.random.chance(50) {
                true => self.random.pick(&starts),
                false => self.random.octet(),
            };
            let bad = self.random.chance(15);
            self.call(Call::Octet { octet, bad });
        }
    }
}

/// The bus: telegrams and replies, with other calls between their octets.
impl Generator {
    fn put(&mut self, octets: &[u8]) {
        self.call(Call::Gap);
        for octet in octets {
            self.interrupt();
            self.call(Call::Octet {
                octet: *octet,
                bad: false,
            });
        }
    }

    /// A new telegram without interruptions, where a scenario needs it to arrive.
    fn put_quietly(&mut self, draft: &Draft) {
        let draft = self.as_new(draft);
        self.call(Call::Gap);
        self.put_part(&draft.octets());
    }

    fn put_part(&mut self, octets: &[u8]) {
        for octet in octets {
            self.call(Call::Octet {
                octet: *octet,
                bad: false,
            });
        }
    }

    fn interrupt(&mut self) {
        if self.random.below(1000) < self.habits.interruptions {
            for _ in 0..self.random.between(1, 2) {
                let call = self.any_call();
                self.call(call);
            }
        }
    }

    fn hear_reply(&mut self) {
        match self.random.weighted(&[60, 15, 15, 10]) {
            0 => {
                self.hear(usize::MAX);
                self.call(Call::Send);
            }
            1 => self.hear(usize::MAX),
            2 => {
                let part = self.random.below(self.ledger().reply.left.len() + 1);
                self.hear(part);
            }
            _ => {}
        }
    }

    fn hear(&mut self, count: usize) {
        for _ in 0..count {
            if !self.ledger().reply_is_unfinished() || self.is_full() {
                return;
            }
            self.interrupt();
            self.call(Call::Send);
        }
    }

    fn hear_quietly(&mut self) {
        while self.ledger().reply_is_unfinished() && !self.is_full() {
            self.call(Call::Send);
        }
    }

    /// Ends whatever is on the line, and with it what is noted or delayed.
    fn settle(&mut self) {
        self.call(Call::Gap);
        self.hear_quietly();
    }

    fn put_spoiled_new(&mut self, draft: &Draft) {
        let draft = self.as_new(draft);
        self.put_spoiled(&draft.octets());
    }

    fn put_spoiled(&mut self, octets: &[u8]) {
        let spoil = self.random.pick(&SPOILS);
        let at = self.random.below(octets.len());
        let mut spoiled = octets.to_vec();
        match spoil {
            Spoil::FlaggedBad | Spoil::GapInside => return self.put_disturbed(octets, at, spoil),
            Spoil::OneOctet => spoiled[at] = self.random.octet(),
            Spoil::OneBit => spoiled[at] ^= 1 << self.random.below(8),
            Spoil::OneOctetWithGoodCheckSum => self.change_with_good_check_sum(&mut spoiled),
            Spoil::MarkInOneAddress => self.mark_one_address(&mut spoiled),
            Spoil::CutShort => spoiled.truncate(at),
            Spoil::TooLong => spoiled.extend([octets[0], octets[octets.len() - 1]]),
            Spoil::Lost => drop(spoiled.remove(at)),
            Spoil::Doubled => spoiled.insert(at, octets[at]),
            Spoil::SecondLength if octets[0] == telegram::SD2 => {
                spoiled[2] = spoiled[2].wrapping_add(self.random.pick(&[1, 255, 128]))
            }
            Spoil::Length if octets[0] == telegram::SD2 => {
                let le = self.random.pick(&[0, 3, 4, 249, 250, 255]);
                spoiled[1..3].fill(le);
            }
            Spoil::ShortestLengthExtended => {
                spoiled = vec![telegram::SD2, 4, 4, telegram::SD2];
                spoiled.push(self.address() | EXTENSION);
            }
            Spoil::SecondLength | Spoil::Length => spoiled[0] ^= 0x01,
        }
        self.put(&spoiled);
    }

    fn put_disturbed(&mut self, octets: &[u8], at: usize, spoil: Spoil) {
        self.call(Call::Gap);
        for (place, octet) in octets.iter().enumerate() {
            if place == at && matches!(spoil, Spoil::GapInside) {
                self.call(Call::Gap);
            }
            let bad = place == at && matches!(spoil, Spoil::FlaggedBad);
            self.call(Call::Octet { octet: *octet, bad });
        }
    }

    /// A change that the check sum does not betray.
    fn change_with_good_check_sum(&mut self, octets: &mut [u8]) {
        let body_at = if octets[0] == telegram::SD2 { 4 } else { 1 };
        if octets[0] == telegram::SD4 || octets.len() < body_at + 5 {
            return;
        }
        let fcs_at = octets.len() - 2;
        let at = self.random.between(body_at, fcs_at - 1);
        octets[at] ^= 1 << self.random.below(8);
        octets[fcs_at] = telegram::check_sum(&octets[body_at..fcs_at]);
    }

    fn mark_one_address(&mut self, octets: &mut [u8]) {
        let body_at = if octets[0] == telegram::SD2 { 4 } else { 1 };
        octets[body_at + self.random.below(2)] ^= EXTENSION;
    }
}

/// Telegrams that make sense now.
impl Generator {
    fn sensible_draft(&mut self) -> Draft {
        let phase = self.ledger().phase;
        // Set_Prm, Chk_Cfg, Data_Exchange, Slave_Diag, Get_Cfg, Read_Inputs, Read_Outputs, Global_Control, status
        let weights = match phase {
            Phase::WaitPrm => [45, 6, 6, 12, 5, 3, 3, 3, 4],
            Phase::WaitCfg => [14, 40, 8, 12, 4, 3, 3, 4, 4],
            Phase::DataExch => [5, 5, 45, 12, 4, 8, 8, 18, 4],
        };
        let mut draft = match self.random.weighted(&weights) {
            0 => self.set_prm(),
            1 => self.chk_cfg(),
            2 => self.data_exchange(),
            3 => self.without_data(draft::SLAVE_DIAG),
            4 => self.without_data(draft::GET_CFG),
            5 => self.without_data(draft::READ_INPUTS),
            6 => self.without_data(draft::READ_OUTPUTS),
            7 => self.global_control(),
            _ => {
                let master = self.likely_master();
                Draft::status(self.address(), master)
            }
        };
        self.vary_control(&mut draft);
        draft
    }

    /// 12 goes for 13, and 4 for 6. Bits 5 and 4 count in a request alone.
    fn vary_control(&mut self, draft: &mut Draft) {
        draft.control = match (draft.control & 0x0F, self.random.chance(30)) {
            (13, true) => draft.control & 0xF0 | 12,
            (6, true) => draft.control & 0xF0 | 4,
            _ => draft.control,
        };
        *draft = match is_request(draft) {
            true => self.as_new(draft),
            false => Draft {
                control: draft.control ^ self.random.pick(&[0, 0, 0x10, 0x20, 0x30]),
                ..draft.clone()
            },
        };
    }

    /// The draft as a new request of its master, mostly with FCV set: then the FCB is not the one that would make it a
    /// repeat.
    fn as_new(&mut self, draft: &Draft) -> Draft {
        if !is_request(draft) {
            return draft.clone();
        }
        if self.random.chance(self.habits.counted) {
            return self.counted_as_new(draft);
        }
        let bit = self.random.chance(50);
        let control = draft.counted(bit).control & !draft::FCV;
        Draft {
            control,
            ..draft.clone()
        }
    }

    fn without_data(&mut self, point: u8) -> Draft {
        let master = match self.random.chance(70) {
            true => self.likely_master(),
            false => self.any_master(),
        };
        Draft::to_point(self.address(), master, point, Vec::new())
    }

    /// To one of the points or to any other number, with data whether or not the point takes any.
    fn request_to_some_point(&mut self) -> Draft {
        let point = match self.random.chance(80) {
            true => self.random.between(56, 62) as u8,
            false => self.random.octet(),
        };
        let count = self.random.pick(&[0, 0, 0, 1, 2, 7]);
        let data = self.random.octets(count);
        let mut draft = Draft {
            data,
            ..self.without_data(point)
        };
        self.vary_control(&mut draft);
        draft
    }

    fn good_set_prm(&mut self, watchdog: Option<(u8, u8)>) -> Draft {
        let group = self.random.pick(&[0, 1, 2, 0x80, 0xFF, 0x55]);
        let allowed = self.allowed_pairs();
        let ident = self.ledger().values.ident;
        let mut data = draft::good_parameters(ident, watchdog, group, allowed);
        data[0] |= self.random.below(8) as u8;
        data[3] = self.random.octet();
        let further = self.parameters_from_octet_7();
        data.extend(further);
        let master = self.owner_or_any();
        Draft::to_point(self.address(), master, draft::SET_PRM, data)
    }

    /// Octet 7 and what is behind it, if there is room for it.
    fn parameters_from_octet_7(&mut self) -> Vec<u8> {
        let longest = self.ledger().values.parameters as usize;
        if longest == 7 || self.random.chance(20) {
            return Vec::new();
        }
        let octet = self.octet_7();
        let extra = self.random_extra(8, longest);
        [vec![octet], extra].concat()
    }

    /// Mostly with bit 2: on a base of 1 ms a watchdog expires within few calls.
    fn octet_7(&mut self) -> u8 {
        let any = self.random.octet();
        match self.random.weighted(&[50, 25, 10, 15]) {
            0 => draft::BASE_1_MS,
            1 => any | draft::BASE_1_MS,
            2 => 0,
            _ => any & !draft::BASE_1_MS,
        }
    }

    /// Mostly both pairs: a station that allows nothing only ignores the commands.
    fn allowed_pairs(&mut self) -> u8 {
        let choices = [
            draft::ALLOW_BOTH,
            draft::ALLOW_SYNC,
            draft::ALLOW_FREEZE,
            draft::ALLOW_NONE,
        ];
        choices[self.random.weighted(&[64, 12, 12, 12])]
    }

    /// More octets, up to the limit; mostly few, for long telegrams use up the list.
    fn random_extra(&mut self, have: usize, limit: usize) -> Vec<u8> {
        let room = limit.saturating_sub(have);
        let count = match self.random.below(10) {
            0..=2 => 0,
            3 => room,
            _ => self.random.below(room.min(5) + 1),
        };
        self.random.octets(count)
    }

    fn any_watchdog(&mut self) -> Option<(u8, u8)> {
        match self.random.below(10) {
            0..=2 => None,
            3..=6 => Some(self.random.pick(&[(1, 2), (2, 1), (2, 2), (1, 3), (3, 2)])),
            7 => Some((255, 255)),
            8 => Some(self.random.pick(&ABOVE_16_BITS)),
            _ => Some((
                self.random.between(2, 255) as u8,
                self.random.between(1, 3) as u8,
            )),
        }
    }

    fn set_prm(&mut self) -> Draft {
        let watchdog = self.any_watchdog();
        let mut draft = self.good_set_prm(watchdog);
        draft.source = self.likely_master();
        if self.random.chance(45) {
            self.spoil_parameters(&mut draft.data);
        }
        draft
    }

    fn spoil_parameters(&mut self, data: &mut Vec<u8>) {
        let longest = self.ledger().values.parameters as usize;
        match self.random.below(11) {
            0 => data.truncate(self.random.below(7)),
            1 => data.resize(longest + 1 + self.random.below(3), 0x55),
            2 | 3 => data[0] |= 0x40,
            4 => data[0] &= 0x7F,
            5 => data[4] ^= 1 << self.random.below(8),
            6 => data[5] ^= 1 << self.random.below(8),
            7 => (data[0], data[1]) = (data[0] | 0x08, 0),
            8 => (data[0], data[2]) = (data[0] | 0x08, 0),
            9 => (data[0], data[1], data[2]) = (data[0] | 0x08, 1, 1),
            _ => (data[0], data[1], data[2]) = (data[0] & !0x08, 1, 1),
        }
    }

    fn good_chk_cfg(&mut self) -> Draft {
        let mut data = self.random.octets(1);
        let extra = self.random_extra(1, self.ledger().values.configuration as usize);
        data.extend(extra);
        let master = self.owner_or_any();
        Draft::to_point(self.address(), master, draft::CHK_CFG, data)
    }

    fn chk_cfg(&mut self) -> Draft {
        let longest = self.ledger().values.configuration as usize;
        let mut draft = self.good_chk_cfg();
        draft.source = self.likely_master();
        match self.random.below(20) {
            0 => draft.data.clear(),
            1 => draft.data.resize(longest + 1, 0x33),
            2..=4 => draft.form = Form::Sd3,
            _ => {}
        }
        draft
    }

    fn good_exchange(&mut self) -> Draft {
        self.exchange_of(self.ledger().values.outputs as usize)
    }

    /// A Data_Exchange of the owner with as many octets.
    fn exchange_of(&mut self, count: usize) -> Draft {
        let data = self.random.octets(count);
        let master = self.owner_or_any();
        let mut draft = Draft::exchange(self.address(), master, data);
        if count == 8 && self.random.chance(40) {
            draft.form = Form::Sd3;
        }
        draft
    }

    fn data_exchange(&mut self) -> Draft {
        let mut draft = match self.random.chance(10) {
            true => self.exchange_of_another_count(),
            false => self.good_exchange(),
        };
        draft.source = self.likely_master();
        draft
    }

    /// An octet less or more, none, or as many as an SD3 carries: mostly not what the station takes.
    fn exchange_of_another_count(&mut self) -> Draft {
        let right = self.ledger().values.outputs as usize;
        let counts = [right.saturating_sub(1), right + 1, 0, 8];
        let count = self.random.pick(&counts);
        self.exchange_of(count)
    }

    fn global_control(&mut self) -> Draft {
        let control = self.command();
        let group = match self.random.below(8) {
            0..=2 => 0,
            3..=5 => self.ledger().group,
            6 => !self.ledger().group,
            _ => self.random.octet(),
        };
        let master = self.likely_master();
        let destination = self.random.pick(&[127, self.address()]);
        let mut draft = Draft::global_control(destination, master, control, group);
        match self.random.below(12) {
            0 => drop(draft.data.pop()),
            1 => draft.data.push(0),
            _ => {}
        }
        draft
    }

    /// Octet 0 of Global_Control. Unsync and clear are rare, so that sync stays on for several exchanges and there is
    /// something to publish.
    fn command(&mut self) -> u8 {
        match self.random.weighted(&[20, 30, 5, 16, 6, 4, 14, 5]) {
            0 => self.ledger().stored_control,
            1 => draft::SYNC,
            2 => draft::UNSYNC,
            3 => draft::FREEZE,
            4 => draft::UNFREEZE,
            5 => draft::CLEAR,
            6 => self.combined_command(),
            _ => self.random.octet(),
        }
    }

    /// Several bits at once: of a pair, of both pairs, with clear.
    fn combined_command(&mut self) -> u8 {
        let of_sync = [0, draft::SYNC, draft::UNSYNC, draft::SYNC | draft::UNSYNC];
        let of_freeze = [
            0,
            draft::FREEZE,
            draft::UNFREEZE,
            draft::FREEZE | draft::UNFREEZE,
        ];
        let sync = self.random.pick(&of_sync);
        let freeze = self.random.pick(&of_freeze);
        sync | freeze | self.random.pick(&[0, 0, draft::CLEAR])
    }

    /// A command of the owner to every station.
    fn owners_command(&mut self, control: u8) -> Draft {
        let master = self.owner_or_any();
        let destination = self.random.pick(&[127, self.address()]);
        Draft::global_control(destination, master, control, 0)
    }

    /// A telegram that is well formed but strange in one or more of its parts.
    fn odd_draft(&mut self) -> Draft {
        let mut draft = self.sensible_draft();
        for _ in 0..self.random.between(1, 2) {
            self.make_odd(&mut draft);
        }
        fill_sd2(&mut draft);
        draft
    }

    fn make_odd(&mut self, draft: &mut Draft) {
        let random = &mut self.random;
        let points = [0, 55, 56, 57, 58, 59, 60, 61, 62, 63, 0xBD, 255];
        match random.below(12) {
            0 => draft.destination = random.pick(&[127, 0, 4, 126]),
            1 => draft.source = random.pick(&[127, 126, draft.destination & 0x7F]),
            2 => draft.control ^= random.pick(&[0x80, 0x40, 0xC0]),
            3 => draft.control = draft.control & 0xF0 | random.below(16) as u8,
            4 => draft.control = random.pick(&[0x43, 0x45, 0x73, 0x75]),
            5 => draft.control = random.pick(&[0x49, 0x79, 0x4C, 0x5C]),
            6 => draft.points = Some((random.pick(&points), draft::MASTER_POINT)),
            7 => draft.points = draft.points.map(|(dsap, _)| (dsap, random.pick(&points))),
            8 => draft.form = random.pick(&[Form::Sd1, Form::Sd3, Form::Sd4]),
            9 => draft.data.push(random.octet()),
            10 => draft.points = Some((random.below(CHANNELS) as u8, random.below(53) as u8)),
            _ => {
                let count = random.pick(&[0, 1, 2, 7, 8, 9, 241, 243, 244]);
                draft.data = random.octets(count);
            }
        }
    }
}

/// SD2 has at least one data octet.
fn fill_sd2(draft: &mut Draft) {
    if draft.form == Form::Sd2 && draft.points.is_none() && draft.data.is_empty() {
        draft.data.push(0);
    }
}

/// A master asks again only for a reply, which functions 4 and 6 do not have.
fn is_request(draft: &Draft) -> bool {
    !matches!(draft.control & 0x0F, 4 | 6)
}

/// Calls of the vat program.
impl Generator {
    fn any_call(&mut self) -> Call {
        let weights = [8, 5, 2, 30, 3, 2, 2, 1];
        match self.random.weighted(&weights) {
            0 => Call::Send,
            1 => Call::Tick,
            2 => Call::Gap,
            3 => self.useful_call(),
            4 => self.call_out_of_range(),
            5 => Call::Leave,
            6 => Call::Octet {
                octet: self.random.octet(),
                bad: self.random.chance(50),
            },
            _ => self.refused_start_call(),
        }
    }

    fn refused_start_call(&mut self) -> Call {
        let mut values = self.ledger().values.clone();
        values.address = self.random.pick(&[127, 300]);
        Call::Start(values)
    }

    fn useful_call(&mut self) -> Call {
        let judging = self.ledger().parameters.shown.is_some() as usize * 12;
        let judging_cfg = self.ledger().configuration.shown.is_some() as usize * 12;
        let weights = [
            10,
            14,
            10,
            6,
            6,
            judging + 1,
            judging_cfg + 1,
            5,
            5,
            5,
            1,
            6,
            9,
        ];
        match self.random.weighted(&weights) {
            0 => Call::Take,
            1 => self.some_read(),
            2 => self.some_write(),
            3 => Call::HandOver,
            4 => self.some_diagnosis(),
            5 => Call::JudgeParameters(self.judgement()),
            6 => Call::JudgeConfiguration(self.judgement()),
            7 => Call::Events,
            8 => Call::Acknowledge(self.mask()),
            9 => Call::Pending,
            10 => Call::Leave,
            11 => self.read_of_a_set(),
            _ => self.some_access(),
        }
    }

    fn judgement(&mut self) -> u32 {
        match self.random.below(20) {
            0..=15 => 1,
            16..=18 => 0,
            _ => self.random.pick(&[2, 255, 256, 257, u32::MAX]),
        }
    }

    fn mask(&mut self) -> u16 {
        match self.random.below(4) {
            0 => 0xFFFF,
            1 => 1 << self.random.below(16),
            2 => self.ledger().events,
            _ => self.random.next() as u16,
        }
    }

    fn some_diagnosis(&mut self) -> Call {
        let longest = self.ledger().values.diagnosis;
        let count = match self.random.below(4) {
            0 => DIAGNOSIS_HEAD,
            1 => longest,
            _ => self
                .random
                .between(DIAGNOSIS_HEAD as usize, longest.min(16) as usize) as u32,
        };
        Call::NewDiagnosis {
            count,
            flags: self.random.below(8) as u32,
        }
    }

    fn some_index(&mut self, kind: u32) -> u32 {
        let length = self.ledger().set_length(kind).unwrap_or(1);
        let first = if kind == 5 { DIAGNOSIS_HEAD } else { 0 };
        match self.random.below(12) {
            0 => length.saturating_sub(1),
            1 => first,
            2 => length,
            _ => first + self.random.below(length.saturating_sub(first) as usize) as u32,
        }
    }

    fn some_read(&mut self) -> Call {
        let kind = self.random.between(1, 5) as u32;
        Call::Read {
            kind,
            index: self.some_index(kind),
        }
    }

    fn some_write(&mut self) -> Call {
        let kind = self.random.between(4, 5) as u32;
        Call::Write {
            kind,
            index: self.some_index(kind),
            octet: self.random.octet(),
        }
    }

    /// Around the end of a set that is shown: 8 is told from 7 there.
    fn read_of_a_set(&mut self) -> Call {
        let kind = self.random.between(2, 3) as u32;
        let sets = match kind {
            2 => &self.ledger().parameters,
            _ => &self.ledger().configuration,
        };
        let count = sets.shown.as_ref().map_or(0, Vec::len) as u32;
        let nearby = self.random.below(3) as u32;
        Call::Read {
            kind,
            index: (count + nearby).saturating_sub(1),
        }
    }

    fn out_of_range(&mut self) {
        for _ in 0..self.random.between(1, 3) {
            let call = self.call_out_of_range();
            self.call(call);
        }
        if self.random.chance(10) {
            let values = self.ledger().values.clone();
            self.refused_start(&values);
        }
    }

    fn call_out_of_range(&mut self) -> Call {
        let kind = self.random.between(1, 5) as u32;
        let beyond = self.ledger().set_length(kind).unwrap_or(0);
        let bad_kind = self.random.pick(&[0, 6, 7, 255, 256, 257, 260, u32::MAX]);
        let bad_index = self
            .random
            .pick(&[beyond, beyond + 1, 256, 65536, u32::MAX]);
        let longest = self.ledger().values.diagnosis;
        let octet = self.random.octet();
        match self.random.below(13) {
            0 => Call::Read {
                kind: bad_kind,
                index: 0,
            },
            1 => Call::Write {
                kind: bad_kind,
                index: 0,
                octet,
            },
            2 => Call::Write {
                kind: self.random.between(1, 3) as u32,
                index: 0,
                octet,
            },
            3 => Call::Read {
                kind,
                index: bad_index,
            },
            4 => Call::Write {
                kind,
                index: bad_index,
                octet,
            },
            5 => Call::Read {
                kind: 5,
                index: self.random.below(6) as u32,
            },
            6 => Call::Write {
                kind: 5,
                index: self.random.below(6) as u32,
                octet,
            },
            7 => Call::NewDiagnosis {
                count: self
                    .random
                    .pick(&[0, 5, longest + 1, 256 + 6, 245, u32::MAX]),
                flags: 0,
            },
            8 => Call::NewDiagnosis {
                count: DIAGNOSIS_HEAD,
                flags: self.random.pick(&[8, 15, 255, 256, 257, u32::MAX]),
            },
            9 => Call::JudgeParameters(self.random.pick(&[2, 255, 256, 257, u32::MAX])),
            10 => Call::JudgeConfiguration(self.random.pick(&[2, 255, 256, 257, u32::MAX])),
            11 => Call::WindowRead {
                order: self.some_order(),
                address: self.address_beyond(),
            },
            _ => Call::WindowWrite {
                order: self.some_order(),
                address: self.address_beyond(),
                octet,
            },
        }
    }
}

/// Accesses of the window.
impl Generator {
    /// From here on the vat program may be an older one.
    fn change_vat_program(&mut self) {
        let order = self.some_order();
        let older = self.random.chance(self.habits.older);
        self.window_alone = older.then_some(order);
    }

    /// What an older vat program does in place of a call. What has no cell stays as it is.
    fn through_the_window(&mut self, order: Order, call: Call) -> Vec<Call> {
        let read = |address| Call::WindowRead { order, address };
        match call {
            Call::HandOver => vec![read(0x09)],
            Call::Take => vec![read(0x0B)],
            Call::NewDiagnosis { .. } => vec![read(0x0D)],
            Call::JudgeParameters(1) => vec![read(0x0E)],
            Call::JudgeParameters(0) => vec![read(0x0F)],
            Call::JudgeConfiguration(1) => vec![read(0x10)],
            Call::JudgeConfiguration(0) => vec![read(0x11)],
            Call::Events => match self.random.chance(50) {
                true => vec![read(0x00), read(0x01)],
                false => vec![read(0x02), read(0x03)],
            },
            Call::Acknowledge(mask) => acknowledged_in_halves(order, mask),
            _ => vec![call],
        }
    }

    fn some_order(&mut self) -> Order {
        self.random.pick(&[Order::Intel, Order::Motorola])
    }

    /// Any cell, read or written: also one that a sensible program leaves alone.
    fn some_access(&mut self) -> Call {
        let order = self.some_order();
        let address = self.random.below(0x16) as u32;
        match self.random.chance(50) {
            true => Call::WindowRead { order, address },
            false => Call::WindowWrite {
                order,
                address,
                octet: self.half_of_a_mask(),
            },
        }
    }

    fn half_of_a_mask(&mut self) -> u8 {
        let [low, high] = self.mask().to_le_bytes();
        self.random.pick(&[low, high, low | high])
    }

    /// Above 015H: right behind it, far behind it, and such that the lowest octets alone would name a cell.
    fn address_beyond(&mut self) -> u32 {
        let any = self.random.below(0x16) as u32;
        let cell = self.random.pick(&[any, any, 0x02, 0x03]);
        let far = self
            .random
            .pick(&[0x20, 0x100, 0x1000, 0x1_0000, 0x8000_0000]);
        match self.random.below(5) {
            0 => 0x16,
            1 => self.random.between(0x17, 0xFF) as u32,
            2 => u32::MAX - cell,
            _ => far + cell,
        }
    }

    /// Writes to cells that do something when they are read or that show the events. What is open, new or set by then
    /// has to stay.
    fn writes_without_effect(&mut self) {
        self.open_a_set_or_exchange();
        for _ in 0..self.random.between(3, 9) {
            let cells = [0x00, 0x01, 0x09, 0x0B, 0x0D, 0x0E, 0x0F, 0x10, 0x11];
            let write = Call::WindowWrite {
                order: self.some_order(),
                address: self.random.pick(&cells),
                octet: self.half_of_a_mask(),
            };
            self.call(write);
        }
        for address in 0x00..=0x03 {
            let order = self.some_order();
            self.call(Call::WindowRead { order, address });
        }
        self.user_work();
    }

    fn open_a_set_or_exchange(&mut self) {
        let watchdog = self.any_watchdog();
        match self.random.below(3) {
            0 => self.parametrise(watchdog),
            1 => self.configure(watchdog),
            _ => {
                self.be_in_exchange();
                self.exchange_quietly();
            }
        }
    }
}

/// The two writes that acknowledge what the mask does.
fn acknowledged_in_halves(order: Order, mask: u16) -> Vec<Call> {
    let [low, high] = mask.to_le_bytes();
    let octets = match order {
        Order::Intel => [(0x02, low), (0x03, high)],
        Order::Motorola => [(0x02, high), (0x03, low)],
    };
    let write = |(address, octet)| Call::WindowWrite {
        order,
        address,
        octet,
    };
    octets.map(write).to_vec()
}

/// Scenarios: straight ways to places that chance alone would hardly find.
impl Generator {
    fn short_watchdog(&mut self) -> Option<(u8, u8)> {
        Some(self.random.pick(&[(1, 2), (2, 1), (3, 1), (2, 2)]))
    }

    fn parametrise(&mut self, watchdog: Option<(u8, u8)>) {
        self.settle();
        let draft = self.good_set_prm(watchdog);
        self.put_quietly(&draft);
        self.hear_quietly();
    }

    fn judge_parameters_good(&mut self) {
        while self.ledger().parameters.shown.is_some() && !self.is_full() {
            self.call(Call::JudgeParameters(1));
        }
    }

    fn judge_configuration_good(&mut self) {
        while self.ledger().configuration.shown.is_some() && !self.is_full() {
            self.call(Call::JudgeConfiguration(1));
        }
    }

    fn configure(&mut self, watchdog: Option<(u8, u8)>) {
        self.parametrise(watchdog);
        self.judge_parameters_good();
        let draft = self.good_chk_cfg();
        self.put_quietly(&draft);
        self.hear_quietly();
    }

    fn reach_exchange_with(&mut self, watchdog: Option<(u8, u8)>) {
        self.configure(watchdog);
        self.judge_configuration_good();
    }

    fn reach_exchange(&mut self) {
        let watchdog = self.any_watchdog();
        self.reach_exchange_with(watchdog);
        if self.random.chance(70) {
            let draft = self.good_exchange();
            self.put_quietly(&draft);
            self.hear_reply();
        }
    }

    fn diagnosis_request(&mut self) -> Draft {
        let master = match self.random.chance(60) {
            true => self.owner_or_any(),
            false => self.other_master(),
        };
        Draft::to_point(self.address(), master, draft::SLAVE_DIAG, Vec::new())
    }

    fn hear_a_part(&mut self) {
        let left = self.ledger().reply.left.len();
        let part = self.random.below(left.max(1));
        for _ in 0..part {
            self.call(Call::Send);
        }
    }

    fn delayed_diagnosis(&mut self) {
        self.settle();
        if self.random.chance(40) {
            let watchdog = self.any_watchdog();
            self.reach_exchange_with(watchdog);
        }
        let request = self.diagnosis_request();
        self.put_quietly(&request);
        self.hear_a_part();
        let write = self.some_write();
        self.call(write);
        let diagnosis = self.some_diagnosis();
        self.call(diagnosis);
        self.refused_while_delayed();
        self.end_delayed_reply();
        self.call(Call::Events);
        let request = self.diagnosis_request();
        self.put_quietly(&request);
        self.hear_quietly();
    }

    fn refused_while_delayed(&mut self) {
        let longest = self.ledger().values.diagnosis;
        let calls = [
            self.some_diagnosis(),
            Call::Read {
                kind: 5,
                index: longest - 1,
            },
            Call::Write {
                kind: 5,
                index: longest - 1,
                octet: 1,
            },
            Call::Events,
        ];
        for call in calls {
            if self.random.chance(40) {
                self.call(call);
            }
        }
    }

    fn end_delayed_reply(&mut self) {
        match self.random.below(7) {
            0 => self.hear_quietly(),
            1 => {
                let draft = self.sensible_draft();
                self.put_quietly(&draft);
            }
            2 => {
                self.call(Call::Leave);
                self.call(Call::Tick);
            }
            3 => {
                self.call(Call::Leave);
                self.hear_quietly();
            }
            4 => {
                self.call(Call::Gap);
                let octet = self.random.octet();
                self.call(Call::Octet { octet, bad: true });
                self.hear_quietly();
            }
            5 => {
                self.call(Call::Leave);
                self.call(Call::Gap);
                self.put_part(&[telegram::SD2]);
                match self.random.chance(50) {
                    true => self.call(Call::Gap),
                    false => self.call(Call::Tick),
                }
            }
            _ => {
                self.call(Call::Gap);
                let octet = self.random.pick(&[0xE5, 0x16, 0x00]);
                self.put_part(&[octet]);
                self.hear_quietly();
            }
        }
    }

    fn clear_on_a_busy_line(&mut self) {
        let watchdog = self.short_watchdog();
        self.reach_exchange_with(watchdog);
        let telegram = self.random.chance(50);
        let rest = match telegram {
            true => self.begin_a_telegram(),
            false => {
                self.begin_a_reply();
                Vec::new()
            }
        };
        self.ask_for_a_clear();
        for _ in 0..self.random.below(3) {
            let call = self.useful_call();
            self.call(call);
        }
        match telegram {
            true => self.end_begun_telegram(&rest),
            false => self.end_begun_reply(),
        }
        self.call(Call::Events);
        self.call(Call::Take);
        self.hear_reply();
    }

    /// The first octets of a telegram; answers the ones that are still to come.
    fn begin_a_telegram(&mut self) -> Vec<u8> {
        let draft = match self.random.below(5) {
            0 => self.global_control(),
            1 => self.good_set_prm(Some((9, 9))),
            2 => Draft::status(self.address() ^ 1, 3),
            3 => self.good_exchange(),
            _ => self.sensible_draft(),
        };
        let octets = self.as_new(&draft).octets();
        let part = self.random.between(1, octets.len() - 1);
        self.call(Call::Gap);
        self.put_part(&octets[..part]);
        octets[part..].to_vec()
    }

    fn begin_a_reply(&mut self) {
        let draft = match self.random.below(4) {
            0 => self.diagnosis_request(),
            1 => self.without_data(draft::READ_OUTPUTS),
            2 => self.without_data(draft::READ_INPUTS),
            _ => self.good_exchange(),
        };
        self.put_quietly(&draft);
        self.hear_a_part();
        if self.random.chance(30) {
            let diagnosis = self.some_diagnosis();
            self.call(diagnosis);
        }
    }

    fn ask_for_a_clear(&mut self) {
        match self.ticks_left() {
            Some(left) if left > 0 && self.random.chance(50) => self.tick(left),
            _ => self.call(Call::Leave),
        }
        if self.random.chance(15) {
            self.call(Call::Leave);
        }
    }

    fn end_begun_telegram(&mut self, rest: &[u8]) {
        match self.random.below(6) {
            0 | 1 => {
                self.put_part(rest);
                match self.random.chance(30) {
                    true => self.call(Call::Tick),
                    false => self.hear_reply(),
                }
            }
            2 => {
                self.call(Call::Tick);
                self.status_without_a_gap();
            }
            3 => {
                self.call(Call::Gap);
                self.status_without_a_gap();
            }
            4 => {
                let octet = rest[0];
                self.call(Call::Octet { octet, bad: true });
                self.status_without_a_gap();
            }
            _ => {
                let octet = rest[0] ^ self.random.pick(&[0x80, 0x01, 0xFF]);
                self.call(Call::Octet { octet, bad: false });
                self.put_part(&rest[1..]);
            }
        }
    }

    fn end_begun_reply(&mut self) {
        match self.random.below(6) {
            0 => self.hear_quietly(),
            1 => {
                self.call(Call::Tick);
                self.status_without_a_gap();
            }
            2 => {
                self.call(Call::Gap);
                self.call(Call::Tick);
                let draft = self.sensible_draft();
                self.put_part(&draft.octets());
            }
            3 | 4 => {
                let draft = match self.random.chance(40) {
                    true => self.good_set_prm(Some((2, 2))),
                    false => self.sensible_draft(),
                };
                self.put_quietly(&draft);
                self.hear_reply();
            }
            _ => {
                self.call(Call::Gap);
                self.put_part(&[telegram::SD1]);
                match self.random.chance(50) {
                    true => self.call(Call::Tick),
                    false => self.call(Call::Gap),
                }
            }
        }
    }

    fn look_at_set(&mut self, kind: u32) {
        for _ in 0..self.random.below(3) {
            let call = match self.random.chance(50) {
                true => self.read_of_a_set(),
                false => Call::Read {
                    kind,
                    index: self.some_index(kind),
                },
            };
            self.call(call);
        }
    }

    /// Several Set_Prm before a judgement; one that is spoiled must not touch those before it.
    fn parameters_that_wait(&mut self) {
        self.settle();
        for _ in 0..self.random.between(2, 4) {
            let watchdog = self.any_watchdog();
            let draft = self.good_set_prm(watchdog);
            match self.random.chance(25) {
                true => self.put_spoiled_new(&draft),
                false => self.put_quietly(&draft),
            }
            self.hear_quietly();
            self.look_at_set(2);
        }
        while self.ledger().parameters.shown.is_some() && !self.is_full() {
            self.look_at_set(2);
            let judgement = self.judgement();
            self.call(Call::JudgeParameters(judgement));
        }
    }

    fn configurations_that_wait(&mut self) {
        self.parametrise(None);
        if self.random.chance(85) {
            self.judge_parameters_good();
        }
        for _ in 0..self.random.between(2, 4) {
            let draft = self.good_chk_cfg();
            match self.random.chance(25) {
                true => self.put_spoiled_new(&draft),
                false => self.put_quietly(&draft),
            }
            self.hear_quietly();
            self.look_at_set(3);
        }
        for _ in 0..4 {
            self.look_at_set(3);
            let judgement = self.random.pick(&[1, 1, 0]);
            self.call(Call::JudgeConfiguration(judgement));
        }
    }

    fn outputs_taken_under_their_reply(&mut self) {
        let watchdog = self.any_watchdog();
        self.reach_exchange_with(watchdog);
        for _ in 0..2 {
            let draft = self.good_exchange();
            self.put_quietly(&draft);
            self.hear_quietly();
            if self.random.chance(60) {
                self.call(Call::Take);
            }
        }
        let draft = self.good_exchange();
        self.put_quietly(&draft);
        let master = self.any_master();
        let request = Draft::to_point(self.address(), master, draft::READ_OUTPUTS, Vec::new());
        self.put_quietly(&request);
        self.hear_a_part();
        self.call(Call::Take);
        if self.random.chance(40) {
            self.call(Call::Leave);
        }
        self.hear_quietly();
        self.call(Call::Take);
        self.call(Call::Read { kind: 1, index: 0 });
    }

    fn bad_judgement_on_a_busy_line(&mut self) {
        let watchdog = self.any_watchdog();
        self.parametrise(watchdog);
        let configuration = self.random.chance(50);
        if configuration {
            self.judge_parameters_good();
            let draft = self.good_chk_cfg();
            self.put_quietly(&draft);
            self.hear_quietly();
        }
        match self.random.chance(50) {
            true => {
                let request = self.diagnosis_request();
                self.put_quietly(&request);
                self.hear_a_part();
            }
            false => drop(self.begin_a_telegram()),
        }
        if self.random.chance(30) {
            self.call(Call::Leave);
        }
        self.call(match configuration {
            true => Call::JudgeConfiguration(0),
            false => Call::JudgeParameters(0),
        });
        self.hear_quietly();
        let request = self.diagnosis_request();
        self.put_quietly(&request);
        self.hear_reply();
    }

    /// A new diagnosis, seen by the owner and by others, and its flag in Data_Exchange.
    fn diagnosis_seen_by_all(&mut self) {
        if self.ledger().phase != Phase::DataExch {
            let watchdog = self.any_watchdog();
            self.reach_exchange_with(watchdog);
        }
        self.settle();
        for _ in 0..self.random.between(1, 4) {
            let write = self.some_write();
            self.call(write);
        }
        let diagnosis = self.some_diagnosis();
        self.call(diagnosis);
        for _ in 0..self.random.between(2, 4) {
            let draft = match self.random.chance(40) {
                true => self.good_exchange(),
                false => self.diagnosis_request(),
            };
            self.put_quietly(&draft);
            self.hear_reply();
        }
    }

    /// One master gives the station up, another takes it.
    fn owner_changes(&mut self) {
        self.reach_exchange_with(None);
        if self.random.chance(50) {
            self.call(Call::Leave);
        } else {
            let mut draft = self.good_set_prm(None);
            draft.data[0] |= 0x40;
            self.put_quietly(&draft);
            self.hear_quietly();
        }
        let mut draft = self.good_set_prm(None);
        draft.source = self.other_master();
        self.put_quietly(&draft);
        self.hear_quietly();
    }

    fn controls(&mut self) {
        if self.ledger().phase != Phase::DataExch {
            self.reach_exchange_with(None);
        }
        for _ in 0..self.random.between(2, 5) {
            let draft = self.global_control();
            self.put_quietly(&draft);
            self.call(Call::Events);
            if self.random.chance(40) {
                self.call(Call::Take);
            }
            if self.random.chance(40) {
                let mask = self.mask();
                self.call(Call::Acknowledge(mask));
            }
        }
    }

    /// Several rounds of sync: outputs are held back, looked for in vain, and published or emptied at last.
    fn outputs_in_sync(&mut self) {
        self.be_in_exchange();
        let begin = self.owners_command(draft::SYNC);
        self.put_quietly(&begin);
        for _ in 0..self.random.between(1, 3) {
            self.exchanges_in_sync();
            self.look_for_outputs();
            let control = match self.random.below(10) {
                0..=4 => draft::SYNC,
                5 => draft::CLEAR,
                6 => draft::SYNC | draft::CLEAR,
                _ => self.combined_command(),
            };
            let command = self.owners_command(control);
            self.put_quietly(&command);
            self.look_for_outputs();
        }
        if self.random.chance(30) {
            let command = self.owners_command(draft::UNSYNC);
            self.put_quietly(&command);
            self.look_for_outputs();
        }
    }

    fn be_in_exchange(&mut self) {
        if self.ledger().phase != Phase::DataExch || self.random.chance(30) {
            let watchdog = self.any_watchdog();
            self.reach_exchange_with(watchdog);
        }
        self.settle();
    }

    /// None, one or more: a later one replaces the one before, and one that is spoiled must not touch it.
    fn exchanges_in_sync(&mut self) {
        for _ in 0..self.random.below(4) {
            let draft = self.good_exchange();
            match self.random.chance(20) {
                true => self.put_spoiled_new(&draft),
                false => self.put_quietly(&draft),
            }
            self.hear_reply();
            if self.random.chance(20) {
                self.look_for_outputs();
            }
            if self.random.chance(20) {
                let draft = self.telegram_that_leaves_modes();
                self.put_quietly(&draft);
                self.hear_reply();
            }
        }
    }

    /// Commands of another master or to another group, and a Set_Prm with bit 7 clear, whatever it allows.
    fn telegram_that_leaves_modes(&mut self) -> Draft {
        let control = self.command();
        let mut draft = self.owners_command(control);
        match self.random.below(3) {
            0 => draft.source = self.other_master(),
            1 => draft.data[1] = !self.ledger().group,
            _ => {
                draft = self.good_set_prm(None);
                draft.data[0] &= 0x7F;
            }
        }
        draft
    }

    /// What the vat program and other masters see of the outputs while some are held back.
    fn look_for_outputs(&mut self) {
        if self.random.chance(60) {
            self.call(Call::Events);
            self.call(Call::Take);
            let index = self.some_index(1);
            self.call(Call::Read { kind: 1, index });
        }
        if self.random.chance(25) {
            let draft = match self.random.chance(50) {
                true => self.without_data(draft::READ_OUTPUTS),
                false => self.diagnosis_request(),
            };
            self.put_quietly(&draft);
            self.hear_reply();
        }
    }

    /// Inputs are handed over while freeze keeps the ones that are sent.
    fn inputs_frozen(&mut self) {
        self.be_in_exchange();
        for _ in 0..self.random.between(2, 4) {
            self.some_new_inputs();
            let control = match self.random.below(4) {
                0 | 1 => draft::FREEZE,
                2 => draft::UNFREEZE,
                _ => self.combined_command(),
            };
            let command = self.owners_command(control);
            self.put_quietly(&command);
            self.some_new_inputs();
            let draft = match self.random.chance(60) {
                true => self.good_exchange(),
                false => self.without_data(draft::READ_INPUTS),
            };
            self.put_quietly(&draft);
            self.hear_quietly();
        }
    }

    fn some_new_inputs(&mut self) {
        if self.random.chance(60) {
            let octet = self.random.octet();
            let index = self.random.below(self.ledger().values.inputs as usize) as u32;
            self.call(Call::Write {
                kind: 4,
                index,
                octet,
            });
            self.call(Call::HandOver);
        }
    }

    /// Both modes on and outputs held back; then the phase ends them, and the next exchange finds them ended.
    fn modes_that_end(&mut self) {
        let watchdog = self.short_watchdog();
        self.reach_exchange_with(watchdog);
        let begin = self.owners_command(draft::SYNC | draft::FREEZE);
        self.put_quietly(&begin);
        self.exchange_quietly();
        self.some_new_inputs();
        self.leave_exchange();
        self.call(Call::Events);
        self.call(Call::Take);
        if self.random.chance(60) {
            self.reach_exchange_with(None);
            self.exchange_quietly();
            self.call(Call::Take);
            let index = self.some_index(1);
            self.call(Call::Read { kind: 1, index });
        }
    }

    fn exchange_quietly(&mut self) {
        let draft = self.good_exchange();
        self.put_quietly(&draft);
        self.hear_quietly();
    }

    fn leave_exchange(&mut self) {
        let draft = match self.random.below(7) {
            0 | 1 => self.good_chk_cfg(),
            2 => self.good_set_prm(None),
            3 => self.spoiled_set_prm(),
            4 => self.exchange_of_another_count(),
            5 => return self.call(Call::Leave),
            _ => return self.ticks(),
        };
        self.put_quietly(&draft);
        self.hear_quietly();
    }

    fn spoiled_set_prm(&mut self) -> Draft {
        let mut draft = self.good_set_prm(None);
        self.spoil_parameters(&mut draft.data);
        draft
    }

    /// Several requests one after another: what one of them finds must not depend on the one before.
    fn points_asked_in_turn(&mut self) {
        self.be_in_exchange();
        for _ in 0..self.random.between(3, 6) {
            let draft = self.request_to_some_point();
            self.put_quietly(&draft);
            self.hear_reply();
        }
    }
}

/// Retries: requests that come again, with everything between that ends the chain or leaves it as it is.
impl Generator {
    fn retries(&mut self) {
        self.state_for_retries();
        let request = self.counted_request();
        self.put_whole(&request);
        for _ in 0..self.random.between(1, 3) {
            self.hear_some();
            if self.random.chance(60) {
                self.change_what_is_drawn();
            }
            for _ in 0..self.random.below(3) {
                self.between_repeats(&request);
            }
            let again = self.changed_where_a_repeat_may(&request);
            self.put_again(&again);
            if self.random.chance(25) {
                let diagnosis = self.some_diagnosis();
                self.call(diagnosis);
            }
        }
        self.hear_quietly();
        self.call(Call::Events);
        self.look_for_outputs();
    }

    /// RS for the phase, drawn again when the phase would no longer have it.
    fn retry_of_an_early_request(&mut self) {
        let watchdog = self.any_watchdog();
        self.configure(watchdog);
        let early = match self.random.below(3) {
            0 => self.good_exchange(),
            1 => self.without_data(draft::READ_INPUTS),
            _ => self.without_data(draft::READ_OUTPUTS),
        };
        let request = self.counted_as_new(&early);
        self.put_whole(&request);
        self.hear_quietly();
        self.judge_configuration_good();
        self.put_again(&request);
        self.hear_quietly();
        self.call(Call::Take);
    }

    /// Mostly DATA_EXCH, with outputs published before or in sync.
    fn state_for_retries(&mut self) {
        let watchdog = self.short_watchdog();
        match self.random.below(8) {
            0 => return self.parametrise(watchdog),
            1 => return self.configure(watchdog),
            2 => return self.settle(),
            3 => self.reach_exchange_with(watchdog),
            _ => self.be_in_exchange(),
        }
        match self.random.below(4) {
            0 | 1 => self.exchange_quietly(),
            2 => {
                let sync = self.owners_command(draft::SYNC);
                self.put_quietly(&sync);
            }
            _ => {}
        }
    }

    /// One request for each thing that can be drawn, with FCV set.
    fn counted_request(&mut self) -> Draft {
        let master = self.owner_or_any();
        let status = Draft::status(self.address(), master);
        let draft = match self.random.below(16) {
            0 => status,
            1 => Draft {
                control: self.random.pick(&[0x40, 0x41, 0x4F]),
                ..status
            },
            2 => Draft {
                control: self.random.pick(&[0x43, 0x45]),
                ..status
            },
            3 => self.request_to_some_point(),
            4 => self.good_set_prm(Some((2, 2))),
            5 => self.set_prm(),
            6 => self.good_chk_cfg(),
            7 => self.without_data(draft::READ_INPUTS),
            8 => self.without_data(draft::READ_OUTPUTS),
            9 => self.without_data(draft::GET_CFG),
            10 => self.diagnosis_request(),
            11 => Draft {
                source: self.other_master(),
                ..status
            },
            _ => self.good_exchange(),
        };
        self.counted_as_new(&draft)
    }

    fn counted_as_new(&mut self, draft: &Draft) -> Draft {
        let bit = self.random.chance(50);
        match self.ledger().chain {
            Some(chain) if chain.master == draft.source => draft.counted(!chain.frame_count),
            _ => draft.counted(bit),
        }
    }

    fn put_whole(&mut self, draft: &Draft) {
        self.call(Call::Gap);
        self.put_part(&draft.octets());
    }

    /// Mostly whole; now and then a clear is asked for while the repeat is on the line.
    fn put_again(&mut self, draft: &Draft) {
        let octets = draft.octets();
        let part = self.random.between(1, octets.len() - 1);
        self.call(Call::Gap);
        self.put_part(&octets[..part]);
        if self.random.chance(15) {
            self.call(Call::Leave);
        }
        self.put_part(&octets[part..]);
    }

    fn hear_some(&mut self) {
        match self.random.below(3) {
            0 => self.hear_a_part(),
            _ => self.hear_quietly(),
        }
    }

    /// The same master and FCB; all else may be another. Half of the repeats are the request as it was.
    fn changed_where_a_repeat_may(&mut self, request: &Draft) -> Draft {
        let mut draft = request.clone();
        match self.random.below(18) {
            0..=2 => draft.data = self.random.octets(draft.data.len()),
            3 => draft = self.with_one_octet_more(request),
            4 => draft.points = Some((self.random.octet(), draft::MASTER_POINT)),
            5 => draft.points = draft.points.map(|(dsap, ssap)| (dsap, ssap ^ 1)),
            6 => draft.points = None,
            7 => draft.form = self.random.pick(&[Form::Sd1, Form::Sd2, Form::Sd3]),
            8 => draft.control = draft.control & 0xF0 | self.random.pick(&[3, 9, 12, 13, 0]),
            9 => draft = self.other_request_for_a_repeat(request),
            _ => {}
        }
        fill_sd2(&mut draft);
        draft
    }

    /// An SD1 becomes an SD2, for it has no room for data.
    fn with_one_octet_more(&mut self, request: &Draft) -> Draft {
        let mut draft = request.clone();
        draft.data.push(self.random.octet());
        if draft.form == Form::Sd1 {
            draft.form = Form::Sd2;
        }
        draft
    }

    /// Another service's request with the addresses and the bits of this one.
    fn other_request_for_a_repeat(&mut self, request: &Draft) -> Draft {
        let other = match self.random.below(5) {
            0 => self.good_exchange(),
            1 => self.good_set_prm(None),
            2 => self.good_chk_cfg(),
            3 => self.without_data(draft::SLAVE_DIAG),
            _ => self.without_data(draft::READ_INPUTS),
        };
        Draft {
            source: request.source,
            control: request.control,
            ..other
        }
    }

    fn between_repeats(&mut self, request: &Draft) {
        match self.random.below(10) {
            0..=2 => self.call(Call::Tick),
            3 => self.command_between_repeats(),
            4 | 5 => self.telegram_that_leaves_the_chain(request),
            6 => self.request_that_ends_the_chain(request),
            7 => self.ask_for_a_clear(),
            _ => self.user_work(),
        }
    }

    /// Something that the service of the request would find, or that would make it draw RS.
    fn change_what_is_drawn(&mut self) {
        let drawn = self.ledger().chain.map(|chain| chain.drawn);
        let exchanging = self.ledger().phase == Phase::DataExch;
        match drawn {
            _ if self.random.chance(20) => self.call(Call::Leave),
            Some(Drawn::E5) if exchanging && self.random.chance(50) => {
                let diagnosis = self.some_diagnosis();
                self.call(diagnosis);
            }
            Some(Drawn::E5) if exchanging => self.call(Call::Take),
            Some(Drawn::E5) => self.judge_parameters_good(),
            Some(Drawn::Exchange) if self.random.chance(40) => self.call(Call::Take),
            Some(Drawn::Exchange | Drawn::ReadInputs) => self.command_between_repeats(),
            Some(Drawn::ReadOutputs) => self.call(Call::Take),
            Some(Drawn::SlaveDiag) => {
                let diagnosis = self.some_diagnosis();
                self.call(diagnosis);
            }
            _ => self.call(Call::Tick),
        }
    }

    /// New inputs, and sync, freeze, clear or several of them.
    fn command_between_repeats(&mut self) {
        self.some_new_inputs();
        let control = match self.random.below(5) {
            0 => draft::SYNC,
            1 => draft::FREEZE,
            2 => draft::UNFREEZE,
            3 => draft::CLEAR,
            _ => self.combined_command(),
        };
        let mut command = self.owners_command(control);
        if self.random.chance(20) {
            command.source = self.other_master();
        }
        self.put_whole(&command);
    }

    /// No request, or one that does not act, by any master and with any FCB.
    fn telegram_that_leaves_the_chain(&mut self, request: &Draft) {
        let master = match self.random.chance(50) {
            true => request.source,
            false => self.other_master(),
        };
        let bit = self.random.chance(50);
        let mut draft = Draft::status(self.address(), master).counted(bit);
        match self.random.below(6) {
            0 => draft.control = draft.control & 0xF0 | self.random.pick(&[4, 6]),
            1 => draft.control ^= self.random.pick(&[0x80, 0x40]),
            2 => draft.destination = self.random.pick(&[127, self.address() ^ 1]),
            3 => draft.source = 127,
            4 => draft.form = Form::Sd4,
            _ => return self.put_spoiled(&draft.octets()),
        }
        self.put_whole(&draft);
    }

    /// FCV clear, or another master.
    fn request_that_ends_the_chain(&mut self, request: &Draft) {
        let bit = self.random.chance(50);
        let status = Draft::status(self.address(), request.source);
        let draft = match self.random.below(3) {
            0 => Draft {
                control: status.counted(bit).control & !draft::FCV,
                ..status
            },
            1 => Draft {
                source: self.other_master(),
                ..status
            },
            _ => Draft {
                source: self.other_master(),
                ..status.counted(bit)
            },
        };
        self.put_whole(&draft);
    }
}

/// A vat program that asks for the smallest event and does what that one wants. Otherwise event 1, which is set early and
/// seldom acknowledged, would hide the rest.
impl Generator {
    fn branch_on_pending(&mut self) {
        self.open_a_set_or_exchange();
        for _ in 0..self.random.between(2, 4) {
            self.raise_an_event();
        }
        for _ in 0..self.random.between(3, 9) {
            let told = smallest_event(self.ledger().events);
            self.call(Call::Pending);
            if self.random.chance(20) {
                self.raise_an_event();
            }
            self.serve(told);
        }
    }

    /// 13, 12, 8, 10, 11, or 1 and 3, with others that come along; what the phase does not allow raises none.
    fn raise_an_event(&mut self) {
        let draft = match self.random.below(6) {
            0 => self.good_exchange(),
            1 => {
                let diagnosis = self.some_diagnosis();
                return self.call(diagnosis);
            }
            2 => self.global_control(),
            3 => self.good_chk_cfg(),
            4 => {
                let watchdog = self.short_watchdog();
                self.good_set_prm(watchdog)
            }
            _ => return self.ask_for_a_clear(),
        };
        self.put_quietly(&draft);
        self.hear_quietly();
    }

    /// Parameters are judged first, or 6 refuses to judge the configuration.
    fn serve(&mut self, event: i64) {
        let judgement = self.judgement();
        match event {
            10 => {
                self.judge_parameters_good();
                self.call(Call::JudgeConfiguration(judgement));
            }
            11 => self.call(Call::JudgeParameters(judgement)),
            16 => self.raise_an_event(),
            _ => {
                if event == 13 {
                    self.call(Call::Take);
                }
                self.call(Call::Acknowledge(1 << event));
            }
        }
    }
}

/// Watchdogs whose ticks follow from octet 7, or from there being none.
impl Generator {
    /// Octet 7 has bit 2 in one or more Set_Prm, good or not, whole or broken off. A good one behind them has no octet 7,
    /// so its watchdog has ten ticks for each of its product.
    fn octet_7_from_before(&mut self) {
        self.settle();
        for _ in 0..self.random.between(1, 3) {
            self.leave_bit_2();
            self.hear_quietly();
        }
        let watchdog = self.short_watchdog();
        let mut draft = self.good_set_prm(watchdog);
        draft.data.truncate(7);
        self.put_quietly(&draft);
        self.hear_quietly();
        let part = self.random.between(1, 19);
        self.tick(part);
        self.call(Call::Events);
        match self.random.below(3) {
            0 => self.ticks(),
            1 => self.exchange_quietly(),
            _ => {}
        }
        self.call(Call::Events);
    }

    /// A Set_Prm with bit 2 in octet 7. At a set length of 7 it is one octet too long.
    fn leave_bit_2(&mut self) {
        let watchdog = self.short_watchdog();
        let mut draft = self.good_set_prm(watchdog);
        draft.data.truncate(7);
        draft.data.push(self.random.octet() | draft::BASE_1_MS);
        match self.random.below(9) {
            0 | 1 => return self.put_quietly(&draft),
            2 => draft.data[0] |= 0x40,
            3 => draft.data[0] &= 0x7F,
            4 => draft.data[5] ^= 0x01,
            5 => draft.source = self.other_master(),
            6 => return self.put_as_repeat(&draft),
            _ => return self.break_off_at_the_end(&draft),
        }
        self.put_quietly(&draft);
    }

    /// A status, and behind it this one with the bits of its repeat.
    fn put_as_repeat(&mut self, draft: &Draft) {
        let status = Draft::status(self.address(), draft.source);
        let status = self.counted_as_new(&status);
        self.put_whole(&status);
        self.hear_quietly();
        self.put_whole(&Draft {
            control: status.control & 0xF0 | draft.control & 0x0F,
            ..draft.clone()
        });
    }

    /// A wrong or bad FCS, or a gap ahead of it.
    fn break_off_at_the_end(&mut self, draft: &Draft) {
        let mut octets = self.as_new(draft).octets();
        let fcs_at = octets.len() - 2;
        match self.random.below(3) {
            0 => self.put_disturbed(&octets, fcs_at, Spoil::GapInside),
            1 => self.put_disturbed(&octets, fcs_at, Spoil::FlaggedBad),
            _ => {
                octets[fcs_at] ^= 1 << self.random.below(8);
                self.call(Call::Gap);
                self.put_part(&octets);
            }
        }
    }

    /// Its octets are not looked at: with another base too it refills the watchdog as it is.
    fn set_prm_again(&mut self) {
        self.settle();
        let watchdog = self.short_watchdog();
        let draft = self.good_set_prm(watchdog);
        let request = self.counted_as_new(&draft);
        self.put_whole(&request);
        self.hear_quietly();
        for _ in 0..self.random.between(1, 2) {
            self.call(Call::Tick);
            let mut again = request.clone();
            if self.random.chance(50) {
                again.data.resize(again.data.len().max(8), 0);
                again.data[7] ^= draft::BASE_1_MS;
            }
            self.put_again(&again);
            self.hear_quietly();
        }
        self.ticks();
        self.call(Call::Events);
    }

    /// Ticks over a multiple of 65,536, a refill, and the same once more.
    fn watchdog_above_16_bits(&mut self) {
        let watchdog = self.random.pick(&ABOVE_16_BITS);
        let mut draft = self.good_set_prm(Some(watchdog));
        draft.data.truncate(7);
        if self.ledger().values.parameters > 7 && self.random.chance(50) {
            draft.data.push(self.random.octet() & !draft::BASE_1_MS);
        }
        self.settle();
        self.put_quietly(&draft);
        self.hear_quietly();
        for _ in 0..self.random.between(1, 2) {
            let count = self.random.between(3, 14);
            self.tick(count);
            self.call(Call::Events);
            let status = Draft::status(self.address(), self.owner_or_any());
            self.put_quietly(&status);
            self.hear_reply();
        }
    }
}

/// Stations with channels.
impl Generator {
    fn has_channels(&self) -> bool {
        self.ledger().values.channels != NO_CHANNELS
    }

    /// A request, or a poll, which has no data; mostly to a channel that is set up.
    fn ask_a_channel(&mut self) {
        self.be_in_exchange();
        let lengths = self.ledger().values.channels.clone();
        let set_up = (0..CHANNELS).filter(|number| lengths[2 * number] != 0);
        let set_up: Vec<usize> = set_up.collect();
        let number = match self.random.chance(80) {
            true => self.random.pick(&set_up),
            false => self.random.below(CHANNELS),
        };
        let length = usize::from(lengths[2 * number]);
        let count = self.random.pick(&[0, 0, 1, 4, length, length + 1]);
        let data = self.random.octets(count);
        let master = self.likely_master();
        let ssap = self.random.pick(&[0, 51, 52, draft::MASTER_POINT]);
        let draft = Draft {
            points: Some((number as u8, ssap)),
            ..Draft::to_point(self.address(), master, number as u8, data)
        };
        self.put_quietly(&draft);
        self.hear_reply();
    }
}

/// Stations without outputs or without inputs.
impl Generator {
    fn is_one_sided(&self) -> bool {
        !self.ledger().has_outputs() || !self.ledger().has_inputs()
    }

    fn one_sided(&mut self) {
        match self.random.below(8) {
            0 => self.another_count_in_exchange(),
            1 | 2 => self.outputs_in_sync(),
            3 => self.reads_again(),
            _ => self.exchange_again(),
        }
    }

    fn another_count_in_exchange(&mut self) {
        self.be_in_exchange();
        let draft = self.exchange_of_another_count();
        self.put_quietly(&draft);
        self.hear_reply();
        self.call(Call::Take);
        let request = self.diagnosis_request();
        self.put_quietly(&request);
        self.hear_reply();
    }

    fn reads_again(&mut self) {
        self.be_in_exchange();
        let point = self.random.pick(&[draft::READ_INPUTS, draft::READ_OUTPUTS]);
        let draft = self.without_data(point);
        let request = self.counted_as_new(&draft);
        self.put_whole(&request);
        self.hear_some();
        if self.random.chance(30) {
            self.change_behind_an_exchange();
        }
        self.put_again(&request);
        self.hear_quietly();
    }

    /// A Data_Exchange with Diag_Flag or without, in sync or not, and its repeat behind something that this must not look
    /// at.
    fn exchange_again(&mut self) {
        self.be_in_exchange();
        self.choose_diag_flag();
        if self.random.chance(40) {
            let command = self.random.pick(&[draft::SYNC, draft::SYNC, draft::UNSYNC]);
            let command = self.owners_command(command);
            self.put_quietly(&command);
        }
        let draft = self.good_exchange();
        let request = self.counted_as_new(&draft);
        self.put_whole(&request);
        self.hear_some();
        for _ in 0..self.random.between(1, 2) {
            self.change_behind_an_exchange();
        }
        let again = self.changed_where_a_repeat_may(&request);
        self.put_again(&again);
        self.hear_quietly();
        self.call(Call::Events);
        self.call(Call::Take);
        self.look_for_outputs();
    }

    /// The owner's Slave_Diag clears Diag_Flag again, unless Stat_Diag stands.
    fn choose_diag_flag(&mut self) {
        let flags = self.random.pick(&[0, 1, 4]);
        self.call(Call::NewDiagnosis {
            count: DIAGNOSIS_HEAD,
            flags,
        });
        if self.random.chance(60) {
            let master = self.owner_or_any();
            let request = Draft::to_point(self.address(), master, draft::SLAVE_DIAG, Vec::new());
            self.put_quietly(&request);
            self.hear_quietly();
        }
    }

    fn change_behind_an_exchange(&mut self) {
        match self.random.below(8) {
            0 | 1 => self.call(Call::Take),
            2 | 3 => {
                let diagnosis = self.some_diagnosis();
                self.call(diagnosis);
            }
            4 => self.call(Call::Leave),
            5 => self.some_new_inputs(),
            _ => {
                let controls = [draft::SYNC, draft::UNSYNC, draft::CLEAR, draft::FREEZE];
                let control = self.random.pick(&controls);
                let command = self.owners_command(control);
                self.put_whole(&command);
            }
        }
    }
}
