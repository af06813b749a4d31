//! A second implementation of the station: the ledger of document 01 (section "The ledger") with Req 01, Req 05 and Req 06
//! of document 02, on lists. The window of Req 02 is in window.rs, the retries of Req 04 are in retries.rs, and how many
//! ticks a watchdog has by Req 07 is in watchdog.rs. Req 03 changes no answer. Of Req 08 Start is here, with what its
//! refusals look at; telegrams to the channels draw RS as before, and there are no calls for channels yet.
//!
//! It is fed the arguments of the calls alone and has no memory, no buffers and no roles. A telegram's octets are
//! gathered and acted on whole at the last one; a reply is fixed whole when it is drawn. Where a document can be read in
//! more than one way the comment at the place says which reading is taken. A list of outputs or of inputs may be empty;
//! whether there is one at all is said beside it and never by its length.
//!
//! `notes` tells the table of outcomes what happened. No rule looks at it.

use crate::call::{Call, StartValues, CHANNELS};
use crate::outcome::Outcome;
use crate::retries::{Chain, Traces};
use crate::telegram::{self, Extended, Form, Place, Telegram};
use crate::watchdog::{self, Watchdog};
use std::collections::VecDeque;
use std::mem::swap;

/// Document 02, Req 08: "The memory may be up to 16,384 octets".
pub const LONGEST_MEMORY: usize = 16_384;

/// Document 01, "Diagnosis": the octets that the station makes itself; the user's begin behind them.
pub const DIAGNOSIS_HEAD: u32 = 6;

const POINT_READ_INPUTS: u8 = 56;
const POINT_READ_OUTPUTS: u8 = 57;
const POINT_GLOBAL_CONTROL: u8 = 58;
const POINT_GET_CFG: u8 = 59;
const POINT_SLAVE_DIAG: u8 = 60;
const POINT_SET_PRM: u8 = 61;
const POINT_CHK_CFG: u8 = 62;
const SSAP_OF_MASTERS: u8 = 62;

const EVERYBODY: u8 = 127;
const SHORT_ACKNOWLEDGEMENT: u8 = 0xE5;

const CONTROL_STATUS: u8 = 0x00;
const CONTROL_RS: u8 = 0x03;
const CONTROL_DATA: u8 = 0x08;
const CONTROL_DATA_DIAGNOSIS: u8 = 0x0A;

/// What an SD2 has in place of inputs that are not there: it has at least one data octet.
const NO_INPUTS: [u8; 1] = [0x00];

const EVENT_EXCHANGE: u32 = 1;
const EVENT_WATCHDOG: u32 = 3;
const EVENT_CONTROL: u32 = 8;
const EVENT_CONFIGURATION: u32 = 10;
const EVENT_PARAMETERS: u32 = 11;
const EVENT_DIAGNOSIS: u32 = 12;
const EVENT_OUTPUTS: u32 = 13;
const NO_EVENT: i64 = 16;

const NO_OCTET_LEFT: i64 = 256;

/// Octet 0 of Set_Prm: the pairs of commands that the master may use.
const ALLOW_SYNC: u8 = 0x20;
const ALLOW_FREEZE: u8 = 0x10;

/// Octet 0 of Global_Control.
const COMMAND_SYNC: u8 = 0x20;
const COMMAND_UNSYNC: u8 = 0x10;
const COMMAND_FREEZE: u8 = 0x08;
const COMMAND_UNFREEZE: u8 = 0x04;
const COMMAND_CLEAR: u8 = 0x02;

const FLAG_EXT_DIAG: u32 = 1;
pub const FLAG_STAT_DIAG: u32 = 2;
const FLAG_OVERFLOW: u32 = 4;

#[derive(Clone, Copy, PartialEq, Eq, Debug)]
pub enum Phase {
    WaitPrm,
    WaitCfg,
    DataExch,
}

/// What a take will find.
#[derive(Clone, Copy, PartialEq, Eq, Debug)]
pub enum News {
    Nothing,
    FromMaster,
    ZerosByStation,
}

#[derive(Clone)]
pub struct Outputs {
    pub held: Vec<u8>,
    pub next: Vec<u8>,
    pub news: News,
    /// The outputs that sync holds back, if it holds some back. The empty list of a station without outputs counts.
    pub held_back: Option<Vec<u8>>,
}

/// The controller sends `sent`, which document 01 calls the fill buffer of the inputs.
#[derive(Clone)]
pub struct Inputs {
    pub sent: Vec<u8>,
    pub next: Vec<u8>,
    pub held: Vec<u8>,
    pub next_is_new: bool,
}

/// Sync or freeze.
#[derive(Clone, Copy, Default)]
pub struct Mode {
    /// By the last good Set_Prm. It outlives the mode: only the next good Set_Prm changes it.
    pub allowed: bool,
    pub on: bool,
}

/// What the bits of a pair come to.
#[derive(Clone, Copy, PartialEq, Eq)]
enum Command {
    Begin,
    End,
}

/// Sets of parameters or of configuration: one that the user judges, and one that waits behind it.
#[derive(Clone, Default)]
pub struct Sets {
    pub shown: Option<Vec<u8>>,
    pub waiting: Option<Vec<u8>>,
}

#[derive(Clone)]
pub struct Diagnosis {
    pub users: Vec<u8>,
    pub controllers: Vec<u8>,
    pub count: u32,
    pub flags: u32,
    /// Count and flags of a new diagnosis that waits for the end of a Slave_Diag reply.
    pub delayed: Option<(u32, u32)>,
}

#[derive(Clone, PartialEq, Eq)]
pub enum Reading {
    /// Octets are ignored until a gap.
    Ignoring,
    /// A gap was the last thing heard: the next octet may begin a telegram.
    AfterGap,
    /// A telegram is begun: its octets so far.
    Begun(Vec<u8>),
}

/// What a request drew.
#[derive(Clone, Copy, PartialEq, Eq, Debug)]
pub enum Drawn {
    Nothing,
    E5,
    Status,
    Rs,
    /// The inputs, or the octet in their place, by Data_Exchange. One that drew E5 drew `E5`.
    Exchange,
    ReadInputs,
    ReadOutputs,
    GetCfg,
    SlaveDiag,
}

#[derive(Clone)]
pub struct Reply {
    pub left: VecDeque<u8>,
    pub length: usize,
    pub drawn: Drawn,
}

/// The ledger's state. The fields are open to the generator, which steers by them.
#[derive(Clone)]
pub struct Ledger {
    pub values: StartValues,
    pub phase: Phase,
    pub owner: Option<u8>,
    pub group: u8,
    pub stored_control: u8,
    pub watchdog: Option<Watchdog>,
    pub prm_fault: bool,
    pub cfg_fault: bool,
    pub parameter_ok: bool,
    pub diag_flag: bool,
    pub sync: Mode,
    pub freeze: Mode,
    pub outputs: Outputs,
    pub inputs: Inputs,
    pub parameters: Sets,
    pub configuration: Sets,
    pub diagnosis: Diagnosis,
    pub events: u16,
    pub clear_noted: bool,
    pub reading: Reading,
    pub reply: Reply,
    pub chain: Option<Chain>,
    last_owner: Option<u8>,
    /// Where octets of a Set_Prm were heard with bit 2 in octet 7: what is reached if a good one without octet 7 follows.
    /// No rule looks at it.
    pub bit_2_before: Option<Outcome>,
    pub traces: Traces,
    notes: Vec<Outcome>,
}

/// A refusal's number with the outcome that names its cause.
pub type Refusal = (i64, Outcome);

/// The station as the calls see it: a ledger, once a Start has answered 0.
#[derive(Clone, Default)]
pub struct Station {
    pub ledger: Option<Ledger>,
}

impl Station {
    /// The answer to a call, a refusal negated, and what was reached by it.
    pub fn answer(&mut self, call: &Call) -> (i64, Vec<Outcome>) {
        if let Call::Start(values) = call {
            return self.start(values);
        }
        match &mut self.ledger {
            Some(ledger) => {
                let answer = ledger.answer(call);
                (answer, std::mem::take(&mut ledger.notes))
            }
            None => (-5, vec![Outcome::Refuse5NoStart]),
        }
    }

    fn start(&mut self, values: &StartValues) -> (i64, Vec<Outcome>) {
        match Ledger::start(values) {
            Ok(ledger) => {
                self.ledger = Some(ledger);
                (0, accepted_start(values))
            }
            Err((number, cause)) => (-number, vec![cause]),
        }
    }
}

fn accepted_start(values: &StartValues) -> Vec<Outcome> {
    let mut reached = vec![Outcome::StartAnswered];
    if values.end_of_buffers() == values.memory as u64 {
        reached.push(Outcome::StartExactFit);
    }
    if all_lengths_are(values, 64) && values.memory == 1536 {
        reached.push(Outcome::StartAll64);
    }
    if all_lengths_are(values, 96) && values.memory == 2048 {
        reached.push(Outcome::StartAll96);
    }
    if all_lengths_are(values, 244) {
        reached.push(Outcome::StartAll244);
    }
    if values.memory > 4096 {
        reached.push(Outcome::StartAbove4096);
    }
    if values.memory == LONGEST_MEMORY {
        reached.push(Outcome::StartLongest);
    }
    reached.extend(one_sided_start(values));
    reached.extend(start_with_channels(values));
    reached
}

/// What a Start that answers 0 is by its channels, if there are any.
fn start_with_channels(values: &StartValues) -> Vec<Outcome> {
    let lengths = &values.channels;
    let set_up = lengths.iter().filter(|length| **length != 0).count() / 2;
    if set_up == 0 {
        return Vec::new();
    }
    let both = |length| lengths.chunks(2).any(|channel| channel == [length; 2]);
    let kinds = [
        (set_up == 1, Outcome::StartOneChannel),
        (set_up == CHANNELS, Outcome::StartAllChannels),
        (lengths[0] != 0, Outcome::StartFirstChannel),
        (lengths[31] != 0, Outcome::StartLastChannel),
        (both(4), Outcome::StartLeastChannel),
        (both(240), Outcome::StartMostChannel),
        (
            lengths[..] == [240; 2 * CHANNELS] && all_lengths_are(values, 244),
            Outcome::StartMostRoom,
        ),
        (
            values.end_of_buffers() == values.memory as u64,
            Outcome::StartChannelsExactFit,
        ),
    ];
    let reached = kinds.into_iter().filter(|(reached, _)| *reached);
    let reached = reached.map(|(_, outcome)| outcome);
    std::iter::once(Outcome::StartChannels)
        .chain(reached)
        .collect()
}

fn one_sided_start(values: &StartValues) -> Option<Outcome> {
    let exact_fit = values.end_of_buffers() == values.memory as u64;
    match (values.outputs, values.inputs, exact_fit) {
        (0, _, true) => Some(Outcome::StartNoOutputsExactFit),
        (0, _, false) => Some(Outcome::StartNoOutputs),
        (_, 0, true) => Some(Outcome::StartNoInputsExactFit),
        (_, 0, false) => Some(Outcome::StartNoInputs),
        _ => None,
    }
}

fn all_lengths_are(values: &StartValues, length: u32) -> bool {
    let StartValues {
        outputs,
        inputs,
        parameters,
        configuration,
        diagnosis,
        ..
    } = values;
    [outputs, inputs, parameters, configuration, diagnosis]
        .iter()
        .all(|set| **set == length)
        && values.get_cfg.len() == length as usize
}

/// Document 01, "Numbers by who causes them", the starter: the lowest number that applies.
fn start_refusal(values: &StartValues) -> Option<Refusal> {
    memory_refusal(values.memory)
        .or((values.address > 126).then_some((2, Outcome::Refuse2)))
        .or_else(|| length_refusal(values))
        .or_else(|| channels_refusal(&values.channels))
        .or_else(|| room_refusal(values))
}

fn memory_refusal(length: usize) -> Option<Refusal> {
    if length < 1536 {
        return Some((1, Outcome::Refuse1Short));
    }
    if length > LONGEST_MEMORY {
        return Some((1, Outcome::Refuse1Long));
    }
    (length % 8 != 0).then_some((1, Outcome::Refuse1Eight))
}

/// Outputs and inputs may have no octet, but not both: document 02, Req 05.
fn length_refusal(values: &StartValues) -> Option<Refusal> {
    let slice = values.get_cfg.len() as u32;
    let neither = values.outputs == 0 && values.inputs == 0;
    let limits = [
        (values.outputs, 0, Outcome::Refuse3Outputs),
        (values.inputs, 0, Outcome::Refuse3Inputs),
        (values.parameters, 7, Outcome::Refuse3Parameters),
        (values.configuration, 1, Outcome::Refuse3Configuration),
        (values.diagnosis, DIAGNOSIS_HEAD, Outcome::Refuse3Diagnosis),
        (slice, 1, Outcome::Refuse3Slice),
    ];
    limits
        .into_iter()
        .find(|(length, least, _)| !(*least..=244).contains(length))
        .map(|(_, _, cause)| (3, cause))
        .or(neither.then_some((3, Outcome::Refuse3Neither)))
}

/// Document 02, Req 08: "Start takes both lengths of each, 0 and 0 for one not set up", else 4 to 240. A slice that does
/// not have two octets for each of sixteen channels is refused as a Get_Cfg slice of a wrong length is.
fn channels_refusal(lengths: &[u8]) -> Option<Refusal> {
    let cause = match lengths.len() {
        0..=31 => Some(Outcome::Refuse3ChannelsShort),
        32 => lengths
            .chunks(2)
            .find_map(|channel| channel_fault(channel[0], channel[1])),
        _ => Some(Outcome::Refuse3ChannelsLong),
    };
    cause.map(|cause| (3, cause))
}

fn channel_fault(indication: u8, response: u8) -> Option<Outcome> {
    match (indication, response) {
        (0, 0) | (4..=240, 4..=240) => None,
        (4..=240, 0) => Some(Outcome::Refuse3IndicationAlone),
        (0, 4..=240) => Some(Outcome::Refuse3ResponseAlone),
        (1..=3, _) => Some(Outcome::Refuse3IndicationShort),
        (241.., _) => Some(Outcome::Refuse3IndicationLong),
        (_, 1..=3) => Some(Outcome::Refuse3ResponseShort),
        (_, 241..) => Some(Outcome::Refuse3ResponseLong),
    }
}

fn room_refusal(values: &StartValues) -> Option<Refusal> {
    let memory = values.memory as u64;
    let by_channels = values.end_without_channels() <= memory;
    let cause = match (values.outputs, values.inputs) {
        _ if by_channels => Outcome::Refuse4Channels,
        (0, _) => Outcome::Refuse4NoOutputs,
        (_, 0) => Outcome::Refuse4NoInputs,
        _ => Outcome::Refuse4,
    };
    (values.end_of_buffers() > memory).then_some((4, cause))
}

/// Start, and the calls by their names.
impl Ledger {
    /// Document 01, "The station and its memory": WAIT_PRM without publishing, no owner, nothing new or shown,
    /// diagnosis count 6, no flags, no events; octets are ignored until a gap. No mode is on or allowed, and there is
    /// no request that could be repeated.
    fn start(values: &StartValues) -> Result<Ledger, Refusal> {
        if let Some(refusal) = start_refusal(values) {
            return Err(refusal);
        }
        let zeros = |length: u32| vec![0; length as usize];
        Ok(Ledger {
            phase: Phase::WaitPrm,
            owner: None,
            group: 0,
            stored_control: 0,
            watchdog: None,
            prm_fault: false,
            cfg_fault: false,
            parameter_ok: false,
            diag_flag: false,
            sync: Mode::default(),
            freeze: Mode::default(),
            outputs: Outputs {
                held: zeros(values.outputs),
                next: zeros(values.outputs),
                news: News::Nothing,
                held_back: None,
            },
            inputs: Inputs {
                sent: zeros(values.inputs),
                next: zeros(values.inputs),
                held: zeros(values.inputs),
                next_is_new: false,
            },
            parameters: Sets::default(),
            configuration: Sets::default(),
            diagnosis: Diagnosis {
                users: zeros(values.diagnosis),
                controllers: zeros(values.diagnosis),
                count: DIAGNOSIS_HEAD,
                flags: 0,
                delayed: None,
            },
            events: 0,
            clear_noted: false,
            reading: Reading::Ignoring,
            reply: Reply {
                left: VecDeque::new(),
                length: 0,
                drawn: Drawn::Nothing,
            },
            chain: None,
            last_owner: None,
            bit_2_before: None,
            traces: Traces::default(),
            notes: Vec::new(),
            values: values.clone(),
        })
    }

    fn answer(&mut self, call: &Call) -> i64 {
        match self.carry_out(call) {
            Ok(number) => number,
            Err((number, cause)) => {
                self.note(cause);
                -number
            }
        }
    }

    /// The answer to a call, or its refusal, which has changed nothing.
    pub fn carry_out(&mut self, call: &Call) -> Result<i64, Refusal> {
        match *call {
            Call::Start(_) => unreachable!("the station answers Start itself"),
            Call::Octet { octet, bad } => Ok(self.octet(octet, bad)),
            Call::Gap => Ok(self.gap()),
            Call::Send => Ok(self.send()),
            Call::Tick => Ok(self.tick()),
            Call::Take => Ok(self.take_outputs()),
            Call::Read { kind, index } => self.read(kind, index),
            Call::Write { kind, index, octet } => self.write(kind, index, octet),
            Call::HandOver => Ok(self.hand_over_inputs()),
            Call::NewDiagnosis { count, flags } => self.new_diagnosis(count, flags),
            Call::JudgeParameters(judgement) => self.judge_parameters(judgement),
            Call::JudgeConfiguration(judgement) => self.judge_configuration(judgement),
            Call::Events => Ok(self.events.into()),
            Call::Acknowledge(mask) => Ok(self.acknowledge(mask)),
            Call::Pending => Ok(self.pending()),
            Call::Leave => Ok(self.leave_master()),
            Call::WindowRead { order, address } => self.window_read(order, address),
            Call::WindowWrite {
                order,
                address,
                octet,
            } => self.window_write(order, address, octet),
        }
    }

    pub fn note(&mut self, outcome: Outcome) {
        self.notes.push(outcome);
    }

    pub fn note_if(&mut self, reached: bool, outcome: Outcome) {
        if reached {
            self.note(outcome);
        }
    }
}

/// Document 01, section "Telegrams": octets and gaps.
impl Ledger {
    fn octet(&mut self, octet: u8, bad: bool) -> i64 {
        match std::mem::replace(&mut self.reading, Reading::Ignoring) {
            Reading::Ignoring => self.note(if bad {
                Outcome::BadOctetIgnored
            } else {
                Outcome::OctetIgnored
            }),
            Reading::AfterGap => self.first_octet(octet, bad),
            Reading::Begun(mut octets) => {
                octets.push(octet);
                self.later_octet(octets, bad);
            }
        }
        0
    }

    /// "Only such a beginning drops an unfinished reply." The line is busy by the telegram at once, so that a delayed
    /// diagnosis is carried out here but a noted clear is not.
    fn first_octet(&mut self, octet: u8, bad: bool) {
        if bad || !telegram::begins(octet) {
            self.note_first_ignored(bad);
            return;
        }
        self.reading = Reading::Begun(vec![octet]);
        if self.reply_is_unfinished() {
            self.note(Outcome::BeginDropsReply);
            self.note_if(self.clear_noted, Outcome::NotedOverBeginning);
            self.note_if(
                self.diagnosis.delayed.is_some(),
                Outcome::DelayedByBeginning,
            );
            self.drop_reply();
        }
    }

    fn note_first_ignored(&mut self, bad: bool) {
        self.note(match (bad, self.reply_is_unfinished()) {
            (false, false) => Outcome::FirstOther,
            (false, true) => Outcome::FirstOtherUnderReply,
            (true, false) => Outcome::FirstBad,
            (true, true) => Outcome::FirstBadUnderReply,
        });
    }

    /// The reading is `Ignoring` when this is called: right after a complete telegram and after a break-off.
    fn later_octet(&mut self, octets: Vec<u8>, bad: bool) {
        if bad {
            self.note(Outcome::BreakBad);
            self.broken_off(&octets);
        } else if let Some(telegram) = telegram::read(&octets) {
            self.note_complete(&telegram);
            self.complete(&telegram);
        } else if telegram::can_become(&octets) {
            self.reading = Reading::Begun(octets);
        } else {
            self.note_broken_off(&octets);
            self.broken_off(&octets);
        }
    }

    /// At the last one of these octets.
    fn broken_off(&mut self, octets: &[u8]) {
        self.trace_broken_off(&octets[..octets.len() - 1]);
        self.note_if(self.clear_noted, Outcome::ClearAfterBreakOff);
        self.settle();
    }

    fn complete(&mut self, telegram: &Telegram) {
        self.serve(telegram);
        let idle = !self.line_is_busy();
        self.note_if(self.clear_noted && idle, Outcome::ClearAfterTelegram);
        self.settle();
    }

    /// A gap inside breaks off and starts afresh; a gap touches no reply.
    fn gap(&mut self) -> i64 {
        let before = std::mem::replace(&mut self.reading, Reading::AfterGap);
        self.note_if(self.reply_is_unfinished(), Outcome::GapUnderReply);
        if let Reading::Begun(octets) = before {
            self.trace_broken_off(&octets);
            self.note(Outcome::GapInside);
            self.note_if(self.clear_noted, Outcome::ClearAfterGap);
            self.settle();
        } else {
            self.note(Outcome::GapIdle);
        }
        0
    }

    fn note_complete(&mut self, telegram: &Telegram) {
        self.note(match telegram.form {
            Form::Sd1 => Outcome::CompleteSd1,
            Form::Sd2 => Outcome::CompleteSd2,
            Form::Sd3 => Outcome::CompleteSd3,
            Form::Sd4 => Outcome::CompleteSd4,
        });
        if telegram.form == Form::Sd2 {
            self.note_if(telegram.data.len() == 4 - 3, Outcome::CompleteLe4);
            self.note_if(telegram.data.len() == 249 - 3, Outcome::CompleteLe249);
        }
    }

    fn note_broken_off(&mut self, octets: &[u8]) {
        let outcome = match (telegram::place_of_last(octets), octets[0]) {
            (Place::Length, _) if octets[1] < 4 => Outcome::BreakLengthLow,
            (Place::Length, _) => Outcome::BreakLengthHigh,
            (Place::SecondLength, _) => Outcome::BreakSecondLength,
            (Place::SecondStart, _) => Outcome::BreakSecondStart,
            (Place::Destination, telegram::SD1) => Outcome::BreakDestinationSd1,
            (Place::Destination, telegram::SD4) => Outcome::BreakDestinationSd4,
            (Place::Destination, _) => Outcome::BreakDestinationSd2,
            (Place::Source, _) => Outcome::BreakSource,
            (Place::CheckSum, _) => Outcome::BreakCheckSum,
            (Place::Last, _) => Outcome::BreakLast,
            (place, _) => unreachable!("no telegram breaks off at {place:?}"),
        };
        let spoilt_in_sync = outcome == Outcome::BreakCheckSum && self.holds_back();
        self.note(outcome);
        self.note_if(spoilt_in_sync, Outcome::BreakCheckSumInSync);
    }
}

/// The line, the reply on it, and what waits for it.
impl Ledger {
    pub fn telegram_is_begun(&self) -> bool {
        matches!(self.reading, Reading::Begun(_))
    }

    /// "A reply is unfinished while an octet of it is left."
    pub fn reply_is_unfinished(&self) -> bool {
        !self.reply.left.is_empty()
    }

    pub fn line_is_busy(&self) -> bool {
        self.telegram_is_begun() || self.reply_is_unfinished()
    }

    fn drop_reply(&mut self) {
        self.trace(Outcome::RepeatAfterDroppedReply);
        self.reply.left.clear();
        self.carry_out_delayed_diagnosis();
    }

    fn carry_out_delayed_diagnosis(&mut self) {
        if let Some((count, flags)) = self.diagnosis.delayed.take() {
            self.change_diagnosis(count, flags);
        }
    }

    /// "Carried out when the line is idle": in the very call that makes it idle.
    fn settle(&mut self) {
        if self.clear_noted && !self.line_is_busy() {
            self.clear_noted = false;
            self.enter_wait_prm();
        }
    }

    fn send(&mut self) -> i64 {
        let Some(octet) = self.reply.left.pop_front() else {
            self.note(Outcome::Send256);
            return NO_OCTET_LEFT;
        };
        self.note(Outcome::SendOctet);
        if !self.reply_is_unfinished() {
            self.reply_ended();
        }
        octet.into()
    }

    fn reply_ended(&mut self) {
        let delayed = self.diagnosis.delayed.is_some();
        self.note(Outcome::SendLast);
        self.note_if(self.reply.length == 255, Outcome::SendLong);
        self.note_if(delayed, Outcome::DelayedEnded);
        self.note_if(
            delayed && self.clear_noted && !self.telegram_is_begun(),
            Outcome::DelayedThenClear,
        );
        self.note_if(self.clear_noted, Outcome::ClearAfterReply);
        self.carry_out_delayed_diagnosis();
        self.settle();
    }
}

/// Document 01, section "Services": what acts, and which service it asks for.
impl Ledger {
    fn serve(&mut self, telegram: &Telegram) {
        // SD4 is without effect: it does not act and refills nothing.
        if telegram.form == Form::Sd4 || !self.may_act(telegram) {
            return self.trace(Outcome::RepeatAfterNotActing);
        }
        if telegram.destination & 0x7F == EVERYBODY {
            return self.serve_everybody(telegram);
        }
        self.traces.watchdog_counted = self.watchdog_has_counted();
        let refilled = self.refill(telegram);
        match telegram.control & 0x0F {
            4 | 6 => self.serve_unacknowledged(telegram),
            _ => self.serve_or_repeat(telegram),
        }
        if refilled {
            self.note_refilled();
        }
    }

    /// A request that is no repeat: every function but 4 and 6.
    pub fn serve_request(&mut self, telegram: &Telegram) {
        match telegram.control & 0x0F {
            9 => self.status(telegram),
            3 | 5 => self.acknowledge_telegram(telegram),
            12 | 13 => self.send_and_request(telegram),
            _ => self.note(Outcome::FunctionUnanswered),
        }
    }

    fn may_act(&mut self, telegram: &Telegram) -> bool {
        let destination = telegram.destination & 0x7F;
        let obstacle = if destination != self.address() && destination != EVERYBODY {
            Outcome::ActNotForUs
        } else if source(telegram) > 126 {
            Outcome::ActSource127
        } else if telegram.control & 0x80 != 0 {
            Outcome::ActBit7
        } else if telegram.control & 0x40 == 0 {
            Outcome::ActBit6
        } else {
            return true;
        };
        self.note(obstacle);
        false
    }

    fn address(&self) -> u8 {
        self.values.address as u8
    }

    pub fn is_owner(&self, telegram: &Telegram) -> bool {
        self.owner == Some(source(telegram))
    }

    pub fn has_outputs(&self) -> bool {
        self.values.outputs != 0
    }

    pub fn has_inputs(&self) -> bool {
        self.values.inputs != 0
    }

    /// To 127 only Global_Control acts: functions 4 and 6, DSAP 58, SSAP 62.
    fn serve_everybody(&mut self, telegram: &Telegram) {
        match (telegram.control & 0x0F, telegram.extended()) {
            (4 | 6, Some(extended)) if is_global_control(&extended) => {
                self.global_control(telegram, &extended)
            }
            _ => {
                self.trace(Outcome::RepeatAfterNotActing);
                self.note(Outcome::Act127Other)
            }
        }
    }

    fn serve_unacknowledged(&mut self, telegram: &Telegram) {
        match telegram.extended() {
            Some(extended) if is_global_control(&extended) => {
                self.global_control(telegram, &extended)
            }
            _ => {
                self.trace_unacknowledged(telegram, Outcome::RepeatAfterUnacknowledged);
                self.note(Outcome::FunctionUnanswered)
            }
        }
    }

    /// The watchdog is refilled by every acting telegram of the owner to this address, whatever it draws.
    fn refill(&mut self, telegram: &Telegram) -> bool {
        if !self.is_owner(telegram) {
            return false;
        }
        self.note_refill();
        match &mut self.watchdog {
            Some(watchdog) => {
                watchdog.left = watchdog.period;
                true
            }
            None => false,
        }
    }

    fn watchdog_has_counted(&self) -> bool {
        let watchdog = self.watchdog.as_ref();
        watchdog.is_some_and(|watchdog| watchdog.left < watchdog.period)
    }

    fn note_refilled(&mut self) {
        let drew_rs = self.reply.left.get(3) == Some(&CONTROL_RS);
        let drew_nothing = !self.reply_is_unfinished();
        self.note(Outcome::Refilled);
        self.note_if(drew_rs, Outcome::RefilledByRs);
        self.note_if(drew_nothing, Outcome::RefilledSilently);
        self.note_if(self.clear_noted, Outcome::NotedOverRefill);
    }

    /// Only SD1 is answered; function 9 in another form acts and draws nothing.
    fn status(&mut self, telegram: &Telegram) {
        if telegram.form == Form::Sd1 {
            self.note(Outcome::StatusReply);
            self.reply_status(telegram);
        } else {
            self.note(Outcome::StatusOtherForm);
        }
    }

    fn acknowledge_telegram(&mut self, telegram: &Telegram) {
        self.note(match (telegram.form, telegram.extended()) {
            (Form::Sd1, _) => Outcome::AcknowledgedSd1,
            (Form::Sd3, _) => Outcome::AcknowledgedSd3,
            (_, Some(_)) => Outcome::AcknowledgedExtended,
            _ => Outcome::AcknowledgedSd2,
        });
        self.reply_rs(telegram);
    }

    fn send_and_request(&mut self, telegram: &Telegram) {
        let Some(extended) = telegram.extended() else {
            return self.data_exchange(telegram);
        };
        self.note_if(
            self.is_for_a_channel(telegram, &extended),
            Outcome::PointOfChannel,
        );
        if extended.ssap != SSAP_OF_MASTERS {
            self.note(Outcome::PointSsap);
            return self.reply_rs(telegram);
        }
        self.note_point(telegram, &extended);
        match extended.dsap {
            POINT_SET_PRM => self.set_prm(telegram, extended.data),
            POINT_CHK_CFG => self.chk_cfg(telegram, extended.data),
            POINT_READ_INPUTS | POINT_READ_OUTPUTS | POINT_GET_CFG | POINT_SLAVE_DIAG => {
                self.serve_without_data(telegram, &extended)
            }
            // 58 too: Global_Control comes by functions 4 and 6 alone.
            _ => self.reply_rs(telegram),
        }
    }

    /// The owner asks a channel that is set up, in DATA_EXCH: no service yet, so it draws RS as any point that is not there.
    fn is_for_a_channel(&self, telegram: &Telegram, extended: &Extended) -> bool {
        let mut set_up = self.values.channels.chunks(2).zip(0..);
        let set_up = set_up.any(|(lengths, dsap)| dsap == extended.dsap && lengths[0] != 0);
        let exchanging = self.phase == Phase::DataExch && self.is_owner(telegram);
        exchanging && set_up && extended.ssap <= 51
    }

    fn serve_without_data(&mut self, telegram: &Telegram, extended: &Extended) {
        if !extended.data.is_empty() {
            return self.reply_rs(telegram);
        }
        match extended.dsap {
            POINT_SLAVE_DIAG => self.slave_diag(telegram),
            POINT_GET_CFG => self.get_cfg(telegram),
            POINT_READ_INPUTS => self.read_inputs(telegram),
            _ => self.read_outputs(telegram),
        }
    }

    fn note_point(&mut self, telegram: &Telegram, extended: &Extended) {
        let function = telegram.control & 0x0F;
        let (without_data, with_data) = point_asked(extended.dsap, function);
        self.note(match extended.data.is_empty() {
            true => without_data,
            false => with_data,
        });
    }
}

/// What a request to the point comes to by function 12 or 13, without data and with some.
fn point_asked(dsap: u8, function: u8) -> (Outcome, Outcome) {
    match (dsap, function) {
        (POINT_READ_INPUTS, 12) => (Outcome::Point56By12, Outcome::Point56By12Data),
        (POINT_READ_INPUTS, _) => (Outcome::Point56By13, Outcome::Point56By13Data),
        (POINT_READ_OUTPUTS, 12) => (Outcome::Point57By12, Outcome::Point57By12Data),
        (POINT_READ_OUTPUTS, _) => (Outcome::Point57By13, Outcome::Point57By13Data),
        (POINT_GLOBAL_CONTROL, 12) => (Outcome::Point58By12, Outcome::Point58By12Data),
        (POINT_GLOBAL_CONTROL, _) => (Outcome::Point58By13, Outcome::Point58By13Data),
        (POINT_GET_CFG, 12) => (Outcome::Point59By12, Outcome::Point59By12Data),
        (POINT_GET_CFG, _) => (Outcome::Point59By13, Outcome::Point59By13Data),
        (POINT_SLAVE_DIAG, 12) => (Outcome::Point60By12, Outcome::Point60By12Data),
        (POINT_SLAVE_DIAG, _) => (Outcome::Point60By13, Outcome::Point60By13Data),
        (POINT_SET_PRM, 12) => (Outcome::Point61By12, Outcome::Point61By12Data),
        (POINT_SET_PRM, _) => (Outcome::Point61By13, Outcome::Point61By13Data),
        (POINT_CHK_CFG, 12) => (Outcome::Point62By12, Outcome::Point62By12Data),
        (POINT_CHK_CFG, _) => (Outcome::Point62By13, Outcome::Point62By13Data),
        (_, 12) => (Outcome::PointUnknownBy12, Outcome::PointUnknownBy12Data),
        (_, _) => (Outcome::PointUnknownBy13, Outcome::PointUnknownBy13Data),
    }
}

pub fn source(telegram: &Telegram) -> u8 {
    telegram.source & 0x7F
}

fn is_global_control(extended: &Extended) -> bool {
    extended.dsap == POINT_GLOBAL_CONTROL && extended.ssap == SSAP_OF_MASTERS
}

/// Replies, each fixed whole.
impl Ledger {
    fn reply(&mut self, octets: Vec<u8>, drawn: Drawn) {
        self.reply = Reply {
            length: octets.len(),
            left: octets.into(),
            drawn,
        };
    }

    pub fn reply_e5(&mut self) {
        self.reply(vec![SHORT_ACKNOWLEDGEMENT], Drawn::E5);
    }

    /// 10 SA own FC FCS 16, SA without bit 7.
    fn reply_short(&mut self, telegram: &Telegram, control: u8, drawn: Drawn) {
        let octets = telegram::sd1(source(telegram), self.address(), control);
        self.reply(octets, drawn);
    }

    pub fn reply_status(&mut self, telegram: &Telegram) {
        self.reply_short(telegram, CONTROL_STATUS, Drawn::Status);
    }

    pub fn reply_rs(&mut self, telegram: &Telegram) {
        self.reply_short(telegram, CONTROL_RS, Drawn::Rs);
    }

    /// The inputs that the controller sends now. Without inputs it is E5, and an SD2 only where there is Diag_Flag to be
    /// told: document 02, Req 05. Which of the two is decided when it is drawn: a repeat of one that drew E5 is E5 and does
    /// not come here.
    pub fn reply_exchange(&mut self, telegram: &Telegram) {
        let inputs = self.inputs.sent.clone();
        match (self.has_inputs(), self.diag_flag) {
            (true, false) => self.reply_data(telegram, CONTROL_DATA, &inputs),
            (true, true) => self.reply_data(telegram, CONTROL_DATA_DIAGNOSIS, &inputs),
            (false, true) => self.reply_data(telegram, CONTROL_DATA_DIAGNOSIS, &NO_INPUTS),
            (false, false) => self.reply_e5(),
        }
    }

    fn reply_data(&mut self, telegram: &Telegram, control: u8, data: &[u8]) {
        let octets = telegram::sd2(source(telegram), self.address(), control, data);
        self.reply(octets, Drawn::Exchange);
    }

    pub fn reply_inputs(&mut self, telegram: &Telegram) {
        let data = self.inputs.sent.clone();
        self.reply_from_point(telegram, POINT_READ_INPUTS, &data, Drawn::ReadInputs);
    }

    pub fn reply_outputs(&mut self, telegram: &Telegram) {
        let data = self.outputs.held.clone();
        self.reply_from_point(telegram, POINT_READ_OUTPUTS, &data, Drawn::ReadOutputs);
    }

    pub fn reply_configuration(&mut self, telegram: &Telegram) {
        let data = self.values.get_cfg.clone();
        self.reply_from_point(telegram, POINT_GET_CFG, &data, Drawn::GetCfg);
    }

    pub fn reply_diagnosis(&mut self, telegram: &Telegram) {
        let data = self.diagnosis_octets();
        self.reply_from_point(telegram, POINT_SLAVE_DIAG, &data, Drawn::SlaveDiag);
    }

    /// SD2, FC 08, bit 7 in both addresses, data 3E, DSAP, then the data, which may be none.
    fn reply_from_point(&mut self, telegram: &Telegram, point: u8, data: &[u8], drawn: Drawn) {
        let octets = telegram::sd2(
            source(telegram) | telegram::EXTENSION,
            self.address() | telegram::EXTENSION,
            CONTROL_DATA,
            &[&[SSAP_OF_MASTERS, point], data].concat(),
        );
        self.reply(octets, drawn);
    }
}

/// Document 01, section "Services": Set_Prm, the lines in their order.
impl Ledger {
    fn set_prm(&mut self, telegram: &Telegram, data: &[u8]) {
        let earlier = self.trace_set_prm(data);
        if self.owner.is_some() && !self.is_owner(telegram) {
            self.note(Outcome::PrmAnotherMaster);
            return self.reply_rs(telegram);
        }
        if data.len() < 7 {
            return self.prm_fault(Outcome::PrmShort);
        }
        if data.len() > self.values.parameters as usize {
            self.note_base_without_room(data);
            return self.prm_fault(Outcome::PrmLong);
        }
        let bit = |number: u8| data[0] >> number & 1 == 1;
        if bit(6) {
            self.note(Outcome::PrmUnlock);
            self.reply_e5();
            return self.enter_wait_prm();
        }
        if !bit(7) {
            let in_exchange = self.phase == Phase::DataExch;
            let other_pairs = allowed_pairs(data) != (self.sync.allowed, self.freeze.allowed);
            self.note(Outcome::PrmBit7Clear);
            self.note_if(in_exchange && other_pairs, Outcome::PrmBit7ClearOtherPairs);
            self.note_base_left(data);
            return self.reply_e5();
        }
        match prm_content_fault(&self.values, data) {
            Some(cause) => {
                self.note_factors_of_base(data, cause);
                self.prm_fault(cause)
            }
            None => {
                self.note_base(data, earlier);
                self.prm_good(telegram, data)
            }
        }
    }

    fn prm_fault(&mut self, cause: Outcome) {
        self.note(cause);
        self.note_if(self.phase == Phase::DataExch, Outcome::PrmFaultInExchange);
        self.reply_e5();
        self.prm_fault = true;
        self.enter_wait_prm();
    }

    fn prm_good(&mut self, telegram: &Telegram, data: &[u8]) {
        self.note_prm_good(telegram, data);
        self.note_pairs_allowed(data);
        self.note_modes_end(Outcome::SyncEndsSetPrm, Outcome::FreezeEndsSetPrm);
        self.reply_e5();
        self.owner = Some(source(telegram));
        self.last_owner = self.owner;
        self.enter_wait_cfg();
        self.prm_fault = false;
        self.cfg_fault = false;
        self.parameter_ok = false;
        self.drop_configuration();
        self.group = data[6];
        (self.sync.allowed, self.freeze.allowed) = allowed_pairs(data);
        self.watchdog = Watchdog::asked_for(data);
        self.show_parameters(data);
    }

    fn note_prm_good(&mut self, telegram: &Telegram, data: &[u8]) {
        let master = source(telegram);
        let faulty = self.prm_fault || self.cfg_fault;
        let other_master = self.last_owner.is_some_and(|last| last != master);
        let full_length = data.len() == self.values.parameters as usize;
        let watchdog = watchdog::is_asked_for(data);
        let bad_factors = watchdog::factor_fault(data).is_some();
        self.note(match watchdog {
            false => Outcome::PrmGoodOff,
            true => Outcome::PrmGoodWatchdog,
        });
        self.note(match self.owner {
            None => Outcome::PrmGoodFirst,
            Some(_) => Outcome::PrmGoodAgain,
        });
        self.note_if(!watchdog && bad_factors, Outcome::PrmFactorsUnused);
        self.note_if(other_master, Outcome::PrmGoodOtherMaster);
        self.note_if(self.phase == Phase::DataExch, Outcome::PrmGoodInExchange);
        self.note_if(full_length, Outcome::PrmFullLength);
        self.note_if(faulty, Outcome::PrmClearsFaults);
        self.note_if(self.clear_noted, Outcome::NotedOverSetPrm);
        self.note_if(self.configuration.shown.is_some(), Outcome::PrmDropsCfg);
    }

    fn note_pairs_allowed(&mut self, data: &[u8]) {
        let (sync, freeze) = allowed_pairs(data);
        let withdrawn = self.sync.allowed && !sync || self.freeze.allowed && !freeze;
        self.note(match (sync, freeze) {
            (true, true) => Outcome::PrmAllowsBoth,
            (true, false) => Outcome::PrmAllowsSync,
            (false, true) => Outcome::PrmAllowsFreeze,
            (false, false) => Outcome::PrmAllowsNone,
        });
        self.note_if(withdrawn, Outcome::PrmWithdraws);
    }
}

/// Whether sync and freeze are allowed.
fn allowed_pairs(data: &[u8]) -> (bool, bool) {
    (data[0] & ALLOW_SYNC != 0, data[0] & ALLOW_FREEZE != 0)
}

fn prm_content_fault(values: &StartValues, data: &[u8]) -> Option<Outcome> {
    let [high, low] = values.ident.to_be_bytes();
    if data[4] != high {
        return Some(Outcome::PrmIdentHigh);
    }
    if data[5] != low {
        return Some(Outcome::PrmIdentLow);
    }
    watchdog::factor_fault(data).filter(|_| watchdog::is_asked_for(data))
}

/// Document 01, section "Services": Chk_Cfg, Data_Exchange and the services without data.
impl Ledger {
    fn chk_cfg(&mut self, telegram: &Telegram, data: &[u8]) {
        if !self.is_owner(telegram) {
            self.note(Outcome::CfgNotOwner);
            return self.reply_rs(telegram);
        }
        self.reply_e5();
        if data.is_empty() || data.len() > self.values.configuration as usize {
            self.note(match data.len() {
                0 => Outcome::CfgEmpty,
                _ => Outcome::CfgLong,
            });
            self.cfg_fault = true;
            return self.enter_wait_prm();
        }
        self.note_cfg_good(telegram, data);
        self.note_modes_end(Outcome::SyncEndsChkCfg, Outcome::FreezeEndsChkCfg);
        self.enter_wait_cfg();
        self.show_configuration(data);
    }

    fn note_cfg_good(&mut self, telegram: &Telegram, data: &[u8]) {
        let full_length = data.len() == self.values.configuration as usize;
        self.note(Outcome::CfgGood);
        self.note_if(self.phase == Phase::DataExch, Outcome::CfgGoodInExchange);
        self.note_if(full_length, Outcome::CfgFullLength);
        self.note_if(telegram.form == Form::Sd3, Outcome::CfgBySd3);
    }

    /// SD1 with function 12 or 13 is a Data_Exchange without data, which is the right count where there are no outputs.
    fn data_exchange(&mut self, telegram: &Telegram) {
        if !self.is_owner(telegram) {
            self.note(Outcome::DxNotOwner);
            return self.reply_rs(telegram);
        }
        if self.phase != Phase::DataExch {
            self.note(Outcome::DxNotExchange);
            return self.reply_rs(telegram);
        }
        if telegram.data.len() != self.values.outputs as usize {
            self.note_wrong_count(telegram);
            self.reply_rs(telegram);
            self.cfg_fault = true;
            return self.enter_wait_prm();
        }
        self.note_inputs_sent();
        if self.sync.on {
            self.note_held_back(telegram);
            self.outputs.held_back = Some(telegram.data.clone());
        } else {
            self.note_published(telegram);
            self.publish(telegram.data.clone(), News::FromMaster);
        }
        if !self.freeze.on {
            self.bring_new_inputs();
        }
        self.reply_exchange(telegram);
    }

    fn note_wrong_count(&mut self, telegram: &Telegram) {
        self.note(match (self.has_outputs(), telegram.form) {
            (true, Form::Sd1) => Outcome::DxCountSd1,
            (true, _) => Outcome::DxCount,
            (false, Form::Sd3) => Outcome::DxCountNoOutputsSd3,
            (false, _) => Outcome::DxCountNoOutputs,
        });
        self.note_if(self.holds_back(), Outcome::DxCountInSync);
    }

    fn note_inputs_sent(&mut self) {
        if !self.has_inputs() {
            return self.note_no_inputs_sent();
        }
        self.note(match (self.freeze.on, self.inputs.next_is_new) {
            (false, true) => Outcome::DxNewInputs,
            (false, false) => Outcome::DxOldInputs,
            (true, true) => Outcome::DxFrozenNewInputs,
            (true, false) => Outcome::DxFrozenOldInputs,
        });
        self.note(match self.diag_flag {
            true => Outcome::DxDiagFlag,
            false => Outcome::DxPlain,
        });
    }

    fn note_no_inputs_sent(&mut self) {
        self.note(match (self.diag_flag, self.sync.on) {
            (false, false) => Outcome::DxE5,
            (false, true) => Outcome::DxE5HeldBack,
            (true, false) => Outcome::DxNoInputsDiagFlag,
            (true, true) => Outcome::DxNoInputsDiagFlagHeldBack,
        });
        self.note_if(self.inputs.next_is_new, Outcome::DxNoInputsHandedOver);
    }

    fn note_published(&mut self, telegram: &Telegram) {
        self.note_if(telegram.form == Form::Sd3, Outcome::DxBySd3);
        self.note_if(telegram.data.len() == 244, Outcome::Dx244);
        self.note_if(self.outputs.news != News::Nothing, Outcome::DxReplaces);
        if !self.has_outputs() {
            self.note(match self.outputs.news {
                News::Nothing => Outcome::DxEmpty,
                News::FromMaster => Outcome::DxEmptyReplaces,
                News::ZerosByStation => Outcome::DxEmptyOverZeros,
            });
        }
    }

    fn note_held_back(&mut self, telegram: &Telegram) {
        self.note(match (self.holds_back(), self.has_outputs()) {
            (true, true) => Outcome::DxHeldBackReplaces,
            (false, true) => Outcome::DxHeldBack,
            (true, false) => Outcome::DxEmptyHeldBackReplaces,
            (false, false) => Outcome::DxEmptyHeldBack,
        });
        let not_taken = self.outputs.news != News::Nothing;
        self.note_if(not_taken, Outcome::DxHeldBackBehindNew);
        self.note_if(self.freeze.on, Outcome::DxHeldBackFrozen);
        self.note_if(telegram.form == Form::Sd3, Outcome::DxHeldBackBySd3);
        self.note_if(telegram.data.len() == 244, Outcome::DxHeldBack244);
    }

    fn bring_new_inputs(&mut self) {
        if self.inputs.next_is_new {
            self.trace_inputs_brought();
            swap(&mut self.inputs.sent, &mut self.inputs.next);
            self.inputs.next_is_new = false;
        }
    }

    fn slave_diag(&mut self, telegram: &Telegram) {
        let owner = self.is_owner(telegram);
        self.note_slave_diag(owner);
        self.reply_diagnosis(telegram);
        if owner && !self.flag(FLAG_STAT_DIAG) {
            self.diag_flag = false;
        }
    }

    fn note_slave_diag(&mut self, owner: bool) {
        let stat = self.flag(FLAG_STAT_DIAG);
        self.note(match (owner, self.diag_flag, stat) {
            (true, true, true) => Outcome::DiagOwnerStat,
            (true, true, false) => Outcome::DiagOwnerClears,
            (true, false, _) => Outcome::DiagOwnerPlain,
            (false, _, true) => Outcome::DiagOtherStat,
            (false, true, false) => Outcome::DiagOtherKeeps,
            (false, false, false) => Outcome::DiagOtherPlain,
        });
        self.note_if(self.owner.is_none(), Outcome::DiagNoOwner);
        self.note_if(self.flag(FLAG_EXT_DIAG), Outcome::DiagExt);
        self.note_if(self.flag(FLAG_OVERFLOW), Outcome::DiagOverflow);
        self.note_if(self.diagnosis.count > DIAGNOSIS_HEAD, Outcome::DiagLong);
        self.note_if(self.cfg_fault, Outcome::DiagCfgFault);
        self.note_if(self.prm_fault, Outcome::DiagPrmFault);
        self.note_if(self.watchdog.is_some(), Outcome::DiagWatchdog);
        self.note_if(self.phase == Phase::DataExch, Outcome::DiagInExchange);
        self.note_modes_shown();
    }

    /// The diagnosis shows the modes, not what is allowed.
    fn note_modes_shown(&mut self) {
        let only_allowed = |mode: Mode| mode.allowed && !mode.on;
        self.note_if(self.sync.on && !self.freeze.on, Outcome::DiagSync);
        self.note_if(self.freeze.on && !self.sync.on, Outcome::DiagFreeze);
        self.note_if(self.sync.on && self.freeze.on, Outcome::DiagBothModes);
        self.note_if(only_allowed(self.sync), Outcome::DiagSyncOnlyAllowed);
        self.note_if(only_allowed(self.freeze), Outcome::DiagFreezeOnlyAllowed);
    }

    pub fn flag(&self, flag: u32) -> bool {
        self.diagnosis.flags & flag != 0
    }

    /// Six octets of the station, the rest from the controller's buffer.
    fn diagnosis_octets(&self) -> Vec<u8> {
        let bit = |number: u8, set: bool| u8::from(set) << number;
        let octet0 = bit(1, self.phase != Phase::DataExch)
            | bit(2, self.cfg_fault)
            | bit(3, self.flag(FLAG_EXT_DIAG))
            | bit(6, self.prm_fault);
        let octet1 = bit(0, self.phase == Phase::WaitPrm)
            | bit(1, self.flag(FLAG_STAT_DIAG))
            | bit(2, true)
            | bit(3, self.watchdog.is_some())
            | bit(4, self.freeze.on)
            | bit(5, self.sync.on);
        let octet2 = bit(7, self.flag(FLAG_OVERFLOW));
        let octet3 = self.owner.unwrap_or(0xFF);
        let [high, low] = self.values.ident.to_be_bytes();
        let head = [octet0, octet1, octet2, octet3, high, low];
        let rest = &self.diagnosis.controllers[head.len()..self.diagnosis.count as usize];
        [&head, rest].concat()
    }

    fn get_cfg(&mut self, telegram: &Telegram) {
        let longest = self.values.get_cfg.len() == 244;
        self.note(Outcome::GetCfg);
        self.note_if(longest, Outcome::GetCfg244);
        self.reply_configuration(telegram);
    }

    fn read_inputs(&mut self, telegram: &Telegram) {
        if self.phase != Phase::DataExch {
            self.note(Outcome::ReadInputsRs);
            return self.reply_rs(telegram);
        }
        let frozen_new = self.freeze.on && self.inputs.next_is_new;
        self.note(match self.has_inputs() {
            true => Outcome::ReadInputs,
            false => Outcome::ReadNoInputs,
        });
        self.note_if(frozen_new, Outcome::ReadInputsFrozen);
        self.reply_inputs(telegram);
    }

    fn read_outputs(&mut self, telegram: &Telegram) {
        if self.phase != Phase::DataExch {
            self.note(Outcome::ReadOutputsRs);
            return self.reply_rs(telegram);
        }
        self.note(match self.has_outputs() {
            true => Outcome::ReadOutputs,
            false => Outcome::ReadNoOutputs,
        });
        self.note_if(self.holds_back(), Outcome::ReadOutputsHeldBack);
        self.reply_outputs(telegram);
    }
}

/// Global_Control, with the commands of document 02, Req 01.
impl Ledger {
    /// The commands act whenever the telegram passes the group test, whether octet 0 is new or not. Octet 0 is compared
    /// and stored whole, with the bits of a pair that is not allowed.
    fn global_control(&mut self, telegram: &Telegram, extended: &Extended) {
        self.trace_unacknowledged(telegram, Outcome::RepeatAfterGlobalControl);
        let [control, addressed] = extended.data else {
            return self.note(Outcome::GcCount);
        };
        if !self.is_owner(telegram) {
            self.note_if(self.holds_back(), Outcome::GcNotOwnerInSync);
            return self.note(Outcome::GcNotOwner);
        }
        if self.phase != Phase::DataExch {
            return self.note(Outcome::GcNotExchange);
        }
        if *addressed != 0 && addressed & self.group == 0 {
            self.note_if(self.holds_back(), Outcome::GcGroupInSync);
            return self.note(Outcome::GcGroup);
        }
        self.note_global_control(telegram, *control, *addressed);
        self.note_pairs_commanded(*control);
        if *control != self.stored_control {
            self.stored_control = *control;
            self.set_event(EVENT_CONTROL);
        }
        if let Some(command) = self.sync_command(*control) {
            self.carry_out_sync(command);
        }
        if let Some(command) = self.freeze_command(*control) {
            self.carry_out_freeze(command);
        }
        if control & COMMAND_CLEAR != 0 {
            self.outputs.held_back = None;
            self.publish_zeros();
        }
    }

    fn sync_command(&self, control: u8) -> Option<Command> {
        let command = commanded(control, COMMAND_SYNC, COMMAND_UNSYNC);
        command.filter(|_| self.sync.allowed)
    }

    fn freeze_command(&self, control: u8) -> Option<Command> {
        let command = commanded(control, COMMAND_FREEZE, COMMAND_UNFREEZE);
        command.filter(|_| self.freeze.allowed)
    }

    /// Sync and unsync publish what is held back; with nothing held back they publish nothing.
    fn carry_out_sync(&mut self, command: Command) {
        self.note(match (command, self.sync.on, self.holds_back()) {
            (Command::Begin, _, true) => Outcome::GcSyncPublishes,
            (Command::Begin, true, false) => Outcome::GcSyncNothing,
            (Command::Begin, false, false) => Outcome::GcSyncBegins,
            (Command::End, _, true) => Outcome::GcUnsyncPublishes,
            (Command::End, true, false) => Outcome::GcUnsyncNothing,
            (Command::End, false, false) => Outcome::GcUnsyncWithoutSync,
        });
        if self.holds_back_empty() {
            self.note(match command {
                Command::Begin => Outcome::GcSyncPublishesEmpty,
                Command::End => Outcome::GcUnsyncPublishesEmpty,
            });
        }
        if let Some(outputs) = self.outputs.held_back.take() {
            self.publish(outputs, News::FromMaster);
        }
        self.sync.on = command == Command::Begin;
    }

    /// Freeze and unfreeze bring new inputs, also where freeze is on already or was never on.
    fn carry_out_freeze(&mut self, command: Command) {
        let new = self.inputs.next_is_new;
        self.note(match (command, self.freeze.on, new) {
            (Command::Begin, false, true) => Outcome::GcFreezeNewInputs,
            (Command::Begin, false, false) => Outcome::GcFreezeOldInputs,
            (Command::Begin, true, true) => Outcome::GcFreezeAgainNewInputs,
            (Command::Begin, true, false) => Outcome::GcFreezeAgainOldInputs,
            (Command::End, true, true) => Outcome::GcUnfreezeNewInputs,
            (Command::End, true, false) => Outcome::GcUnfreezeOldInputs,
            (Command::End, false, true) => Outcome::GcUnfreezeWithoutFreezeNewInputs,
            (Command::End, false, false) => Outcome::GcUnfreezeWithoutFreezeOldInputs,
        });
        if new && !self.has_inputs() {
            self.note(match command {
                Command::Begin => Outcome::GcFreezeNoInputs,
                Command::End => Outcome::GcUnfreezeNoInputs,
            });
        }
        self.bring_new_inputs();
        self.freeze.on = command == Command::Begin;
    }

    fn note_global_control(&mut self, telegram: &Telegram, control: u8, addressed: u8) {
        let same = control == self.stored_control;
        let clears = control & COMMAND_CLEAR != 0;
        self.note(match addressed {
            0 => Outcome::GcZero,
            _ => Outcome::GcShares,
        });
        self.note(match same {
            true => Outcome::GcSame,
            false => Outcome::GcStored,
        });
        self.note(match telegram.destination & 0x7F {
            EVERYBODY => Outcome::GcTo127,
            _ => Outcome::GcToStation,
        });
        self.note_if(clears, Outcome::GcClear);
        self.note_if(clears && same, Outcome::GcClearSame);
    }

    fn note_pairs_commanded(&mut self, control: u8) {
        let sync = self.sync_command(control);
        let freeze = self.freeze_command(control);
        let both_bits = |begin: u8, end: u8| control & begin != 0 && control & end != 0;
        let both_sync_bits = sync.is_some() && both_bits(COMMAND_SYNC, COMMAND_UNSYNC);
        let both_freeze_bits = freeze.is_some() && both_bits(COMMAND_FREEZE, COMMAND_UNFREEZE);
        self.note_if(both_sync_bits, Outcome::GcBothSyncBits);
        self.note_if(both_freeze_bits, Outcome::GcBothFreezeBits);
        self.note_if(sync.is_some() && freeze.is_some(), Outcome::GcBothPairs);
        self.note_pairs_not_allowed(control);
        self.note_clear_in_sync(sync, control & COMMAND_CLEAR != 0);
        self.note_commanded_again(sync, freeze, control);
    }

    fn note_pairs_not_allowed(&mut self, control: u8) {
        let sync_bits = control & (COMMAND_SYNC | COMMAND_UNSYNC) != 0;
        let freeze_bits = control & (COMMAND_FREEZE | COMMAND_UNFREEZE) != 0;
        let sync_ignored = sync_bits && !self.sync.allowed;
        let freeze_ignored = freeze_bits && !self.freeze.allowed;
        let sync_alone = sync_bits && !sync_ignored && freeze_ignored;
        let freeze_alone = freeze_bits && !freeze_ignored && sync_ignored;
        self.note_if(sync_ignored, Outcome::GcSyncNotAllowed);
        self.note_if(freeze_ignored, Outcome::GcFreezeNotAllowed);
        self.note_if(sync_alone, Outcome::GcBothPairsSyncAllowed);
        self.note_if(freeze_alone, Outcome::GcBothPairsFreezeAllowed);
    }

    fn note_clear_in_sync(&mut self, sync: Option<Command>, clears: bool) {
        if clears && self.holds_back() {
            self.note(match sync {
                None => Outcome::GcClearHeldBack,
                Some(Command::Begin) => Outcome::GcSyncAndClear,
                Some(Command::End) => Outcome::GcUnsyncAndClear,
            });
        }
        let empties = clears && sync.is_none() && self.holds_back_empty();
        self.note_if(empties, Outcome::GcClearEmptyHeldBack);
        let nothing_held_back = clears && self.sync.on && !self.holds_back();
        self.note_if(nothing_held_back, Outcome::GcClearNothingHeldBack);
    }

    /// The same octet 0 again is not stored and sets no event 8, but it acts.
    fn note_commanded_again(
        &mut self,
        sync: Option<Command>,
        freeze: Option<Command>,
        control: u8,
    ) {
        let same = control == self.stored_control;
        let publishes = sync.is_some() && self.holds_back();
        let brings = freeze.is_some() && self.inputs.next_is_new;
        self.note_if(same && publishes, Outcome::GcSamePublishes);
        self.note_if(same && brings, Outcome::GcSameBrings);
    }
}

/// "Both bits of a pair: the ending one acts."
fn commanded(control: u8, begin: u8, end: u8) -> Option<Command> {
    if control & end != 0 {
        Some(Command::End)
    } else if control & begin != 0 {
        Some(Command::Begin)
    } else {
        None
    }
}

/// Publishing, modes, phases and clears.
impl Ledger {
    pub fn holds_back(&self) -> bool {
        self.outputs.held_back.is_some()
    }

    /// "The empty list, which sync holds back like any other."
    fn holds_back_empty(&self) -> bool {
        self.holds_back() && !self.has_outputs()
    }

    /// Nothing that is held back is published by this, and what is allowed stays.
    fn end_modes(&mut self) {
        self.sync.on = false;
        self.freeze.on = false;
        self.outputs.held_back = None;
    }

    fn note_modes_end(&mut self, sync: Outcome, freeze: Outcome) {
        self.note_if(self.holds_back(), sync);
        self.note_if(self.holds_back_empty(), Outcome::SyncEndsEmpty);
        self.note_if(self.freeze.on, freeze);
    }

    fn publish(&mut self, outputs: Vec<u8>, news: News) {
        self.outputs.next = outputs;
        self.outputs.news = news;
        self.set_event(EVENT_OUTPUTS);
    }

    fn publish_zeros(&mut self) {
        let zeros = vec![0; self.values.outputs as usize];
        let over_new = self.outputs.news == News::FromMaster;
        let over_empty = over_new && !self.has_outputs();
        self.note_if(over_new, Outcome::ZerosOverNew);
        self.note_if(over_empty, Outcome::ZerosOverEmpty);
        self.publish(zeros, News::ZerosByStation);
    }

    /// "WAIT_PRM entered, even from itself". No fault bit is touched, nor the stored diagnosis flags, nor the inputs.
    /// A clear that is noted stays noted: nothing but carrying it out ends it.
    fn enter_wait_prm(&mut self) {
        self.note(match self.phase {
            Phase::WaitPrm => Outcome::WaitPrmFromStart,
            Phase::WaitCfg => Outcome::WaitPrmFromCfg,
            Phase::DataExch => Outcome::WaitPrmFromExchange,
        });
        self.note_if(self.clear_noted, Outcome::NotedOverWaitPrm);
        self.trace(Outcome::RepeatAfterWaitPrm);
        self.note_if(self.parameters.shown.is_some(), Outcome::PrmDropped);
        self.note_if(self.configuration.shown.is_some(), Outcome::CfgDropped);
        self.note_modes_end(Outcome::SyncEndsWaitPrm, Outcome::FreezeEndsWaitPrm);
        if self.phase == Phase::DataExch {
            self.set_event(EVENT_EXCHANGE);
        }
        self.phase = Phase::WaitPrm;
        self.end_modes();
        self.owner = None;
        self.watchdog = None;
        self.group = 0;
        self.stored_control = 0;
        self.drop_parameters();
        self.drop_configuration();
        self.publish_zeros();
    }

    /// "Leaving DATA_EXCH publishes zeros, once." The stored control octet stays: only WAIT_PRM zeroes it.
    fn enter_wait_cfg(&mut self) {
        if self.phase == Phase::DataExch {
            self.note(Outcome::WaitCfgFromExchange);
            self.set_event(EVENT_EXCHANGE);
            self.end_modes();
            self.publish_zeros();
        }
        self.phase = Phase::WaitCfg;
    }

    fn enter_exchange(&mut self) {
        self.note(Outcome::ExchangeEntered);
        self.phase = Phase::DataExch;
        self.set_event(EVENT_EXCHANGE);
    }

    /// "On a busy line it is noted"; two clears are one note.
    fn clear(&mut self) {
        if self.line_is_busy() {
            self.clear_noted = true;
        } else {
            self.enter_wait_prm();
        }
    }

    /// Document 01, section "User calls", the tick, which document 02, Req 07, makes 1 ms.
    fn tick(&mut self) -> i64 {
        self.trace(Outcome::RepeatAfterTick);
        if self.clear_noted {
            self.tick_carries_out_clear();
            return 0;
        }
        let Some(watchdog) = &mut self.watchdog else {
            self.note(Outcome::TickOff);
            return 0;
        };
        watchdog.left -= 1;
        match watchdog.left {
            0 => self.watchdog_expired(),
            left => self.note_counted(left),
        }
        0
    }

    /// Event 3 comes at once, on a busy line too; only the clear waits.
    fn watchdog_expired(&mut self) {
        self.note(match (self.telegram_is_begun(), self.line_is_busy()) {
            (true, _) => Outcome::ExpiredInTelegram,
            (false, true) => Outcome::ExpiredUnderReply,
            (false, false) => Outcome::ExpiredIdle,
        });
        self.note_expired();
        self.set_event(EVENT_WATCHDOG);
        self.clear();
    }

    /// "The next Tick drops telegram or reply and carries it out, counting nothing." A tick that drops only a reply
    /// leaves the reading of telegrams as it was. It is the next one of 1 ms, on either base.
    fn tick_carries_out_clear(&mut self) {
        self.note_tick_of_clear();
        if self.telegram_is_begun() {
            self.note(Outcome::ClearTickTelegram);
            self.reading = Reading::Ignoring;
        }
        if self.reply_is_unfinished() {
            let delayed = self.diagnosis.delayed.is_some();
            let after_gap = self.reading == Reading::AfterGap;
            self.note(Outcome::ClearTickReply);
            self.note_if(after_gap, Outcome::ClearTickReading);
            self.note_if(delayed, Outcome::DelayedByTick);
            self.drop_reply();
        }
        self.settle();
    }

    fn leave_master(&mut self) -> i64 {
        self.note(match (self.telegram_is_begun(), self.line_is_busy()) {
            (true, _) => Outcome::LeaveInTelegram,
            (false, true) => Outcome::LeaveUnderReply,
            (false, false) => Outcome::LeaveIdle,
        });
        let read_outputs = self.reply_is_unfinished() && self.reply.drawn == Drawn::ReadOutputs;
        self.note_if(read_outputs, Outcome::ReadOutputsLeave);
        self.note_if(self.clear_noted, Outcome::LeaveNotedAlready);
        self.clear();
        0
    }
}

/// Parameter and configuration sets. Events 11 and 10 are set exactly while a set is open.
impl Ledger {
    fn show_parameters(&mut self, data: &[u8]) {
        let open = self.parameters.shown.is_some();
        let replaces = self.parameters.waiting.is_some();
        self.note(match open {
            false => Outcome::PrmShown,
            true => Outcome::PrmWaits,
        });
        self.note_if(replaces, Outcome::PrmReplaced);
        self.parameters.show(data);
        self.set_event(EVENT_PARAMETERS);
    }

    fn show_configuration(&mut self, data: &[u8]) {
        let open = self.configuration.shown.is_some();
        let replaces = self.configuration.waiting.is_some();
        self.note(match open {
            false => Outcome::CfgShown,
            true => Outcome::CfgWaits,
        });
        self.note_if(replaces, Outcome::CfgReplaced);
        self.configuration.show(data);
        self.set_event(EVENT_CONFIGURATION);
    }

    fn drop_parameters(&mut self) {
        self.parameters = Sets::default();
        self.clear_event(EVENT_PARAMETERS);
    }

    fn drop_configuration(&mut self) {
        self.configuration = Sets::default();
        self.clear_event(EVENT_CONFIGURATION);
    }

    fn judge_parameters(&mut self, judgement: u32) -> Result<i64, Refusal> {
        if self.parameters.shown.is_none() {
            return Err((6, Outcome::Refuse6PrmNone));
        }
        let good = judged_good(judgement)?;
        if self.parameters.advance() {
            self.note(match good {
                true => Outcome::JudgePrmGoodNewer,
                false => Outcome::JudgePrmBadNewer,
            });
            return Ok(1);
        }
        self.drop_parameters();
        if good {
            self.note(Outcome::JudgePrmGood);
            self.parameter_ok = true;
        } else {
            self.note(Outcome::JudgePrmBad);
            self.note_bad_judgement();
            self.prm_fault = true;
            self.enter_wait_prm();
        }
        Ok(0)
    }

    fn judge_configuration(&mut self, judgement: u32) -> Result<i64, Refusal> {
        if self.configuration.shown.is_none() {
            return Err((6, Outcome::Refuse6CfgNone));
        }
        if !self.parameter_ok {
            return Err((6, Outcome::Refuse6CfgEarly));
        }
        let good = judged_good(judgement)?;
        if self.configuration.advance() {
            self.note(match good {
                true => Outcome::JudgeCfgGoodNewer,
                false => Outcome::JudgeCfgBadNewer,
            });
            return Ok(1);
        }
        self.drop_configuration();
        if good {
            self.note(Outcome::JudgeCfgGood);
            self.enter_exchange();
        } else {
            self.note(Outcome::JudgeCfgBad);
            self.note_bad_judgement();
            self.cfg_fault = true;
            self.enter_wait_prm();
        }
        Ok(0)
    }

    fn note_bad_judgement(&mut self) {
        let under_reply = self.reply_is_unfinished();
        let under_diag = under_reply && self.reply.drawn == Drawn::SlaveDiag;
        self.note_if(self.telegram_is_begun(), Outcome::JudgeBadInTelegram);
        self.note_if(under_reply, Outcome::JudgeBadUnderReply);
        self.note_if(under_diag, Outcome::JudgeBadUnderDiag);
    }
}

fn judged_good(judgement: u32) -> Result<bool, Refusal> {
    match judgement {
        0 => Ok(false),
        1 => Ok(true),
        _ => Err((7, Outcome::Refuse7Judgement)),
    }
}

impl Sets {
    /// "A set is shown if none is open; otherwise it waits, replacing one that waits."
    fn show(&mut self, data: &[u8]) {
        let place = match self.shown {
            None => &mut self.shown,
            Some(_) => &mut self.waiting,
        };
        *place = Some(data.to_vec());
    }

    /// Shows the set that waits, if one does.
    fn advance(&mut self) -> bool {
        let newer = self.waiting.take();
        let waited = newer.is_some();
        if waited {
            self.shown = newer;
        }
        waited
    }
}

/// Document 01, section "User calls": outputs, reading and writing, inputs, diagnosis, events.
impl Ledger {
    fn take_outputs(&mut self) -> i64 {
        let answer = match self.outputs.news {
            News::Nothing => {
                self.note(Outcome::Take0);
                self.note_if(self.holds_back(), Outcome::Take0HeldBack);
                self.note_if(self.holds_back_empty(), Outcome::Take0HeldBackEmpty);
                return 0;
            }
            News::FromMaster => 1,
            News::ZerosByStation => 2,
        };
        let under_reply = self.reply_is_unfinished() && self.reply.drawn == Drawn::ReadOutputs;
        self.note(match (answer, self.has_outputs()) {
            (1, true) => Outcome::Take1,
            (1, false) => Outcome::Take1Empty,
            (_, true) => Outcome::Take2,
            (_, false) => Outcome::Take2Empty,
        });
        self.note_if(self.holds_back(), Outcome::TakeNewHeldBack);
        self.note_if(under_reply, Outcome::ReadOutputsTake);
        self.note_if(self.telegram_is_begun(), Outcome::TakeInTelegram);
        self.trace_taken();
        swap(&mut self.outputs.held, &mut self.outputs.next);
        self.outputs.news = News::Nothing;
        answer
    }

    fn read(&mut self, kind: u32, index: u32) -> Result<i64, Refusal> {
        self.check_range(kind, index)?;
        let at = index as usize;
        let octet = match kind {
            1 => self.outputs.held[at],
            2 => shown_octet(&self.parameters, at)?,
            3 => shown_octet(&self.configuration, at)?,
            4 => self.inputs.held[at],
            _ if self.diagnosis.delayed.is_some() => return Err((8, Outcome::Refuse8Read)),
            _ => self.diagnosis.users[at],
        };
        let names = [
            Outcome::Read1,
            Outcome::Read2,
            Outcome::Read3,
            Outcome::Read4,
            Outcome::Read5,
        ];
        self.note(names[kind as usize - 1]);
        self.note_if(
            kind == 2 && watchdog::shows_base(index, octet),
            Outcome::Read2Base,
        );
        Ok(octet.into())
    }

    fn write(&mut self, kind: u32, index: u32, octet: u8) -> Result<i64, Refusal> {
        if (1..=3).contains(&kind) {
            return Err((7, Outcome::Refuse7WriteKind));
        }
        let no_inputs = kind == 4 && !self.has_inputs();
        self.note_if(no_inputs, Outcome::Refuse7WriteNoInputs);
        self.check_range(kind, index)?;
        let at = index as usize;
        if kind == 4 {
            self.note(Outcome::Write4);
            self.inputs.held[at] = octet;
        } else if self.diagnosis.delayed.is_some() {
            return Err((8, Outcome::Refuse8Write));
        } else {
            self.note(Outcome::Write5);
            self.diagnosis.users[at] = octet;
        }
        Ok(0)
    }

    /// "Index from 0, for 5 from 6, below the kind's set length." No index is below 0.
    fn check_range(&self, kind: u32, index: u32) -> Result<(), Refusal> {
        let Some(length) = self.set_length(kind) else {
            return Err((7, Outcome::Refuse7Kind));
        };
        if kind == 5 && index < DIAGNOSIS_HEAD {
            return Err((7, Outcome::Refuse7IndexLow));
        }
        if index >= length {
            let cause = match (kind, length) {
                (1, 0) => Outcome::Refuse7NoOutputs,
                (_, 0) => Outcome::Refuse7NoInputs,
                _ => Outcome::Refuse7Index,
            };
            return Err((7, cause));
        }
        Ok(())
    }

    pub fn set_length(&self, kind: u32) -> Option<u32> {
        match kind {
            1 => Some(self.values.outputs),
            2 => Some(self.values.parameters),
            3 => Some(self.values.configuration),
            4 => Some(self.values.inputs),
            5 => Some(self.values.diagnosis),
            _ => None,
        }
    }

    fn hand_over_inputs(&mut self) -> i64 {
        let with_inputs = matches!(self.reply.drawn, Drawn::Exchange | Drawn::ReadInputs);
        let under_reply = self.reply_is_unfinished() && with_inputs && self.has_inputs();
        self.note(match self.has_inputs() {
            true => Outcome::HandOver,
            false => Outcome::HandOverNoInputs,
        });
        self.note_if(self.inputs.next_is_new, Outcome::HandOverAgain);
        self.note_if(self.freeze.on, Outcome::HandOverFrozen);
        self.note_if(under_reply, Outcome::ReplyHandOver);
        swap(&mut self.inputs.held, &mut self.inputs.next);
        self.inputs.next_is_new = true;
        0
    }

    fn new_diagnosis(&mut self, count: u32, flags: u32) -> Result<i64, Refusal> {
        if !(DIAGNOSIS_HEAD..=self.values.diagnosis).contains(&count) {
            return Err((7, Outcome::Refuse7Count));
        }
        if flags > 7 {
            return Err((7, Outcome::Refuse7Flags));
        }
        if self.diagnosis.delayed.is_some() {
            return Err((9, Outcome::Refuse9));
        }
        self.note_if(count == self.values.diagnosis, Outcome::DiagnosisFull);
        if self.reply_is_unfinished() && self.reply.drawn == Drawn::SlaveDiag {
            self.note(Outcome::DiagnosisDelayed);
            self.note_if(self.traces.reply_is_repeat, Outcome::DelayedByRepeat);
            self.diagnosis.delayed = Some((count, flags));
        } else {
            let other_reply = self.reply_is_unfinished();
            self.note(Outcome::DiagnosisAtOnce);
            self.note_if(other_reply, Outcome::DiagnosisUnderOtherReply);
            self.change_diagnosis(count, flags);
        }
        Ok(0)
    }

    fn change_diagnosis(&mut self, count: u32, flags: u32) {
        swap(&mut self.diagnosis.users, &mut self.diagnosis.controllers);
        self.diagnosis.count = count;
        self.diagnosis.flags = flags;
        self.diag_flag = true;
        self.trace_new_diagnosis();
        self.set_event(EVENT_DIAGNOSIS);
    }

    fn set_event(&mut self, number: u32) {
        self.events |= 1 << number;
        self.note(match number {
            EVENT_EXCHANGE => Outcome::Event1,
            EVENT_WATCHDOG => Outcome::Event3,
            EVENT_CONTROL => Outcome::Event8,
            EVENT_CONFIGURATION => Outcome::Event10,
            EVENT_PARAMETERS => Outcome::Event11,
            EVENT_DIAGNOSIS => Outcome::Event12,
            _ => Outcome::Event13,
        });
    }

    fn clear_event(&mut self, number: u32) {
        self.events &= !(1 << number);
    }

    fn acknowledge(&mut self, mask: u16) -> i64 {
        let never: u16 = 1 << EVENT_CONFIGURATION | 1 << EVENT_PARAMETERS;
        let cleared = self.events & mask & !never != 0;
        self.note_if(cleared, Outcome::AckCleared);
        self.note_if(self.events & mask & never != 0, Outcome::AckKept);
        self.events &= !mask | never;
        0
    }

    /// The smallest event: where others are set too they are greater ones. No rule sets one above 13.
    fn pending(&mut self) -> i64 {
        let number = smallest_event(self.events);
        let (answered, ahead) = match number {
            1 => (Outcome::Pending1, Some(Outcome::Pending1Ahead)),
            3 => (Outcome::Pending3, Some(Outcome::Pending3Ahead)),
            8 => (Outcome::Pending8, Some(Outcome::Pending8Ahead)),
            10 => (Outcome::Pending10, Some(Outcome::Pending10Ahead)),
            11 => (Outcome::Pending11, Some(Outcome::Pending11Ahead)),
            12 => (Outcome::Pending12, Some(Outcome::Pending12Ahead)),
            13 => (Outcome::Pending13, None),
            NO_EVENT => (Outcome::Pending16, None),
            _ => unreachable!("no rule sets event {number}"),
        };
        let others_too = self.events.count_ones() > 1;
        self.note(answered);
        if let Some(ahead) = ahead {
            self.note_if(others_too, ahead);
        }
        number
    }
}

/// Document 02, Req 06: "the smallest number of a set event". None is 16, as in document 01.
pub fn smallest_event(events: u16) -> i64 {
    let is_set = |number: &i64| events >> number & 1 == 1;
    (0..NO_EVENT).find(is_set).unwrap_or(NO_EVENT)
}

fn shown_octet(sets: &Sets, index: usize) -> Result<u8, Refusal> {
    let shown = sets.shown.as_ref().ok_or((8, Outcome::Refuse8None))?;
    let octet = shown.get(index).ok_or((8, Outcome::Refuse8Index))?;
    Ok(*octet)
}
