//! The window of document 02, Req 02: cells at the addresses 000H to 015H with calls of document 01 behind them. "A list
//! with window accesses answers as the list of the calls behind them", so an access is turned into its call and the
//! ledger carries that out.

use crate::call::{Call, Order};
use crate::ledger::{Ledger, News, Refusal, DIAGNOSIS_HEAD};
use crate::outcome::Outcome;

const LAST_ADDRESS: u32 = 0x15;

/// "The addresses here are Intel's, and Motorola exchanges 00H with 01H and 02H with 03H, no others." It does so for
/// writes too.
fn cell(order: Order, address: u32) -> u32 {
    match (order, address) {
        (Order::Motorola, 0x00..=0x03) => address ^ 1,
        _ => address,
    }
}

/// Bits 7 to 0 and bits 15 to 8 of an event word.
fn halves(events: u16) -> [u8; 2] {
    events.to_le_bytes()
}

/// The accesses. "An address above 015H is refused by 10", before the call behind the cell is looked at.
impl Ledger {
    pub fn window_read(&mut self, order: Order, address: u32) -> Result<i64, Refusal> {
        if address > LAST_ADDRESS {
            self.note_read_beyond(address);
            return Err((10, Outcome::Refuse10Read));
        }
        let answer = self.read_cell(cell(order, address));
        self.note_read(order, address, &answer);
        answer
    }

    /// "Reading 00H and 02H gives bits 7 to 0 of Events, 01H and 03H bits 15 to 8." "Any other access reads 0 and
    /// changes nothing."
    fn read_cell(&mut self, cell: u32) -> Result<i64, Refusal> {
        let [low, high] = halves(self.events);
        match (cell, self.command(cell)) {
            (0x00 | 0x02, _) => Ok(low.into()),
            (0x01 | 0x03, _) => Ok(high.into()),
            (_, Some(call)) => self.carry_out(&call),
            (_, None) => Ok(0),
        }
    }

    /// "Reading 09H hands over inputs, 0BH takes outputs, 0DH gives a new diagnosis with the present count and flags,
    /// 0EH, 0FH judge parameters good, bad, 10H, 11H configuration, each answering as its call." Present are the count
    /// and the flags in force, not those of a diagnosis that is delayed.
    fn command(&self, cell: u32) -> Option<Call> {
        let (count, flags) = (self.diagnosis.count, self.diagnosis.flags);
        match cell {
            0x09 => Some(Call::HandOver),
            0x0B => Some(Call::Take),
            0x0D => Some(Call::NewDiagnosis { count, flags }),
            0x0E => Some(Call::JudgeParameters(1)),
            0x0F => Some(Call::JudgeParameters(0)),
            0x10 => Some(Call::JudgeConfiguration(1)),
            0x11 => Some(Call::JudgeConfiguration(0)),
            _ => None,
        }
    }

    /// "Writing 02H, 03H acknowledges there." Every write answers 0.
    pub fn window_write(&mut self, order: Order, address: u32, octet: u8) -> Result<i64, Refusal> {
        if address > LAST_ADDRESS {
            self.note_write_beyond(address);
            return Err((10, Outcome::Refuse10Write));
        }
        self.note_written(order, address, octet);
        match cell(order, address) {
            0x02 => self.carry_out(&Call::Acknowledge(u16::from_le_bytes([octet, 0]))),
            0x03 => self.carry_out(&Call::Acknowledge(u16::from_le_bytes([0, octet]))),
            _ => Ok(0),
        }
    }
}

/// What the table of outcomes is told of reads.
impl Ledger {
    fn note_read(&mut self, order: Order, address: u32, answer: &Result<i64, Refusal>) {
        if let Some(outcome) = events_read(order, address) {
            let [low, high] = halves(self.events);
            return self.note_if(low != high, outcome);
        }
        let Some(outcome) = command_read(order, address) else {
            self.note_if(address == LAST_ADDRESS, Outcome::WindowReadLast);
            return self.note(by_order(
                order,
                Outcome::WindowReadNothingIntel,
                Outcome::WindowReadNothingMotorola,
            ));
        };
        self.note_if(answer.is_ok(), outcome);
        self.note_if(self.telegram_is_begun(), Outcome::WindowInTelegram);
        self.note_if(self.reply_is_unfinished(), Outcome::WindowUnderReply);
        match address {
            0x0B => self.note_taken(answer),
            0x0D => self.note_diagnosis(answer),
            0x0E.. => self.note_judged(address, answer),
            _ => {}
        }
    }

    fn note_taken(&mut self, answer: &Result<i64, Refusal>) {
        self.note(match answer {
            Ok(0) => Outcome::WindowTake0,
            Ok(1) => Outcome::WindowTake1,
            _ => Outcome::WindowTake2,
        });
    }

    fn note_diagnosis(&mut self, answer: &Result<i64, Refusal>) {
        let count_above = self.diagnosis.count > DIAGNOSIS_HEAD;
        self.note(match (answer, self.diagnosis.delayed) {
            (Err(_), _) => Outcome::WindowDiagnosis9,
            (Ok(_), Some(_)) => Outcome::WindowDiagnosisDelayed,
            (Ok(_), None) => Outcome::WindowDiagnosisAtOnce,
        });
        if answer.is_ok() {
            self.note_if(count_above, Outcome::WindowDiagnosisCount);
            self.note_if(self.diagnosis.flags != 0, Outcome::WindowDiagnosisFlags);
        }
    }

    fn note_judged(&mut self, cell: u32, answer: &Result<i64, Refusal>) {
        self.note(match (cell, answer) {
            (0x0E, Ok(0)) => Outcome::WindowPrmGood,
            (0x0E, Ok(_)) => Outcome::WindowPrmGoodNewer,
            (0x0E, Err(_)) => Outcome::WindowPrmGood6,
            (0x0F, Ok(0)) => Outcome::WindowPrmBad,
            (0x0F, Ok(_)) => Outcome::WindowPrmBadNewer,
            (0x0F, Err(_)) => Outcome::WindowPrmBad6,
            (0x10, Ok(0)) => Outcome::WindowCfgGood,
            (0x10, Ok(_)) => Outcome::WindowCfgGoodNewer,
            (0x10, Err((_, Outcome::Refuse6CfgNone))) => Outcome::WindowCfgGood6None,
            (0x10, Err(_)) => Outcome::WindowCfgGood6Early,
            (_, Ok(0)) => Outcome::WindowCfgBad,
            (_, Ok(_)) => Outcome::WindowCfgBadNewer,
            (_, Err((_, Outcome::Refuse6CfgNone))) => Outcome::WindowCfgBad6None,
            (_, Err(_)) => Outcome::WindowCfgBad6Early,
        });
    }

    /// An address whose lowest octet alone would be that of a command.
    fn note_read_beyond(&mut self, address: u32) {
        let like_a_command = command_read(Order::Intel, address & 0xFF).is_some();
        self.note_if(like_a_command, Outcome::Refuse10ReadCommand);
        self.note_if(address == LAST_ADDRESS + 1, Outcome::Refuse10ReadFirst);
    }
}

/// What the table of outcomes is told of writes, before they act.
impl Ledger {
    fn note_written(&mut self, order: Order, address: u32, octet: u8) {
        match cell(order, address) {
            0x00 | 0x01 => self.note_events_written(order, address, octet),
            0x02 | 0x03 => self.note_acknowledged(order, address, octet),
            0x09 | 0x0B | 0x0D..=0x11 => self.note_command_written(address),
            _ => {
                self.note_if(address == LAST_ADDRESS, Outcome::WindowWriteLast);
                self.note(by_order(
                    order,
                    Outcome::WindowWriteNothingIntel,
                    Outcome::WindowWriteNothingMotorola,
                ));
            }
        }
    }

    /// Which events of the half at this cell and of the other half have their bits in the octet, without 10 and 11.
    fn events_met(&self, cell: u32, octet: u8) -> (bool, bool) {
        let met = halves(self.events & !NEVER_CLEARED).map(|half| half & octet != 0);
        match cell & 1 {
            0 => (met[0], met[1]),
            _ => (met[1], met[0]),
        }
    }

    /// Nothing is acknowledged at 00H and 01H, though the events stand there.
    fn note_events_written(&mut self, order: Order, address: u32, octet: u8) {
        let (here, _) = self.events_met(cell(order, address), octet);
        let outcome = match (order, address) {
            (Order::Intel, 0x00) => Outcome::WindowWrite00Intel,
            (Order::Intel, _) => Outcome::WindowWrite01Intel,
            (Order::Motorola, 0x00) => Outcome::WindowWrite00Motorola,
            (Order::Motorola, _) => Outcome::WindowWrite01Motorola,
        };
        self.note_if(here, outcome);
    }

    fn note_acknowledged(&mut self, order: Order, address: u32, octet: u8) {
        let (here, in_other_half) = self.events_met(cell(order, address), octet);
        let [_, high] = halves(self.events & NEVER_CLEARED);
        let (cleared, kept) = match (order, address) {
            (Order::Intel, 0x02) => (Outcome::WindowAck02Intel, None),
            (Order::Intel, _) => (Outcome::WindowAck03Intel, Some(Outcome::WindowAckKeptIntel)),
            (Order::Motorola, 0x02) => (
                Outcome::WindowAck02Motorola,
                Some(Outcome::WindowAckKeptMotorola),
            ),
            (Order::Motorola, _) => (Outcome::WindowAck03Motorola, None),
        };
        self.note_if(here, cleared);
        if let Some(kept) = kept {
            self.note_if(high & octet != 0, kept);
        }
        self.note_if(
            in_other_half,
            by_order(
                order,
                Outcome::WindowAckOtherHalfIntel,
                Outcome::WindowAckOtherHalfMotorola,
            ),
        );
    }

    /// Where a read would now do something, so that a write that did the same would be noticed.
    fn note_command_written(&mut self, cell: u32) {
        let parameters = self.parameters.shown.is_some();
        let configuration = self.configuration.shown.is_some() && self.parameter_ok;
        let (would_act, outcome) = match cell {
            0x09 => (!self.inputs.next_is_new, Outcome::WindowWrite09),
            0x0B => (self.outputs.news != News::Nothing, Outcome::WindowWrite0B),
            0x0D => (self.diagnosis.delayed.is_none(), Outcome::WindowWrite0D),
            0x0E => (parameters, Outcome::WindowWrite0E),
            0x0F => (parameters, Outcome::WindowWrite0F),
            0x10 => (configuration, Outcome::WindowWrite10),
            _ => (configuration, Outcome::WindowWrite11),
        };
        self.note_if(would_act, outcome);
    }

    /// An address whose lowest octet alone would acknowledge.
    fn note_write_beyond(&mut self, address: u32) {
        let like_acknowledging = matches!(address & 0xFF, 0x02 | 0x03);
        self.note_if(like_acknowledging, Outcome::Refuse10WriteAcknowledge);
        self.note_if(address == LAST_ADDRESS + 1, Outcome::Refuse10WriteFirst);
    }
}

/// The events that no acknowledging clears.
const NEVER_CLEARED: u16 = 1 << 10 | 1 << 11;

fn by_order(order: Order, intel: Outcome, motorola: Outcome) -> Outcome {
    match order {
        Order::Intel => intel,
        Order::Motorola => motorola,
    }
}

fn events_read(order: Order, address: u32) -> Option<Outcome> {
    let (intel, motorola) = match address {
        0x00 => (Outcome::Window00Intel, Outcome::Window00Motorola),
        0x01 => (Outcome::Window01Intel, Outcome::Window01Motorola),
        0x02 => (Outcome::Window02Intel, Outcome::Window02Motorola),
        0x03 => (Outcome::Window03Intel, Outcome::Window03Motorola),
        _ => return None,
    };
    Some(by_order(order, intel, motorola))
}

fn command_read(order: Order, address: u32) -> Option<Outcome> {
    let (intel, motorola) = match address {
        0x09 => (Outcome::Window09Intel, Outcome::Window09Motorola),
        0x0B => (Outcome::Window0BIntel, Outcome::Window0BMotorola),
        0x0D => (Outcome::Window0DIntel, Outcome::Window0DMotorola),
        0x0E => (Outcome::Window0EIntel, Outcome::Window0EMotorola),
        0x0F => (Outcome::Window0FIntel, Outcome::Window0FMotorola),
        0x10 => (Outcome::Window10Intel, Outcome::Window10Motorola),
        0x11 => (Outcome::Window11Intel, Outcome::Window11Motorola),
        _ => return None,
    };
    Some(by_order(order, intel, motorola))
}
