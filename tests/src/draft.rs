//! Telegrams that masters send, in parts that can be changed before they are put together.

use crate::telegram::{self, Form, EXTENSION};

pub const SET_PRM: u8 = 61;
pub const CHK_CFG: u8 = 62;
pub const SLAVE_DIAG: u8 = 60;
pub const GET_CFG: u8 = 59;
pub const GLOBAL_CONTROL: u8 = 58;
pub const READ_OUTPUTS: u8 = 57;
pub const READ_INPUTS: u8 = 56;
pub const MASTER_POINT: u8 = 62;

/// Bits 4 and 5 of FC: the frame count bit valid, and the frame count bit.
pub const FCV: u8 = 0x10;
pub const FCB: u8 = 0x20;

/// A request that must be answered, high priority: function 13. FCV is clear, so that it is never a repeat.
pub const REQUEST: u8 = 0x4D;
/// The same with low priority: function 12.
pub const LOW_REQUEST: u8 = 0x4C;
pub const STATUS: u8 = 0x49;
/// Data without acknowledgement, as Global_Control comes.
pub const UNACKNOWLEDGED: u8 = 0x46;

/// Bits of Set_Prm's octet 0: the pairs of commands that the master may use.
pub const ALLOW_NONE: u8 = 0;
pub const ALLOW_SYNC: u8 = 0x20;
pub const ALLOW_FREEZE: u8 = 0x10;
pub const ALLOW_BOTH: u8 = ALLOW_SYNC | ALLOW_FREEZE;

/// Bit 2 of Set_Prm's octet 7: the base of the watchdog is 1 ms.
pub const BASE_1_MS: u8 = 0x04;

/// Bits of Global_Control's octet 0.
pub const SYNC: u8 = 0x20;
pub const UNSYNC: u8 = 0x10;
pub const FREEZE: u8 = 0x08;
pub const UNFREEZE: u8 = 0x04;
pub const CLEAR: u8 = 0x02;

#[derive(Clone)]
pub struct Draft {
    pub form: Form,
    pub destination: u8,
    pub source: u8,
    pub control: u8,
    /// DSAP and SSAP of an extension.
    pub points: Option<(u8, u8)>,
    pub data: Vec<u8>,
}

impl Draft {
    pub fn to_point(station: u8, master: u8, point: u8, data: Vec<u8>) -> Draft {
        Draft {
            form: Form::Sd2,
            destination: station,
            source: master,
            control: REQUEST,
            points: Some((point, MASTER_POINT)),
            data,
        }
    }

    /// Without data it comes as SD1, for an SD2 has at least one octet.
    pub fn exchange(station: u8, master: u8, data: Vec<u8>) -> Draft {
        Draft {
            form: match data.is_empty() {
                true => Form::Sd1,
                false => Form::Sd2,
            },
            destination: station,
            source: master,
            control: REQUEST,
            points: None,
            data,
        }
    }

    pub fn global_control(station: u8, master: u8, control: u8, group: u8) -> Draft {
        Draft {
            control: UNACKNOWLEDGED,
            ..Draft::to_point(station, master, GLOBAL_CONTROL, vec![control, group])
        }
    }

    pub fn status(station: u8, master: u8) -> Draft {
        Draft {
            form: Form::Sd1,
            destination: station,
            source: master,
            control: STATUS,
            points: None,
            data: Vec::new(),
        }
    }

    /// The same with FCV set and this FCB.
    pub fn counted(&self, bit: bool) -> Draft {
        let count = match bit {
            true => FCV | FCB,
            false => FCV,
        };
        Draft {
            control: self.control & !FCB | count,
            ..self.clone()
        }
    }

    /// The telegram's octets. Data that no SD2 can carry is cut; SD1 and SD4 have no data.
    pub fn octets(&self) -> Vec<u8> {
        let mark = match self.points {
            Some(_) => EXTENSION,
            None => 0,
        };
        let destination = self.destination | mark;
        let source = self.source | mark;
        let mut data = match self.points {
            Some((dsap, ssap)) => vec![dsap, ssap],
            None => Vec::new(),
        };
        data.extend(&self.data);
        data.truncate(249 - 3);
        match self.form {
            Form::Sd1 => telegram::sd1(self.destination, self.source, self.control),
            Form::Sd2 => telegram::sd2(destination, source, self.control, &data),
            Form::Sd3 => telegram::sd3(destination, source, self.control, &data),
            Form::Sd4 => telegram::sd4(self.destination, self.source),
        }
    }
}

/// The seven octets of parameters that a station with this ident number finds good; `allowed` are the pairs of
/// commands. The base of the watchdog is 10 ms.
pub fn good_parameters(ident: u16, watchdog: Option<(u8, u8)>, group: u8, allowed: u8) -> Vec<u8> {
    let [high, low] = ident.to_be_bytes();
    match watchdog {
        Some((first, second)) => vec![0x88 | allowed, first, second, 11, high, low, group],
        None => vec![0x80 | allowed, 0, 0, 11, high, low, group],
    }
}

/// The same with an octet 7 that makes the base of the watchdog 1 ms: it has as many ticks as the product of its
/// factors.
pub fn fast_parameters(ident: u16, watchdog: Option<(u8, u8)>, group: u8, allowed: u8) -> Vec<u8> {
    let parameters = good_parameters(ident, watchdog, group, allowed);
    [parameters, vec![BASE_1_MS]].concat()
}
