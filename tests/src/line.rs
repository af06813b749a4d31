//! The second implementation with one master, for the tests of single sentences: address 5, ident 80B3, master 2, one
//! output, one input if nothing else is said, up to ten octets of parameters and nine of diagnosis.

use crate::call::{self, Call};
use crate::draft::{self, Draft};
use crate::ledger::Station;

pub const STATION: u8 = 5;
pub const MASTER: u8 = 2;
pub const IDENT: u16 = 0x80B3;

#[derive(Clone)]
pub struct Line {
    station: Station,
}

impl Line {
    pub fn without_start() -> Line {
        Line {
            station: Station::default(),
        }
    }

    pub fn fresh() -> Line {
        Line::with_lengths(1, 1)
    }

    /// Fresh, with this number of outputs and of inputs.
    pub fn with_lengths(outputs: u32, inputs: u32) -> Line {
        let mut line = Line::without_start();
        let start = format!("start 1536 5 32947 {outputs} {inputs} 10 1 9 20");
        assert_eq!(line.call(&without_channels(&start)), 0);
        line
    }

    /// In DATA_EXCH with these pairs allowed, no event set and nothing to take.
    pub fn allowing(allowed: u8) -> Line {
        let mut line = Line::fresh();
        line.enter_exchange(allowed);
        line
    }

    /// From WAIT_PRM to DATA_EXCH with these pairs allowed; then no event is set.
    pub fn enter_exchange(&mut self, allowed: u8) {
        self.set_prm(allowed);
        assert_eq!(self.call("judgeprm 1"), 0);
        self.chk_cfg();
        assert_eq!(self.call("judgecfg 1"), 0);
        assert_eq!(self.call("ack 65535"), 0);
    }

    pub fn call(&mut self, line: &str) -> i64 {
        self.answer(&call::parse(line).unwrap().unwrap())
    }

    pub fn answer(&mut self, call: &Call) -> i64 {
        self.station.answer(call).0
    }

    /// A telegram whose reply is not heard yet.
    pub fn send(&mut self, draft: &Draft) {
        self.call("gap");
        for octet in draft.octets() {
            self.answer(&Call::Octet { octet, bad: false });
        }
    }

    /// The whole reply to a telegram.
    pub fn put(&mut self, draft: &Draft) -> Vec<u8> {
        self.send(draft);
        self.rest_of_reply()
    }

    pub fn rest_of_reply(&mut self) -> Vec<u8> {
        let mut reply = Vec::new();
        while let Ok(octet) = u8::try_from(self.call("send")) {
            reply.push(octet);
        }
        reply
    }

    pub fn request(&mut self, point: u8, data: Vec<u8>) -> Vec<u8> {
        self.put(&to_point(point, data))
    }

    pub fn set_prm(&mut self, allowed: u8) {
        assert_eq!(self.put(&set_prm(allowed)), [0xE5]);
    }

    pub fn chk_cfg(&mut self) {
        assert_eq!(self.request(draft::CHK_CFG, vec![0x20]), [0xE5]);
    }

    pub fn control(&mut self, control: u8) {
        assert!(self.put(&global_control(control)).is_empty());
    }

    /// The whole reply to a Data_Exchange, whatever it is.
    pub fn send_output(&mut self, output: u8) -> Vec<u8> {
        self.put(&exchange(output))
    }

    /// Sends an output and answers the input that comes back.
    pub fn exchange(&mut self, output: u8) -> u8 {
        let reply = self.send_output(output);
        assert_eq!((reply.len(), reply[6]), (10, 0x08));
        reply[7]
    }

    pub fn hand_over(&mut self, input: u8) {
        assert_eq!(self.call(&format!("write 4 0 {input:02X}")), 0);
        assert_eq!(self.call("handover"), 0);
    }

    pub fn take_finds(&mut self, answer: i64, output: i64) {
        assert_eq!((self.call("take"), self.call("read 1 0")), (answer, output));
    }

    /// The events since the last time that they were asked for.
    pub fn events(&mut self) -> i64 {
        let events = self.call("events");
        self.call("ack 65535");
        events
    }

    /// A Slave_Diag whose reply is not heard yet.
    pub fn ask_for_diagnosis(&mut self) {
        self.send(&to_point(draft::SLAVE_DIAG, Vec::new()));
    }

    /// Octets 0 and 1 of the diagnosis.
    pub fn diagnosis(&mut self) -> (u8, u8) {
        let reply = self.request(draft::SLAVE_DIAG, Vec::new());
        (reply[9], reply[10])
    }
}

/// The line of a Start behind which nothing is said of channels yet.
pub fn without_channels(start: &str) -> String {
    format!("{start} {}", "00".repeat(32))
}

pub fn to_point(point: u8, data: Vec<u8>) -> Draft {
    Draft::to_point(STATION, MASTER, point, data)
}

pub fn set_prm(allowed: u8) -> Draft {
    let data = draft::good_parameters(IDENT, None, 0, allowed);
    to_point(draft::SET_PRM, data)
}

pub fn exchange(output: u8) -> Draft {
    Draft::exchange(STATION, MASTER, vec![output])
}

pub fn global_control(control: u8) -> Draft {
    Draft::global_control(127, MASTER, control, 0)
}

/// Stations in which the vat program's calls come to different things; diagnosis count 6 and no flags are in force.
pub fn stations() -> Vec<Line> {
    let fresh = Line::fresh();
    let mut shown = Line::fresh();
    shown.set_prm(draft::ALLOW_NONE);
    let mut waiting = shown.clone();
    waiting.set_prm(draft::ALLOW_BOTH);
    let mut early = shown.clone();
    early.chk_cfg();
    let mut checked = early.clone();
    assert_eq!(checked.call("judgeprm 1"), 0);
    let mut checked_twice = checked.clone();
    checked_twice.chk_cfg();
    let mut exchange = checked.clone();
    assert_eq!(exchange.call("judgecfg 1"), 0);
    let mut outputs = exchange.clone();
    outputs.exchange(0x11);
    outputs.hand_over(0x21);
    let mut many_events = outputs.clone();
    many_events.control(draft::CLEAR);
    assert_eq!(many_events.call("diag 6 0"), 0);
    many_events.chk_cfg();
    let mut diagnosis_asked = exchange.clone();
    diagnosis_asked.ask_for_diagnosis();
    let mut left = outputs.clone();
    assert_eq!(left.call("leave"), 0);
    vec![
        fresh,
        shown,
        waiting,
        early,
        checked,
        checked_twice,
        exchange,
        outputs,
        many_events,
        diagnosis_asked,
        left,
    ]
}

/// Enough answers to tell two stations apart.
pub fn seen(mut line: Line) -> Vec<i64> {
    let looks = [
        "events",
        "read 1 0",
        "read 2 6",
        "read 3 0",
        "read 4 0",
        "read 5 6",
        "take",
        "read 1 0",
        "write 4 0 55",
        "handover",
        "read 4 0",
    ];
    let mut answers: Vec<i64> = looks.iter().map(|look| line.call(look)).collect();
    let replies = [
        line.rest_of_reply(),
        line.request(draft::SLAVE_DIAG, Vec::new()),
        line.send_output(0x12),
        line.request(draft::READ_INPUTS, Vec::new()),
    ];
    answers.extend(replies.concat().into_iter().map(i64::from));
    answers.push(line.call("judgeprm 1"));
    answers.push(line.call("judgecfg 1"));
    answers.push(line.call("events"));
    answers
}

/// The call answers this and leaves the station as it was.
pub fn does_nothing(before: &Line, call: &str, answer: i64) {
    let mut line = before.clone();
    assert_eq!(line.call(call), answer, "{call}");
    assert_eq!(seen(line), seen(before.clone()), "{call}");
}
