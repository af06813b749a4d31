//! Retries, sentence by sentence of document 02, Req 04, on the second implementation.

use crate::draft::{self, Draft};
use crate::line::{self, Line, IDENT, MASTER, STATION};
use crate::telegram::Form;

const OTHER_MASTER: u8 = 3;
const EVENT_PARAMETERS: i64 = 1 << 11;
const RS: [u8; 6] = [0x10, 2, 5, 3, 10, 0x16];
const STATUS: [u8; 6] = [0x10, 2, 5, 0, 7, 0x16];

fn by_other_master(draft: &Draft) -> Draft {
    Draft {
        source: OTHER_MASTER,
        ..draft.clone()
    }
}

fn without_data(point: u8) -> Draft {
    line::to_point(point, Vec::new())
}

fn status() -> Draft {
    Draft::status(STATION, MASTER)
}

/// In DATA_EXCH with one input, output 11 taken and nothing set or new.
fn in_exchange() -> Line {
    let mut line = Line::allowing(draft::ALLOW_BOTH);
    line.hand_over(0x21);
    line.exchange(0x11);
    line.take_finds(1, 0x11);
    line.events();
    line
}

/// Whether a Set_Prm is taken for a new one: only then are parameters there to be judged.
fn is_served(line: &mut Line, draft: &Draft) -> bool {
    assert_eq!(line.put(draft), [0xE5]);
    line.events() & EVENT_PARAMETERS != 0
}

/// The parameters of a Set_Prm with FCV set and FCB clear were judged; what follows is heard, then it comes again.
fn is_repeated_behind(between: impl Fn(&mut Line)) -> bool {
    let mut line = Line::fresh();
    let set_prm = line::set_prm(draft::ALLOW_NONE).counted(false);
    assert!(is_served(&mut line, &set_prm));
    assert_eq!(line.call("judgeprm 1"), 0);
    between(&mut line);
    !is_served(&mut line, &set_prm)
}

#[test]
fn a_repeat_has_the_same_frame_count_bit() {
    for bit in [false, true] {
        let mut line = Line::fresh();
        let set_prm = line::set_prm(draft::ALLOW_NONE);
        assert!(is_served(&mut line, &set_prm.counted(bit)));
        assert_eq!(line.call("judgeprm 1"), 0);
        assert!(!is_served(&mut line, &set_prm.counted(bit)));
        assert!(!is_served(&mut line, &set_prm.counted(bit)));
        assert_eq!(line.call("judgeprm 1"), -6);
        assert!(is_served(&mut line, &set_prm.counted(!bit)));
        assert_eq!(line.call("judgeprm 1"), 0);
        assert!(is_served(&mut line, &set_prm.counted(bit)));
    }
}

#[test]
fn with_bit_4_clear_bit_5_does_not_count() {
    for control in [draft::REQUEST, draft::REQUEST | draft::FCB] {
        let mut line = Line::fresh();
        let set_prm = Draft {
            control,
            ..line::set_prm(draft::ALLOW_NONE)
        };
        for _ in 0..3 {
            assert!(is_served(&mut line, &set_prm));
            assert_eq!(line.call("judgeprm 1"), 0);
        }
    }
}

#[test]
fn start_has_no_chain() {
    for bit in [false, true] {
        let mut line = Line::fresh();
        line.put(&status().counted(bit));
        let start = line::without_channels("start 1536 5 32947 1 1 7 1 9 20");
        assert_eq!(line.call(&start), 0);
        let set_prm = line::set_prm(draft::ALLOW_NONE).counted(bit);
        assert!(is_served(&mut line, &set_prm));
    }
}

#[test]
fn a_request_of_another_master_or_with_bit_4_clear_ends_the_chain() {
    let clear = [
        status(),
        without_data(draft::SLAVE_DIAG),
        Draft {
            control: 0x40,
            ..status()
        },
    ];
    for draft in &clear {
        let with_bit_5 = Draft {
            control: draft.control | draft::FCB,
            ..draft.clone()
        };
        for ends in [draft.clone(), with_bit_5] {
            assert!(!is_repeated_behind(|line| drop(line.put(&ends))));
        }
        for bit in [false, true] {
            let others = by_other_master(&draft.counted(bit));
            assert!(!is_repeated_behind(|line| drop(line.put(&others))));
        }
        let others = by_other_master(draft);
        assert!(!is_repeated_behind(|line| drop(line.put(&others))));
    }
}

#[test]
fn functions_4_and_6_leave_the_chain_as_it_is() {
    for control in [0x44, 0x46, 0x54, 0x56, 0x64, 0x66, 0x74, 0x76] {
        for destination in [STATION, 127] {
            for draft in [line::global_control(draft::CLEAR), status()] {
                let draft = Draft {
                    control,
                    destination,
                    ..draft
                };
                for draft in [draft.clone(), by_other_master(&draft)] {
                    assert!(is_repeated_behind(|line| drop(line.put(&draft))));
                }
            }
        }
    }
}

/// Also where its FC would end or continue the chain if it acted.
#[test]
fn what_does_not_act_leaves_the_chain_as_it_is() {
    let by_control = |control| Draft {
        control,
        ..status()
    };
    let to = |destination| Draft {
        destination,
        ..by_other_master(&status())
    };
    let from_127 = Draft {
        source: 127,
        ..status()
    };
    let token = Draft {
        form: Form::Sd4,
        ..status()
    };
    let drafts = [
        by_control(0xC9),
        by_control(0x09),
        by_control(0x19),
        to(6),
        to(127),
        from_127,
        token,
    ];
    for draft in drafts {
        assert!(is_repeated_behind(|line| drop(line.put(&draft))));
    }
    assert!(is_repeated_behind(|line| {
        let mut octets = status().octets();
        octets[4] ^= 1;
        line.call("gap");
        for octet in octets {
            assert_eq!(line.call(&format!("octet {octet:02X}")), 0);
        }
        assert_eq!(line.call("send"), 256);
    }));
}

#[test]
fn nothing_else_ends_the_chain() {
    let calls = [
        "leave",
        "tick",
        "gap",
        "take",
        "handover",
        "diag 9 7",
        "ack 65535",
        "send",
    ];
    for call in calls {
        assert!(is_repeated_behind(|line| assert!(line.call(call) >= 0)));
    }
    assert!(is_repeated_behind(|line| {
        line.send(&line::set_prm(draft::ALLOW_NONE).counted(false));
        assert_eq!(line.call("leave"), 0);
        assert_eq!(line.call("tick"), 0);
        assert_eq!(line.call("send"), 256);
    }));
}

/// One request with each thing that can be drawn, and what it draws again: by a status request, a Data_Exchange, a
/// Chk_Cfg and one that would draw RS.
#[test]
fn the_earlier_service_replies_whatever_the_repeat_asks_for() {
    let chk_cfg = line::to_point(draft::CHK_CFG, vec![0x20]);
    let nothing = Draft {
        control: 0x40,
        ..status()
    };
    let drafts = [
        nothing,
        chk_cfg,
        status(),
        without_data(draft::GLOBAL_CONTROL),
        line::exchange(0x12),
        without_data(draft::READ_INPUTS),
        without_data(draft::READ_OUTPUTS),
        without_data(draft::GET_CFG),
        without_data(draft::SLAVE_DIAG),
    ];
    for draft in drafts {
        for bit in [false, true] {
            let mut line = in_exchange();
            let first = line.put(&draft.counted(bit));
            let asks = [status(), line::exchange(0x13), chk_cfg_again(), rs_again()];
            for ask in asks {
                assert_eq!(line.put(&ask.counted(bit)), first);
            }
            assert_eq!(line.put(&status().counted(!bit)), STATUS);
        }
    }
}

fn chk_cfg_again() -> Draft {
    line::to_point(draft::CHK_CFG, vec![0x77])
}

fn rs_again() -> Draft {
    Draft {
        control: 0x43,
        ..status()
    }
}

#[test]
fn a_repeated_data_exchange_has_the_inputs_and_the_flag_of_now() {
    let mut line = in_exchange();
    let again = line::exchange(0x12).counted(false);
    assert_eq!(line.put(&again)[6..8], [0x08, 0x21]);
    line.hand_over(0x22);
    assert_eq!(line.call("diag 6 0"), 0);
    assert_eq!(line.put(&again)[6..8], [0x0A, 0x21]);
    line.control(draft::FREEZE);
    assert_eq!(line.put(&again)[6..8], [0x0A, 0x22]);
}

/// "The outputs of a repeated Data_Exchange count as accepted a single time", and its other data never.
#[test]
fn a_repeated_data_exchange_publishes_nothing() {
    let mut line = in_exchange();
    line.put(&line::exchange(0x12).counted(true));
    line.put(&line::exchange(0x13).counted(true));
    line.take_finds(1, 0x12);
    line.events();
    line.put(&line::exchange(0x12).counted(true));
    assert_eq!(line.events(), 0);
    line.take_finds(0, 0x12);
}

#[test]
fn a_repeated_data_exchange_holds_nothing_back() {
    let mut line = in_exchange();
    line.control(draft::SYNC);
    line.put(&line::exchange(0x12).counted(true));
    line.put(&line::exchange(0x13).counted(true));
    line.control(draft::SYNC);
    line.take_finds(1, 0x12);
    line.put(&line::exchange(0x14).counted(true));
    line.control(draft::UNSYNC);
    line.take_finds(0, 0x12);
}

#[test]
fn there_is_no_rs_for_phase_or_owner() {
    let drafts = [
        line::exchange(0x12),
        without_data(draft::READ_INPUTS),
        by_other_master(&without_data(draft::READ_INPUTS)),
        without_data(draft::READ_OUTPUTS),
        line::to_point(draft::CHK_CFG, vec![0x20]),
    ];
    for draft in drafts {
        let mut line = in_exchange();
        let draft = draft.counted(true);
        let first = line.put(&draft);
        assert_ne!(first.get(3), Some(&RS[3]));
        assert_eq!(line.call("leave"), 0);
        assert_eq!(line.put(&draft), first);
        assert_eq!(line.diagnosis(), (0x02, 0x05));
    }
}

#[test]
fn rs_is_drawn_again_whatever_the_state_is_now() {
    let mut line = Line::fresh();
    line.set_prm(draft::ALLOW_NONE);
    line.chk_cfg();
    assert_eq!(line.call("judgeprm 1"), 0);
    let exchange = line::exchange(0x11).counted(false);
    assert_eq!(line.put(&exchange), RS);
    assert_eq!(line.call("judgecfg 1"), 0);
    assert_eq!(line.put(&exchange), RS);
    line.take_finds(0, 0);
    assert_eq!(line.put(&line::exchange(0x11).counted(true)).len(), 10);
}

#[test]
fn a_repeated_slave_diag_is_formed_anew_and_clears_no_flag() {
    let mut line = in_exchange();
    let slave_diag = without_data(draft::SLAVE_DIAG).counted(false);
    line.put(&slave_diag);
    assert_eq!(line.call("write 5 6 61"), 0);
    assert_eq!(line.call("diag 7 1"), 0);
    let reply = line.put(&slave_diag);
    assert_eq!(reply[9..16], [0x08, 0x04, 0, MASTER, 0x80, 0xB3, 0x61]);
    assert_eq!(line.send_output(0x12)[6], 0x0A);
    line.put(&slave_diag);
    assert_eq!(line.send_output(0x12)[6], 0x08);
}

#[test]
fn a_repeated_slave_diag_delays_a_new_diagnosis() {
    let mut line = in_exchange();
    let slave_diag = without_data(draft::SLAVE_DIAG).counted(false);
    line.put(&slave_diag);
    line.send(&slave_diag);
    assert_eq!(line.call("diag 8 1"), 0);
    assert_eq!(line.call("diag 8 1"), -9);
    assert_eq!(line.rest_of_reply().len(), 17);
    assert_eq!(line.put(&slave_diag).len(), 19);
}

/// A watchdog of three ticks that another master's repeats do not touch.
#[test]
fn only_the_owners_repeat_refills_the_watchdog() {
    let watchdog = draft::fast_parameters(IDENT, Some((1, 3)), 0, draft::ALLOW_NONE);
    let set_prm = line::to_point(draft::SET_PRM, watchdog);
    let others = by_other_master(&status().counted(true));
    let mut line = Line::fresh();
    line.put(&set_prm.counted(false));
    for _ in 0..4 {
        assert_eq!((line.call("tick"), line.call("tick")), (0, 0));
        line.put(&set_prm.counted(false));
    }
    assert_eq!(line.events(), EVENT_PARAMETERS);
    for _ in 0..3 {
        line.put(&others);
        assert_eq!(line.call("tick"), 0);
    }
    assert_eq!(line.events() & 1 << 3, 1 << 3);
}

/// A set that is shown keeps its data, and a repeat does not let another one wait.
#[test]
fn the_data_of_a_repeat_is_never_shown() {
    let mut line = Line::fresh();
    line.put(&line::set_prm(draft::ALLOW_NONE).counted(false));
    line.put(&line::set_prm(draft::ALLOW_BOTH).counted(false));
    assert_eq!(line.call("read 2 0"), 0x80);
    assert_eq!(line.call("judgeprm 1"), 0);
    line.put(&line::to_point(draft::CHK_CFG, vec![0x20]).counted(true));
    line.put(&line::to_point(draft::CHK_CFG, vec![0x30]).counted(true));
    assert_eq!(line.call("read 3 0"), 0x20);
    assert_eq!(line.call("judgecfg 1"), 0);
    assert_eq!(line.put(&line::exchange(0x11).counted(false)).len(), 10);
}

/// A clear that is noted goes with its end where it draws nothing, and stays noted under what it draws.
#[test]
fn the_end_of_a_repeat_lets_a_noted_clear_go() {
    let nothing = Draft {
        control: 0x40,
        ..status()
    };
    for (draft, draws) in [(nothing, false), (status(), true)] {
        let mut line = in_exchange();
        let octets = draft.counted(false).octets();
        line.put(&draft.counted(false));
        line.call("gap");
        for (at, octet) in octets.iter().enumerate() {
            assert_eq!(line.call(&format!("octet {octet:02X}")), 0);
            if at == 2 {
                assert_eq!(line.call("leave"), 0);
            }
        }
        assert_eq!(line.call("take"), if draws { 0 } else { 2 });
        line.rest_of_reply();
        assert_eq!(line.call("take"), if draws { 2 } else { 0 });
    }
}

/// Its first octet, not its last, drops the reply of which one octet was sent, and then it is drawn whole again.
#[test]
fn the_beginning_of_a_repeat_drops_a_reply() {
    let mut line = in_exchange();
    let again = status().counted(true);
    line.send(&again);
    assert_eq!(line.call("send"), 0x10);
    let octets = again.octets();
    line.call("gap");
    assert_eq!(line.call("send"), STATUS[1] as i64);
    let (last, before) = octets.split_last().unwrap();
    for octet in before {
        assert_eq!(line.call(&format!("octet {octet:02X}")), 0);
        assert_eq!(line.call("send"), 256);
    }
    assert_eq!(line.call(&format!("octet {last:02X}")), 0);
    assert_eq!(line.rest_of_reply(), STATUS);
}
