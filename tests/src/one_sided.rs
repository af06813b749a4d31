//! Stations without outputs or without inputs, sentence by sentence of document 02, Req 05, on the second implementation.

use crate::draft::{self, Draft};
use crate::line::{self, Line, MASTER, STATION};
use crate::telegram::Form;

const EVENT_OUTPUTS: i64 = 1 << 13;
const E5: [u8; 1] = [0xE5];
const RS: [u8; 6] = [0x10, 2, 5, 3, 10, 0x16];
const DIAG_FLAG_WITHOUT_INPUTS: [u8; 10] = [0x68, 4, 4, 0x68, 2, 5, 0x0A, 0x00, 0x11, 0x16];

/// Octet 0 of the diagnosis: not DATA_EXCH and Cfg_Fault; octet 1: WAIT_PRM.
const CFG_FAULT: (u8, u8) = (0x06, 0x05);

fn without_outputs(allowed: u8) -> Line {
    let mut line = Line::with_lengths(0, 1);
    line.enter_exchange(allowed);
    line
}

fn without_inputs(allowed: u8) -> Line {
    let mut line = Line::with_lengths(1, 0);
    line.enter_exchange(allowed);
    line
}

fn by_sd1() -> Draft {
    Draft::exchange(STATION, MASTER, Vec::new())
}

/// Data_Exchange with as many octets.
fn with_data(count: usize) -> Draft {
    Draft::exchange(STATION, MASTER, vec![0x11; count])
}

#[test]
fn outputs_and_inputs_may_have_no_octet_but_not_both() {
    let start = |memory: u32, address: u32, outputs: u32, inputs: u32| {
        let mut line = Line::without_start();
        let start = format!("start {memory} {address} 1 {outputs} {inputs} 7 1 6 20");
        line.call(&line::without_channels(&start))
    };
    for (outputs, inputs) in [(0, 1), (1, 0), (0, 244), (244, 0)] {
        assert_eq!(start(1576, 5, outputs, inputs), 0);
    }
    for (outputs, inputs) in [(0, 0), (0, 245), (245, 0), (0, 256), (256, 0)] {
        assert_eq!(start(1576, 5, outputs, inputs), -3);
    }
    assert_eq!(start(1528, 127, 0, 0), -1);
    assert_eq!(start(1536, 127, 0, 0), -2);
}

/// All lengths 244 end at 4,480; four output buffers or three input buffers of 248 octets are not there.
#[test]
fn a_length_of_0_takes_no_room() {
    let slice = "20".repeat(244);
    for (outputs, inputs, end) in [(0, 244, 3488), (244, 0, 3736)] {
        for (memory, answer) in [(end - 8, -4), (end, 0)] {
            let start = format!("start {memory} 5 1 {outputs} {inputs} 244 244 244 {slice}");
            let start = line::without_channels(&start);
            assert_eq!(Line::without_start().call(&start), answer);
        }
    }
}

#[test]
fn without_outputs_data_exchange_comes_as_sd1_and_publishes_the_empty_list() {
    for control in [draft::REQUEST, draft::LOW_REQUEST] {
        let mut line = without_outputs(draft::ALLOW_NONE);
        let exchange = Draft {
            control,
            ..by_sd1()
        };
        line.hand_over(0x21);
        for _ in 0..2 {
            assert_eq!(line.put(&exchange)[6..8], [0x08, 0x21]);
            assert_eq!(line.events(), EVENT_OUTPUTS);
            assert_eq!((line.call("take"), line.call("take")), (1, 0));
        }
        assert_eq!(line.diagnosis(), (0x00, 0x04));
    }
}

#[test]
fn without_outputs_any_data_is_the_wrong_count() {
    let by_sd3 = Draft {
        form: Form::Sd3,
        ..with_data(8)
    };
    for draft in [with_data(1), with_data(8), with_data(244), by_sd3] {
        let mut line = without_outputs(draft::ALLOW_NONE);
        assert_eq!(line.put(&draft), RS);
        assert_eq!(line.diagnosis(), CFG_FAULT);
        assert_eq!((line.call("take"), line.call("take")), (2, 0));
    }
}

#[test]
fn with_outputs_sd1_is_the_wrong_count() {
    for line in [
        Line::allowing(draft::ALLOW_NONE),
        without_inputs(draft::ALLOW_NONE),
    ] {
        let mut line = line;
        assert_eq!(line.put(&by_sd1()), RS);
        assert_eq!(line.diagnosis(), CFG_FAULT);
        line.take_finds(2, 0);
    }
}

#[test]
fn an_sd1_needs_the_owner_and_the_phase() {
    let others = Draft {
        source: MASTER + 1,
        ..by_sd1()
    };
    let mut line = without_outputs(draft::ALLOW_NONE);
    assert_eq!(line.put(&others)[3], RS[3]);
    assert_eq!((line.diagnosis(), line.call("take")), ((0x00, 0x04), 0));
    let mut line = Line::with_lengths(0, 1);
    line.set_prm(draft::ALLOW_NONE);
    assert_eq!(line.put(&by_sd1()), RS);
    assert_eq!((line.diagnosis(), line.call("take")), ((0x02, 0x04), 0));
}

#[test]
fn the_empty_list_takes_the_place_of_zeros_and_zeros_that_of_the_list() {
    let mut line = without_outputs(draft::ALLOW_NONE);
    line.control(draft::CLEAR);
    line.put(&by_sd1());
    assert_eq!(line.call("take"), 1);
    line.put(&by_sd1());
    line.control(draft::CLEAR);
    assert_eq!((line.call("take"), line.call("take")), (2, 0));
}

#[test]
fn sync_holds_the_empty_list_back_like_any_other() {
    for release in [draft::SYNC, draft::UNSYNC] {
        let mut line = without_outputs(draft::ALLOW_SYNC);
        line.control(draft::SYNC);
        line.events();
        line.put(&by_sd1());
        line.put(&by_sd1());
        assert_eq!((line.events(), line.call("take")), (0, 0));
        line.control(release);
        assert_eq!(line.events() & EVENT_OUTPUTS, EVENT_OUTPUTS);
        assert_eq!((line.call("take"), line.call("take")), (1, 0));
        line.control(release);
        assert_eq!((line.events(), line.call("take")), (0, 0));
    }
}

#[test]
fn clear_and_the_end_of_the_exchange_empty_what_is_held_back() {
    let ways: [fn(&mut Line); 3] = [
        |line| line.control(draft::CLEAR),
        |line| line.control(draft::SYNC | draft::CLEAR),
        |line| {
            assert_eq!(line.call("leave"), 0);
            line.enter_exchange(draft::ALLOW_SYNC);
        },
    ];
    for empties in ways {
        let mut line = without_outputs(draft::ALLOW_SYNC);
        line.control(draft::SYNC);
        line.put(&by_sd1());
        empties(&mut line);
        assert_eq!((line.call("take"), line.call("take")), (2, 0));
        line.control(draft::SYNC);
        assert_eq!(line.call("take"), 0);
        line.control(draft::UNSYNC);
        assert_eq!(line.call("take"), 0);
    }
}

#[test]
fn without_inputs_the_reply_is_e5_or_while_diag_flag_an_octet_00() {
    let mut line = without_inputs(draft::ALLOW_NONE);
    assert_eq!(line.send_output(0x11), E5);
    line.take_finds(1, 0x11);
    assert_eq!(line.call("diag 6 0"), 0);
    assert_eq!(line.send_output(0x12), DIAG_FLAG_WITHOUT_INPUTS);
    assert_eq!(line.send_output(0x13), DIAG_FLAG_WITHOUT_INPUTS);
    line.take_finds(1, 0x13);
    line.diagnosis();
    assert_eq!(line.send_output(0x14), E5);
    assert_eq!(line.call("diag 6 2"), 0);
    line.diagnosis();
    assert_eq!(line.send_output(0x15), DIAG_FLAG_WITHOUT_INPUTS);
}

#[test]
fn without_inputs_sync_holds_back_and_the_reply_is_the_same() {
    let mut line = without_inputs(draft::ALLOW_SYNC);
    line.control(draft::SYNC);
    assert_eq!(line.send_output(0x11), E5);
    line.take_finds(0, 0);
    line.control(draft::UNSYNC);
    line.take_finds(1, 0x11);
}

/// Whatever Diag_Flag and the phase are by then; nothing is published a second time.
#[test]
fn a_repeat_of_one_that_drew_e5_draws_e5() {
    let mut line = without_inputs(draft::ALLOW_NONE);
    let exchange = line::exchange(0x11).counted(false);
    assert_eq!(line.put(&exchange), E5);
    line.take_finds(1, 0x11);
    assert_eq!(line.put(&exchange), E5);
    assert_eq!(line.call("diag 6 0"), 0);
    assert_eq!(line.put(&exchange), E5);
    assert_eq!(line.put(&line::exchange(0x12).counted(false)), E5);
    line.take_finds(0, 0x11);
    let new = line::exchange(0x13).counted(true);
    assert_eq!(line.put(&new), DIAG_FLAG_WITHOUT_INPUTS);
    let mut line = without_inputs(draft::ALLOW_NONE);
    assert_eq!(line.put(&exchange), E5);
    assert_eq!(line.call("leave"), 0);
    assert_eq!(line.call("diag 6 0"), 0);
    assert_eq!(line.put(&exchange), E5);
}

#[test]
fn a_repeat_of_one_that_drew_an_octet_draws_it_again() {
    let mut line = without_inputs(draft::ALLOW_NONE);
    let exchange = line::exchange(0x11).counted(true);
    assert_eq!(line.call("diag 6 0"), 0);
    assert_eq!(line.put(&exchange), DIAG_FLAG_WITHOUT_INPUTS);
    line.take_finds(1, 0x11);
    assert_eq!(line.put(&exchange), DIAG_FLAG_WITHOUT_INPUTS);
    line.take_finds(0, 0x11);
    assert_eq!(line.call("leave"), 0);
    assert_eq!(line.put(&exchange), DIAG_FLAG_WITHOUT_INPUTS);
}

#[test]
fn a_repeat_without_outputs_publishes_and_holds_back_nothing() {
    let mut line = without_outputs(draft::ALLOW_SYNC);
    let exchange = by_sd1().counted(false);
    line.put(&exchange);
    assert_eq!(line.call("take"), 1);
    line.events();
    line.put(&exchange);
    assert_eq!((line.events(), line.call("take")), (0, 0));
    line.control(draft::SYNC);
    line.put(&exchange);
    line.control(draft::SYNC);
    assert_eq!(line.call("take"), 0);
    assert_eq!(line.put(&with_data(1).counted(false))[6], 0x08);
    assert_eq!(line.diagnosis(), (0x00, 0x24));
}

#[test]
fn read_inputs_and_read_outputs_of_length_0_have_3e_and_the_point_alone() {
    let reply =
        |point: u8, fcs: u8| vec![0x68, 5, 5, 0x68, 0x82, 0x85, 0x08, 0x3E, point, fcs, 0x16];
    let mut line = without_inputs(draft::ALLOW_NONE);
    let inputs = line.request(draft::READ_INPUTS, Vec::new());
    assert_eq!(inputs, reply(draft::READ_INPUTS, 0x85));
    let mut line = without_outputs(draft::ALLOW_NONE);
    let outputs = line.request(draft::READ_OUTPUTS, Vec::new());
    assert_eq!(outputs, reply(draft::READ_OUTPUTS, 0x86));
}

#[test]
fn kinds_1_and_4_of_length_0_are_always_7() {
    let indices = [0, 1, 7, 243, 244, 255, 256, u32::MAX];
    let mut line = without_outputs(draft::ALLOW_NONE);
    line.put(&by_sd1());
    for _ in 0..2 {
        for index in indices {
            assert_eq!(line.call(&format!("read 1 {index}")), -7);
            assert_eq!(line.call(&format!("write 1 {index} 11")), -7);
        }
        assert_eq!(line.call("read 4 0"), 0);
        assert_eq!(line.call("take"), 1);
        line.put(&by_sd1());
    }
    let mut line = without_inputs(draft::ALLOW_NONE);
    for _ in 0..2 {
        for index in indices {
            assert_eq!(line.call(&format!("read 4 {index}")), -7);
            assert_eq!(line.call(&format!("write 4 {index} 11")), -7);
        }
        assert_eq!(line.call("read 1 0"), 0);
        assert_eq!(line.call("handover"), 0);
    }
}

#[test]
fn handing_over_and_freezing_no_inputs_changes_no_reply() {
    let mut line = without_inputs(draft::ALLOW_FREEZE);
    for control in [draft::FREEZE, draft::FREEZE, draft::UNFREEZE] {
        assert_eq!(line.call("handover"), 0);
        assert_eq!(line.send_output(0x11), E5);
        line.control(control);
        assert_eq!(line.call("handover"), 0);
        assert_eq!(line.send_output(0x12), E5);
    }
}
