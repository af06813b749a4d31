//! Sync and freeze, sentence by sentence of document 02, Req 01, on the second implementation.

use crate::draft;
use crate::line::Line;

const EVENT_CONTROL: i64 = 1 << 8;
const EVENT_OUTPUTS: i64 = 1 << 13;

#[test]
fn bits_5_and_4_of_set_prm_are_no_fault() {
    for allowed in [draft::ALLOW_SYNC, draft::ALLOW_FREEZE, draft::ALLOW_BOTH] {
        let mut line = Line::allowing(allowed);
        assert_eq!(line.diagnosis(), (0x00, 0x04));
    }
}

#[test]
fn sync_publishes_what_is_held_back_and_holds_later_outputs() {
    let mut line = Line::allowing(draft::ALLOW_SYNC);
    line.control(draft::SYNC);
    assert_eq!(line.events(), EVENT_CONTROL);
    line.exchange(0x11);
    line.exchange(0x12);
    assert_eq!(line.events(), 0);
    line.take_finds(0, 0);
    line.control(draft::SYNC);
    assert_eq!(line.events(), EVENT_OUTPUTS);
    line.exchange(0x13);
    line.take_finds(1, 0x12);
    line.take_finds(0, 0x12);
}

#[test]
fn sync_with_nothing_held_back_publishes_nothing() {
    let mut line = Line::allowing(draft::ALLOW_SYNC);
    line.exchange(0x11);
    line.take_finds(1, 0x11);
    line.events();
    for control in [draft::SYNC, draft::SYNC, draft::UNSYNC, draft::UNSYNC] {
        line.control(control);
        assert_eq!(line.events() & EVENT_OUTPUTS, 0);
        line.take_finds(0, 0x11);
    }
}

#[test]
fn unsync_publishes_what_is_held_back_and_ends_sync() {
    let mut line = Line::allowing(draft::ALLOW_SYNC);
    line.control(draft::SYNC);
    line.exchange(0x11);
    line.control(draft::UNSYNC);
    line.take_finds(1, 0x11);
    line.exchange(0x12);
    line.take_finds(1, 0x12);
}

#[test]
fn of_both_bits_of_a_pair_the_ending_one_acts() {
    let mut line = Line::allowing(draft::ALLOW_BOTH);
    line.control(draft::SYNC | draft::FREEZE);
    assert_eq!(line.diagnosis().1, 0x34);
    line.exchange(0x11);
    line.control(draft::SYNC | draft::UNSYNC);
    assert_eq!(line.diagnosis().1, 0x14);
    line.take_finds(1, 0x11);
    line.control(draft::FREEZE | draft::UNFREEZE);
    assert_eq!(line.diagnosis().1, 0x04);
}

#[test]
fn freeze_brings_new_inputs_and_keeps_them() {
    let mut line = Line::allowing(draft::ALLOW_FREEZE);
    line.hand_over(0x21);
    line.control(draft::FREEZE);
    line.hand_over(0x22);
    assert_eq!(line.exchange(0), 0x21);
    assert_eq!(line.exchange(0), 0x21);
    line.control(draft::FREEZE);
    assert_eq!(line.exchange(0), 0x22);
    line.hand_over(0x23);
    assert_eq!(line.exchange(0), 0x22);
    line.control(draft::UNFREEZE);
    line.hand_over(0x24);
    assert_eq!(line.exchange(0), 0x24);
}

/// Read_Inputs shows that unfreeze itself brought the inputs, before any exchange.
#[test]
fn unfreeze_brings_new_inputs_also_without_freeze() {
    for controls in [vec![draft::UNFREEZE], vec![draft::FREEZE, draft::UNFREEZE]] {
        let mut line = Line::allowing(draft::ALLOW_FREEZE);
        let last = controls.len() - 1;
        for control in &controls[..last] {
            line.control(*control);
        }
        line.hand_over(0x21);
        assert_eq!(line.request(draft::READ_INPUTS, Vec::new())[9], 0);
        line.control(controls[last]);
        assert_eq!(line.request(draft::READ_INPUTS, Vec::new())[9], 0x21);
    }
}

#[test]
fn clear_comes_last_and_empties_what_is_held_back() {
    for control in [draft::CLEAR, draft::SYNC | draft::CLEAR] {
        let mut line = Line::allowing(draft::ALLOW_SYNC);
        line.control(draft::SYNC);
        line.exchange(0x11);
        line.control(control);
        line.take_finds(2, 0);
        line.control(draft::SYNC);
        line.take_finds(0, 0);
        assert_eq!(line.diagnosis().1, 0x24);
    }
}

#[test]
fn a_pair_that_is_not_allowed_is_ignored_but_stored() {
    let mut line = Line::allowing(draft::ALLOW_FREEZE);
    line.control(draft::SYNC | draft::FREEZE);
    assert_eq!(line.events(), EVENT_CONTROL);
    assert_eq!(line.diagnosis().1, 0x14);
    line.exchange(0x11);
    line.take_finds(1, 0x11);
    line.events();
    line.control(draft::FREEZE);
    assert_eq!(line.events(), EVENT_CONTROL);

    let mut line = Line::allowing(draft::ALLOW_SYNC);
    line.control(draft::SYNC | draft::FREEZE);
    assert_eq!(line.diagnosis().1, 0x24);
    line.hand_over(0x21);
    assert_eq!(line.exchange(0), 0x21);
}

#[test]
fn the_same_octet_0_again_acts_without_event_8() {
    let mut line = Line::allowing(draft::ALLOW_SYNC);
    line.control(draft::SYNC);
    line.exchange(0x11);
    line.events();
    line.control(draft::SYNC);
    assert_eq!(line.events(), EVENT_OUTPUTS);
    line.take_finds(1, 0x11);
}

/// The zeros of the left DATA_EXCH are published, what was held back is not; in the next DATA_EXCH both modes are off.
#[test]
fn leaving_data_exch_ends_both_modes() {
    let ways: [fn(&mut Line); 3] = [
        |line| line.chk_cfg(),
        |line| line.set_prm(draft::ALLOW_BOTH),
        |line| assert_eq!(line.call("leave"), 0),
    ];
    for leave in ways {
        let mut line = Line::allowing(draft::ALLOW_BOTH);
        line.control(draft::SYNC | draft::FREEZE);
        line.exchange(0x11);
        leave(&mut line);
        line.take_finds(2, 0);
        assert_eq!(line.diagnosis().1 & 0x30, 0);
        line.set_prm(draft::ALLOW_BOTH);
        while line.call("judgeprm 1") == 1 {}
        line.chk_cfg();
        assert_eq!(line.call("judgecfg 1"), 0);
        line.control(draft::SYNC);
        line.take_finds(0, 0);
    }
}

#[test]
fn what_is_allowed_outlives_chk_cfg() {
    let mut line = Line::allowing(draft::ALLOW_SYNC);
    line.control(draft::SYNC);
    line.chk_cfg();
    assert_eq!(line.call("judgecfg 1"), 0);
    assert_eq!(line.diagnosis(), (0x00, 0x04));
    line.control(draft::SYNC);
    assert_eq!(line.diagnosis(), (0x00, 0x24));
}
