//! Urgent events ahead, sentence by sentence of document 02, Req 06, on the second implementation.

use crate::draft;
use crate::line::{does_nothing, stations, Line, IDENT};

/// The events that there are, and those of them that acknowledging clears.
const NUMBERS: [i64; 7] = [1, 3, 8, 10, 11, 12, 13];
const ACKNOWLEDGED: [i64; 5] = [1, 3, 8, 12, 13];

const NONE: i64 = 16;

fn word(numbers: &[i64]) -> i64 {
    numbers.iter().map(|number| 1 << number).sum()
}

fn acknowledge(line: &mut Line, numbers: &[i64]) {
    assert_eq!(line.call(&format!("ack {}", word(numbers))), 0);
}

/// A command, a Set_Prm that ends the exchange, its watchdog that expires, a diagnosis, and both sets again.
fn with_every_event() -> Line {
    let watchdog = draft::fast_parameters(IDENT, Some((1, 2)), 0, draft::ALLOW_NONE);
    let mut line = Line::allowing(draft::ALLOW_NONE);
    line.control(draft::SYNC);
    line.request(draft::SET_PRM, watchdog);
    for call in ["tick", "tick", "diag 6 0"] {
        assert_eq!(line.call(call), 0);
    }
    line.set_prm(draft::ALLOW_NONE);
    line.chk_cfg();
    assert_eq!(line.call("events"), word(&NUMBERS));
    line
}

/// WAIT_PRM, with 12 and 13 set.
fn with_diagnosis_and_zeros() -> Line {
    let mut line = Line::fresh();
    assert_eq!((line.call("leave"), line.call("diag 6 0")), (0, 0));
    assert_eq!(line.call("events"), word(&[12, 13]));
    line
}

#[test]
fn none_is_16() {
    for mut line in [Line::fresh(), Line::allowing(draft::ALLOW_NONE)] {
        assert_eq!((line.call("events"), line.call("pending")), (0, NONE));
    }
}

/// Behind every choice of events that are acknowledged.
#[test]
fn pending_is_the_smallest_of_those_that_are_set() {
    let every = with_every_event();
    for choice in 0..1 << ACKNOWLEDGED.len() {
        let is_chosen = |at: &usize| choice >> at & 1 == 1;
        let chosen = (0..ACKNOWLEDGED.len()).filter(is_chosen);
        let cleared: Vec<i64> = chosen.map(|at| ACKNOWLEDGED[at]).collect();
        let mut line = every.clone();
        acknowledge(&mut line, &cleared);
        let set = NUMBERS.into_iter().filter(|n| !cleared.contains(n));
        assert_eq!(Some(line.call("pending")), set.min(), "{cleared:?} cleared");
    }
}

/// 10 ends with the Set_Prm that drops the configuration, 11 with the judging of the two sets that are there by then.
#[test]
fn the_end_of_the_smallest_brings_the_next() {
    let mut line = with_every_event();
    let ends: [fn(&mut Line); 7] = [
        |line| acknowledge(line, &[1]),
        |line| acknowledge(line, &[3]),
        |line| acknowledge(line, &[8]),
        |line| line.set_prm(draft::ALLOW_NONE),
        |line| assert_eq!((line.call("judgeprm 1"), line.call("judgeprm 1")), (1, 0)),
        |line| acknowledge(line, &[12]),
        |line| acknowledge(line, &[13]),
    ];
    for (number, end) in NUMBERS.into_iter().zip(ends) {
        assert_eq!(line.call("pending"), number);
        end(&mut line);
    }
    assert_eq!(line.call("pending"), NONE);
}

#[test]
fn sets_are_ahead_of_12_and_13_until_they_are_judged() {
    let mut line = with_diagnosis_and_zeros();
    let still = |line: &mut Line, number| {
        acknowledge(line, &[10, 11]);
        assert_eq!(line.call("pending"), number);
    };
    line.set_prm(draft::ALLOW_NONE);
    still(&mut line, 11);
    line.set_prm(draft::ALLOW_BOTH);
    assert_eq!(line.call("judgeprm 1"), 1);
    still(&mut line, 11);
    line.chk_cfg();
    still(&mut line, 10);
    assert_eq!(line.call("judgeprm 1"), 0);
    still(&mut line, 10);
    assert_eq!(line.call("judgecfg 1"), 0);
    acknowledge(&mut line, &[1]);
    assert_eq!(line.call("pending"), 12);
}

#[test]
fn sets_that_wait_prm_drops_are_not_ahead_any_more() {
    let ways: [&[&str]; 3] = [&["leave"], &["judgeprm 0"], &["judgeprm 1", "judgecfg 0"]];
    for way in ways {
        let mut line = with_diagnosis_and_zeros();
        line.set_prm(draft::ALLOW_NONE);
        line.chk_cfg();
        assert_eq!(line.call("pending"), 10);
        for call in way {
            assert_eq!(line.call(call), 0);
        }
        assert_eq!(line.call("pending"), 12, "{way:?}");
    }
}

#[test]
fn pending_changes_nothing() {
    let numbers = [NONE, 11, 11, 10, 10, 10, 1, 1, 1, 1, 1];
    let stations = stations();
    assert_eq!(stations.len(), numbers.len());
    for (line, number) in stations.iter().zip(numbers) {
        does_nothing(line, "pending", number);
    }
}

/// 8, 12 and 13 come one after the other in every order.
#[test]
fn equal_words_draw_equal_numbers_whatever_came_first() {
    let raise: [fn(&mut Line); 3] = [
        |line| line.control(draft::SYNC),
        |line| assert_eq!(line.call("diag 6 0"), 0),
        |line| assert_eq!(line.send_output(0x11).len(), 10),
    ];
    let orders = [
        [0, 1, 2],
        [0, 2, 1],
        [1, 0, 2],
        [1, 2, 0],
        [2, 0, 1],
        [2, 1, 0],
    ];
    for order in orders {
        let mut line = Line::allowing(draft::ALLOW_NONE);
        for at in order {
            raise[at](&mut line);
        }
        assert_eq!(line.call("events"), word(&[8, 12, 13]));
        assert_eq!(line.call("pending"), 8, "{order:?}");
    }
}
