//! The window, sentence by sentence of document 02, Req 02, on the second implementation.

use crate::draft;
use crate::line::{does_nothing, seen, stations, Line};

const ORDERS: [&str; 2] = ["i", "m"];

/// What stands behind a read, and the call for it.
const COMMANDS: [(u32, &str); 7] = [
    (0x09, "handover"),
    (0x0B, "take"),
    (0x0D, "diag 6 0"),
    (0x0E, "judgeprm 1"),
    (0x0F, "judgeprm 0"),
    (0x10, "judgecfg 1"),
    (0x11, "judgecfg 0"),
];

/// Addresses above 015H, many with the lowest octets of a cell that does something.
const BEYOND: [u32; 12] = [
    0x16,
    0x17,
    0x29,
    0xFF,
    0x100,
    0x102,
    0x10D,
    0x1000,
    0x1_000E,
    0x8000_0000,
    0x8000_000B,
    u32::MAX,
];

/// The access answers and leaves the station as the call does.
fn acts_as(before: &Line, access: &str, call: &str) {
    let (mut by_window, mut by_call) = (before.clone(), before.clone());
    assert_eq!(by_window.call(access), by_call.call(call), "{access}");
    assert_eq!(seen(by_window), seen(by_call), "{access}, {call}");
}

#[test]
fn reading_gives_the_halves_of_events_and_motorola_exchanges_them() {
    for mut line in stations() {
        let events = line.call("events");
        let (low, high) = (events & 0xFF, events >> 8);
        for (address, intel, motorola) in [(0, low, high), (1, high, low)] {
            for address in [address, address + 2] {
                does_nothing(&line, &format!("winread i {address}"), intel);
                does_nothing(&line, &format!("winread m {address}"), motorola);
            }
        }
    }
}

#[test]
fn writing_acknowledges_there_and_motorola_exchanges_the_halves() {
    for line in stations() {
        for octet in 0..=255 {
            let (low, high) = (octet, octet << 8);
            for (order, address, mask) in
                [("i", 2, low), ("i", 3, high), ("m", 2, high), ("m", 3, low)]
            {
                let access = format!("winwrite {order} {address} {octet:02X}");
                acts_as(&line, &access, &format!("ack {mask}"));
            }
        }
    }
}

#[test]
fn each_command_answers_as_its_call_in_both_orders() {
    for line in stations() {
        for (address, call) in COMMANDS {
            for order in ORDERS {
                acts_as(&line, &format!("winread {order} {address}"), call);
            }
        }
    }
}

#[test]
fn a_new_diagnosis_has_the_present_count_and_flags() {
    for order in ORDERS {
        let access = format!("winread {order} 13");
        let mut line = Line::allowing(draft::ALLOW_NONE);
        for call in ["write 5 6 61", "write 5 7 62", "diag 8 5", "write 5 6 63"] {
            assert_eq!(line.call(call), 0);
        }
        acts_as(&line, &access, "diag 8 5");
        assert_eq!(line.call(&access), 0);
        let reply = line.request(draft::SLAVE_DIAG, Vec::new());
        assert_eq!(reply[9..17], [0x08, 0x04, 0x80, 2, 0x80, 0xB3, 0x63, 0]);
    }
}

/// Present is what is in force, also while another count and other flags are delayed.
#[test]
fn a_new_diagnosis_is_delayed_and_refused_as_by_its_call() {
    for order in ORDERS {
        let access = format!("winread {order} 13");
        let mut line = Line::allowing(draft::ALLOW_NONE);
        assert_eq!(line.call("diag 8 5"), 0);
        line.ask_for_diagnosis();
        acts_as(&line, &access, "diag 8 5");

        let mut delayed = line.clone();
        assert_eq!(delayed.call(&access), 0);
        does_nothing(&delayed, &access, -9);
        assert_eq!(delayed.call("read 5 6"), -8);
        delayed.rest_of_reply();
        assert_eq!(delayed.call("read 5 6"), 0);

        assert_eq!(line.call("diag 9 2"), 0);
        does_nothing(&line, &access, -9);
        line.rest_of_reply();
        acts_as(&line, &access, "diag 9 2");
    }
}

#[test]
fn any_other_access_reads_0_and_changes_nothing() {
    let is_command = |address| COMMANDS.iter().any(|(command, _)| *command == address);
    for line in stations() {
        for order in ORDERS {
            for address in (0x04..=0x15).filter(|address| !is_command(*address)) {
                does_nothing(&line, &format!("winread {order} {address}"), 0);
            }
            for address in (0x00..=0x15).filter(|address| !(2..=3).contains(address)) {
                for octet in ["00", "01", "3A", "FF"] {
                    does_nothing(&line, &format!("winwrite {order} {address} {octet}"), 0);
                }
            }
        }
    }
}

/// 6 and 9 would come from the calls behind 0EH and 0DH.
#[test]
fn an_address_above_015h_is_refused_by_10() {
    for line in stations() {
        for address in BEYOND {
            for order in ORDERS {
                does_nothing(&line, &format!("winread {order} {address}"), -10);
                does_nothing(&line, &format!("winwrite {order} {address} FF"), -10);
            }
        }
    }
}

#[test]
fn an_address_above_015h_is_checked_after_5() {
    let mut line = Line::without_start();
    for address in (0x00..=0x15).chain(BEYOND) {
        for order in ORDERS {
            assert_eq!(line.call(&format!("winread {order} {address}")), -5);
            assert_eq!(line.call(&format!("winwrite {order} {address} 01")), -5);
        }
    }
}

/// The way of a vat program that knows the window alone, beside the same way by the calls.
#[test]
fn a_list_with_accesses_answers_as_the_list_of_the_calls() {
    let steps: [(fn(&mut Line), u32, &str, i64); 11] = [
        (
            |line| line.set_prm(draft::ALLOW_NONE),
            0x0E,
            "judgeprm 1",
            0,
        ),
        (|line| line.chk_cfg(), 0x10, "judgecfg 1", 0),
        (|line| assert_eq!(line.exchange(0x11), 0), 0x0B, "take", 1),
        (|_| {}, 0x0B, "take", 0),
        (
            |line| assert_eq!(line.call("write 4 0 21"), 0),
            0x09,
            "handover",
            0,
        ),
        (
            |line| assert_eq!(line.exchange(0x12), 0x21),
            0x0B,
            "take",
            1,
        ),
        (|_| {}, 0x0D, "diag 6 0", 0),
        (
            |line| (0..2).for_each(|_| line.chk_cfg()),
            0x11,
            "judgecfg 0",
            1,
        ),
        (|_| {}, 0x11, "judgecfg 0", 0),
        (|_| {}, 0x0B, "take", 2),
        (|_| {}, 0x0F, "judgeprm 0", -6),
    ];
    for order in ORDERS {
        let (mut by_window, mut by_call) = (Line::fresh(), Line::fresh());
        for (bus, address, call, answer) in steps {
            bus(&mut by_window);
            bus(&mut by_call);
            assert_eq!(
                by_window.call(&format!("winread {order} {address}")),
                answer
            );
            assert_eq!(by_call.call(call), answer, "{call}");
            assert_eq!(seen(by_window.clone()), seen(by_call.clone()), "{call}");
        }
    }
}
