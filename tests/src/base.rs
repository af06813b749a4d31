//! The watchdog's base, sentence by sentence of document 02, Req 07, on the second implementation.

use crate::call::Call;
use crate::draft::{self, Draft, BASE_1_MS};
use crate::line::{self, Line, IDENT, MASTER, STATION};

const EVENT_WATCHDOG: i64 = 1 << 3;

/// Octets 0 and 1 of the diagnosis: in WAIT_CFG with the watchdog on and off, and in WAIT_PRM without and with
/// Prm_Fault.
const WATCHDOG_ON: (u8, u8) = (0x02, 0x0C);
const WATCHDOG_OFF: (u8, u8) = (0x02, 0x04);
const WAIT_PRM: (u8, u8) = (0x02, 0x05);
const PRM_FAULT: (u8, u8) = (0x42, 0x05);

/// The good parameters with a watchdog of these factors, and these octets from octet 7 on.
fn parameters(factors: (u8, u8), further: &[u8]) -> Vec<u8> {
    let good = draft::good_parameters(IDENT, Some(factors), 0, draft::ALLOW_NONE);
    [&good, further].concat()
}

fn set_prm(factors: (u8, u8), further: &[u8]) -> Draft {
    line::to_point(draft::SET_PRM, parameters(factors, further))
}

/// The parameters with some bits of one octet changed.
fn changed(at: usize, bits: u8) -> Draft {
    let mut draft = set_prm((1, 2), &[BASE_1_MS]);
    draft.data[at] ^= bits;
    draft
}

fn parametrised(factors: (u8, u8), further: &[u8]) -> Line {
    let mut line = Line::fresh();
    assert_eq!(line.put(&set_prm(factors, further)), [0xE5]);
    line
}

fn ticks(line: &mut Line, count: usize) {
    for _ in 0..count {
        assert_eq!(line.answer(&Call::Tick), 0);
    }
}

fn has_expired(line: &mut Line) -> bool {
    line.answer(&Call::Events) & EVENT_WATCHDOG != 0
}

/// Event 3 comes with this tick and not before.
fn expires_with(line: &Line, tick: usize) {
    let mut line = line.clone();
    assert!(!has_expired(&mut line));
    ticks(&mut line, tick - 1);
    assert!(!has_expired(&mut line), "before tick {tick}");
    ticks(&mut line, 1);
    assert!(has_expired(&mut line), "with tick {tick}");
}

#[test]
fn the_ticks_are_the_product_or_ten_times_the_product() {
    for (one, two) in [
        (1, 2),
        (2, 1),
        (1, 10),
        (3, 5),
        (1, 255),
        (255, 1),
        (16, 16),
    ] {
        let product = usize::from(one) * usize::from(two);
        expires_with(&parametrised((one, two), &[BASE_1_MS]), product);
        expires_with(&parametrised((one, two), &[0]), 10 * product);
        expires_with(&parametrised((one, two), &[]), 10 * product);
    }
}

/// 10 x 58 x 113 is 4 above 65,536, 10 x 26 x 252 is 16 below it.
#[test]
fn more_ticks_than_16_bits_hold_are_counted() {
    expires_with(&parametrised((26, 252), &[]), 65_520);
    expires_with(&parametrised((58, 113), &[]), 65_540);
    expires_with(&parametrised((241, 85), &[]), 204_850);
    expires_with(&parametrised((255, 255), &[]), 650_250);
    expires_with(&parametrised((255, 255), &[BASE_1_MS]), 65_025);
}

#[test]
fn bit_2_of_octet_7_decides_alone() {
    for octet in 0..=255 {
        let tick = if octet & BASE_1_MS != 0 { 2 } else { 20 };
        expires_with(&parametrised((1, 2), &[octet]), tick);
        expires_with(&parametrised((1, 2), &[octet, !octet, !octet]), tick);
    }
}

/// Bit 2 anywhere else: in octet 0, in octet 3, in the group, or behind octet 7.
#[test]
fn bit_2_of_another_octet_is_no_base() {
    for at in [0, 3, 6] {
        let mut draft = set_prm((1, 2), &[]);
        draft.data[at] |= BASE_1_MS;
        let mut line = Line::fresh();
        assert_eq!(line.put(&draft), [0xE5]);
        expires_with(&line, 20);
    }
    expires_with(&parametrised((1, 2), &[0, BASE_1_MS, BASE_1_MS]), 20);
}

#[test]
fn without_bit_3_of_octet_0_the_watchdog_is_off_whatever_octet_7_is() {
    for further in [&[BASE_1_MS][..], &[0xFF], &[0], &[]] {
        for factors in [(1, 1), (0, 1), (0, 0), (1, 2), (2, 2)] {
            for first in [0x80, 0x87] {
                let mut draft = set_prm(factors, further);
                draft.data[0] = first;
                let mut line = Line::fresh();
                assert_eq!(line.put(&draft), [0xE5]);
                assert_eq!(line.diagnosis(), WATCHDOG_OFF);
                ticks(&mut line, 50);
                assert!(!has_expired(&mut line));
            }
        }
    }
}

#[test]
fn both_factors_1_and_a_factor_0_are_faults_on_either_base() {
    for factors in [(1, 1), (0, 1), (1, 0), (0, 0), (0, 255), (255, 0)] {
        for further in [&[BASE_1_MS][..], &[0xFF], &[!BASE_1_MS], &[0], &[]] {
            let mut line = parametrised(factors, further);
            assert_eq!(line.diagnosis(), PRM_FAULT, "{factors:?}, {further:?}");
        }
    }
}

/// The set length is 7 there: octet 7 is one too many, and it is no base for the next.
#[test]
fn where_octet_7_has_no_room_it_is_a_fault() {
    let mut line = Line::without_start();
    let start = line::without_channels("start 1536 5 32947 1 1 7 1 9 20");
    assert_eq!(line.call(&start), 0);
    assert_eq!(line.put(&set_prm((1, 2), &[BASE_1_MS])), [0xE5]);
    assert_eq!(line.diagnosis(), PRM_FAULT);
    assert_eq!(line.put(&set_prm((1, 2), &[])), [0xE5]);
    expires_with(&line, 20);
}

/// Good ones, up to four of them, so that every buffer has been used; a fault, an unlock, one with bit 7 clear, another
/// master's, and a repeat.
#[test]
fn bit_2_of_an_earlier_telegram_is_no_base() {
    let fast = set_prm((1, 2), &[BASE_1_MS]);
    let others = Draft {
        source: MASTER + 1,
        ..fast.clone()
    };
    let status = Draft::status(STATION, MASTER);
    let whole: [&[Draft]; 9] = [
        &[fast.clone()],
        &[fast.clone(), fast.clone()],
        &[fast.clone(), fast.clone(), fast.clone()],
        &[fast.clone(), fast.clone(), fast.clone(), fast.clone()],
        &[changed(5, 0x01)],
        &[changed(0, 0x40)],
        &[changed(0, 0x80)],
        &[fast.clone(), others],
        &[status.counted(true), fast.counted(true)],
    ];
    for drafts in whole {
        let mut line = Line::fresh();
        drafts.iter().for_each(|draft| drop(line.put(draft)));
        line.put(&set_prm((1, 2), &[]));
        expires_with(&line, 20);
    }
}

/// By a wrong FCS, by one flagged bad, and by a gap ahead of it.
#[test]
fn bit_2_of_a_telegram_that_is_broken_off_is_no_base() {
    let octets = set_prm((1, 2), &[BASE_1_MS]).octets();
    let up_to_octet_7 = &octets[..octets.len() - 2];
    for end in ["octet 00", "bad 16", "gap"] {
        let mut line = Line::fresh();
        line.call("gap");
        for octet in up_to_octet_7 {
            line.call(&format!("octet {octet:02X}"));
        }
        line.call(end);
        line.put(&set_prm((1, 2), &[]));
        expires_with(&line, 20);
    }
}

#[test]
fn each_good_set_prm_brings_its_own_base() {
    let mut line = parametrised((1, 2), &[BASE_1_MS]);
    for _ in 0..3 {
        line.put(&set_prm((1, 3), &[]));
        ticks(&mut line, 3);
        expires_with(&line, 27);
        line.put(&set_prm((1, 3), &[0xFF]));
        ticks(&mut line, 1);
        expires_with(&line, 2);
    }
}

/// It draws E5 only, but as a telegram of the owner it refills.
#[test]
fn a_set_prm_with_bit_7_clear_leaves_the_base() {
    for (in_force, ticks_of, asked) in [(vec![BASE_1_MS], 2, vec![]), (vec![], 20, vec![0xFF])] {
        let mut line = parametrised((1, 2), &in_force);
        let mut draft = set_prm((1, 2), &asked);
        draft.data[0] &= 0x7F;
        ticks(&mut line, 1);
        assert_eq!(line.put(&draft), [0xE5]);
        expires_with(&line, ticks_of);
    }
}

/// By a status, a Data_Exchange that draws RS, a function without an answer, and a Slave_Diag; with every number of
/// ticks gone by, so that no part of 10 ms is kept from before.
#[test]
fn a_refill_is_to_the_ticks_of_the_base() {
    let status = Draft::status(STATION, MASTER);
    let refills = [
        line::exchange(0x11),
        line::to_point(draft::SLAVE_DIAG, Vec::new()),
        Draft {
            control: 0x40,
            ..status.clone()
        },
        status,
    ];
    for refill in refills {
        for (further, period) in [(&[BASE_1_MS][..], 12), (&[], 120)] {
            let fresh = parametrised((3, 4), further);
            for gone in 0..12 {
                let mut line = fresh.clone();
                ticks(&mut line, gone);
                line.put(&refill);
                expires_with(&line, period);
            }
        }
    }
}

/// The octets of a repeat are not looked at: it refills, and the base stays.
#[test]
fn a_repeat_with_another_base_refills_the_watchdog_as_it_is() {
    for (in_force, period) in [(&[BASE_1_MS][..], 6), (&[0], 60), (&[], 60)] {
        for again in [&[BASE_1_MS][..], &[0], &[]] {
            let mut line = Line::fresh();
            line.put(&set_prm((2, 3), in_force).counted(true));
            ticks(&mut line, 5);
            assert_eq!(line.put(&set_prm((1, 2), again).counted(true)), [0xE5]);
            expires_with(&line, period);
        }
    }
}

/// Octet 1 of the diagnosis shows the watchdog up to its last tick, whose clear ends it.
#[test]
fn the_diagnosis_follows_the_ticks() {
    for (further, period) in [(&[BASE_1_MS][..], 6), (&[], 60)] {
        let mut before = parametrised((2, 3), further);
        ticks(&mut before, period - 1);
        let mut behind = before.clone();
        ticks(&mut behind, 1);
        assert_eq!(before.diagnosis(), WATCHDOG_ON);
        assert_eq!(behind.diagnosis(), WAIT_PRM);
    }
}

/// Whatever was counted by then, and it is not counted itself. A station that counts whole parts of 10 ms would wait.
#[test]
fn a_noted_clear_goes_with_the_next_tick_on_either_base() {
    for further in [&[BASE_1_MS][..], &[]] {
        for gone in 0..20 {
            let mut line = parametrised((4, 5), further);
            ticks(&mut line, gone);
            assert_eq!(line.events(), 1 << 11);
            for call in ["gap", "octet 10", "leave"] {
                assert_eq!(line.call(call), 0);
            }
            assert_eq!(line.events(), 1 << 11);
            ticks(&mut line, 1);
            assert_eq!(line.events(), 1 << 13, "{gone} ticks gone by");
            assert_eq!(line.diagnosis(), WAIT_PRM);
        }
    }
}

/// A watchdog that expires on a busy line is noted with its last tick and carried out with the one behind it.
#[test]
fn an_expiry_on_a_busy_line_is_carried_out_one_tick_later() {
    for (further, period) in [(&[BASE_1_MS][..], 2), (&[], 20)] {
        let mut line = parametrised((1, 2), further);
        assert_eq!((line.call("gap"), line.call("octet 68")), (0, 0));
        ticks(&mut line, period);
        assert_eq!(line.events(), EVENT_WATCHDOG | 1 << 11);
        ticks(&mut line, 1);
        assert_eq!(line.events(), 1 << 13);
    }
}

#[test]
fn octet_7_is_shown_like_every_other_octet() {
    let mut line = parametrised((1, 2), &[0xA5, 0x5A]);
    assert_eq!((line.call("read 2 7"), line.call("read 2 8")), (0xA5, 0x5A));
    assert_eq!(line.call("read 2 9"), -8);
    let mut line = parametrised((1, 2), &[]);
    assert_eq!((line.call("read 2 6"), line.call("read 2 7")), (0, -8));
}
