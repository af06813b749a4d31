//! The bench examples a to j of document 01, with the answers that stand there: address 5, ident 80B3, master 2, one
//! output, one input, a gap before each telegram. By document 02, Req 04, case a ends the chain ahead of each further
//! one, and by Req 07 case c reads 100 ticks.

use crate::call;
use crate::ledger::Station;
use crate::line::without_channels;

struct Bench {
    station: Station,
}

impl Bench {
    fn fresh() -> Bench {
        let mut bench = Bench {
            station: Station::default(),
        };
        let start = without_channels("start 1536 5 32947 1 1 7 1 6 20");
        assert_eq!(bench.call(&start), 0);
        bench
    }

    /// c, a Chk_Cfg and two good judgements; the inputs are 21.
    fn in_exchange() -> Bench {
        let mut bench = Bench::fresh();
        bench.expect(C, "E5");
        assert_eq!(bench.call("judgeprm 1"), 0);
        bench.expect(A, "10 02 05 00 07 16");
        bench.expect(CHK_CFG, "E5");
        assert_eq!(bench.call("judgecfg 1"), 0);
        bench.expect(A, "10 02 05 00 07 16");
        assert_eq!(bench.call("write 4 0 21"), 0);
        assert_eq!(bench.call("handover"), 0);
        bench
    }

    fn call(&mut self, line: &str) -> i64 {
        let call = call::parse(line).unwrap().unwrap();
        self.station.answer(&call).0
    }

    /// Puts a telegram on the bus behind a gap and hears the whole reply.
    fn expect(&mut self, telegram: &str, reply: &str) {
        assert_eq!(self.call("gap"), 0);
        for octet in telegram.split_whitespace() {
            assert_eq!(self.call(&format!("octet {octet}")), 0);
        }
        for octet in reply.split_whitespace() {
            let expected = i64::from_str_radix(octet, 16).unwrap();
            assert_eq!(self.call("send"), expected, "{telegram} -> {reply}");
        }
        assert_eq!(self.call("send"), 256, "{telegram} -> {reply}");
    }

    fn telegram_is_begun(&self) -> bool {
        self.station.ledger.as_ref().unwrap().telegram_is_begun()
    }
}

const A: &str = "10 05 02 49 50 16";
const C: &str = "68 0C 0C 68 85 82 5D 3D 3E 88 01 0A 0B 80 B3 00 B0 16";
const D: &str = "68 04 04 68 05 02 5D 7A DE 16";

/// One octet of configuration; 85 + 82 + 5D + 3E + 3E + 20 is 200, so the FCS is 00.
const CHK_CFG: &str = "68 06 06 68 85 82 5D 3E 3E 20 00 16";

#[test]
fn a_status() {
    Bench::fresh().expect(A, "10 02 05 00 07 16");
}

#[test]
fn b_diagnosis_of_a_fresh_station() {
    Bench::fresh().expect(
        "68 05 05 68 85 82 6D 3C 3E EE 16",
        "68 0B 0B 68 82 85 08 3E 3C 02 05 00 FF 80 B3 C2 16",
    );
}

#[test]
fn c_parameters_with_a_watchdog_of_100_ticks() {
    let mut bench = Bench::fresh();
    bench.expect(C, "E5");
    for _ in 0..99 {
        bench.call("tick");
    }
    assert_eq!(bench.call("events"), 1 << 11);
    bench.call("tick");
    assert_eq!(bench.call("events"), 1 << 3 | 1 << 13);
}

#[test]
fn d_exchange() {
    Bench::in_exchange().expect(D, "68 04 04 68 02 05 08 21 30 16");
}

#[test]
fn e_exchange_with_diag_flag() {
    let mut bench = Bench::in_exchange();
    assert_eq!(bench.call("diag 6 0"), 0);
    bench.expect(D, "68 04 04 68 02 05 0A 21 32 16");
}

#[test]
fn f_exchange_while_fresh() {
    Bench::fresh().expect(D, "10 02 05 03 0A 16");
}

#[test]
fn g_wrong_check_sum() {
    Bench::fresh().expect("10 05 02 49 51 16", "");
}

#[test]
fn h_i_lengths_3_and_250_are_broken_off() {
    for head in ["68 03", "68 FA"] {
        let mut bench = Bench::fresh();
        bench.expect(head, "");
        assert!(!bench.telegram_is_begun());
        bench.expect(A, "10 02 05 00 07 16");
    }
}

/// 246 data octets: nobody owns the station, so the exchange draws RS, which shows that it was read.
#[test]
fn j_length_249_is_read() {
    let mut bench = Bench::fresh();
    bench.expect("68 F9", "");
    assert!(bench.telegram_is_begun());
    let data = " 00".repeat(246);
    bench.expect(
        &format!("68 F9 F9 68 05 02 5D{data} 64 16"),
        "10 02 05 03 0A 16",
    );
}
