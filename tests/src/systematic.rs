//! What need not be left to chance. From a handful of reached states every telegram of a small collection is tried with
//! each octet changed to each value, with each other call at each place inside it and inside its reply, and the
//! octets that decide what a telegram is are run through all their values with a check sum that is right. Every address of
//! the window is read and written in both orders, and every word of events is put into the memory. Each kind of request
//! follows each other one with every choice of master and of the bits that tell a repeat; elsewhere FCV is clear, so that
//! a telegram shows its own rule. Some of the states are those of stations without outputs or without inputs. Where nothing
//! else is said octet 7 makes the base 1 ms, and watchdogs have as many ticks as the product of their factors.

use crate::call::{Call, Order, StartValues, NO_CHANNELS};
use crate::compare::{Difference, Pair};
use crate::damage::try_every_event_word;
use crate::draft::{self, Draft};
use crate::ledger::Phase;
use crate::random::Random;
use crate::telegram::{self, Form};
use std::sync::atomic::{AtomicU64, AtomicUsize, Ordering};
use std::sync::Mutex;

const STATION: u8 = 5;
const IDENT: u16 = 0x80B3;
const MASTER: u8 = 2;
const OTHER_MASTER: u8 = 3;
const GROUP: u8 = 0x0F;

type Compared = Result<(), Box<Difference>>;
type Test<'a> = dyn Fn(&mut Walker) -> Compared + Send + Sync + 'a;

/// A reached state with a name for reports.
struct Base {
    name: &'static str,
    pair: Pair,
}

/// One of the tests: its name and what it does from a state.
struct Task<'a> {
    name: String,
    base: &'a Base,
    run: Box<Test<'a>>,
}

/// Runs variants from a base, each on a copy of its own, and counts the calls.
struct Walker<'a> {
    base: &'a Pair,
    calls: u64,
}

impl Walker<'_> {
    /// The calls, and then enough others to see what state they led to.
    fn variant(&mut self, calls: &[Call]) -> Compared {
        let mut pair = self.base.branch();
        self.run(&mut pair, calls)?;
        self.hear(&mut pair)?;
        self.run(&mut pair, &look_around())?;
        self.hear(&mut pair)?;
        if is_exchanging(&pair) {
            self.run(&mut pair, &look_behind_the_modes())?;
            self.hear(&mut pair)?;
        }
        Ok(())
    }

    fn run(&mut self, pair: &mut Pair, calls: &[Call]) -> Compared {
        self.calls += calls.len() as u64;
        pair.run(calls)
    }

    /// Runs variants from a state that the base led to.
    fn from(&mut self, pair: &Pair, run: impl Fn(&mut Walker) -> Compared) -> Compared {
        let mut walker = Walker {
            base: pair,
            calls: 0,
        };
        run(&mut walker)?;
        self.calls += walker.calls;
        Ok(())
    }

    fn outputs(&self) -> usize {
        outputs_of(self.base)
    }

    fn hear(&mut self, pair: &mut Pair) -> Compared {
        loop {
            self.calls += 1;
            if pair.step(&Call::Send)? == 256 {
                return Ok(());
            }
        }
    }
}

/// Calls whose answers together tell the state: events, outputs, sets, inputs, and a Slave_Diag by another master.
fn look_around() -> Vec<Call> {
    let mut calls = vec![
        Call::Events,
        Call::Pending,
        Call::Read { kind: 1, index: 0 },
        Call::Read { kind: 2, index: 6 },
        Call::Read { kind: 3, index: 0 },
        Call::Read { kind: 4, index: 0 },
        Call::Read { kind: 5, index: 6 },
        Call::Take,
        Call::Read { kind: 1, index: 0 },
    ];
    let diagnosis = Draft::to_point(STATION, OTHER_MASTER, draft::SLAVE_DIAG, vec![]);
    calls.extend(telegram_calls(&diagnosis.octets()));
    calls
}

fn outputs_of(pair: &Pair) -> usize {
    let ledger = pair.station.ledger.as_ref();
    ledger.map_or(0, |ledger| ledger.values.outputs as usize)
}

fn has_watchdog(pair: &Pair) -> bool {
    let ledger = pair.station.ledger.as_ref();
    ledger.is_some_and(|ledger| ledger.watchdog.is_some())
}

fn is_exchanging(pair: &Pair) -> bool {
    let ledger = pair.station.ledger.as_ref();
    ledger.is_some_and(|ledger| ledger.phase == Phase::DataExch)
}

/// What is held back and which inputs are new: both modes are ended, a take shows the one, Read_Inputs the other.
fn look_behind_the_modes() -> Vec<Call> {
    let end = control(draft::UNSYNC | draft::UNFREEZE, 0);
    let inputs = Draft::to_point(STATION, OTHER_MASTER, draft::READ_INPUTS, vec![]);
    [
        telegram_calls(&end),
        vec![
            Call::Events,
            Call::Take,
            Call::Read { kind: 1, index: 0 },
            Call::Read { kind: 1, index: 1 },
        ],
        telegram_calls(&inputs.octets()),
    ]
    .concat()
}

fn octet(octet: u8) -> Call {
    Call::Octet { octet, bad: false }
}

fn octet_calls(octets: &[u8]) -> Vec<Call> {
    octets.iter().map(|value| octet(*value)).collect()
}

fn telegram_calls(octets: &[u8]) -> Vec<Call> {
    [vec![Call::Gap], octet_calls(octets)].concat()
}

fn sends(count: usize) -> Vec<Call> {
    vec![Call::Send; count]
}

fn ticks(count: usize) -> Vec<Call> {
    vec![Call::Tick; count]
}

fn start() -> Call {
    start_with(2, 3)
}

fn start_with(outputs: u32, inputs: u32) -> Call {
    Call::Start(StartValues {
        outputs,
        inputs,
        ..start_values()
    })
}

/// Two outputs, three inputs, no channels. The buffers end at 680.
fn start_values() -> StartValues {
    StartValues {
        memory: 1536,
        address: STATION.into(),
        ident: IDENT,
        outputs: 2,
        inputs: 3,
        parameters: 9,
        configuration: 4,
        diagnosis: 9,
        get_cfg: vec![0x21, 0x12],
        channels: NO_CHANNELS.to_vec(),
    }
}

fn request(point: u8, data: &[u8]) -> Vec<u8> {
    Draft::to_point(STATION, MASTER, point, data.to_vec()).octets()
}

fn good_parameters(watchdog: Option<(u8, u8)>) -> Vec<u8> {
    draft::fast_parameters(IDENT, watchdog, GROUP, draft::ALLOW_BOTH)
}

/// Without octet 7: the base is 10 ms.
fn slow_parameters(watchdog: (u8, u8)) -> Vec<u8> {
    draft::good_parameters(IDENT, Some(watchdog), GROUP, draft::ALLOW_BOTH)
}

/// Without octet 7 and without a watchdog.
fn parameters_allowing(allowed: u8) -> Vec<u8> {
    draft::good_parameters(IDENT, None, GROUP, allowed)
}

fn control(control: u8, group: u8) -> Vec<u8> {
    Draft::global_control(127, MASTER, control, group).octets()
}

fn exchange(data: &[u8]) -> Vec<u8> {
    exchange_of(data.len(), data).octets()
}

/// A Data_Exchange for a station that has two outputs or none: with as many of these two.
fn exchange_of(outputs: usize, data: &[u8]) -> Draft {
    Draft::exchange(STATION, MASTER, data[..outputs].to_vec())
}

/// The telegrams that are tried in every state, for a station with this number of outputs.
fn telegrams(outputs: usize) -> Vec<(&'static str, Vec<u8>)> {
    let unlock = [&[0xC0], &good_parameters(None)[1..]].concat();
    let clear = |station| Draft::global_control(station, MASTER, draft::CLEAR, 0x01).octets();
    let by_sd3 = telegram::sd3(STATION, MASTER, draft::REQUEST, &[1; 8]);
    let exchange_of = |data: &[u8]| exchange_of(outputs, data);
    vec![
        ("status", Draft::status(STATION, MASTER).octets()),
        (
            "Set_Prm",
            request(draft::SET_PRM, &good_parameters(Some((1, 3)))),
        ),
        (
            "Set_Prm without a watchdog, sync or freeze",
            request(draft::SET_PRM, &parameters_allowing(draft::ALLOW_NONE)),
        ),
        ("Set_Prm that unlocks", request(draft::SET_PRM, &unlock)),
        ("Chk_Cfg", request(draft::CHK_CFG, &[0x21, 0x12])),
        ("Data_Exchange", exchange_of(&[0x7A, 0x7B]).octets()),
        ("Data_Exchange with one octet", exchange(&[0x7A])),
        ("Data_Exchange by SD3", by_sd3),
        (
            "Data_Exchange with FCV set",
            exchange_of(&[0x7C, 0x7D]).counted(false).octets(),
        ),
        (
            "Data_Exchange by SD1",
            telegram::sd1(STATION, MASTER, draft::REQUEST),
        ),
        ("Slave_Diag", request(draft::SLAVE_DIAG, &[])),
        ("Get_Cfg", request(draft::GET_CFG, &[])),
        ("Read_Inputs", request(draft::READ_INPUTS, &[])),
        ("Read_Outputs", request(draft::READ_OUTPUTS, &[])),
        ("Global_Control", clear(STATION)),
        ("Global_Control to 127", clear(127)),
        ("SD4", telegram::sd4(STATION, MASTER)),
    ]
}

/// Calls that are put in at every place.
fn other_calls() -> Vec<Call> {
    vec![
        Call::Gap,
        Call::Octet {
            octet: 0x10,
            bad: true,
        },
        Call::Send,
        Call::Tick,
        Call::Leave,
        Call::Take,
        Call::HandOver,
        Call::NewDiagnosis { count: 8, flags: 3 },
        Call::JudgeParameters(0),
        Call::JudgeParameters(1),
        Call::JudgeConfiguration(0),
        Call::JudgeConfiguration(1),
        Call::Acknowledge(0xFFFF),
        Call::Write {
            kind: 4,
            index: 0,
            octet: 0x99,
        },
        Call::Write {
            kind: 5,
            index: 6,
            octet: 0x88,
        },
    ]
}

/// Every address of the window and some above, in both orders, read and written. The octets have the bits of all
/// events, of 8, 10, 12 and 13, and of 1, 3 and 11.
fn accesses() -> Vec<Call> {
    let mut accesses = Vec::new();
    let beyond = [0x16, 0x17, 0xFF, 0x100, 0x1000, 0x8000_0000, u32::MAX];
    for address in (0x00..=0x15).chain(beyond) {
        for order in [Order::Intel, Order::Motorola] {
            accesses.push(Call::WindowRead { order, address });
            accesses.extend([0xFF, 0x35, 0x0A].map(|octet| Call::WindowWrite {
                order,
                address,
                octet,
            }));
        }
    }
    accesses
}

/// The states that these lists lead to.
fn bases(ways: Vec<(&'static str, Vec<Call>)>) -> Result<Vec<Base>, String> {
    let mut bases = Vec::new();
    for (name, calls) in ways {
        let mut pair = Pair::new(Random::new(bases.len() as u64));
        pair.run(&calls)
            .map_err(|difference| format!("DIFFERENCE on the way to '{name}', {difference}"))?;
        bases.push(Base { name, pair });
    }
    Ok(bases)
}

/// From Start to a set of parameters that is shown.
fn parametrised(parameters: &[u8]) -> Vec<Call> {
    let telegram = request(draft::SET_PRM, parameters);
    [vec![start()], telegram_calls(&telegram), sends(1)].concat()
}

/// From Start to a set of configuration that is shown, the parameters judged good.
fn checked(parameters: &[u8]) -> Vec<Call> {
    [
        parametrised(parameters),
        vec![Call::JudgeParameters(1)],
        telegram_calls(&request(draft::CHK_CFG, &[0x33])),
        sends(1),
    ]
    .concat()
}

/// From Start to DATA_EXCH.
fn exchanging(parameters: &[u8]) -> Vec<Call> {
    [vec![start()], exchange_entered(parameters)].concat()
}

/// The ways to the states from which everything is tried. In two of them the base is 10 ms. Two to four ticks of the
/// watchdog are left wherever it is on, so that a telegram between them shows whether it refills.
fn ways() -> Vec<(&'static str, Vec<Call>)> {
    let two_ticks = good_parameters(Some((1, 2)));
    let slow = |calls: Vec<Call>| [calls, ticks(18)].concat();
    let twenty_ticks = slow_parameters((1, 2));
    vec![
        ("fresh", vec![start()]),
        ("parameters shown", parametrised(&two_ticks)),
        ("parameters waiting", way_to_waiting_parameters()),
        (
            "configuration shown, base 10 ms",
            slow(checked(&twenty_ticks)),
        ),
        ("configuration waiting", way_to_waiting_configuration()),
        ("exchange", exchanging(&two_ticks)),
        (
            "exchange with new inputs, outputs and diagnosis",
            way_to_news(),
        ),
        ("diagnosis delayed", way_to_delayed_diagnosis()),
        (
            "diagnosis delayed and clear noted",
            [way_to_delayed_diagnosis(), vec![Call::Gap, Call::Leave]].concat(),
        ),
        ("Read_Outputs reply under way", way_to_a_reply_of_outputs()),
        (
            "sync with outputs held back, others not taken, base 10 ms",
            slow(way_to_sync(&twenty_ticks)),
        ),
        ("frozen with new inputs", way_to_freeze()),
        ("a repeat may follow", way_to_a_chain()),
        (
            "sixteen channels, no octet left in the memory",
            way_to_channels(),
        ),
    ]
}

/// In the exchange. Eleven buffers of 25 octets and 21 of 17 take the 856 octets that the others leave.
fn way_to_channels() -> Vec<Call> {
    let start = Call::Start(StartValues {
        channels: [vec![25; 11], vec![17; 21]].concat(),
        ..start_values()
    });
    let parameters = good_parameters(Some((1, 2)));
    [vec![start], exchange_entered(&parameters)].concat()
}

fn way_to_waiting_parameters() -> Vec<Call> {
    let second = request(draft::SET_PRM, &good_parameters(Some((2, 2))));
    [
        parametrised(&good_parameters(None)),
        telegram_calls(&second),
        sends(1),
    ]
    .concat()
}

fn way_to_waiting_configuration() -> Vec<Call> {
    [
        checked(&good_parameters(Some((1, 2)))),
        telegram_calls(&request(draft::CHK_CFG, &[0x44, 0x55])),
        sends(1),
    ]
    .concat()
}

/// The reply to a Data_Exchange is not heard yet.
fn way_to_news() -> Vec<Call> {
    [
        exchanging(&good_parameters(Some((1, 2)))),
        telegram_calls(&exchange(&[0x11, 0x12])),
        vec![Call::Take, Call::HandOver],
        vec![Call::NewDiagnosis { count: 9, flags: 7 }],
        telegram_calls(&exchange(&[0x13, 0x14])),
    ]
    .concat()
}

fn way_to_delayed_diagnosis() -> Vec<Call> {
    [
        exchanging(&good_parameters(Some((3, 1)))),
        telegram_calls(&request(draft::SLAVE_DIAG, &[])),
        sends(4),
        vec![Call::NewDiagnosis { count: 7, flags: 1 }],
    ]
    .concat()
}

fn way_to_a_reply_of_outputs() -> Vec<Call> {
    [
        exchanging(&good_parameters(None)),
        telegram_calls(&exchange(&[0x11, 0x12])),
        vec![Call::Take],
        telegram_calls(&exchange(&[0x13, 0x14])),
        telegram_calls(&request(draft::READ_OUTPUTS, &[])),
        sends(5),
    ]
    .concat()
}

fn way_to_sync(parameters: &[u8]) -> Vec<Call> {
    [
        exchanging(parameters),
        telegram_calls(&exchange(&[0x11, 0x12])),
        telegram_calls(&control(draft::SYNC, 0)),
        telegram_calls(&exchange(&[0x13, 0x14])),
        sends(9),
    ]
    .concat()
}

fn way_to_freeze() -> Vec<Call> {
    [
        exchanging(&good_parameters(None)),
        new_inputs(0x31),
        telegram_calls(&control(draft::FREEZE, 0)),
        new_inputs(0x32),
    ]
    .concat()
}

/// The ways to states of stations without outputs or without inputs. A repeat with FCB clear may follow in three of them.
fn ways_of_one_side() -> Vec<(&'static str, Vec<Call>)> {
    [ways_without_outputs(), ways_without_inputs()].concat()
}

fn ways_without_outputs() -> Vec<(&'static str, Vec<Call>)> {
    let entered = started_and_entered(0, 3);
    let empty_held_back = [
        entered.clone(),
        telegram_calls(&exchange(&[])),
        telegram_calls(&control(draft::SYNC, 0)),
        counted_exchange(&[]),
        sends(12),
        new_inputs(0x32),
    ]
    .concat();
    vec![
        (
            "no outputs, new inputs",
            [entered, new_inputs(0x31)].concat(),
        ),
        (
            "no outputs, the empty list held back, another not taken",
            empty_held_back,
        ),
    ]
}

fn ways_without_inputs() -> Vec<(&'static str, Vec<Call>)> {
    let entered = started_and_entered(2, 0);
    let diagnosis = vec![Call::NewDiagnosis { count: 8, flags: 1 }];
    let drew_e5 = [
        entered.clone(),
        counted_exchange(&[0x11, 0x12]),
        sends(1),
        diagnosis.clone(),
    ]
    .concat();
    let drew_an_octet = [
        entered.clone(),
        diagnosis,
        telegram_calls(&control(draft::SYNC, 0)),
        counted_exchange(&[0x13, 0x14]),
        sends(3),
        vec![Call::HandOver],
    ]
    .concat();
    vec![
        ("no inputs", entered),
        ("no inputs, E5 drawn, then a diagnosis given", drew_e5),
        (
            "no inputs, FC 0A and 00 under way, outputs held back",
            drew_an_octet,
        ),
    ]
}

/// From Start with these lengths of outputs and inputs to DATA_EXCH.
fn started_and_entered(outputs: u32, inputs: u32) -> Vec<Call> {
    let parameters = good_parameters(Some((1, 2)));
    let start = vec![start_with(outputs, inputs)];
    [start, exchange_entered(&parameters)].concat()
}

/// A Data_Exchange with FCV set and FCB clear.
fn counted_exchange(data: &[u8]) -> Vec<Call> {
    let draft = exchange_of(data.len(), data).counted(false);
    telegram_calls(&draft.octets())
}

/// A Slave_Diag with FCV set was heard in part, and there are newer outputs, inputs and diagnosis than its own.
fn way_to_a_chain() -> Vec<Call> {
    let slave_diag = Draft::to_point(STATION, MASTER, draft::SLAVE_DIAG, vec![]);
    [
        exchanging(&good_parameters(Some((1, 3)))),
        telegram_calls(&exchange(&[0x11, 0x12])),
        sends(3),
        new_inputs(0x31),
        telegram_calls(&slave_diag.counted(false).octets()),
        sends(4),
        vec![Call::NewDiagnosis { count: 8, flags: 1 }],
    ]
    .concat()
}

fn new_inputs(octet: u8) -> Vec<Call> {
    let write = Call::Write {
        kind: 4,
        index: 0,
        octet,
    };
    vec![write, Call::HandOver]
}

/// The ways to the states from which every Global_Control is tried: sync and freeze are commanded, outputs are sent
/// and inputs handed over before and behind it, and what becomes of them depends on the pairs that are allowed.
fn ways_to_modes() -> Vec<(&'static str, Vec<Call>)> {
    let way = |allowed| {
        [
            vec![start()],
            exchange_entered(&parameters_allowing(allowed)),
            telegram_calls(&exchange(&[0x11, 0x12])),
            vec![Call::Take],
            new_inputs(0x31),
            telegram_calls(&control(draft::SYNC | draft::FREEZE, 0)),
            telegram_calls(&exchange(&[0x13, 0x14])),
            new_inputs(0x32),
        ]
        .concat()
    };
    vec![
        ("both modes commanded, none allowed", way(draft::ALLOW_NONE)),
        ("both modes commanded, sync allowed", way(draft::ALLOW_SYNC)),
        (
            "both modes commanded, freeze allowed",
            way(draft::ALLOW_FREEZE),
        ),
        ("both modes commanded, both allowed", way(draft::ALLOW_BOTH)),
    ]
}

/// The way to a state in which every event is set: both sets are open, and the watchdog ended an exchange before.
fn way_to_events() -> Vec<(&'static str, Vec<Call>)> {
    let way = [
        vec![start()],
        exchange_entered(&good_parameters(Some((1, 2)))),
        telegram_calls(&control(draft::FREEZE, 0)),
        ticks(2),
        vec![Call::NewDiagnosis { count: 8, flags: 1 }],
        telegram_calls(&request(draft::SET_PRM, &good_parameters(None))),
        sends(1),
        telegram_calls(&request(draft::CHK_CFG, &[0x33])),
        sends(1),
    ];
    vec![("every event set", way.concat())]
}

/// From WAIT_PRM to DATA_EXCH with these parameters; if they are not good the calls behind them are refused.
fn exchange_entered(parameters: &[u8]) -> Vec<Call> {
    [
        telegram_calls(&request(draft::SET_PRM, parameters)),
        sends(1),
        vec![Call::JudgeParameters(1)],
        telegram_calls(&request(draft::CHK_CFG, &[0x33])),
        sends(1),
        vec![Call::JudgeConfiguration(1)],
    ]
    .concat()
}

/// Runs everything; answers the number of calls compared.
pub fn run(threads: usize) -> Result<u64, String> {
    let all = bases([ways(), ways_of_one_side()].concat())?;
    let modes = bases(ways_to_modes())?;
    let events = bases(way_to_events())?;
    let mut tasks = tasks(&all, &modes);
    for base in all.iter().chain(&modes).chain(&events) {
        push_all(&mut tasks, base, &OF_THE_WINDOW);
        push_all(&mut tasks, base, &OF_THE_EVENTS);
    }
    let next = AtomicUsize::new(0);
    let failures: Mutex<Vec<(usize, String)>> = Mutex::new(Vec::new());
    let compared = AtomicU64::new(0);
    let work = || loop {
        let number = next.fetch_add(1, Ordering::SeqCst);
        let Some(task) = tasks.get(number) else {
            return;
        };
        match run_task(task) {
            Ok(calls) => drop(compared.fetch_add(calls, Ordering::SeqCst)),
            Err(report) => {
                next.store(tasks.len(), Ordering::SeqCst);
                failures.lock().unwrap().push((number, report));
            }
        }
    };
    std::thread::scope(|scope| {
        for _ in 0..threads {
            scope.spawn(work);
        }
    });
    match failures.into_inner().unwrap().into_iter().min() {
        Some((_, report)) => Err(report),
        None => Ok(compared.into_inner()),
    }
}

fn run_task(task: &Task) -> Result<u64, String> {
    let mut walker = Walker {
        base: &task.base.pair,
        calls: 0,
    };
    (task.run)(&mut walker).map_err(|difference| {
        format!(
            "DIFFERENCE from the state '{}', test '{}', {difference}",
            task.base.name, task.name
        )
    })?;
    Ok(walker.calls)
}

fn tasks<'a>(bases: &'a [Base], modes: &'a [Base]) -> Vec<Task<'a>> {
    let mut tasks = Vec::new();
    for base in bases {
        push_telegrams(&mut tasks, base);
        push_all(&mut tasks, base, &FROM_EVERY_STATE);
        if has_watchdog(&base.pair) {
            push_all(&mut tasks, base, &WITH_A_WATCHDOG);
        }
    }
    for base in modes {
        push_all(&mut tasks, base, &FROM_MODES);
    }
    push_all(&mut tasks, &bases[0], &FROM_FRESH);
    tasks
}

/// A test with its name in reports.
type Named = (&'static str, fn(&mut Walker) -> Compared);

const FROM_EVERY_STATE: [Named; 8] = [
    ("every telegram between ticks", every_telegram_between_ticks),
    ("every FC", every_control),
    ("every point", every_point),
    ("every count of data", every_count),
    ("every octet 0 of Set_Prm", every_first_parameter),
    ("every Global_Control", every_global_control),
    (
        "every request behind every other",
        every_request_behind_every_other,
    ),
    ("every request again", every_request_again),
];

const FROM_MODES: [Named; 1] = [("every Global_Control", every_global_control)];

const FROM_FRESH: [Named; 7] = [
    (
        "every octet 0 of Set_Prm, then sync and freeze",
        every_permission,
    ),
    ("every pair of LE", every_lengths),
    ("every two factors", every_two_factors),
    ("shortest and longest watchdogs", watchdogs),
    ("every octet 7 of Set_Prm", every_octet_7),
    ("octet 7 from before", octet_7_from_before),
    ("every pair of addresses", every_addresses),
];

const WITH_A_WATCHDOG: [Named; 1] = [("every limit of ticks", every_limit_of_ticks)];

const OF_THE_WINDOW: [Named; 2] = [
    ("every window access", every_access),
    ("every octet written to the window", every_octet_written),
];

const OF_THE_EVENTS: [Named; 1] = [("every event word", every_event_word)];

fn push_telegrams<'a>(tasks: &mut Vec<Task<'a>>, base: &'a Base) {
    let ways: [(&str, fn(&mut Walker, &[u8]) -> Compared); 4] = [
        ("one octet changed", change_each_octet),
        ("changed, good FCS", change_with_good_check_sum),
        ("calls inside", calls_inside),
        ("calls in the reply", calls_in_the_reply),
    ];
    for (name, octets) in telegrams(outputs_of(&base.pair)) {
        for (way, run) in ways {
            let octets = octets.clone();
            push(tasks, base, format!("{name}, {way}"), move |walker| {
                run(walker, &octets)
            });
        }
    }
}

fn push_all<'a>(tasks: &mut Vec<Task<'a>>, base: &'a Base, named: &[Named]) {
    for (name, run) in named {
        push(tasks, base, name.to_string(), *run);
    }
}

fn push<'a>(
    tasks: &mut Vec<Task<'a>>,
    base: &'a Base,
    name: String,
    run: impl Fn(&mut Walker) -> Compared + Send + Sync + 'a,
) {
    tasks.push(Task {
        name,
        base,
        run: Box::new(run),
    });
}

fn change_each_octet(walker: &mut Walker, octets: &[u8]) -> Compared {
    for at in 0..octets.len() {
        for value in 0..=255 {
            let mut changed = octets.to_vec();
            changed[at] = value;
            walker.variant(&telegram_calls(&changed))?;
        }
    }
    Ok(())
}

fn change_with_good_check_sum(walker: &mut Walker, octets: &[u8]) -> Compared {
    let body_at = if octets[0] == telegram::SD2 { 4 } else { 1 };
    let fcs_at = octets.len() - 2;
    for at in body_at..fcs_at {
        for value in 0..=255 {
            let mut changed = octets.to_vec();
            changed[at] = value;
            changed[fcs_at] = telegram::check_sum(&changed[body_at..fcs_at]);
            walker.variant(&telegram_calls(&changed))?;
        }
    }
    Ok(())
}

/// Whether a telegram refills the watchdog shows in the tick at which that expires.
fn every_telegram_between_ticks(walker: &mut Walker) -> Compared {
    for (_, octets) in telegrams(walker.outputs()) {
        for before in 1..=2 {
            for behind in 1..=3 {
                let calls = [ticks(before), telegram_calls(&octets), ticks(behind)];
                walker.variant(&calls.concat())?;
            }
        }
    }
    Ok(())
}

/// One or two other calls, or one window access, at each place inside the telegram.
fn calls_inside(walker: &mut Walker, octets: &[u8]) -> Compared {
    let calls = telegram_calls(octets);
    for at in 0..=calls.len() {
        put_in(walker, &calls, at)?;
    }
    Ok(())
}

fn calls_in_the_reply(walker: &mut Walker, octets: &[u8]) -> Compared {
    let mut pair = walker.base.branch();
    let calls = telegram_calls(octets);
    pair.run(&calls)?;
    let left = match &pair.station.ledger {
        Some(ledger) => ledger.reply.left.len(),
        None => 0,
    };
    let all = [calls.clone(), sends(left)].concat();
    for at in calls.len()..=all.len() {
        put_in(walker, &all, at)?;
    }
    Ok(())
}

fn put_in(walker: &mut Walker, calls: &[Call], at: usize) -> Compared {
    let (before, behind) = calls.split_at(at);
    for first in other_calls() {
        walker.variant(&[before, std::slice::from_ref(&first), behind].concat())?;
        for second in other_calls() {
            walker.variant(&[before, &[first.clone(), second], behind].concat())?;
        }
    }
    for access in accesses() {
        walker.variant(&[before, &[access], behind].concat())?;
    }
    Ok(())
}

/// Every access by itself, and with one other call before it or behind it.
fn every_access(walker: &mut Walker) -> Compared {
    for access in accesses() {
        walker.variant(std::slice::from_ref(&access))?;
        for other in other_calls() {
            walker.variant(&[access.clone(), other.clone()])?;
            walker.variant(&[other, access.clone()])?;
        }
    }
    Ok(())
}

/// Every octet, written to each of the cells that the events stand in.
fn every_octet_written(walker: &mut Walker) -> Compared {
    for octet in 0..=255 {
        for address in 0x00..=0x03 {
            for order in [Order::Intel, Order::Motorola] {
                walker.variant(&[Call::WindowWrite {
                    order,
                    address,
                    octet,
                }])?;
            }
        }
    }
    Ok(())
}

/// In the memory of the state, whatever is on the line in it.
fn every_event_word(walker: &mut Walker) -> Compared {
    walker.calls += try_every_event_word(walker.base.card.memory.clone())
        .map_err(|misdeed| walker.base.found(&Call::Pending, misdeed))?;
    Ok(())
}

/// Every FC in every form, with an extension and without.
fn every_control(walker: &mut Walker) -> Compared {
    let drafts = [
        Draft::status(STATION, MASTER),
        exchange_of(walker.outputs(), &[1, 2]),
        Draft::to_point(STATION, MASTER, draft::SLAVE_DIAG, vec![]),
        Draft::global_control(STATION, MASTER, 0x02, 0),
        Draft::global_control(127, MASTER, 0x02, 0),
        Draft {
            form: Form::Sd3,
            ..Draft::exchange(STATION, OTHER_MASTER, vec![3])
        },
    ];
    for draft in drafts {
        for control in 0..=255 {
            let draft = Draft {
                control,
                ..draft.clone()
            };
            walker.variant(&telegram_calls(&draft.octets()))?;
        }
    }
    Ok(())
}

/// Every DSAP with some SSAPs, and every SSAP at each point.
fn every_point(walker: &mut Walker) -> Compared {
    for dsap in 0..=255 {
        for ssap in [0, 61, 62, 63, 0xBE] {
            every_request_to(walker, (dsap, ssap))?;
        }
    }
    for ssap in 0..=255 {
        for dsap in 56..=62 {
            every_request_to(walker, (dsap, ssap))?;
        }
    }
    Ok(())
}

/// From the owner, if there is one, and from another master, by functions 13 and 12, without data and with some.
fn every_request_to(walker: &mut Walker, points: (u8, u8)) -> Compared {
    for master in [MASTER, OTHER_MASTER] {
        for control in [draft::REQUEST, draft::LOW_REQUEST] {
            for data in [vec![], vec![0x21], good_parameters(None)] {
                let draft = Draft {
                    control,
                    points: Some(points),
                    ..Draft::to_point(STATION, master, points.0, data)
                };
                walker.variant(&telegram_calls(&draft.octets()))?;
            }
        }
    }
    Ok(())
}

/// At Set_Prm's point also with an octet 7 that has not bit 2.
fn every_count(walker: &mut Walker) -> Compared {
    let asks = (56..=62).map(|point| (point, 0x3C));
    let asks: Vec<(u8, u8)> = asks.chain([(draft::SET_PRM, 0x38)]).collect();
    for count in 0..=244 {
        for (point, further) in &asks {
            let mut data = slow_parameters((4, 4));
            data.resize(count, *further);
            walker.variant(&telegram_calls(&request(*point, &data)))?;
        }
    }
    for count in 0..=246 {
        walker.variant(&telegram_calls(&exchange(&vec![0x5E; count])))?;
    }
    Ok(())
}

fn every_first_parameter(walker: &mut Walker) -> Compared {
    let factors = [(0, 0), (0, 1), (1, 0), (1, 1), (1, 2), (2, 1), (255, 255)];
    for first in 0..=255 {
        for factors in factors {
            for octet_7 in [None, Some(draft::BASE_1_MS), Some(!draft::BASE_1_MS)] {
                for spoil in [0, 1] {
                    let mut data = slow_parameters(factors);
                    data.extend(octet_7);
                    data[0] = first;
                    data[5] ^= spoil;
                    walker.variant(&telegram_calls(&request(draft::SET_PRM, &data)))?;
                }
            }
        }
    }
    Ok(())
}

/// Once, to see what it leaves; twice with a take between, and twice with an exchange between, which a mode may hold
/// back: the second time octet 0 is no longer new.
fn every_global_control(walker: &mut Walker) -> Compared {
    let look = vec![Call::Events, Call::Take];
    let exchanged = exchange_of(walker.outputs(), &[0x15, 0x16]).octets();
    let between = [telegram_calls(&exchanged), new_inputs(0x33)].concat();
    for octet in 0..=255 {
        for group in [0, 0x01, 0x10, 0xF0, 0xFF] {
            let commanded = telegram_calls(&control(octet, group));
            let looked = [commanded.clone(), look.clone()].concat();
            walker.variant(&commanded)?;
            walker.variant(&[looked.clone(), looked.clone()].concat())?;
            walker.variant(&[looked.clone(), between.clone(), looked].concat())?;
        }
    }
    Ok(())
}

/// Every octet 0 of Set_Prm on the way to DATA_EXCH, and what sync and freeze come to then.
fn every_permission(walker: &mut Walker) -> Compared {
    for first in 0..=255 {
        let mut parameters = good_parameters(Some((9, 9)));
        parameters[0] = first;
        let way = exchange_entered(&parameters);
        for command in [draft::SYNC, draft::FREEZE, draft::SYNC | draft::FREEZE] {
            let calls = [
                way.clone(),
                telegram_calls(&control(command, 0)),
                new_inputs(0x34),
                telegram_calls(&exchange(&[0x17, 0x18])),
            ];
            walker.variant(&calls.concat())?;
        }
    }
    Ok(())
}

/// Of each thing that a station with this number of outputs can be made to draw at least one request, with FCV clear.
fn requests(outputs: usize) -> Vec<Draft> {
    let to_point = |point, data: &[u8]| Draft::to_point(STATION, MASTER, point, data.to_vec());
    let status = Draft::status(STATION, MASTER);
    vec![
        Draft {
            control: FUNCTION_WITHOUT_ANSWER,
            ..status.clone()
        },
        status,
        to_point(draft::GLOBAL_CONTROL, &[]),
        to_point(draft::SET_PRM, &good_parameters(Some((1, 3)))),
        to_point(draft::SET_PRM, &[0x80]),
        to_point(draft::CHK_CFG, &[0x21]),
        exchange_of(outputs, &[0x71, 0x72]),
        Draft::exchange(STATION, MASTER, vec![0x71]),
        to_point(draft::SLAVE_DIAG, &[]),
        to_point(draft::GET_CFG, &[]),
        to_point(draft::READ_INPUTS, &[]),
        to_point(draft::READ_OUTPUTS, &[]),
    ]
}

const FUNCTION_WITHOUT_ANSWER: u8 = 0x40;

/// Telegrams that are no requests or do not act: they leave the chain as it is, whatever their bits 4 and 5 are.
fn no_requests() -> Vec<Draft> {
    let status = Draft::status(STATION, MASTER);
    let by_control = |control| Draft {
        control,
        ..status.clone()
    };
    vec![
        by_control(0x44),
        by_control(0x46),
        by_control(0xC9),
        by_control(0x09),
        Draft::global_control(STATION, MASTER, draft::CLEAR, 0),
        Draft::global_control(127, MASTER, draft::SYNC, 0),
        Draft::status(127, MASTER),
        Draft::status(STATION + 1, MASTER),
    ]
}

/// The draft from both masters and from 127, which is none, with every choice of FCV and FCB.
fn with_every_count(draft: &Draft) -> Vec<Draft> {
    let mut drafts = Vec::new();
    for source in [MASTER, OTHER_MASTER, 127] {
        for bits in [0, draft::FCB, draft::FCV, draft::FCV | draft::FCB] {
            drafts.push(Draft {
                source,
                control: draft.control | bits,
                ..draft.clone()
            });
        }
    }
    drafts
}

/// Two telegrams, and a third that tells which chain they left: a status that is no repeat draws the status.
fn every_request_behind_every_other(walker: &mut Walker) -> Compared {
    let requests = requests(walker.outputs());
    let followers = [requests.clone(), no_requests()].concat();
    let followers: Vec<Draft> = followers.iter().flat_map(with_every_count).collect();
    let status = Draft::status(STATION, MASTER);
    let probes: Vec<Draft> = with_every_count(&status)
        .into_iter()
        .filter(|probe| probe.control & draft::FCV != 0 && probe.source != 127)
        .collect();
    for first in requests {
        let first = telegram_calls(&first.counted(false).octets());
        for second in &followers {
            let calls = [first.clone(), heard(&telegram_calls(&second.octets()))].concat();
            for probe in &probes {
                let probe = heard(&telegram_calls(&probe.octets()));
                walker.variant(&[calls.clone(), probe].concat())?;
            }
        }
    }
    Ok(())
}

/// The calls, and behind them enough sends for every reply here but a long diagnosis.
fn heard(calls: &[Call]) -> Vec<Call> {
    [calls, &sends(LONGEST_HEARD)].concat()
}

const LONGEST_HEARD: usize = 20;

/// What can come between a request and its repeat: it changes what the service finds, or ends the phase, or the owner.
fn between_repeats() -> Vec<Vec<Call>> {
    let command = |octet| telegram_calls(&control(octet, 0));
    vec![
        vec![],
        ticks(1),
        ticks(2),
        vec![Call::Leave],
        vec![Call::Leave, Call::Tick],
        vec![Call::Take],
        new_inputs(0x35),
        [new_inputs(0x36), command(draft::FREEZE)].concat(),
        [new_inputs(0x37), command(draft::SYNC | draft::UNFREEZE)].concat(),
        command(draft::CLEAR),
        vec![Call::NewDiagnosis { count: 7, flags: 1 }],
        vec![Call::NewDiagnosis { count: 9, flags: 2 }],
        vec![Call::JudgeParameters(1), Call::JudgeConfiguration(1)],
        vec![Call::JudgeParameters(0)],
        vec![Call::JudgeConfiguration(0)],
    ]
}

/// As it was and with other data, its reply heard or not, with one or two other things between; and then once more, as
/// a repeat of the repeat.
fn every_request_again(walker: &mut Walker) -> Compared {
    for request in requests(walker.outputs()) {
        for (source, bit, sent) in [
            (MASTER, false, 0),
            (MASTER, true, LONGEST_HEARD),
            (OTHER_MASTER, true, LONGEST_HEARD),
        ] {
            let request = Draft {
                source,
                ..request.counted(bit)
            };
            let once = telegram_calls(&request.octets());
            let other_data = Draft {
                data: request.data.iter().map(|octet| octet ^ 0x21).collect(),
                ..request
            };
            let begun = [once.clone(), sends(sent)].concat();
            let again = [once, heard(&telegram_calls(&other_data.octets()))];
            for again in again {
                repeat_behind_all(walker, &begun, &again)?;
            }
        }
    }
    Ok(())
}

/// A tick behind it shows whether the watchdog was refilled, and a Data_Exchange Diag_Flag.
fn repeat_behind_all(walker: &mut Walker, begun: &[Call], again: &[Call]) -> Compared {
    let between = between_repeats();
    let exchanged = exchange_of(walker.outputs(), &[0x73, 0x74]).octets();
    let look = [
        vec![Call::Tick, Call::Events],
        heard(&telegram_calls(&exchanged)),
    ]
    .concat();
    for first in &between {
        walker.variant(&[begun, first, again, again, &look].concat())?;
        for second in &between {
            walker.variant(&[begun, first, second, again, &look].concat())?;
        }
    }
    Ok(())
}

fn every_lengths(walker: &mut Walker) -> Compared {
    for first in 0..=255 {
        for second in 0..=255 {
            let calls = telegram_calls(&[telegram::SD2, first, second, telegram::SD2]);
            walker.variant(&calls)?;
        }
    }
    Ok(())
}

fn every_addresses(walker: &mut Walker) -> Compared {
    for destination in 0..=255 {
        for source in 0..=255 {
            let octets = telegram::sd1(destination, source, draft::STATUS);
            walker.variant(&telegram_calls(&octets))?;
        }
    }
    for source in 0..=255 {
        for destination in [STATION | 0x80, 0xFF, 0x86] {
            let data = [&[draft::SLAVE_DIAG, draft::MASTER_POINT][..], &[]].concat();
            let octets = telegram::sd2(destination, source, draft::REQUEST, &data);
            walker.variant(&telegram_calls(&octets))?;
        }
    }
    Ok(())
}

/// Every two factors on both bases: the ticks that follow from them stand in the memory at once, and a tick takes one
/// off.
fn every_two_factors(walker: &mut Walker) -> Compared {
    for one in 0..=255 {
        for two in 0..=255 {
            for parameters in [
                good_parameters(Some((one, two))),
                slow_parameters((one, two)),
            ] {
                let telegram = telegram_calls(&request(draft::SET_PRM, &parameters));
                let mut pair = walker.base.branch();
                walker.run(&mut pair, &telegram)?;
                walker.run(&mut pair, &[Call::Send, Call::Events, Call::Tick])?;
            }
        }
    }
    Ok(())
}

/// Tick by tick: the watchdog expires with its last tick and not before, from 2 ticks to 650,250. Some of the products
/// are short, below or above 65,536, or above a multiple of it by less than the ticks of an octet.
fn watchdogs(walker: &mut Walker) -> Compared {
    let factors = [
        (1, 2),
        (2, 1),
        (1, 255),
        (16, 16),
        (26, 252),
        (58, 113),
        (107, 245),
        (255, 255),
    ];
    for factors in factors {
        let product = usize::from(factors.0) * usize::from(factors.1);
        expires_after(walker, &good_parameters(Some(factors)), product)?;
        expires_after(walker, &slow_parameters(factors), 10 * product)?;
    }
    Ok(())
}

/// The ticks before the last one are made once, and all that can follow is tried from there.
fn expires_after(walker: &mut Walker, parameters: &[u8], count: usize) -> Compared {
    let mut pair = walker.base.branch();
    let telegram = telegram_calls(&request(draft::SET_PRM, parameters));
    walker.run(&mut pair, &[telegram, sends(1)].concat())?;
    for _ in 1..count {
        walker.run(&mut pair, &[Call::Tick])?;
    }
    walker.from(&pair, |walker| {
        let refill = telegram_calls(&Draft::status(STATION, MASTER).octets());
        let refilled = [refill, ticks(2), vec![Call::Events]].concat();
        walker.variant(&[])?;
        walker.variant(&[Call::Events, Call::Tick])?;
        walker.variant(&[Call::Tick, Call::Tick])?;
        walker.variant(&refilled)
    })
}

/// Where a watchdog is on: counts at every limit of a word of 32 bits and beside it, put into the memory and into the
/// second implementation. They go down by one, expire where one was left, and an owner's telegram refills them whole.
fn every_limit_of_ticks(walker: &mut Walker) -> Compared {
    let powers = (0..32).map(|bit| 1u32 << bit);
    let limits = powers.flat_map(|power| [power - 1, power, power + 1]);
    let limits = limits
        .chain([u32::MAX - 1, u32::MAX])
        .filter(|left| *left > 0);
    let refill = telegram_calls(&Draft::status(STATION, MASTER).octets());
    for left in limits {
        for refilled in [left, u32::MAX] {
            let mut pair = walker.base.branch();
            pair.put_ticks(left, refilled);
            walker.from(&pair, |walker| {
                walker.variant(&ticks(1))?;
                walker.variant(&ticks(3))?;
                walker.variant(&[refill.clone(), ticks(1)].concat())?;
                walker.variant(&[ticks(1), refill.clone(), ticks(1)].concat())
            })?;
        }
    }
    Ok(())
}

/// Every value of octet 7, as the last octet and as one before others, and what becomes of the watchdog: on a base of 1
/// ms it has 2 ticks, on one of 10 ms it has 20.
fn every_octet_7(walker: &mut Walker) -> Compared {
    for octet in 0..=255 {
        for further in [vec![octet], vec![octet, 0x00], vec![octet, 0xFF]] {
            let data = [slow_parameters((1, 2)), further].concat();
            walker.variant(&ticks_of_set_prm(&data))?;
        }
    }
    Ok(())
}

/// A Set_Prm with factors 1 and 2, the ticks at which its watchdog may expire, and the events before and behind each.
fn ticks_of_set_prm(data: &[u8]) -> Vec<Call> {
    let looks = [1, 1, 17, 1].map(|count| [ticks(count), vec![Call::Events]].concat());
    let telegram = telegram_calls(&request(draft::SET_PRM, data));
    [telegram, sends(1), looks.concat()].concat()
}

/// Set_Prm with every number of octets from 7 on, where an octet 7 with bit 2 came before and may still lie in a
/// buffer: bit 2 counts only if the telegram itself has it. With set lengths that have no room for octet 7, only for
/// it, and for all.
fn octet_7_from_before(walker: &mut Walker) -> Compared {
    for length in [7, 8, 9, 244] {
        for before in ways_to_leave_octet_7(length as usize) {
            let mut pair = walker.base.branch();
            let start = vec![start_with_parameters(length)];
            walker.run(&mut pair, &[start, before].concat())?;
            walker.from(&pair, |walker| every_count_from_7(walker, length as usize))?;
        }
    }
    Ok(())
}

fn every_count_from_7(walker: &mut Walker, length: usize) -> Compared {
    for count in 7..=length.min(242) + 2 {
        for octet in [0x00, !draft::BASE_1_MS, draft::BASE_1_MS] {
            let mut data = slow_parameters((1, 2));
            data.resize(count, octet);
            walker.variant(&ticks_of_set_prm(&data))?;
        }
    }
    Ok(())
}

fn start_with_parameters(parameters: u32) -> Call {
    Call::Start(StartValues {
        parameters,
        ..start_values()
    })
}

/// Set_Prm with bit 2 in octet 7, as long as the set length allows and one octet longer: whole, good or not, or broken
/// off. Good ones are also judged, or are so many that a buffer is used again.
fn ways_to_leave_octet_7(length: usize) -> Vec<Vec<Call>> {
    let mut good = slow_parameters((1, 2));
    good.resize(length, 0xFF);
    let too_long = [&good[..], &[0xFF]].concat();
    let with = |at: usize, bits: u8| {
        let mut data = good.clone();
        data[at] ^= bits;
        set_prm_of(MASTER, &data)
    };
    let shown = set_prm_of(MASTER, &good);
    let judged = |judgement| [shown.clone(), vec![Call::JudgeParameters(judgement)]].concat();
    let whole = vec![
        set_prm_of(MASTER, &too_long),
        with(0, 0x40),
        with(0, 0x80),
        with(5, 0x01),
        [shown.clone(), set_prm_of(OTHER_MASTER, &good)].concat(),
        as_repeat(&request(draft::SET_PRM, &good)),
        judged(0),
        judged(1),
    ];
    let several = (1..=4).map(|count| vec![shown.clone(); count].concat());
    let broken_off = [&good, &too_long].map(|data| broken_off(&request(draft::SET_PRM, data)));
    whole
        .into_iter()
        .chain(several)
        .chain(broken_off.concat())
        .collect()
}

/// A status, and behind it these octets with the FC of its repeat.
fn as_repeat(octets: &[u8]) -> Vec<Call> {
    let status = Draft::status(STATION, MASTER).counted(true).octets();
    let mut again = octets.to_vec();
    let fcs_at = again.len() - 2;
    again[6] |= draft::FCV | draft::FCB;
    again[fcs_at] = telegram::check_sum(&again[4..fcs_at]);
    [
        heard(&telegram_calls(&status)),
        heard(&telegram_calls(&again)),
    ]
    .concat()
}

/// The telegram up to its last data octet, and then what breaks it off, or a tick that drops it.
fn broken_off(octets: &[u8]) -> Vec<Vec<Call>> {
    let [data @ .., fcs, end] = octets else {
        unreachable!("a telegram has a check sum and an end")
    };
    let bad = Call::Octet {
        octet: *fcs,
        bad: true,
    };
    let ends = [
        vec![octet(!fcs), octet(*end)],
        vec![octet(*fcs), octet(!end)],
        vec![bad],
        vec![Call::Gap],
        vec![Call::Leave, Call::Tick],
    ];
    ends.map(|end| [telegram_calls(data), end].concat())
        .to_vec()
}

fn set_prm_of(master: u8, data: &[u8]) -> Vec<Call> {
    let draft = Draft::to_point(STATION, master, draft::SET_PRM, data.to_vec());
    [telegram_calls(&draft.octets()), sends(6)].concat()
}

#[cfg(test)]
mod tests {
    use super::*;
    use crate::ledger::{Drawn, Station};
    use crate::outcome::Outcome;

    /// The second implementation after these calls, none of which it refuses.
    fn reached(way: &[Call]) -> Station {
        let mut station = Station::default();
        way.iter()
            .for_each(|call| assert!(station.answer(call).0 >= 0, "{call}"));
        station
    }

    #[test]
    fn every_event_is_set_where_the_name_says_so() {
        let (_, way) = &way_to_events()[0];
        let events = [1, 3, 8, 10, 11, 12, 13];
        let word: i64 = events.into_iter().map(|number| 1 << number).sum();
        assert_eq!(reached(way).answer(&Call::Events).0, word);
    }

    /// Nothing, E5, status, RS and the five services, in the exchange.
    #[test]
    fn the_requests_draw_everything_that_can_be_drawn() {
        let (_, way) = &ways()[5];
        let drawn = |request: &Draft| {
            let calls = telegram_calls(&request.counted(true).octets());
            let ledger = reached(&[&way[..], &calls].concat()).ledger;
            let chain = ledger.and_then(|ledger| ledger.chain);
            format!("{:?}", chain.expect("FCV is set").drawn)
        };
        let kinds: std::collections::BTreeSet<String> = requests(2).iter().map(drawn).collect();
        assert_eq!(kinds.len(), 9, "{kinds:?}");
    }

    #[test]
    fn what_is_no_request_leaves_the_chain() {
        let (_, way) = &ways()[5];
        let request = requests(2)[0].counted(true);
        let begun = [&way[..], &telegram_calls(&request.octets())].concat();
        for draft in no_requests().iter().flat_map(with_every_count) {
            let station = reached(&[&begun[..], &telegram_calls(&draft.octets())].concat());
            let chain = station.ledger.and_then(|ledger| ledger.chain);
            let chain = chain.expect("nothing ended it");
            assert_eq!((chain.master, chain.frame_count), (MASTER, true));
        }
    }

    #[test]
    fn the_channels_take_all_that_is_left_of_the_memory() {
        let ledger = reached(&way_to_channels()).ledger;
        let values = ledger.expect("the way begins with Start").values;
        assert_eq!(values.end_of_buffers(), values.memory as u64);
        assert!(values.channels.iter().all(|length| *length != 0));
    }

    /// What the library is asked from these states is a rule of one side only if they are what their names say.
    #[test]
    fn stations_of_one_side_are_what_their_names_say() {
        let states: Vec<_> = ways_of_one_side()
            .iter()
            .map(|(_, way)| {
                let ledger = reached(way).ledger.expect("every way begins with Start");
                assert_eq!(ledger.phase, Phase::DataExch);
                let drawn = ledger.chain.map(|chain| chain.drawn);
                let sides = (ledger.has_outputs(), ledger.has_inputs());
                (sides, drawn, ledger.holds_back(), ledger.diag_flag)
            })
            .collect();
        let expected = [
            ((false, true), None, false, false),
            ((false, true), Some(Drawn::Exchange), true, false),
            ((true, false), None, false, false),
            ((true, false), Some(Drawn::E5), false, true),
            ((true, false), Some(Drawn::Exchange), true, true),
        ];
        assert_eq!(states, expected);
    }

    /// Ticks that are left and ticks of the whole, where a watchdog is on.
    #[test]
    fn the_watchdogs_are_near_their_end_on_the_base_that_the_name_says() {
        for (name, way) in [ways(), ways_of_one_side()].concat() {
            let ledger = reached(&way).ledger.expect("every way begins with Start");
            let Some(watchdog) = ledger.watchdog else {
                continue;
            };
            assert!((2..=4).contains(&watchdog.left), "{name}");
            let slow = name.contains("base 10 ms");
            assert_eq!(watchdog.base, if slow { 10 } else { 1 }, "{name}");
            assert_eq!(watchdog.period == 20, slow, "{name}");
        }
    }

    /// All but a telegram that a tick drops.
    #[test]
    fn bit_2_comes_before_in_every_way_that_the_table_counts() {
        let counted = [
            Outcome::PrmBase10BehindGood,
            Outcome::PrmBase10BehindNotGood,
            Outcome::PrmBase10BehindBrokenOff,
            Outcome::PrmBase10BehindRepeat,
        ];
        for length in [8, 9, 244] {
            let left = ways_to_leave_octet_7(length).into_iter().map(|way| {
                let start = vec![start_with_parameters(length as u32)];
                let ledger = reached(&[start, way].concat()).ledger;
                ledger.and_then(|ledger| ledger.bit_2_before)
            });
            let left: Vec<_> = left.collect();
            assert_eq!(left.iter().filter(|before| before.is_none()).count(), 2);
            for outcome in counted {
                assert!(left.contains(&Some(outcome)), "{outcome:?}, {length}");
            }
        }
    }

    /// Of the two masters that ask at every point one is the owner wherever there is one.
    #[test]
    fn every_phase_is_among_the_states_with_its_owner() {
        let phase_and_owner = |(_, way): &(_, Vec<Call>)| {
            let ledger = reached(way).ledger.expect("every way begins with Start");
            (ledger.phase, ledger.owner)
        };
        let states: Vec<_> = ways().iter().map(phase_and_owner).collect();
        for state in [
            (Phase::WaitPrm, None),
            (Phase::WaitCfg, Some(MASTER)),
            (Phase::DataExch, Some(MASTER)),
        ] {
            assert!(states.contains(&state), "{state:?}");
        }
    }
}
