//! The generated lists, run on all processors; in some of the states they reach the memory is damaged.

use crate::compare::Pair;
use crate::damage::Trial;
use crate::generator;
use crate::outcome::Tally;
use crate::random::Random;
use std::sync::atomic::{AtomicU64, Ordering};
use std::sync::Mutex;

/// States of each list in which octets are damaged.
const DAMAGED_STATES: usize = 3;
/// One list in this many has a state in which every octet takes every value.
const ALL_VALUES_EVERY: u64 = 10;
/// One list in this many has a state in which every length of the memory is tried, codes, counts and lengths at their limits,
/// channels, and octets that belong to no field.
const LENGTHS_EVERY: u64 = 20;

#[derive(Clone, Copy)]
pub struct Plan {
    pub seed: u64,
    pub lists: u64,
    pub length: usize,
}

/// The table of what was reached, or the difference in the list with the lowest number.
pub fn run(plan: Plan) -> Result<Tally, String> {
    let next = AtomicU64::new(0);
    // The number of the lowest list that failed: lists above it need not be run.
    let failed = AtomicU64::new(u64::MAX);
    let failures: Mutex<Vec<(u64, String)>> = Mutex::new(Vec::new());
    let tally = Mutex::new(Tally::new());
    let work = || loop {
        let number = next.fetch_add(1, Ordering::SeqCst);
        if number >= plan.lists || number > failed.load(Ordering::SeqCst) {
            return;
        }
        match run_list(plan, number) {
            Ok(reached) => tally.lock().unwrap().add_all(&reached),
            Err(report) => {
                failed.fetch_min(number, Ordering::SeqCst);
                failures.lock().unwrap().push((number, report));
            }
        }
    };
    std::thread::scope(|scope| {
        for _ in 0..processors() {
            scope.spawn(work);
        }
    });
    let failures = failures.into_inner().unwrap();
    match failures.into_iter().min() {
        Some((_, report)) => Err(report),
        None => Ok(tally.into_inner().unwrap()),
    }
}

pub fn processors() -> usize {
    std::thread::available_parallelism().map_or(1, usize::from)
}

fn run_list(plan: Plan, number: u64) -> Result<Tally, String> {
    let calls = generator::list(plan.seed, number, plan.length);
    let mut random = Random::for_list(!plan.seed, number);
    let mut pair = Pair::new(Random::for_list(plan.seed.rotate_left(32), number));
    let damaged_at: Vec<usize> = (0..DAMAGED_STATES)
        .map(|_| random.below(calls.len()))
        .collect();
    let mut state_before = vec![0; crate::call::STATE];
    for (at, call) in calls.iter().enumerate() {
        pair.step(call)
            .map_err(|difference| report(plan, number, &difference.to_string()))?;
        if damaged_at.contains(&at) && pair.station.ledger.is_some() {
            let thorough = damaged_at[0] == at;
            damage(&mut pair, &mut random, &state_before, number, thorough).map_err(|misdeed| {
                let difference = pair.found(call, misdeed);
                report(plan, number, &difference.to_string())
            })?;
            state_before = pair.card.state().to_vec();
        }
    }
    Ok(pair.tally)
}

fn damage(
    pair: &mut Pair,
    random: &mut Random,
    state_before: &[u8],
    number: u64,
    thorough: bool,
) -> Result<(), String> {
    let Some(ledger) = &pair.station.ledger else {
        return Ok(());
    };
    let mut trial = Trial {
        card: &pair.card,
        values: &ledger.values,
        random,
        tally: &mut pair.tally,
    };
    trial.change_every_octet(thorough && number % ALL_VALUES_EVERY == 0)?;
    trial.random_images(20)?;
    trial.spliced_images(state_before, 40)?;
    if thorough && number % LENGTHS_EVERY == 0 {
        trial.try_every_length()?;
        trial.try_counts()?;
        trial.try_outputs()?;
        trial.try_chain()?;
        trial.try_unused()?;
        trial.try_lengths()?;
        trial.try_sides()?;
        trial.try_free()?;
        trial.try_channels()?;
        trial.try_rows_of_chance()?;
        trial.try_room_of_channels()?;
    }
    Ok(())
}

fn report(plan: Plan, number: u64, difference: &str) -> String {
    let Plan { seed, length, .. } = plan;
    format!(
        "DIFFERENCE in seed {seed}, list {number}, {difference}\
         The whole list: compare --print {seed} {number} {length}\n"
    )
}
