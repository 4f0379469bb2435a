//! Lists of calls that agree with others at the places of their read lists, or differ there at one place.

use bliss_box::{Entry, Kind};

use super::steps::{Call, Step};
use crate::calls::respond::GREATEST_KEY;
use crate::random::Random;

/// The places of one kind in a call's entries.
pub fn listed(entries: &[u32], kind: Kind) -> Vec<usize> {
    entries.iter().map(|&entry| Entry(entry)).filter(|entry| entry.kind() == Some(kind)).map(Entry::place).collect()
}

/// Values that agree with these at the listed places, and are others elsewhere.
fn agreeing<T: Copy>(values: &[T], places: &[usize], other: impl FnMut(&T) -> T) -> Vec<T> {
    let mut agreeing: Vec<T> = values.iter().map(other).collect();
    for &place in places {
        agreeing[place] = values[place];
    }
    agreeing
}

/// Another value of a key: one out of its bounds would be refused, listed or not.
fn other_key_value(random: &mut Random, value: i32) -> i32 {
    (value + GREATEST_KEY + 1 + random.below(14) as i32) % 15 - GREATEST_KEY
}

/// A call of the same kind, limit and challenge, that agrees at what the first call's entries name. The rest is any: words,
/// tables and keys elsewhere, z, and the list before the call, with its length.
pub fn counterpart(random: &mut Random, step: &Step, entries: &[u32]) -> Step {
    let mut step = step.clone();
    let (words, list) = match &mut step.call {
        Call::Draw(call) => {
            call.cdt = agreeing(&call.cdt, &listed(entries, Kind::Cdt), |_| random.word());
            call.polynomial = agreeing(&call.polynomial, &listed(entries, Kind::Polynomial), |_| random.word());
            (&mut call.words, &mut call.list)
        }
        Call::Respond(call) => {
            call.polynomial = agreeing(&call.polynomial, &listed(entries, Kind::Polynomial), |_| random.word());
            call.key = agreeing(&call.key, &listed(entries, Kind::Key), |&value| other_key_value(random, value));
            call.z.fill_with(|| random.word() as i32);
            (&mut call.words, &mut call.list)
        }
    };
    *words = agreeing(words, &listed(entries, Kind::Word), |_| random.word());
    words.extend((0..random.below(5)).map(|_| random.word()));
    list.fill_with(|| random.word() as u32);
    list.extend((0..random.below(5)).map(|_| random.word() as u32));
    step
}

/// The same call with another value at a place. A threshold's high word stays between those of its neighbours, and a key value in
/// its bounds, so that few of these calls are refused.
pub fn different(random: &mut Random, step: &Step, kind: Kind, place: usize) -> Step {
    let mut step = step.clone();
    match (&mut step.call, kind) {
        (Call::Draw(call), Kind::Word) => call.words[place] = random.word(),
        (Call::Respond(call), Kind::Word) => call.words[place] = random.word(),
        (Call::Draw(call), Kind::Cdt) => call.cdt[place] = between_neighbours(random, &call.cdt, place),
        (Call::Draw(call), Kind::Polynomial) => call.polynomial[place] += 1,
        (Call::Respond(call), Kind::Polynomial) => call.polynomial[place] += 1,
        (Call::Respond(call), Kind::Key) => call.key[place] = if call.key[place] < 7 { call.key[place] + 1 } else { -7 },
        _ => unreachable!("no place of kind {} is listed", kind.number()),
    }
    step
}

fn between_neighbours(random: &mut Random, cdt: &[u64], place: usize) -> u64 {
    let greatest = (1 << 62) - 1;
    if place >= 10 {
        return random.word() & greatest;
    }
    let least = if place > 0 { cdt[place - 1] } else { 0 };
    let most = if place < 9 { cdt[place + 1] } else { greatest };
    least + random.word() % (most - least + 1)
}
