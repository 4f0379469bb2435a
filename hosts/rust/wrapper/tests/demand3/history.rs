//! Histories: those that can occur, and others that differ from them in one thing.

use crate::calls;
use crate::random::Random;

/// What a history holds of a call that is not refused, apart from the degree.
#[derive(Clone, Debug, PartialEq, Eq, Hash)]
pub enum Event {
    Draw { bits: Vec<bool> },
    Respond { challenge: Vec<u32>, bit: bool },
}

/// The degree, the kinds, the accept bits and the challenges of the calls that are not refused, in order.
pub type History = Vec<(usize, Event)>;

/// In what alone one history may differ from another.
#[derive(Clone, Copy)]
pub enum Difference {
    DrawBit,
    OrderOfBits,
    ResponseBit,
    Position,
    PositionMore,
    FirstPosition,
    Degree,
    Kind,
    CallMore,
}

/// The differences, and their names.
pub const DIFFERENCES: [(Difference, &str); 9] = [
    (Difference::DrawBit, "an accept bit of a draw"),
    (Difference::OrderOfBits, "the order of two accept bits of a draw"),
    (Difference::ResponseBit, "the bit of a response"),
    (Difference::Position, "a position of a challenge"),
    (Difference::PositionMore, "a position more in a challenge"),
    (Difference::FirstPosition, "a first position in an empty challenge"),
    (Difference::Degree, "the degree"),
    (Difference::Kind, "the kind of a call"),
    (Difference::CallMore, "a call more"),
];

/// How often a place is chosen anew for a difference, until the history can occur.
const TRIES: usize = 30;

pub fn accepted(bits: &[bool]) -> usize {
    bits.iter().filter(|&&bit| bit).count()
}

/// A history that can occur, of at most four calls.
pub fn history(random: &mut Random) -> History {
    let degree = calls::degree_of_list(random);
    let mut history = Vec::new();
    for _ in 0..random.below(5) {
        history.push((degree, event(random, degree, ends_drawn(&history))));
    }
    history
}

/// An event that can follow.
fn event(random: &mut Random, degree: usize, drawn: bool) -> Event {
    if drawn && !random.one_in(4) {
        Event::Respond { challenge: challenge(random, degree), bit: random.one_in(2) }
    } else {
        Event::Draw { bits: bits(random, degree) }
    }
}

fn challenge(random: &mut Random, degree: usize) -> Vec<u32> {
    let mut challenge = calls::respond::challenge(random, degree);
    challenge.truncate(random.pick(&[1, 2, 3, 64]));
    challenge
}

/// The bits of a draw that is full, or that is spent after 2n to 6n attempts.
fn bits(random: &mut Random, degree: usize) -> Vec<bool> {
    let wanted = 2 * degree;
    let spent = random.one_in(4);
    let most = if spent { wanted + random.below(2 * wanted + 1) } else { 16 * wanted };
    let likely = random.pick(&[4, 7]);
    let mut bits = Vec::new();
    let mut accepted = 0;
    while accepted < wanted && bits.len() < most {
        let bit = random.below(8) < likely && !(spent && accepted + 1 == wanted);
        accepted += usize::from(bit);
        bits.push(bit);
    }
    bits
}

fn is_full_draw(degree: usize, event: &Event) -> bool {
    matches!(event, Event::Draw { bits } if accepted(bits) == 2 * degree)
}

fn ends_drawn(history: &History) -> bool {
    history.last().is_some_and(|(degree, event)| is_full_draw(*degree, event))
}

/// Whether calls of a session can have this history: a draw ends where it is full, or after 2n to 32n attempts; a response comes
/// after a full draw.
fn can_occur(history: &History) -> bool {
    let mut drawn = false;
    history.iter().all(|(degree, event)| {
        let before = drawn;
        drawn = is_full_draw(*degree, event);
        match event {
            Event::Draw { bits } if drawn => bits.ends_with(&[true]) && bits.len() <= 32 * degree,
            Event::Draw { bits } => accepted(bits) < 2 * degree && (2 * degree..=32 * degree).contains(&bits.len()),
            Event::Respond { challenge, .. } => before && is_served(challenge, *degree),
        }
    })
}

fn is_served(challenge: &[u32], degree: usize) -> bool {
    let ascends = challenge.windows(2).all(|pair| pair[0] < pair[1]);
    ascends && challenge.len() <= degree.min(64) && challenge.iter().all(|&c| (c as usize) < degree)
}

/// Histories that can occur and differ in one thing each, with its name, as many as are found.
pub fn neighbours(random: &mut Random, history: &History) -> Vec<(&'static str, History)> {
    let found = DIFFERENCES.iter().map(|&(difference, name)| Some((name, neighbour(random, history, difference)?)));
    found.flatten().collect()
}

fn neighbour(random: &mut Random, history: &History, difference: Difference) -> Option<History> {
    (0..TRIES).find_map(|_| {
        let mut other = history.clone();
        change(random, &mut other, difference);
        (other != *history && can_occur(&other)).then_some(other)
    })
}

/// Changes a history in one thing, at any place that has it.
fn change(random: &mut Random, history: &mut History, difference: Difference) {
    let at = random.below(history.len().max(1));
    let degree = history.first().map_or(4, |&(degree, _)| degree);
    match (difference, history.get_mut(at)) {
        (Difference::CallMore, _) => history.push((degree, event(random, degree, ends_drawn(history)))),
        (Difference::Degree, _) => {
            let other = random.pick(&calls::DEGREES);
            for (degree, _) in history.iter_mut() {
                *degree = other;
            }
        }
        (Difference::Kind, Some((_, event @ Event::Draw { .. }))) => {
            *event = Event::Respond { challenge: challenge(random, degree), bit: random.one_in(2) };
        }
        (Difference::Kind, Some((_, event))) => *event = Event::Draw { bits: bits(random, degree) },
        (_, Some((_, Event::Draw { bits }))) => change_bits(random, bits, difference),
        (_, Some((_, Event::Respond { challenge, bit }))) => change_response(random, challenge, bit, difference),
        (_, None) => (),
    }
}

fn change_bits(random: &mut Random, bits: &mut [bool], difference: Difference) {
    let place = random.below(bits.len() - 1);
    match difference {
        Difference::DrawBit => bits[place + random.below(2)] ^= true,
        Difference::OrderOfBits => bits.swap(place, place + 1),
        _ => (),
    }
}

fn change_response(random: &mut Random, challenge: &mut Vec<u32>, bit: &mut bool, difference: Difference) {
    let place = random.below(challenge.len().max(1));
    match (difference, challenge.get(place).copied()) {
        (Difference::ResponseBit, _) => *bit = !*bit,
        (Difference::Position, Some(position)) => challenge[place] = position ^ 1,
        (Difference::PositionMore, Some(position)) => challenge.insert(place + 1, position + 1),
        // Every degree has these.
        (Difference::FirstPosition, None) => challenge.push(random.below(4) as u32),
        _ => (),
    }
}
