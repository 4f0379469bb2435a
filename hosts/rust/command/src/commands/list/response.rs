//! The read list of a response: the key values that the product reads, none where it is blank, three words, the polynomial table
//! twice, and the bit.

use bliss_box::{challenge_limit, Entry, Kind};

use super::entries::Entries;
use crate::ending::Failure;

/// What the words of a response are for.
const USES: [&str; 3] =
    ["its lowest bit adds or subtracts the product", "compared with e(N1)", "compared by the cosh test, with e(N2)"];

/// The positions of a challenge that are printed on a line.
const POSITIONS_A_LINE: usize = 16;

/// Explains a response of degree `n` from its second entry on.
pub fn explain(entries: &mut Entries, n: usize) -> Result<(), Failure> {
    let challenge = challenge(entries, n)?;
    let word = Entry::new(Kind::Word, 0);
    if challenge.is_empty() && entries.next()? != Some(word) {
        let [first, last] = [0, n - 1].map(|place| Entry::new(Kind::Key, place));
        return Err(
            entries.unexpected(format_args!("a key value of s1, {first} to {last}, or {word}, word 0 of a blank response,"))
        );
    }
    for output in 0..2 * n {
        take_key_values(entries, n, output, &challenge)?;
    }
    for (place, used) in USES.iter().enumerate() {
        entries.take_this(Kind::Word, place, &format!("word {place}: {used}"))?;
    }
    entries.take_polynomial("e(N1)")?;
    entries.take_polynomial("e(N2)")?;
    let end = take_bit(entries)?;
    entries.say(&match challenge[..] {
        [] => format!("The blank response of degree {n} is {end}. The challenge is empty.\n"),
        _ => format!("The response of degree {n} is {end}. Challenge:\n{}", positions(&challenge)),
    });
    Ok(())
}

/// The positions of the challenge, read off output 0: position 0 reads key value 0, and position c reads key value n - c.
///
/// They ascend, so that output 0 ends where they would not. In one case they go on to ascend: where position 0 is in the challenge,
/// output 1 begins with key value 1, which output 0 reads for position n - 1. Output 0 has read it only if output 1 reads it again.
fn challenge(entries: &mut Entries, n: usize) -> Result<Vec<usize>, Failure> {
    let most = challenge_limit(n);
    let of_s1 = entries.ahead(most + 1)?.take_while(|entry| entry.kind() == Some(Kind::Key) && entry.place() < n);
    let mut key_values = of_s1.map(Entry::place).peekable();
    let mut challenge: Vec<usize> = Vec::new();
    while let Some(position) = key_values.peek().map(|index| (n - index) % n) {
        if challenge.len() == most || challenge.last().is_some_and(|last| position <= *last) {
            break;
        }
        challenge.push(position);
        key_values.next();
    }
    if challenge.first() == Some(&0) && challenge.last() == Some(&(n - 1)) && key_values.next() != Some(1) {
        challenge.pop();
    }
    Ok(challenge)
}

/// Explains the key values that one output of the product reads. Outputs 0 to n - 1 read s1, and the others s2.
fn take_key_values(entries: &mut Entries, n: usize, output: usize, challenge: &[usize]) -> Result<(), Failure> {
    let (half, i) = (output / n, output % n);
    for c in challenge {
        let index = if i >= *c { i - c } else { i + n - c };
        let meaning = format!("key value {index} of s{}: output {i}, position {c}", half + 1);
        entries.take_this(Kind::Key, half * n + index, &meaning)?;
    }
    Ok(())
}

/// Explains the last entry, and says what it tells.
fn take_bit(entries: &mut Entries) -> Result<&'static str, Failure> {
    let bits = [0, 1].map(|bit| Entry::new(Kind::Bit, bit));
    let end = |entry| if entry == bits[1] { "accepted" } else { "rejected" };
    let entry = entries.take(
        |entry| bits.contains(&entry),
        format_args!("{} or {}, the bit,", bits[0], bits[1]),
        |entry| format!("bit {}: the response is {}", entry.place(), end(entry)),
    )?;
    Ok(end(entry))
}

/// The positions of a challenge in lines.
fn positions(challenge: &[usize]) -> String {
    let line = |positions: &[usize]| {
        let positions: Vec<String> = positions.iter().map(usize::to_string).collect();
        format!("    {}\n", positions.join(", "))
    };
    challenge.chunks(POSITIONS_A_LINE).map(line).collect()
}
