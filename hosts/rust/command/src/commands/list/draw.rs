//! The read list of a draw: for each attempt the reads that it makes and the samples accepted before it, and last the samples
//! accepted in all. The accept bit of an attempt is the step from one of these counts to the next.

use std::ops::RangeInclusive;

use bliss_box::{sample_count, Entry, Kind, CDT};

use super::entries::Entries;
use crate::ending::Failure;

/// The accept bits that are printed on a line.
const BITS_A_LINE: usize = 64;

/// The draw as far as its entries have told it.
struct Draw {
    n: usize,
    attempts: usize,
    /// The last count of accepted samples.
    accepted: usize,
    /// The accept bits of the attempts before that count.
    bits: Vec<bool>,
}

/// Explains a draw of degree `n` from its second entry on. Returns whether it is full.
pub fn explain(entries: &mut Entries, n: usize) -> Result<bool, Failure> {
    let mut draw = Draw { n, attempts: 0, accepted: 0, bits: vec![] };
    while !draw.ends(entries)? {
        draw.take_reads(entries)?;
        draw.take_count(entries, Kind::AcceptedBefore)?;
        draw.attempts += 1;
    }
    draw.take_count(entries, Kind::Accepted)?;
    entries.say(&draw.told());
    Ok(draw.is_full())
}

impl Draw {
    /// Whether no further attempt follows. A draw makes 2n to 32n of them.
    fn ends(&self, entries: &mut Entries) -> Result<bool, Failure> {
        let counted = entries.next()?.is_some_and(|entry| entry.kind() == Some(Kind::Accepted));
        Ok(self.attempts == 32 * self.n || self.attempts >= 2 * self.n && counted)
    }

    fn is_full(&self) -> bool {
        self.accepted == sample_count(self.n)
    }

    fn take_reads(&self, entries: &mut Entries) -> Result<(), Failure> {
        let t = self.attempts;
        let uses = [
            format!("high half of attempt {t}'s draw"),
            format!("low half of attempt {t}'s draw"),
            format!("low byte and sign of attempt {t}'s sample"),
            format!("compared with attempt {t}'s e(N)"),
        ];
        for (place, used) in (4 * t..).zip(uses) {
            entries.take_this(Kind::Word, place, &format!("word {place}: {used}"))?;
        }
        for i in 0..CDT.len() {
            let half = if i < 10 { "high" } else { "low" };
            entries.take_this(Kind::Cdt, i, &format!("CDT word {i}: threshold {}, {half} word", i % 10 + 1))?;
        }
        entries.take_polynomial(&format!("attempt {t}'s e(N)"))
    }

    /// Explains a count of accepted samples, which tells the accept bit of the attempt before it.
    fn take_count(&mut self, entries: &mut Entries, kind: Kind) -> Result<(), Failure> {
        let counts = self.next_counts(kind);
        let expected: Vec<String> = counts.clone().map(|count| Entry::new(kind, count).to_string()).collect();
        let expected = format!("{}, the samples accepted so far,", expected.join(" or "));
        let fits = |entry: Entry| entry.kind() == Some(kind) && counts.contains(&entry.place());
        let count = entries.take(fits, expected, |entry| self.count_meaning(kind, entry.place()))?.place();
        if self.attempts > 0 {
            self.bits.push(count > self.accepted);
        }
        self.accepted = count;
        Ok(())
    }

    /// The counts that can follow the last one: the same, or one more where an attempt has been made. A draw that goes on is not
    /// full.
    fn next_counts(&self, kind: Kind) -> RangeInclusive<usize> {
        let wanted = sample_count(self.n);
        let most = if kind == Kind::Accepted { wanted } else { wanted - 1 };
        self.accepted..=most.min(self.accepted + usize::from(self.attempts > 0))
    }

    fn count_meaning(&self, kind: Kind, count: usize) -> String {
        let samples = if count == 1 { "sample" } else { "samples" };
        let at = match kind {
            Kind::AcceptedBefore => format!(" before attempt {}", self.attempts),
            _ if count == sample_count(self.n) => ": the draw is full".into(),
            _ => ": the draw is spent".into(),
        };
        let bit = match self.attempts.checked_sub(1) {
            None => String::new(),
            Some(t) if count > self.accepted => format!("; attempt {t} was accepted"),
            Some(t) => format!("; attempt {t} was rejected"),
        };
        format!("{count} {samples} accepted{at}{bit}")
    }

    /// What the entries of the draw tell together.
    fn told(&self) -> String {
        let end = if self.is_full() { "full" } else { "spent" };
        let mut told = format!("The draw of degree {} is {end} after {} attempts. Accept bits:\n", self.n, self.attempts);
        for line in self.bits.chunks(BITS_A_LINE) {
            let line: String = line.iter().map(|bit| if *bit { '1' } else { '0' }).collect();
            told += &format!("    {line}\n");
        }
        told
    }
}
