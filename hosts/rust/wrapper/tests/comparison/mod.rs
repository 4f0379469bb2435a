//! Calls of the archive compared with the model, and how many of them were.

use std::fmt::{self, Debug, Display, Formatter};
use std::sync::atomic::{AtomicU64, Ordering::Relaxed};

use bliss_box::raw;

use crate::archive;
use crate::model::{self, draw, key_check, record, respond, Session};

/// What all parts of a run compared.
#[derive(Default)]
pub struct Comparison {
    openings: AtomicU64,
    draws: AtomicU64,
    reordered: AtomicU64,
    responds: AtomicU64,
    blank_responses: AtomicU64,
    filled: AtomicU64,
    exponentials: AtomicU64,
    key_checks: AtomicU64,
    records_written: AtomicU64,
    records_read: AtomicU64,
    packed_lengths: AtomicU64,
    lists: AtomicU64,
    pairs: AtomicU64,
}

/// Fails where what the box gave is not what the model gives, and names the first place of difference.
pub fn same<T: PartialEq + Debug>(origin: &dyn Display, what: &str, given: &[T], expected: &[T]) {
    if given != expected {
        let at = given.iter().zip(expected).take_while(|(given, expected)| given == expected).count();
        let (given, expected) = (given.get(at), expected.get(at));
        panic!("{origin}, {what}: differs from the model at {at}, {given:?} is not {expected:?}");
    }
}

impl Comparison {
    /// Opens with the box and with the model, and compares.
    pub fn opening(&self, n: usize, deviation: u64) -> Session {
        let origin = format!("opening with {n} and {deviation}");
        let (refusal, session) = archive::open(n, deviation);
        let expected = model::open(n, deviation);
        same(&origin, "the refusal", &[refusal], &[expected.0]);
        same(&origin, "the session", &[session], &[expected.1]);
        self.openings.fetch_add(1, Relaxed);
        session
    }

    /// Draws with the box and with the model, and compares.
    pub fn draw(&self, origin: &dyn Display, call: &draw::Call) -> draw::Drawn {
        self.draw_as(origin, call, draw::draw(call))
    }

    /// Draws with the box, and compares with what the model gave.
    pub fn draw_as(&self, origin: &dyn Display, call: &draw::Call, expected: draw::Drawn) -> draw::Drawn {
        let given = archive::draw(origin, call);
        same(origin, "the refusal", &[given.answer.refusal], &[expected.answer.refusal]);
        same(origin, "the attempts", &[given.answer.attempts], &[expected.answer.attempts]);
        same(origin, "the accepted count", &[given.answer.accepted], &[expected.answer.accepted]);
        same(origin, "the session", &[given.session], &[expected.session]);
        same(origin, "y", &given.y, &expected.y);
        same(origin, "the entries", &[given.answer.entries], &[expected.answer.entries]);
        same(origin, "the list", &given.list, &expected.list);
        self.filled(origin, &given.list, given.answer.entries);
        self.draws.fetch_add(1, Relaxed);
        expected
    }

    /// Responds with the box and with the model, and compares.
    pub fn respond(&self, origin: &dyn Display, call: &respond::Call) -> respond::Responded {
        let given = archive::respond(origin, call);
        let expected = respond::respond(call);
        same(origin, "the refusal", &[given.answer.refusal], &[expected.answer.refusal]);
        same(origin, "the bit", &[given.answer.bit], &[expected.answer.bit]);
        same(origin, "the session", &[given.session], &[expected.session]);
        same(origin, "y", &given.y, &expected.y);
        same(origin, "z", &given.z, &expected.z);
        same(origin, "the entries", &[given.answer.entries], &[expected.answer.entries]);
        same(origin, "the list", &given.list, &expected.list);
        self.filled(origin, &given.list, given.answer.entries);
        self.responds.fetch_add(1, Relaxed);
        let blank = call.challenge.is_empty() && expected.response.is_some();
        self.blank_responses.fetch_add(u64::from(blank), Relaxed);
        expected
    }

    /// The safe function hands back the list's own part, so pointers are compared, and the raw one its length.
    pub fn filled(&self, origin: &dyn Display, list: &[u32], count: usize) {
        let expected = model::filled(list, count);
        // SAFETY: pointer and length are those of one slice.
        let length = unsafe { raw::bliss_filled(list.as_ptr(), list.len(), count) };
        same(origin, "the length of the filled part", &[length], &[expected.len()]);
        same(origin, "the filled part", &[bliss_box::filled(list, count).as_ptr_range()], &[expected.as_ptr_range()]);
        self.filled.fetch_add(1, Relaxed);
    }

    pub fn exponential(&self, n: u64) {
        // SAFETY: the call takes any number and no pointer.
        let given = unsafe { raw::bliss_exponential(n) };
        same(&format_args!("exponential of {n}"), "the result", &[given], &[model::exponential(n)]);
        self.exponentials.fetch_add(1, Relaxed);
    }

    /// Checks a key with the box and with the model, and compares.
    pub fn key_check(&self, origin: &dyn Display, call: &key_check::Call) -> key_check::Checked {
        let given = archive::check_key(origin, call);
        let expected = key_check::check_key(call);
        same(origin, "the refusal", &[given.refusal], &[expected.answer.refusal]);
        same(origin, "the sum", &[given.sum], &[expected.answer.sum]);
        self.key_checks.fetch_add(1, Relaxed);
        expected
    }

    /// Writes a record with the box and with the model, and compares.
    pub fn write_record(&self, origin: &dyn Display, call: &record::Write) -> record::Written {
        let given = archive::write_record(origin, call);
        let expected = record::write(call);
        same(origin, "the refusal", &[given.refusal], &[expected.refusal]);
        same(origin, "the length", &[given.length], &[expected.length]);
        same(origin, "the output", &given.out, &expected.out);
        self.records_written.fetch_add(1, Relaxed);
        expected
    }

    /// Reads a record with the box and with the model, and compares.
    pub fn read_record(&self, origin: &dyn Display, call: &record::Read) -> record::Reading {
        let given = archive::read_record(origin, call);
        let expected = record::read(call);
        same(origin, "the refusal", &[given.contents.refusal], &[expected.contents.refusal]);
        same(origin, "the contents", &[given.contents], &[expected.contents]);
        same(origin, "the challenge", &given.challenge, &expected.challenge);
        same(origin, "z1", &given.z1, &expected.z1);
        same(origin, "z2", &given.z2, &expected.z2);
        self.records_read.fetch_add(1, Relaxed);
        expected
    }

    pub fn packed_length(&self, size: u32) {
        // SAFETY: the call takes any number and no pointer.
        let given = unsafe { raw::bliss_packed_length(size) };
        same(&format!("size {size}"), "the packed length", &[given], &[record::packed_length(size)]);
        self.packed_lengths.fetch_add(1, Relaxed);
    }

    /// Counts a draw by a reordered table, which was compared.
    pub fn count_reordered(&self) {
        self.reordered.fetch_add(1, Relaxed);
    }

    /// Counts a list of calls, each of which was compared.
    pub fn count_list(&self) {
        self.lists.fetch_add(1, Relaxed);
    }

    /// Counts two lists of calls that were compared with each other, for demand 3.
    pub fn count_pair(&self) {
        self.pairs.fetch_add(1, Relaxed);
    }

    /// The draws and respond calls that were compared with the model.
    pub fn calls(&self) -> u64 {
        self.draws.load(Relaxed) + self.responds.load(Relaxed)
    }

    /// The draws by reordered tables among them.
    pub fn reordered(&self) -> u64 {
        self.reordered.load(Relaxed)
    }

    /// The key checks that were compared with the model.
    pub fn key_checks(&self) -> u64 {
        self.key_checks.load(Relaxed)
    }

    /// The records that were written and compared with the model, and the bytes that were read and compared with it.
    pub fn records(&self) -> u64 {
        self.records_written.load(Relaxed) + self.records_read.load(Relaxed)
    }

    /// The pairs of lists of calls that were compared with each other.
    pub fn pairs(&self) -> u64 {
        self.pairs.load(Relaxed)
    }
}

impl Display for Comparison {
    fn fmt(&self, f: &mut Formatter<'_>) -> fmt::Result {
        let count = |counter: &AtomicU64| counter.load(Relaxed);
        write!(f, "{} draws and {} respond calls", count(&self.draws), count(&self.responds))?;
        write!(f, " ({} draws by reordered tables", count(&self.reordered))?;
        write!(f, ", {} blank responses and {} lists of calls among them)", count(&self.blank_responses), count(&self.lists))?;
        write!(f, ", {} openings, {} filled parts", count(&self.openings), count(&self.filled))?;
        write!(f, ", {} exponentials, {} key checks", count(&self.exponentials), count(&self.key_checks))?;
        write!(f, ", {} records written and {} read", count(&self.records_written), count(&self.records_read))?;
        write!(f, ", {} packed lengths with the model", count(&self.packed_lengths))?;
        write!(f, ", and {} pairs of lists of calls with each other", count(&self.pairs))
    }
}
