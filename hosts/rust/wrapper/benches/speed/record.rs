//! Records of signatures, written and read: a challenge of BLISS-I's length, and both halves of a response.

use bliss_box::raw::{bliss_read_record, bliss_write_record, Contents, Fields};
use bliss_box::{record_length_limit, Deviation};

use crate::baseline::record::{self, fastest, plain};
use crate::draw::Draw;
use crate::respond::{challenge, POSITIONS};
use crate::rounds::{timed, Call, Side};

/// The signatures of one call: several, so that a processor does not learn the values of one by heart.
const SIGNATURES: usize = 16;

struct Signature {
    challenge: Vec<u32>,
    z1: Vec<i32>,
    z2: Vec<i32>,
}

/// Signatures with noise for responses, whose values are distributed alike.
fn signatures(n: usize) -> Vec<Signature> {
    let signature = |seed| {
        let mut draw = Draw::by_seed(n, Deviation::D215, seed);
        draw.by_box().answer.expect("a draw that is served");
        let (z1, z2) = draw.y.split_at(n);
        Signature { challenge: challenge(n), z1: z1.to_vec(), z2: z2.to_vec() }
    };
    (0..SIGNATURES as u64).map(signature).collect()
}

/// Signatures, and memory for the record of each.
pub struct Writes {
    n: usize,
    signatures: Vec<Signature>,
    records: Vec<Vec<u8>>,
    lengths: [usize; SIGNATURES],
}

impl Writes {
    pub fn new(n: usize) -> Writes {
        let records = vec![vec![0; record_length_limit(n, POSITIONS)]; SIGNATURES];
        Writes { n, signatures: signatures(n), records, lengths: [0; SIGNATURES] }
    }

    fn write(&mut self, by: impl Fn(usize, &Signature, &mut [u8]) -> usize) {
        for ((signature, record), length) in self.signatures.iter().zip(&mut self.records).zip(&mut self.lengths) {
            *length = by(self.n, signature, record);
        }
    }

    fn timed(&mut self, side: Side) -> f64 {
        let (nanoseconds, ()) = match side {
            Side::Box => timed(|| self.write(write_by_box)),
            Side::Plain => timed(|| self.write(|n, signature, out| plain::write(fields(n, signature), out).expect(SERVED))),
            Side::Fastest => timed(|| self.write(|n, signature, out| fastest::write(fields(n, signature), out).expect(SERVED))),
        };
        nanoseconds
    }

    /// The bytes of all records.
    pub fn bytes(&self) -> usize {
        self.lengths.iter().sum()
    }
}

const SERVED: &str = "a record that is served";

fn fields(n: usize, signature: &Signature) -> record::Fields<'_> {
    record::Fields { n, challenge: Some(&signature.challenge), z1: Some(&signature.z1), z2: Some(&signature.z2) }
}

fn write_by_box(n: usize, signature: &Signature, out: &mut [u8]) -> usize {
    let Signature { challenge, z1, z2 } = signature;
    // SAFETY: pointers and lengths are those of slices, and the output is borrowed for this call alone.
    let written = unsafe {
        bliss_write_record(
            n,
            Fields { challenge: true, z1: true, z2: true },
            challenge.as_ptr(),
            challenge.len(),
            z1.as_ptr(),
            z1.len(),
            z2.as_ptr(),
            z2.len(),
            out.as_mut_ptr(),
            out.len(),
        )
    };
    assert_eq!(written.refusal, 0, "{SERVED}");
    written.length
}

impl Call for Writes {
    type Left = ([usize; SIGNATURES], Vec<Vec<u8>>);

    fn name(&self) -> String {
        format!("write {SIGNATURES} records, n = {}", self.n)
    }

    fn nanoseconds(&mut self, side: Side) -> f64 {
        self.timed(side)
    }

    fn left(&mut self, side: Side) -> Self::Left {
        self.records.iter_mut().for_each(|record| record.fill(u8::MAX));
        self.timed(side);
        (self.lengths, self.records.clone())
    }
}

/// Records, and memory for the signature of each.
pub struct Reads {
    n: usize,
    records: Vec<Vec<u8>>,
    signatures: Vec<Signature>,
    contents: Vec<Contents>,
}

impl Reads {
    pub fn new(n: usize) -> Reads {
        let mut writes = Writes::new(n);
        writes.timed(Side::Box);
        let records = writes.records.iter().zip(writes.lengths).map(|(record, length)| record[..length].to_vec()).collect();
        let none = Contents { refusal: 0, map: 0, degree: 0, positions: 0, z1: 0, z2: 0 };
        Reads { n, records, signatures: writes.signatures, contents: vec![none; SIGNATURES] }
    }

    fn read(&mut self, by: impl Fn(&[u8], &mut Signature) -> Contents) {
        for ((record, signature), contents) in self.records.iter().zip(&mut self.signatures).zip(&mut self.contents) {
            *contents = by(record, signature);
        }
    }

    fn timed(&mut self, side: Side) -> f64 {
        let (nanoseconds, ()) = match side {
            Side::Box => timed(|| self.read(read_by_box)),
            Side::Plain => timed(|| {
                self.read(|record, Signature { challenge, z1, z2 }| plain::read(record, challenge, z1, z2).expect(SERVED))
            }),
            Side::Fastest => timed(|| {
                self.read(|record, Signature { challenge, z1, z2 }| fastest::read(record, challenge, z1, z2).expect(SERVED))
            }),
        };
        nanoseconds
    }

    /// The bytes of all records.
    pub fn bytes(&self) -> usize {
        self.records.iter().map(Vec::len).sum()
    }
}

fn read_by_box(record: &[u8], signature: &mut Signature) -> Contents {
    let Signature { challenge, z1, z2 } = signature;
    // SAFETY: as for writing.
    let contents = unsafe {
        bliss_read_record(
            record.as_ptr(),
            record.len(),
            challenge.as_mut_ptr(),
            challenge.len(),
            z1.as_mut_ptr(),
            z1.len(),
            z2.as_mut_ptr(),
            z2.len(),
        )
    };
    assert_eq!(contents.refusal, 0, "{SERVED}");
    contents
}

impl Call for Reads {
    type Left = (Vec<Contents>, Vec<Vec<u32>>, Vec<Vec<i32>>);

    fn name(&self) -> String {
        format!("read {SIGNATURES} records, n = {}", self.n)
    }

    fn nanoseconds(&mut self, side: Side) -> f64 {
        self.timed(side)
    }

    fn left(&mut self, side: Side) -> Self::Left {
        for Signature { challenge, z1, z2 } in &mut self.signatures {
            challenge.fill(u32::MAX);
            z1.fill(i32::MIN);
            z2.fill(i32::MIN);
        }
        self.timed(side);
        let challenges = self.signatures.iter().map(|signature| signature.challenge.clone()).collect();
        let halves = self.signatures.iter().flat_map(|signature| [signature.z1.clone(), signature.z2.clone()]).collect();
        (self.contents.clone(), challenges, halves)
    }
}
