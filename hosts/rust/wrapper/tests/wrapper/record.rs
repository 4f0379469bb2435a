//! Records.

use bliss_box::{challenge_limit, packed_length, raw, record_length_limit, Record, Refusal, VALUE_LIMIT};

use crate::{DEGREES, N};

/// Fields whose record is worked out by hand: 0 0000000 1, 0 0000001 1, 1 0000001 1 and 0 1111111 1; then 0 0000000 01,
/// 1 0000000 01, and 3,263 = 25 × 128 + 63 as 0 0111111 and as 1 0111111, each with 25 zeros and a one.
fn by_hand() -> (Record, [u8; 24]) {
    let record = Record {
        degree: N,
        challenge: Some(vec![0, 3]),
        z1: Some(vec![0, 1, -1, 127]),
        z2: Some(vec![128, -128, 3263, -3263]),
    };
    let head = [7, 0, 4, 2, 0, 0, 0, 3];
    let bits = [0x00, 0x80, 0xe0, 0x6f, 0xf0, 0x06, 0x01, 0x3f, 0x00, 0x00, 0x00, 0x6f, 0xc0, 0x00, 0x00, 0x10];
    (record, [&head[..], &bits[..]].concat().try_into().unwrap())
}

/// The longest record of a degree.
fn longest(n: usize) -> Record {
    let z: Vec<i32> = (0..n).map(|i| if i % 2 == 0 { VALUE_LIMIT } else { -VALUE_LIMIT }).collect();
    let first = n - challenge_limit(n);
    Record { degree: n, challenge: Some((first as u32..n as u32).collect()), z1: Some(z.clone()), z2: Some(z) }
}

/// The record with the fields of a map alone.
fn with_map(record: &Record, map: u8) -> Record {
    let Record { degree, challenge, z1, z2 } = record.clone();
    let has = |bit: u8| move |_: &Vec<i32>| map & bit != 0;
    Record { degree, challenge: challenge.filter(|_| map & 1 != 0), z1: z1.filter(has(2)), z2: z2.filter(has(4)) }
}

fn is_stored(record: &Record) -> Vec<u8> {
    let bytes = record.to_bytes().unwrap();
    assert_eq!(Record::from_bytes(&bytes).as_ref(), Ok(record));
    bytes
}

#[test]
fn the_known_records_hold() {
    let (record, bytes) = by_hand();
    assert_eq!(is_stored(&record), bytes);
    assert_eq!(is_stored(&with_map(&record, 1)), [1, 0, 4, 2, 0, 0, 0, 3]);
    assert_eq!(is_stored(&Record { z1: Some(vec![0; N]), ..with_map(&record, 0) }), [2, 0, 4, 0x00, 0x80, 0x40, 0x20, 0x10]);
    assert_eq!(is_stored(&Record { z2: Some(vec![0; N]), ..with_map(&record, 0) }), [4, 0, 4, 0x00, 0x80, 0x40, 0x20, 0x10]);
    assert_eq!(is_stored(&Record { degree: 1024, ..Record::default() }), [0, 4, 0]);
}

#[test]
fn each_choice_of_fields_is_stored_at_each_degree() {
    for n in DEGREES {
        for map in 0..8 {
            let record = with_map(&longest(n), map);
            assert_eq!(is_stored(&record)[..3], [map, (n >> 8) as u8, n as u8]);
        }
    }
}

#[test]
fn the_longest_record_is_as_long_as_its_limit() {
    for n in DEGREES {
        assert_eq!(is_stored(&longest(n)).len(), record_length_limit(n, challenge_limit(n)), "degree {n}");
    }
    assert_eq!([(4, 2), (512, 23), (1024, 64)].map(|(n, positions)| record_length_limit(n, positions)), [42, 4402, 8836]);
}

/// Eight values of a size take as many bytes as one takes bits, behind the three of map and degree.
#[test]
fn a_value_takes_its_packed_length() {
    for value in -VALUE_LIMIT..=VALUE_LIMIT {
        let size = value.unsigned_abs();
        let length = packed_length(size).unwrap();
        assert_eq!(length, 9 + size as usize / 128, "size {size}");
        let record = Record { degree: 8, z2: Some(vec![value; 8]), ..Record::default() };
        assert_eq!(is_stored(&record).len(), 3 + length, "value {value}");
    }
    for size in [3_264, 3_327, 3_328, 1 << 16, (1 << 16) + 1, 1 << 31, u32::MAX] {
        assert_eq!(packed_length(size), None, "size {size}");
    }
}

#[test]
fn a_limit_that_is_no_length_is_the_greatest_length() {
    assert_eq!(record_length_limit(0, 0), 4);
    assert_eq!(record_length_limit(0, usize::MAX), usize::MAX);
    assert_eq!(record_length_limit(usize::MAX, 0), usize::MAX);
    assert_eq!(record_length_limit(usize::MAX, usize::MAX), usize::MAX);
    assert_eq!(record_length_limit(0, usize::MAX / 2 - 2), usize::MAX - 1);
    let around = [11, 10, 9].map(|less| record_length_limit(2, usize::MAX / 2 - less));
    assert_eq!(around, [usize::MAX - 2, usize::MAX, usize::MAX]);
}

/// A response is y, up to 2,815 in size, plus or minus a sum of up to 64 values of the key, which are up to 7.
#[test]
fn every_value_of_a_response_can_be_stored() {
    assert_eq!(VALUE_LIMIT, 2_815 + 64 * 7);
}

#[test]
fn other_degrees_are_refused() {
    for degree in [0, 1, 2, 3, 5, 12, 1023, 1025, 2048, 1 << 16, (1 << 16) + N, (1 << 32) + N, (1 << 63) + N, usize::MAX] {
        for map in 0..8 {
            let record = Record { degree, ..with_map(&longest(N), map) };
            assert_eq!(record.to_bytes(), Err(Refusal::Degree), "degree {degree}, map {map}");
        }
    }
}

#[test]
fn halves_of_other_lengths_are_refused() {
    for n in DEGREES {
        for length in [0, n - 1, n + 1, 2 * n, 5000] {
            let z = Some(vec![0; length]);
            assert_eq!(Record { z1: z.clone(), ..longest(n) }.to_bytes(), Err(Refusal::Lengths), "degree {n}, z1 of {length}");
            assert_eq!(
                Record { z2: z.clone(), ..with_map(&longest(n), 1) }.to_bytes(),
                Err(Refusal::Lengths),
                "z2 of {length}"
            );
        }
    }
}

#[test]
fn challenges_are_as_for_a_response() {
    for n in DEGREES {
        let most = challenge_limit(n) as u32;
        let wrong = [vec![], (0..=most).collect(), vec![0; 5000], vec![n as u32], vec![u32::MAX], vec![1, 1], vec![2, 1]];
        for challenge in wrong {
            let record = Record { challenge: Some(challenge.clone()), ..longest(n) };
            assert_eq!(record.to_bytes(), Err(Refusal::Challenge), "degree {n}, {challenge:?}");
        }
        is_stored(&Record { challenge: Some((0..most).collect()), ..longest(n) });
        is_stored(&Record { challenge: Some(vec![n as u32 - 1]), ..longest(n) });
    }
}

#[test]
fn each_value_is_looked_at() {
    for n in DEGREES {
        for place in [0, 1, n / 2, n - 1] {
            for value in [VALUE_LIMIT + 1, -VALUE_LIMIT - 1, 1 << 16, i32::MAX, i32::MIN, i32::MIN + 1] {
                let mut record = longest(n);
                record.z1.as_mut().unwrap()[place] = value;
                assert_eq!(record.to_bytes(), Err(Refusal::Record), "degree {n}, value {place} of z1 at {value}");
                (record.z1, record.z2) = (None, record.z1);
                assert_eq!(record.to_bytes(), Err(Refusal::Record), "degree {n}, value {place} of z2 at {value}");
            }
        }
    }
}

/// The refusals of a record to be written, in their order.
const REFUSALS: [Refusal; 4] = [Refusal::Degree, Refusal::Lengths, Refusal::Challenge, Refusal::Record];

#[test]
fn the_first_refusal_of_any_goes_first() {
    for chosen in 1..1 << REFUSALS.len() {
        let breaks = |rule: usize| chosen >> rule & 1 == 1;
        let mut record = longest(16);
        if breaks(3) {
            record.z2.as_mut().unwrap()[0] = 3264;
        }
        if breaks(2) {
            record.challenge = Some(vec![]);
        }
        if breaks(1) {
            record.z2.as_mut().unwrap().pop();
        }
        if breaks(0) {
            record.degree = 24;
        }
        let first = (0..REFUSALS.len()).find(|&rule| breaks(rule)).map(|rule| REFUSALS[rule]);
        assert_eq!(record.to_bytes().err(), first, "{chosen:04b}");
    }
}

#[test]
fn other_bytes_are_no_record() {
    let refused = |bytes: &[u8]| assert_eq!(Record::from_bytes(bytes), Err(Refusal::Record), "{bytes:?}");
    for n in DEGREES {
        let bytes = longest(n).to_bytes().unwrap();
        for length in (0..bytes.len()).step_by(1 + n / 64) {
            refused(&bytes[..length]);
        }
        refused(&[&bytes[..], &[0]].concat());
        refused(&[&[bytes[0] | 8], &bytes[1..]].concat());
    }
    refused(&[]);
    refused(&[0, 255, 255]);
    refused(&[7, 255, 255]);
    refused(&[255; 10_000]);
    refused(&[0; 10_000]);
    // Minus zero, a one in the pad, no position, position 4 of 4.
    refused(&[2, 0, 4, 0x80, 0x80, 0x40, 0x20, 0x10]);
    refused(&[2, 0, 4, 0x00, 0x80, 0x40, 0x20, 0x11]);
    refused(&[1, 0, 4, 0]);
    refused(&[1, 0, 4, 1, 0, 4]);
}

/// Each record that differs from another in one field has other bytes.
#[test]
fn equal_bytes_are_equal_records() {
    let records: Vec<Record> = DEGREES.into_iter().flat_map(|n| (0..8).map(move |map| with_map(&longest(n), map))).collect();
    for (i, one) in records.iter().enumerate() {
        for other in &records[..i] {
            assert_ne!(one.to_bytes(), other.to_bytes());
        }
    }
}

/// What the safe calls cannot lend: outputs that are too short. Each stands before a value that is not lent.
#[test]
fn outputs_that_are_too_short_are_refused_and_left() {
    let (_, bytes) = by_hand();
    for (lengths, refusal) in [([2, 4, 4], 0), ([1, 4, 4], 14), ([2, 3, 4], 14), ([2, 4, 3], 14), ([0, 0, 0], 14)] {
        let (mut challenge, mut z1, mut z2) = ([77; 3], [-77; 5], [78; 5]);
        // SAFETY: each pointer is that of an array which is longer than the length, and the arrays are apart.
        let contents = unsafe {
            raw::bliss_read_record(
                bytes.as_ptr(),
                bytes.len(),
                challenge.as_mut_ptr(),
                lengths[0],
                z1.as_mut_ptr(),
                lengths[1],
                z2.as_mut_ptr(),
                lengths[2],
            )
        };
        assert_eq!(contents.refusal, refusal, "{lengths:?}");
        if refusal == 0 {
            assert_eq!(contents, raw::Contents { refusal: 0, map: 7, degree: 4, positions: 2, z1: 4, z2: 4 });
            assert_eq!((challenge, z1, z2), ([0, 3, 77], [0, 1, -1, 127, -77], [128, -128, 3263, -3263, 78]));
        } else {
            assert_eq!(contents, raw::Contents { refusal, map: 0, degree: 0, positions: 0, z1: 0, z2: 0 });
            assert_eq!((challenge, z1, z2), ([77; 3], [-77; 5], [78; 5]));
        }
    }
}
