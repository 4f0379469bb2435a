//! Records and bytes that are none, worked out by hand.

use super::fields_of;
use crate::calls::record::{read_any, write_of};
use crate::comparison::Comparison;
use crate::model::record::FieldSet;
use crate::random::Random;
use crate::run::DEFAULT_SEED;

pub fn records_by_hand_are_the_models(comparison: &Comparison) {
    let mut random = Random::new(DEFAULT_SEED);
    for (fields, bytes) in records() {
        let origin = format!("the record {bytes:?}");
        let written = comparison.write_record(&origin, &write_of(&mut random, fields.clone()));
        assert_eq!(written.out[..written.length], bytes, "{origin}: it is not that of its fields");
        let reading = comparison.read_record(&origin, &read_any(bytes));
        assert_eq!(fields_of(&reading), Some(fields), "{origin}: its fields are not those that are read");
    }
    for (name, bytes) in no_records() {
        let reading = comparison.read_record(&name, &read_any(bytes));
        assert_eq!(reading.contents.refusal, 15, "{name} is taken for a record");
    }
}

fn field_set(n: usize, challenge: Option<&[u32]>, z1: Option<&[i32]>, z2: Option<&[i32]>) -> FieldSet {
    FieldSet { n, challenge: challenge.map(Into::into), z1: z1.map(Into::into), z2: z2.map(Into::into) }
}

fn records() -> Vec<(FieldSet, Vec<u8>)> {
    vec![
        (field_set(4, None, None, None), vec![0, 0, 4]),
        (field_set(1024, None, None, None), vec![0, 4, 0]),
        (field_set(1024, Some(&[0, 255, 256, 1023]), None, None), vec![1, 4, 0, 4, 0, 0, 0, 255, 1, 0, 3, 255]),
        // 36 bits and a pad of 4: each value is 0 0000000 1.
        (field_set(4, None, Some(&[0; 4]), None), vec![2, 0, 4, 0x00, 0x80, 0x40, 0x20, 0x10]),
        (field_set(4, None, None, Some(&[0; 4])), vec![4, 0, 4, 0x00, 0x80, 0x40, 0x20, 0x10]),
        // 0 0000000 1, 0 0000001 1, 1 0000001 1 and 0 1111111 1; then 0 0000000 01, 1 0000000 01, and 3,263 = 25 × 128 + 63 as
        // 0 0111111, 25 zeros and a one, and as 1 0111111, 25 zeros and a one.
        (
            field_set(4, Some(&[0, 3]), Some(&[0, 1, -1, 127]), Some(&[128, -128, 3263, -3263])),
            vec![
                7, 0, 4, 2, 0, 0, 0, 3, 0x00, 0x80, 0xe0, 0x6f, 0xf0, 0x06, 0x01, 0x3f, 0x00, 0x00, 0x00, 0x6f, 0xc0, 0x00,
                0x00, 0x10,
            ],
        ),
        // 2,100 = 16 × 128 + 52.
        (
            field_set(8, None, Some(&[2100, -2100, 0, 5, -5, 64, -64, 3]), None),
            vec![2, 0, 8, 0x34, 0x00, 0x00, 0xda, 0x00, 0x00, 0x40, 0x20, 0xb8, 0x5a, 0x07, 0x02, 0x07],
        ),
    ]
}

/// Four values of 0 are 0x00, 0x80, 0x40, 0x20, 0x10.
fn no_records() -> Vec<(&'static str, Vec<u8>)> {
    vec![
        ("minus zero", vec![2, 0, 4, 0x80, 0x80, 0x40, 0x20, 0x10]),
        ("size 3,264", vec![2, 0, 4, 0x40, 0x00, 0x00, 0x00, 0x40, 0x20, 0x10, 0x08]),
        ("26 zeros", vec![2, 0, 4, 0x00, 0x00, 0x00, 0x00, 0x20, 0x10, 0x08, 0x04]),
        ("a one in the pad", vec![2, 0, 4, 0x00, 0x80, 0x40, 0x20, 0x11]),
        ("a byte of 0 too many", vec![2, 0, 4, 0x00, 0x80, 0x40, 0x20, 0x10, 0x00]),
        ("a byte too few", vec![2, 0, 4, 0x00, 0x80, 0x40, 0x20]),
        ("bit 3 of the map", vec![8, 0, 4]),
        ("degree 12", vec![0, 0, 12]),
        ("half a degree, which would be 1,024 with a 0 behind it", vec![0, 4]),
        ("no byte", vec![]),
        ("no position", vec![1, 0, 4, 0]),
        ("equal positions", vec![1, 0, 4, 2, 0, 1, 0, 1]),
        ("position 4 of 4", vec![1, 0, 4, 1, 0, 4]),
        ("position 256 of 4", vec![1, 0, 4, 1, 1, 0]),
    ]
}
