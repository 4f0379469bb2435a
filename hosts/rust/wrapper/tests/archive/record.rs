//! Records.

use std::fmt::Display;

use bliss_box::raw;

use super::{guarded, untouched};
use crate::lent::Lent;
use crate::model::record::{Contents, Read, Reading, Write, Written};

pub fn write_record(origin: &dyn Display, call: &Write) -> Written {
    let mut challenge = Lent::new(&call.challenge);
    let mut z1 = Lent::new(&call.z1);
    let mut z2 = Lent::new(&call.z2);
    let mut out = Lent::new(&call.out);
    let fields = raw::Fields { challenge: call.told[0], z1: call.told[1], z2: call.told[2] };
    // SAFETY: each pointer is valid for its length, and the four buffers are allocated apart from each other.
    let raw::Written { refusal, length } = unsafe {
        raw::bliss_write_record(
            call.n,
            fields,
            challenge.as_mut_ptr(),
            challenge.len(),
            z1.as_mut_ptr(),
            z1.len(),
            z2.as_mut_ptr(),
            z2.len(),
            out.as_mut_ptr(),
            out.len(),
        )
    };
    untouched(origin, "the challenge", &challenge, &call.challenge);
    untouched(origin, "z1", &z1, &call.z1);
    untouched(origin, "z2", &z2, &call.z2);
    guarded(origin, "the output", &out);
    Written { refusal, length, out: out.content().to_vec() }
}

pub fn read_record(origin: &dyn Display, call: &Read) -> Reading {
    let mut bytes = Lent::new(&call.bytes);
    let mut challenge = Lent::new(&call.challenge);
    let mut z1 = Lent::new(&call.z1);
    let mut z2 = Lent::new(&call.z2);
    // SAFETY: as for writing.
    let contents = unsafe {
        raw::bliss_read_record(
            bytes.as_mut_ptr(),
            bytes.len(),
            challenge.as_mut_ptr(),
            challenge.len(),
            z1.as_mut_ptr(),
            z1.len(),
            z2.as_mut_ptr(),
            z2.len(),
        )
    };
    untouched(origin, "the bytes", &bytes, &call.bytes);
    guarded(origin, "the challenge", &challenge);
    guarded(origin, "z1", &z1);
    guarded(origin, "z2", &z2);
    let raw::Contents { refusal, map, degree, positions, z1: n1, z2: n2 } = contents;
    Reading {
        contents: Contents { refusal, map, degree, positions, z1: n1, z2: n2 },
        challenge: challenge.content().to_vec(),
        z1: z1.content().to_vec(),
        z2: z2.content().to_vec(),
    }
}
