//! What records came across.

use super::{at_degree, Coverage};
use crate::calls::record::pad;
use crate::model::record::{FieldSet, Read, Reading, Write, Written, VALUE_LIMIT};

/// The refusals of a write call, in their order.
pub const WRITE_REFUSALS: [u32; 5] = [1, 2, 6, 15, 14];

/// The refusals of a read call, in their order.
pub const READ_REFUSALS: [u32; 2] = [15, 14];

/// Values whose record is at an edge of its form.
const EDGES: [i32; 9] = [0, 1, -1, 127, -127, 128, -128, VALUE_LIMIT, -VALUE_LIMIT];

impl Coverage {
    /// Counts a write call that was compared.
    pub fn count_write(&mut self, call: &Write, written: &Written) {
        let refusal = written.refusal;
        self.count("calls", 1);
        if refusal == 0 {
            self.count_fields(&call.field_set());
            self.count_untold(call);
        }
        if refusal == 2 {
            self.count_wrong_halves(call);
        }
        if refusal == 6 {
            self.see("refusal 6, empty", call.challenge.is_empty());
            self.count_wrong_challenge(call.n, &call.challenge);
        }
        for (name, z) in told_halves(call) {
            if refusal == 15 {
                self.count_places(&format!("refusal 15, {name}"), z, VALUE_LIMIT);
                self.see(format!("refusal 15, {name}, -2^31"), z.contains(&i32::MIN));
                self.see(format!("refusal 15, {name}, 2^31 - 1"), z.contains(&i32::MAX));
            }
        }
        if [0, 14].contains(&refusal) {
            self.count_lent("bytes of the output", call.out.len(), call.field_set().record().len(), refusal, 14);
            self.see("refusal 14, no byte", refusal == 14 && call.out.is_empty());
        }
    }

    /// Counts a read call of this record, or of bytes that are near it, that was compared.
    pub fn count_read(&mut self, call: &Read, fields: &FieldSet, reading: &Reading) {
        let refusal = reading.contents.refusal;
        self.count("calls", 1);
        if refusal == 15 {
            return;
        }
        if refusal == 0 {
            self.count_fields(fields);
        }
        let outputs = [
            ("positions", fields.challenge.as_ref().map(Vec::len), call.challenge.len()),
            ("values of z1", fields.z1.as_ref().map(Vec::len), call.z1.len()),
            ("values of z2", fields.z2.as_ref().map(Vec::len), call.z2.len()),
        ];
        for (what, asked, lent) in outputs {
            match asked {
                Some(asked) => {
                    self.count_lent(&format!("output for {what}"), lent, asked, refusal, 14);
                    self.see(format!("no output for {what}, refusal 14"), refusal == 14 && lent == 0);
                }
                None => {
                    self.see(format!("no output for {what}, of which there are none"), refusal == 0 && lent == 0);
                    self.see(format!("an output for {what}, of which there are none"), refusal == 0 && lent > 0);
                }
            }
        }
    }

    /// Counts bytes that break a rule, beside the record of these fields.
    pub fn count_breach(&mut self, name: &str, fields: &FieldSet) {
        self.count(name, 1);
        if name.ends_with("pad") {
            self.count(of_pad(name, pad(fields)), 1);
        }
    }

    /// Counts fields that were written or read.
    fn count_fields(&mut self, fields: &FieldSet) {
        self.count(at_degree(&of_map(fields.map()), fields.n), 1);
        if let Some(challenge) = &fields.challenge {
            self.count_challenge(fields.n, challenge);
        }
        for (name, z) in [("z1", &fields.z1), ("z2", &fields.z2)] {
            for value in EDGES {
                self.see(format!("{name} has {value}"), z.as_ref().is_some_and(|z| z.contains(&value)));
            }
            let greatest = |z: &Vec<i32>| z.iter().all(|value| value.abs() == VALUE_LIMIT);
            self.see(format!("{name} of the greatest values alone"), z.as_ref().is_some_and(greatest));
        }
        for bits in 0..8 {
            self.see(of_pad("a record", bits), pad(fields) == bits);
        }
    }

    /// What would be refused, in fields that are not told.
    fn count_untold(&mut self, call: &Write) {
        let [challenge, z1, z2] = call.told.map(|told| !told);
        let descends = call.challenge.windows(2).any(|pair| pair[0] >= pair[1]);
        self.see("a challenge that is not told, empty", challenge && call.challenge.is_empty());
        self.see("a challenge that is not told, of more than 64", challenge && call.challenge.len() > 64);
        self.see("a challenge that is not told, not ascending", challenge && descends);
        for (name, untold, z) in [("z1", z1, &call.z1), ("z2", z2, &call.z2)] {
            let great = z.iter().any(|value| value.unsigned_abs() > VALUE_LIMIT as u32);
            self.see(format!("{name} that is not told, empty"), untold && z.is_empty());
            self.see(format!("{name} that is not told, of n + 1"), untold && z.len() == call.n + 1);
            self.see(format!("{name} that is not told, of great values"), untold && great);
        }
    }

    fn count_wrong_halves(&mut self, call: &Write) {
        let n = call.n;
        for (name, z) in told_halves(call) {
            let others_are_right = told_halves(call).iter().all(|(other, z)| *other == name || z.len() == n);
            for (case, length) in [("no", 0), ("n - 1", n - 1), ("n + 1", n + 1), ("2n", 2 * n)] {
                self.see(format!("refusal 2, {name} of {case} values alone"), others_are_right && z.len() == length);
            }
        }
    }
}

fn told_halves(call: &Write) -> Vec<(&'static str, &Vec<i32>)> {
    let [_, z1, z2] = call.told;
    [("z1", z1, &call.z1), ("z2", z2, &call.z2)].into_iter().filter(|half| half.1).map(|half| (half.0, half.2)).collect()
}

pub fn of_map(map: u32) -> String {
    format!("map {map}")
}

pub fn of_pad(what: &str, bits: usize) -> String {
    format!("{what}, a pad of {bits}")
}
