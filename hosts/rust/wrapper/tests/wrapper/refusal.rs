//! The refusals, by the numbers of documents 01 and 02.

use bliss_box::Refusal;

#[test]
fn refusals_carry_their_number() {
    let refusals = [
        Refusal::Degree,
        Refusal::Lengths,
        Refusal::Cdt,
        Refusal::Polynomial,
        Refusal::Limit,
        Refusal::Challenge,
        Refusal::Words,
        Refusal::List,
        Refusal::NotDrawn,
        Refusal::Key,
        Refusal::Y,
        Refusal::Exponential,
        Refusal::KeySum,
        Refusal::Output,
        Refusal::Record,
        Refusal::Deviation,
        Refusal::ResponseDeviation,
    ];
    assert_eq!(refusals.map(Refusal::number), [1, 2, 3, 4, 5, 6, 7, 8, 9, 10, 11, 12, 13, 14, 15, 16, 17]);
    assert_eq!(Refusal::Key.to_string(), "refusal 10: a value of the key is outside -7 to 7");
    assert_eq!(Refusal::Exponential.to_string(), "refusal 12: N is above 5534960");
    assert_eq!(Refusal::KeySum.to_string(), "refusal 13: the final sum of the key check is above 46225");
    assert_eq!(Refusal::Output.to_string(), "refusal 14: the output is too short for the record, or for one of its fields");
    assert_eq!(
        Refusal::Record.to_string(),
        "refusal 15: a value to be recorded is outside -3263 to 3263, or the bytes are no record"
    );
    assert_eq!(Refusal::Deviation.to_string(), "refusal 16: the deviation is not 107, 215, 250 or 271");
    assert_eq!(Refusal::ResponseDeviation.to_string(), "refusal 17: a response is made at deviation 215 alone");
    assert_eq!(Refusal::Unknown(18).to_string(), "refusal 18: it has no name here");
}
