//! The deviations of noise, and their tables.

use bliss_box::{cdt, Deviation, Refusal, CDT};

const NUMBERS: [u64; 4] = [107, 215, 250, 271];

#[test]
fn four_numbers_are_deviations() {
    assert_eq!(Deviation::ALL, [Deviation::D107, Deviation::D215, Deviation::D250, Deviation::D271]);
    assert_eq!(Deviation::ALL.map(Deviation::number), NUMBERS);
    assert_eq!(NUMBERS.map(Deviation::try_from), Deviation::ALL.map(Ok));
    assert_eq!(Deviation::ALL.map(|deviation| deviation.to_string()), ["107", "215", "250", "271"]);
    assert_eq!(format!("{:>6}", Deviation::D250), "   250");
}

/// Those of which the lowest bits, or the size, are a deviation's among them.
#[test]
fn every_other_number_is_refused() {
    let far = [1 << 16, (1 << 32) + 215, (1 << 63) + 215, 215_u64.wrapping_neg(), u64::MAX];
    for number in (0..1000).chain(far).filter(|number| !NUMBERS.contains(number)) {
        assert_eq!(Deviation::try_from(number), Err(Refusal::Deviation), "{number}");
    }
}

#[test]
fn each_deviation_has_the_table_of_its_rule() {
    for deviation in Deviation::ALL {
        assert_eq!(cdt(deviation.number() as u32).as_ref(), Some(deviation.cdt()), "{deviation}");
    }
    assert_eq!(*Deviation::D215.cdt(), CDT);
}
