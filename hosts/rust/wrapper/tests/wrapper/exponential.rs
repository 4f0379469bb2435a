//! The exponential by N alone.

use bliss_box::{exponential, Refusal};

#[test]
fn the_exponential_rounds_its_squarings() {
    assert_eq!(exponential(0), Ok(1 << 62));
    assert_eq!(exponential(1), Ok(4611636135668307368));
    assert_eq!(exponential(513), Ok(4586166892218597802));
    assert_eq!(exponential(46_225), Ok(2797128963144291369));
    assert_eq!(exponential(92_450), Ok(1696544475317221345));
    assert_eq!(exponential(1_370_625), Ok(1679544596975));
    assert_eq!(exponential(4_037_131), Ok(1));
    assert_eq!(exponential(4_037_132), Ok(0));
}

#[test]
fn the_exponential_refuses_above_its_limit() {
    assert_eq!(exponential(5_534_960), Ok(0));
    assert_eq!(exponential(5_534_961), Err(Refusal::Exponential));
    assert_eq!(exponential(u64::MAX), Err(Refusal::Exponential));
}
