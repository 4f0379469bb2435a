//! Opening a session.

use bliss_box::{Deviation, Refusal, Session};

use crate::DEGREES;

#[test]
fn opening_serves_powers_of_two_alone() {
    for deviation in Deviation::ALL {
        for n in DEGREES {
            let session = Session::open(n, deviation).unwrap();
            assert_eq!((session.degree(), session.deviation()), (n, deviation));
            assert!(!session.is_drawn());
        }
        for n in [0, 1, 2, 3, 12, 107, 215, 250, 271, 2048, usize::MAX] {
            assert_eq!(Session::open(n, deviation), Err(Refusal::Degree));
        }
    }
}
