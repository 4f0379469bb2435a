//! `bliss-box exp`.

use super::*;

#[test]
fn exponentials_are_printed() {
    let text = "\
e(0) = 4611686018427387904 units of 2^-62 = 1.00000000000000000000
e(513) = 4586166892218597802 units of 2^-62 = 0.99446642158489959939
e(4037131) = 1 units of 2^-62 = 0.00000000000000000021
e(5534960) = 0 units of 2^-62 = 0.00000000000000000000
";
    assert_eq!(printed(&["exp", "0", "513", "4037131", "5534960"]), text);
    fails(&["exp", "0", "5534961"], 1, "N = 5534961: refusal 12: N is above 5534960");
    fails(&["exp", "18446744073709551616"], 1, "N: \"18446744073709551616\" is outside 0 to 18446744073709551615");
    fails(&["exp", "0,5"], 1, "N: \"0,5\" has a comma in it: tables hold whole numbers, with neither comma nor point");
    fails(&["exp", "-1"], 1, "N: \"-1\" has a minus sign, and no value here is negative");
}
