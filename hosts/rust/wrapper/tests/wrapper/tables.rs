//! The tables that a host lends.

use bliss_box::POLYNOMIAL;

#[test]
fn the_polynomial_table_is_that_of_document_01() {
    assert_eq!([POLYNOMIAL[0], POLYNOMIAL[1], POLYNOMIAL[19], POLYNOMIAL[20]], [1 << 62, 1 << 62, 37, 1]);
}
