//! Secrets, and the words of the system.

use bliss_box::Secret;

#[test]
fn secrets_are_not_printed() {
    let mut secret = Secret::from(vec![12345, 67890]);
    assert_eq!(format!("{secret:?}"), "Secret(2 values)");
    secret.wipe();
    assert_eq!(secret[..], [0, 0]);
}

#[test]
fn system_words_are_fresh() {
    let mut all = Secret::system_words(1000).unwrap().to_vec();
    all.extend_from_slice(&Secret::system_words(1000).unwrap());
    all.sort_unstable();
    all.dedup();
    assert_eq!(all.len(), 2000, "2,000 words of 64 bits agree nowhere but with a chance of 2^-43");
    assert!(Secret::system_words(0).unwrap().is_empty());
}

#[test]
#[should_panic = "capacity overflow"]
fn system_words_whose_bytes_have_no_number_are_not_fewer() {
    let _ = Secret::system_words(1 << 61);
}
