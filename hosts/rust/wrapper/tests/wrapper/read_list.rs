//! Read lists: their filled part, and their entries by the numbers of document 01.

use bliss_box::{filled, Entry, Kind};

#[test]
fn the_filled_part_is_the_lists_own() {
    let list = [1, 2, 3];
    assert_eq!(filled(&list, 2).as_ptr_range(), list[..2].as_ptr_range());
    assert_eq!(filled(&list, 3), list);
    assert_eq!(filled(&list, 4), []);
    assert_eq!(filled(&[], 0), []);
    assert_eq!(filled(&[], usize::MAX), []);
}

#[test]
fn entries_carry_their_kind_and_place() {
    let kinds = [
        Kind::Draw,
        Kind::Word,
        Kind::Cdt,
        Kind::Polynomial,
        Kind::AcceptedBefore,
        Kind::Accepted,
        Kind::Response,
        Kind::Key,
        Kind::Bit,
    ];
    assert_eq!(Kind::ALL, kinds);
    for (kind, number) in kinds.into_iter().zip(1..) {
        let entry = Entry::new(kind, 0xff_fffe);
        assert_eq!(entry, Entry((number << 24) + 0xff_fffe));
        assert_eq!((entry.kind(), entry.place()), (Some(kind), 0xff_fffe));
        assert_eq!(entry.to_string(), format!("({number}, 16777214)"));
    }
    for number in [0, 10, 255] {
        assert_eq!(Entry(number << 24).kind(), None);
    }
}
