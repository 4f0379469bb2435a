//! The C surface of the archive, as `hosts/c/bliss_box.h` declares it. Nothing checks these declarations against the archive,
//! so a host calls the safe functions of this crate. The tests call these, to lend what the safe ones cannot.

/// Claims the layout of a C structure on x86-64: words of eight bytes, each field at its own alignment.
macro_rules! layout {
    ($structure:ident of $size:literal bytes: $($field:ident at $offset:literal),+) => {
        const _: () = {
            assert!(size_of::<$structure>() == $size);
            $(assert!(core::mem::offset_of!($structure, $field) == $offset);)+
        };
    };
}

mod draw;
mod exponential;
mod filled;
mod key_check;
mod open;
mod record;
mod respond;
mod version;

pub use draw::{bliss_draw, DrawAnswer, Drawn};
pub use exponential::bliss_exponential;
pub use filled::bliss_filled;
pub use key_check::{bliss_check_key, KeyCheck};
pub use open::{bliss_open, Opened, Session};
pub use record::{bliss_packed_length, bliss_read_record, bliss_write_record, Contents, Fields, Written};
pub use respond::{bliss_respond, RespondAnswer, Responded};
pub use version::{bliss_version, VERSION};
