//! What is secret is all zero when its memory is given back. An allocator looks at it then.

use std::alloc::{GlobalAlloc, Layout, System};
use std::slice;
use std::sync::atomic::{AtomicUsize, Ordering::SeqCst};

use bliss_box::{draw_word_count, sample_count, Deviation, OwnedDraw, Secret, Session, CDT, POLYNOMIAL, RESPOND_WORDS};

/// Blocks of this many bytes are looked at; 0 is none.
static WATCHED: AtomicUsize = AtomicUsize::new(0);
static ZEROED: AtomicUsize = AtomicUsize::new(0);
static NOT_ZEROED: AtomicUsize = AtomicUsize::new(0);

struct Watching;

#[global_allocator]
static ALLOCATOR: Watching = Watching;

// SAFETY: memory is taken from the system's allocator and given back to it.
unsafe impl GlobalAlloc for Watching {
    unsafe fn alloc(&self, layout: Layout) -> *mut u8 {
        System.alloc_zeroed(layout)
    }

    unsafe fn dealloc(&self, block: *mut u8, layout: Layout) {
        if layout.size() == WATCHED.load(SeqCst) {
            let bytes = slice::from_raw_parts(block, layout.size());
            let count = if bytes.iter().all(|&byte| byte == 0) { &ZEROED } else { &NOT_ZEROED };
            count.fetch_add(1, SeqCst);
        }
        System.dealloc(block, layout);
    }
}

/// How many blocks of so many bytes are given back meanwhile: all zero, and not.
fn given_back<T>(bytes: usize, act: impl FnOnce() -> T) -> (usize, usize) {
    ZEROED.store(0, SeqCst);
    NOT_ZEROED.store(0, SeqCst);
    WATCHED.store(bytes, SeqCst);
    let result = act();
    WATCHED.store(0, SeqCst);
    drop(result);
    (ZEROED.load(SeqCst), NOT_ZEROED.load(SeqCst))
}

// One test, so that no other thread gives blocks back. The sizes are unlike those of anything else here.
#[test]
fn secrets_are_wiped_when_they_are_dropped() {
    let unwiped = vec![1u64; 7777];
    assert_eq!(given_back(8 * 7777, || drop(unwiped)), (0, 1), "the allocator sees what is not wiped");
    let mut truncated = vec![1u64; 7777];
    truncated.truncate(1);
    assert_eq!(given_back(8 * 7777, || drop(Secret::from(truncated))), (1, 0), "what was cut off a vector is wiped too");

    let system_words = || Secret::system_words(7777).unwrap();
    assert_eq!(given_back(8 * 7777, system_words), (1, 0), "the bytes that words are made of are wiped");

    let (n, limit) = (64, 9 * 64);
    let draw = || {
        let words = Secret::system_words(draw_word_count(limit)).unwrap();
        let session = Session::open(n, Deviation::D215).unwrap();
        let mut drawn = None;
        let counts =
            given_back(8 * draw_word_count(limit), || drawn = Some(session.draw_owned(limit, &CDT, &POLYNOMIAL, words)));
        assert_eq!(counts, (1, 0), "a draw wipes its words");
        match drawn {
            Some(Ok(OwnedDraw::Full(noise))) => noise,
            other => panic!("{other:?}"),
        }
    };
    let unused = draw();
    assert!(unused.samples().iter().any(|&sample| sample != 0));
    assert_eq!(given_back(4 * sample_count(n), || drop(unused.discard())), (1, 0), "noise that is not used is wiped");

    // The words that a response reads are 24 bytes, like much else, so these are more than it reads.
    let lent = 777 * RESPOND_WORDS;
    let (noise, words, key) = (draw(), Secret::system_words(lent).unwrap(), Secret::zeroed(sample_count(n)));
    let mut responded = None;
    let counts = given_back(8 * lent, || responded = Some(noise.respond(&[1], &POLYNOMIAL, words, &key)));
    assert_eq!(counts, (1, 0), "a response wipes its words");
    assert!(responded.unwrap().is_ok());
    let (noise, words) = (draw(), Secret::system_words(lent).unwrap());
    let mut responded = None;
    let counts = given_back(8 * lent, || responded = Some(noise.respond_blank(&POLYNOMIAL, words, &key)));
    assert_eq!(counts, (1, 0), "so does a blank one");
    assert!(responded.unwrap().is_ok());

    // A key of zeros makes z the noise.
    let (noise, words) = (draw(), Secret::zeroed(RESPOND_WORDS));
    let counts = given_back(4 * sample_count(n), || noise.respond(&[1], &POLYNOMIAL, words, &key).unwrap().z.unwrap());
    assert_eq!(counts, (2, 0), "a response wipes the noise, and its own copy of z");
}
