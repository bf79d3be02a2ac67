//! The proved engine, linked as a static library. Nothing checks these declarations against its source, so they are few, and
//! every result is compared with the plain implementation.

use crate::plain::{Arrow, Book, Reduced, Set};

/// How many states and arrows a reduced book has.
#[repr(C)]
struct Size {
    states: u64,
    arrows: u64,
}

// A slice is passed as a pointer and a length.
unsafe extern "C" {
    fn worsklif_settle(codes: *const u8, codes_len: usize, rules: *const Arrow, rules_len: usize, rows: *mut u64, rows_len: usize) -> u64;
    fn worsklif_reduce(
        codes: *const u8, codes_len: usize, rules: *const Arrow, rules_len: usize, rows: *const u64, rows_len: usize,
        into_codes: *mut u8, into_codes_len: usize, into_rules: *mut Arrow, into_rules_len: usize, into_rows: *mut u64, into_rows_len: usize,
        size: *mut Size,
    ) -> bool;
}

fn codes(book: &Book) -> Vec<u8> {
    book.marks.iter().map(|m| u8::from(m.0) + 2 * u8::from(m.1)).collect()
}

fn sets(rows: &[u64], states: usize) -> Vec<Set> {
    rows.chunks(4).take(states).map(|row| [row[0], row[1], row[2], row[3]]).collect()
}

pub fn settle(book: &Book) -> Vec<Set> {
    let codes = codes(book);
    let mut rows = [0u64; 1024];
    // SAFETY: each pointer comes with the length of its slice, and the rows are not shared.
    let pairs = unsafe { worsklif_settle(codes.as_ptr(), codes.len(), book.arrows.as_ptr(), book.arrows.len(), rows.as_mut_ptr(), rows.len()) };
    let set: u64 = rows.iter().map(|w| u64::from(w.count_ones())).sum();
    assert_eq!(pairs, set, "the answer is the number of kept pairs");
    sets(&rows, book.marks.len())
}

pub fn reduce(book: &Book, rows: &[Set]) -> Reduced {
    let codes = codes(book);
    let mut kept = [0u64; 1024];
    kept[..4 * rows.len()].copy_from_slice(rows.as_flattened());
    let mut into_codes = [0u8; 256];
    let mut arrows = vec![Arrow::default(); 8192];
    let mut into_rows = [0u64; 1024];
    let mut size = Size { states: 0, arrows: 0 };
    // SAFETY: each pointer comes with the length of its slice, and no two overlap.
    let made = unsafe {
        worsklif_reduce(
            codes.as_ptr(), codes.len(), book.arrows.as_ptr(), book.arrows.len(), kept.as_ptr(), kept.len(),
            into_codes.as_mut_ptr(), into_codes.len(), arrows.as_mut_ptr(), arrows.len(), into_rows.as_mut_ptr(), into_rows.len(),
            &mut size,
        )
    };
    assert!(made, "the book is reduced");
    let states = size.states as usize;
    arrows.truncate(size.arrows as usize);
    Reduced {
        book: Book { marks: into_codes[..states].iter().map(|c| (c & 1 == 1, c & 2 == 2)).collect(), arrows },
        rows: sets(&into_rows, states),
    }
}
