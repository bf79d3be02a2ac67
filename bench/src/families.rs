//! The books that are measured. A fixed generator, so that every run has the same ones.

use crate::plain::{Arrow, Book, STATES};

pub struct Random(u64);

impl Random {
    pub fn new(seed: u64) -> Random {
        Random(seed)
    }

    fn next(&mut self) -> u64 {
        // splitmix64
        self.0 = self.0.wrapping_add(0x9e37_79b9_7f4a_7c15);
        let mut z = self.0;
        z = (z ^ (z >> 30)).wrapping_mul(0xbf58_476d_1ce4_e5b9);
        z = (z ^ (z >> 27)).wrapping_mul(0x94d0_49bb_1331_11eb);
        z ^ (z >> 31)
    }

    fn below(&mut self, n: usize) -> usize {
        (self.next() % n as u64) as usize
    }
}

fn arrow(source: usize, target: usize, label: u64) -> Arrow {
    Arrow { source: source as u16, target: target as u16, label }
}

fn plain_marks(n: usize) -> Vec<(bool, bool)> {
    (0..n).map(|p| (p == 0, p % 16 == 15)).collect()
}

/// 256 states and so many arrows between any two, with labels of one or two of `symbols` marks.
pub fn random(arrows: usize, symbols: usize, random: &mut Random) -> Book {
    let mut book = Book { marks: plain_marks(STATES), arrows: Vec::new() };
    for _ in 0..arrows {
        let label = 1 << random.below(symbols) | 1 << random.below(symbols);
        book.arrows.push(arrow(random.below(STATES), random.below(STATES), label));
    }
    book
}

/// State i leads to i + 1 by 32 arrows of one mark each, up or down.
pub fn chain(up: bool) -> Book {
    let mut book = Book { marks: (0..STATES).map(|p| (p == 0 || p == STATES - 1, false)).collect(), arrows: Vec::new() };
    for p in 0..STATES - 1 {
        for s in 0..32 {
            book.arrows.push(if up { arrow(p, p + 1, 1 << s) } else { arrow(p + 1, p, 1 << s) });
        }
    }
    book
}

/// Every one of 90 states leads to every other, by one of three labels.
pub fn complete(random: &mut Random) -> Book {
    let mut book = Book { marks: plain_marks(90), arrows: Vec::new() };
    for p in 0..90 {
        for q in 0..90 {
            book.arrows.push(arrow(p, q, [1, 2, 3][random.below(3)]));
        }
    }
    book
}

/// 32 states, each eight times over.
pub fn twins(random: &mut Random) -> Book {
    let mut book = Book { marks: (0..STATES).map(|p| (p % 32 == 0, p % 32 == 31)).collect(), arrows: Vec::new() };
    for _ in 0..128 {
        let (p, q) = (random.below(32), random.below(32));
        let label = 1 << random.below(8);
        for i in 0..8 {
            for j in 0..8 {
                book.arrows.push(arrow(p + 32 * i, q + 32 * j, label));
            }
        }
    }
    book
}

/// Rules for notes and notes within notes, over and over: text, note, upright and italic in the note, the end of a note.
pub fn notes() -> Book {
    let mut book = Book { marks: Vec::new(), arrows: Vec::new() };
    let (begins, ends, upright, italic, letters) = (1, 2, 4, 8, 0xffff_ff00);
    for depth in 0..STATES / 2 {
        let (u, i) = (2 * depth, 2 * depth + 1);
        book.marks.push((depth == 0, depth == 0));
        book.marks.push((false, depth == 0));
        for (p, q, label) in [(u, u, letters | upright), (i, i, letters | italic), (u, i, italic), (i, u, upright)] {
            book.arrows.push(arrow(p, q, label));
        }
        if depth + 1 < STATES / 2 {
            book.arrows.push(arrow(u, u + 2, begins));
            book.arrows.push(arrow(i, i + 2, begins));
            book.arrows.push(arrow(u + 2, u, ends));
            book.arrows.push(arrow(i + 2, i, ends));
        }
    }
    book
}
