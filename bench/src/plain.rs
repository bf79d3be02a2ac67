//! Settle and reduce in plain Rust, letter by letter, written apart from the proved engine.
//!
//! The 64 style marks are put into classes of symbols that no label tells apart; each class is a letter. Settling counts,
//! for each letter a, state q and state t, the successors of q by a that t is still below; when a count falls to 0, the pairs
//! (p, q) with p reading a to t go. Reducing applies the six steps letter by letter.

pub const STATES: usize = 256;

/// A set of states.
pub type Set = [u64; 4];

#[derive(Clone, Copy, Default, PartialEq, Eq, Debug)]
#[repr(C)]
pub struct Arrow {
    pub source: u16,
    pub target: u16,
    pub label: u64,
}

#[derive(Clone, Default)]
pub struct Book {
    /// whether each state is initial, and whether it is accepting
    pub marks: Vec<(bool, bool)>,
    pub arrows: Vec<Arrow>,
}

pub struct Reduced {
    pub book: Book,
    pub rows: Vec<Set>,
}

fn has(set: &Set, k: usize) -> bool {
    set[k / 64] >> (k % 64) & 1 == 1
}

fn put(set: &mut Set, k: usize) {
    set[k / 64] |= 1 << (k % 64);
}

fn take(set: &mut Set, k: usize) {
    set[k / 64] &= !(1 << (k % 64));
}

/// The symbols in classes that the labels do not tell apart; those on no label are left out.
fn letters(arrows: &[Arrow]) -> Vec<u64> {
    let mut distinct: Vec<u64> = arrows.iter().map(|a| a.label).collect();
    distinct.sort_unstable();
    distinct.dedup();
    let mut classes: Vec<u64> = vec![u64::MAX];
    for label in distinct {
        if classes.len() == 64 {
            break;
        }
        let mut next = Vec::with_capacity(classes.len() * 2);
        for class in classes {
            for part in [class & label, class & !label] {
                if part != 0 {
                    next.push(part);
                }
            }
        }
        classes = next;
    }
    let all = arrows.iter().fold(0, |join, a| join | a.label);
    classes.retain(|class| class & all != 0);
    classes
}

/// For each letter and state, the states that an arrow with that letter leads to, and those that it comes from.
struct Edges {
    to: Vec<Vec<u16>>,
    from: Vec<Vec<u16>>,
}

impl Edges {
    fn new(book: &Book, letters: &[u64]) -> Edges {
        let n = book.marks.len();
        let mut seen = vec![[0u64; 4]; letters.len() * n];
        let mut edges = Edges { to: vec![Vec::new(); letters.len() * n], from: vec![Vec::new(); letters.len() * n] };
        for arrow in &book.arrows {
            let (p, q) = (arrow.source as usize, arrow.target as usize);
            for (a, letter) in letters.iter().enumerate() {
                if arrow.label & letter != 0 && !has(&seen[a * n + p], q) {
                    put(&mut seen[a * n + p], q);
                    edges.to[a * n + p].push(q as u16);
                    edges.from[a * n + q].push(p as u16);
                }
            }
        }
        edges
    }
}

/// The greatest simulation, row by row.
pub fn settle(book: &Book) -> Vec<Set> {
    let n = book.marks.len();
    let letters = letters(&book.arrows);
    let edges = Edges::new(book, &letters);
    let mut rows = vec![[0u64; 4]; n];
    for p in 0..n {
        for q in 0..n {
            if !book.marks[p].1 || book.marks[q].1 {
                put(&mut rows[p], q);
            }
        }
    }
    let mut counts = vec![0u16; letters.len() * n * n];
    let mut gone: Vec<(u16, u16)> = Vec::new();
    for a in 0..letters.len() {
        for q in 0..n {
            let successors = &edges.to[a * n + q];
            for t in 0..n {
                counts[(a * n + q) * n + t] = successors.iter().filter(|r| has(&rows[t], **r as usize)).count() as u16;
            }
        }
    }
    for a in 0..letters.len() {
        for q in 0..n {
            for t in 0..n {
                if counts[(a * n + q) * n + t] == 0 {
                    strike(&mut rows, &mut gone, &edges.from[a * n + t], q);
                }
            }
        }
    }
    while let Some((t, r)) = gone.pop() {
        for a in 0..letters.len() {
            for q in &edges.from[a * n + r as usize] {
                let at = (a * n + *q as usize) * n + t as usize;
                counts[at] -= 1;
                if counts[at] == 0 {
                    strike(&mut rows, &mut gone, &edges.from[a * n + t as usize], *q as usize);
                }
            }
        }
    }
    rows
}

fn strike(rows: &mut [Set], gone: &mut Vec<(u16, u16)>, readers: &[u16], q: usize) {
    for p in readers {
        if has(&rows[*p as usize], q) {
            take(&mut rows[*p as usize], q);
            gone.push((*p, q as u16));
        }
    }
}

/// The six steps, by the pairs in `rows`.
pub fn reduce(book: &Book, rows: &[Set]) -> Reduced {
    let n = book.marks.len();
    let letters = letters(&book.arrows);
    let kept = |p: usize, q: usize| has(&rows[p], q);
    let name: Vec<usize> = (0..n).map(|p| (0..=p).find(|q| kept(p, *q) && kept(*q, p)).unwrap_or(p)).collect();
    let below = |c: usize, d: usize| c != d && kept(c, d);
    let mut initial = vec![false; n];
    let mut accepting = vec![false; n];
    for p in 0..n {
        initial[name[p]] |= book.marks[p].0;
        accepting[name[p]] |= book.marks[p].1;
    }
    let mut reads = vec![[0u64; 4]; letters.len() * n];
    for arrow in &book.arrows {
        for (a, letter) in letters.iter().enumerate() {
            if arrow.label & letter != 0 {
                put(&mut reads[a * n + name[arrow.source as usize]], name[arrow.target as usize]);
            }
        }
    }
    let highest = |set: &Set| -> Set {
        let members: Vec<usize> = (0..n).filter(|d| has(set, *d)).collect();
        let mut left = [0u64; 4];
        for d in &members {
            if !members.iter().any(|e| below(*d, *e)) {
                put(&mut left, *d);
            }
        }
        left
    };
    let pruned: Vec<Set> = reads.iter().map(highest).collect();
    let starts: Vec<usize> = (0..n).filter(|c| initial[*c] && !(0..n).any(|d| initial[d] && below(*c, d))).collect();
    let mut reached = [0u64; 4];
    let mut open = starts.clone();
    for c in &starts {
        put(&mut reached, *c);
    }
    while let Some(c) = open.pop() {
        for a in 0..letters.len() {
            for d in 0..n {
                if has(&pruned[a * n + c], d) && !has(&reached, d) {
                    put(&mut reached, d);
                    open.push(d);
                }
            }
        }
    }
    let staying: Vec<usize> = (0..n).filter(|c| has(&reached, *c)).collect();
    let mut reduced = Reduced { book: Book::default(), rows: vec![[0u64; 4]; staying.len()] };
    for (i, c) in staying.iter().enumerate() {
        reduced.book.marks.push((starts.contains(c), accepting[*c]));
        for (j, d) in staying.iter().enumerate() {
            if i == j || below(*c, *d) {
                put(&mut reduced.rows[i], j);
            }
            let label = (0..letters.len()).filter(|a| has(&pruned[a * n + c], *d)).fold(0, |join, a| join | letters[a]);
            if label != 0 {
                reduced.book.arrows.push(Arrow { source: i as u16, target: j as u16, label });
            }
        }
    }
    reduced
}

#[cfg(test)]
mod tests {
    use super::*;

    fn book(marks: &[(bool, bool)], arrows: &[(u16, u64, u16)]) -> Book {
        Book { marks: marks.to_vec(), arrows: arrows.iter().map(|a| Arrow { source: a.0, label: a.1, target: a.2 }).collect() }
    }

    fn counts(book: &Book) -> (u32, usize, usize) {
        let rows = settle(book);
        let reduced = reduce(book, &rows);
        (rows.iter().flatten().map(|w| w.count_ones()).sum(), reduced.book.marks.len(), reduced.book.arrows.len())
    }

    #[test]
    fn small_books() {
        let (n, i, a, b) = ((false, false), (true, false), (false, true), (true, true));
        assert_eq!(counts(&book(&[], &[])), (0, 0, 0));
        assert_eq!(counts(&book(&[b], &[])), (1, 1, 0));
        assert_eq!(counts(&book(&[i, b], &[])), (3, 1, 0));
        assert_eq!(counts(&book(&[i, a, a], &[(0, 1, 1), (0, 1, 2)])), (5, 2, 1));
        assert_eq!(counts(&book(&[i, n, a], &[(0, 3, 2), (1, 1, 2), (1, 2, 2)])), (5, 2, 1));
        assert_eq!(counts(&book(&[n, n], &[(0, 1, 0)])), (3, 0, 0));
        assert_eq!(counts(&book(&[n, n], &[])), (4, 0, 0));
    }
}
