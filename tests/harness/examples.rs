//! Document 01's measured examples through the reference alone, and texts that a fold may not write: the reference is checked first.

use crate::reference::{self, Circuit, Said};

const S: &str = "aag 4 1 2 0 1 1\n2\n4 2\n6 4\n8\n8 4 6\n";
const OPPOSITE: &str = "aag 2 1 0 0 1 1\n2\n4\n4 2 3\n";
/// A latch after an input; bad is the latch, and the constraint forbids the input or asks for it.
const FORBIDDEN: &str = "aag 3 1 1 0 0 1 1\n2\n4 2\n4\n3\n";
const ASKED: &str = "aag 3 1 1 0 0 1 1\n2\n4 2\n4\n2\n";
const FREE: &str = "aag 1 0 1 0 0 1\n2 2 2\n2\n";

fn load(file: &str) -> Result<Circuit, u32> {
    reference::load(file.as_bytes(), 33_032)
}

/// Circuit, k, D, an answer, and the witness or the empty text where it is permitted.
const SEARCHES: [(&str, u64, u64, Said, Option<&str>); 16] = [
    (S, 3, 16, Said::Found(2), Some("1\nb0\n00\n1\n1\n0\n.\n")),
    (S, 3, 16, Said::Nothing(3), None),
    (S, 1, 16, Said::Nothing(1), Some("")),
    (S, 2, 7, Said::Found(2), Some("1\nb0\n00\n1\n1\n0\n.\n")),
    (S, 2, 7, Said::Spent(2, 7), None),
    (S, 2, 6, Said::Found(2), Some("1\nb0\n00\n1\n1\n0\n.\n")),
    (S, 2, 6, Said::Spent(2, 6), Some("")),
    (S, 2, 6, Said::Spent(2, 7), None),
    (S, 2, 6, Said::Spent(2, 5), None),
    (S, 2, 1, Said::Spent(2, 6), Some("")),
    (S, 2, 1, Said::Spent(2, 8), None),
    (S, 2, 6, Said::Spent(1, 6), None),
    (OPPOSITE, 0, 2, Said::Nothing(0), Some("")),
    (FREE, 0, 2, Said::Found(0), Some("1\nb0\n1\n\n.\n")),
    (FORBIDDEN, 1, 4, Said::Nothing(1), Some("")),
    (ASKED, 2, 8, Said::Found(1), Some("1\nb0\n0\n1\n1\n.\n")),
];

const REFUSED: [(&str, u32); 4] = [
    ("aag 1 1 0 0 0\n3\n", 6),
    ("aag 1 0 0 1 0\n2\n", 7),
    ("aag 2 0 0 0 2\n2 4 4\n4 2 2\n", 8),
    ("aag 1 1 0 0 1\n", 3),
];

const REPLAYS: [(&str, bool); 3] = [
    ("1\nb0\n00\n1\n1\n0\n.\n", true),
    ("1\nb0\n00\n0\n1\n0\n.\n", false),
    ("1\nb0\n10\n1\n1\n0\n.\n", false),
];

/// Texts for S folded at 2. The first is document 01's; each other one breaks one rule.
const FOLDS: [(&str, bool); 15] = [
    ("aag 4 3 0 1 1 0 0\n2\n4\n6\n8\n8 4 2\n", true),
    ("aag 4 3 0 1 1\n2\n4\n6\n8\n8 4 2\n", false),
    ("aag 5 3 0 1 1 0 0\n2\n4\n6\n8\n8 4 2\n", false),
    ("aag 4 3 0 1 1 0 0\n4\n2\n6\n8\n8 4 2\n", false),
    ("aag 4 3 0 1 1 0 0\n2\n4\n6\n8\n8 4 2\nc\n", false),
    ("aag 4 3 0 1 1 0 0\n2\n4\n6\n8\n8 2 4\n", false),
    ("aag 4 3 0 1 1 0 0\n2\n4\n6\n9\n8 4 2\n", false),
    ("aag 4 3 0 1 1 0 0\n2\n4\n6\n8\n8 6 2\n", false),
    ("aag 5 3 0 1 2 0 0\n2\n4\n6\n10\n8 4 2\n10 8 1\n", false),
    ("aag 5 3 0 1 2 0 0\n2\n4\n6\n10\n8 4 2\n10 8 8\n", false),
    ("aag 5 3 0 1 2 0 0\n2\n4\n6\n8\n8 4 2\n10 9 8\n", false),
    ("aag 5 3 0 1 2 0 0\n2\n4\n6\n8\n8 4 2\n10 6 2\n", false),
    ("aag 6 3 0 1 3 0 0\n2\n4\n6\n12\n8 4 2\n10 4 2\n12 10 8\n", false),
    ("aag 5 3 0 1 2 0 0\n2\n4\n6\n10\n8 4 2\n10 8 4\n", false),
    ("aag 5 3 0 1 2 0 0\n2\n4\n6\n8\n8 10 2\n10 6 4\n", false),
];

fn search_says(&(file, k, d, said, expected): &(&str, u64, u64, Said, Option<&str>)) -> bool {
    let permitted = match reference::search_permits(&load(file).expect("a circuit"), 0, k, d, said) {
        Ok(reference::Judged::Text(text)) => Some(text),
        _ => None,
    };
    permitted.as_deref() == expected.map(str::as_bytes)
}

fn fold_says(&(text, expected): &(&str, bool)) -> bool {
    let permitted = reference::fold_permits(&load(S).expect("a circuit"), 0, 2, text.as_bytes(), &mut || 0);
    permitted.is_ok() == expected
}

/// The number of examples, if the reference gives what is expected of each.
pub fn agree() -> Option<usize> {
    let memory = reference::image(&load(S).ok()?);
    let empty = reference::image(&load("aag 0 0 0 0 0\n").ok()?);
    let all = SEARCHES.iter().all(search_says)
        && REFUSED.iter().all(|&(file, number)| load(file) == Err(number))
        && REPLAYS.iter().all(|&(witness, yes)| reference::replay(&memory, witness.as_bytes()) == Ok(if yes { reference::Verdict::All } else { reference::Verdict::No }))
        && reference::search_tests(&empty, 0, 0, 1, 16, 100) == Err(10)
        && FOLDS.iter().all(fold_says);
    all.then_some(SEARCHES.len() + REFUSED.len() + REPLAYS.len() + FOLDS.len() + 1)
}
