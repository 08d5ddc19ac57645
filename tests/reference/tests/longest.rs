//! The longest history line: the text that is given, and the texts of all sets beside it.

use reference::shelf::Shelf;
use reference::timestamp::{longest, longest_length, text};
use reference::{history, longest_history, Answer, VERSIONS, WORK_CELLS};
use std::collections::BTreeSet;

fn gives(text: &str) -> Answer {
    Answer { number: 0, bytes: text.as_bytes().to_vec() }
}

fn refused(number: u32) -> Answer {
    Answer { number, bytes: vec![] }
}

#[test]
fn the_text_given() {
    let texts = ["1", "1-2", "2-3", "1,3-4", "1-2,4-5", "2-3,5-6", "1,3-4,6-7", "1-2,4-5,7-8", "2-3,5-6,8-9", "1,3-4,6-7,9-10", "1-2,4-5,7-8,10-11"];
    for (n, text) in (1..).zip(texts) {
        assert_eq!(longest_history(n, text.len(), WORK_CELLS), gives(text));
        assert_eq!(longest_history(n, text.len() - 1, WORK_CELLS), refused(14), "{n}");
    }
    let last = String::from_utf8(longest_history(999, 2_591, WORK_CELLS).bytes).unwrap();
    assert_eq!(last.len(), 2_591);
    assert!(last.starts_with("2-3,5-6,8-9,11-12,") && last.contains(",98-99,101-102,") && last.ends_with(",995-996,998-999"));
    assert_eq!(longest_history(999, 2_590, WORK_CELLS), refused(14));
    for n in [0, 1_000, 1_001, 65_536, 65_537, 1 << 32, (1 << 32) + 5, usize::MAX] {
        assert_eq!(longest_history(n, 3_000, WORK_CELLS), refused(11), "{n}");
    }
}

/// Which lengths the texts of the sets of 1 to n have, for each n up to 999. Here a comma follows
/// each run, the last one too.
fn lengths_with_commas() -> Vec<Vec<bool>> {
    let mut all = vec![vec![true]];
    for last in 1..=VERSIONS {
        let mut lengths = all[last - 1].clone();
        for first in 1..=last {
            let run = if first == last { format!("{last},") } else { format!("{first}-{last},") }.len();
            let before = &all[first.saturating_sub(2)];
            lengths.resize(lengths.len().max(run + before.len()), false);
            lengths[run..].iter_mut().zip(before).for_each(|(length, before)| *length |= before);
        }
        all.push(lengths);
    }
    all
}

/// The lengths of the texts of the sets of 1 to n, for each n up to 999.
fn lengths() -> Vec<BTreeSet<usize>> {
    let texts = |lengths: Vec<bool>| (0..lengths.len()).filter(|&length| lengths[length]).map(|length| length.saturating_sub(1)).collect();
    lengths_with_commas().into_iter().map(texts).collect()
}

/// The same of every set of 1 to n, each tried.
fn lengths_tried(n: usize) -> BTreeSet<usize> {
    let set = |bits: u32| (1..=n).filter(|number| bits >> (number - 1) & 1 == 1).collect();
    (0..1 << n).map(|bits| text(&set(bits)).len()).collect()
}

/// No set has a longer text than the one given; and one that is exactly one byte shorter there is for
/// n = 1 alone, the empty set's.
#[test]
fn no_longer_text_and_none_one_byte_shorter() {
    for (n, lengths) in lengths().iter().enumerate().skip(1) {
        let length = text(&longest(n)).len();
        assert_eq!((longest_length(n), lengths.last()), (length, Some(&length)), "{n}");
        assert_eq!(lengths.contains(&(length - 1)), n == 1, "{n}");
        // Runs of two from 1 upwards have a text as long.
        assert_eq!(text(&(1..=n).filter(|number| number % 3 > 0).collect()).len(), length, "{n}");
        if n <= 16 {
            assert_eq!(*lengths, lengths_tried(n), "{n}");
        }
    }
}

/// A root that stands and is struck off by turns has the longest history.
#[test]
fn an_archive_with_the_longest() {
    let keys = b"(/, (s, {}))\n";
    let set = longest(999);
    let version = |number: usize| if set.contains(&number) { &b"<s></s>"[..] } else { b"" };
    let mut shelf = Shelf::found(keys, version(1)).unwrap();
    (2..=999).for_each(|number| shelf.add(version(number)).unwrap());
    let history = |out_len: usize| history(keys, &shelf.archive(), b"/s", out_len, WORK_CELLS);
    assert_eq!(history(2_591), longest_history(999, 2_591, WORK_CELLS));
    assert_eq!(history(2_590), refused(14));
}
