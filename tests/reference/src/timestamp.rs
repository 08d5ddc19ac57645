//! Timestamps and their text; the longest text.

use crate::keys::split;
use crate::VERSIONS;

/// A set of the numbers 1 to 999, ascending.
pub type Timestamp = Vec<usize>;

/// Ascending maximal runs: `1-3,5`. Empty for the empty set.
pub fn text(set: &Timestamp) -> Vec<u8> {
    let mut runs: Vec<(usize, usize)> = vec![];
    for &number in set {
        match runs.last_mut() {
            Some((_, last)) if *last + 1 == number => *last = number,
            _ => runs.push((number, number)),
        }
    }
    let run = |(first, last): (usize, usize)| if first == last { format!("{first}") } else { format!("{first}-{last}") };
    runs.into_iter().map(run).collect::<Vec<String>>().join(",").into_bytes()
}

/// The set of 1 to n whose text is given as the longest: runs of two from n downwards and gaps of one
/// between them; at the low end what is left of the numbers 1 and 2.
pub fn longest(n: usize) -> Timestamp {
    (1..=n).filter(|number| (n - number) % 3 < 2).collect()
}

/// The length of the longest text of a set of 1 to n, over all sets and whatever set attains it.
pub fn longest_length(n: usize) -> usize {
    let digits: Vec<usize> = (0..=n).map(|number| number.to_string().len()).collect();
    // The longest over the sets of no number, of 1 to 1, of 1 to 2 and so on. Here a comma follows
    // each run, the last one too.
    let mut best = vec![0];
    for last in 1..=n {
        let run = |first: usize| if first == last { digits[last] } else { digits[first] + 1 + digits[last] };
        // The number `last` ends a run, before which stands a set of 1 to first - 2, or is not in the set.
        let ended = (1..=last).map(|first| best[first.saturating_sub(2)] + run(first) + 1);
        let longest = ended.fold(best[last - 1], usize::max);
        best.push(longest);
    }
    best[n].saturating_sub(1)
}

/// The set that a text gives: a number belongs to it when one of its runs holds that number.
/// None if the text is not of numbers 1 to 999; that it is written exactly as above is not asked.
pub fn read(text: &[u8]) -> Option<Timestamp> {
    let mut belongs = [false; VERSIONS + 1];
    for run in split(text, b",") {
        let ends: Option<Vec<usize>> = split(&run, b"-").iter().map(|digits| number(digits)).collect();
        let ends = ends?;
        if ends.len() > 2 {
            return None;
        }
        (ends[0]..=ends[ends.len() - 1]).for_each(|number| belongs[number] = true);
    }
    Some((1..=VERSIONS).filter(|&number| belongs[number]).collect())
}

/// A number 1 to 999 in one to three digits.
fn number(digits: &[u8]) -> Option<usize> {
    if !(1..=3).contains(&digits.len()) || !digits.iter().all(u8::is_ascii_digit) {
        return None;
    }
    let number = digits.iter().fold(0, |number, digit| number * 10 + usize::from(digit - b'0'));
    (number >= 1).then_some(number)
}
