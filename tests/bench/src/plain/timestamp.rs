//! Timestamps: sets of the numbers 1 to 999, a bit a version, and their texts; the longest text.

#[derive(Clone, PartialEq, Eq)]
pub struct Timestamp([u64; 16]);

impl Timestamp {
    pub const EMPTY: Timestamp = Timestamp([0; 16]);

    /// Puts the numbers of a run in; false if one of them was there before.
    #[inline]
    pub fn insert(&mut self, run: Run) -> bool {
        let (first, last) = (run.first as usize, run.last as usize);
        let (low, high) = (u64::MAX << (first % 64), u64::MAX >> (63 - last % 64));
        let (from, to) = (first / 64, last / 64);
        if from == to {
            return self.insert_word(from, low & high);
        }
        let ends = self.insert_word(from, low) & self.insert_word(to, high);
        (from + 1..to).fold(ends, |new, word| self.insert_word(word, u64::MAX) & new)
    }

    #[inline]
    fn insert_word(&mut self, word: usize, bits: u64) -> bool {
        let new = self.0[word] & bits == 0;
        self.0[word] |= bits;
        new
    }

    pub fn is_subset(&self, other: &Timestamp) -> bool {
        self.0.iter().zip(&other.0).fold(0, |more, (a, b)| more | (a & !b)) == 0
    }

    pub fn contains(&self, number: u16) -> bool {
        self.0[number as usize / 64] >> (number % 64) & 1 == 1
    }

    /// Whether two sets differ in a number up to i.
    pub fn differs(&self, other: &Timestamp, i: u16) -> bool {
        let (word, high) = (i as usize / 64, u64::MAX >> (63 - i % 64));
        self.0[..word] != other.0[..word] || (self.0[word] ^ other.0[word]) & high != 0
    }
}

/// The numbers `first` to `last`.
#[derive(Clone, Copy, PartialEq, Eq)]
pub struct Run {
    pub first: u16,
    pub last: u16,
}

/// A number 1 to 999 without leading zeros, and the place after it.
#[inline]
fn number(text: &[u8], at: usize) -> Option<(u16, usize)> {
    let four = match text.get(at..)?.first_chunk::<4>() {
        Some(four) => *four,
        None => near_end(&text[at..]),
    };
    // Four bytes at once, without branches: how many digits there are varies from number to number.
    let four = u32::from_le_bytes(four) ^ 0x3030_3030;
    let no_digits = (four | four.wrapping_add(0x0606_0606)) & 0xF0F0_F0F0;
    let count = no_digits.trailing_zeros() / 8;
    if count == 0 || count > 3 || four & 0xFF == 0 {
        return None;
    }
    // The digits go to the bytes 1 to 3, zeros before them.
    let digits = four << (32 - 8 * count);
    let value = (digits >> 8 & 0xFF) * 100 + (digits >> 16 & 0xFF) * 10 + (digits >> 24);
    Some((value as u16, at + count as usize))
}

/// Up to three bytes, and zeros, which are no digits.
fn near_end(bytes: &[u8]) -> [u8; 4] {
    let mut four = [0; 4];
    four[..bytes.len()].copy_from_slice(bytes);
    four
}

/// The runs of sets that are read one inside the other.
pub struct Runs {
    /// Longer than `used`, so that a set can be read without asking for room for each run.
    runs: Vec<Run>,
    used: usize,
}

/// As many runs as a set can have, and one more, where it is seen that there are too many.
const MOST: usize = 501;

impl Runs {
    pub fn new() -> Runs {
        Runs { runs: vec![], used: 0 }
    }

    pub fn len(&self) -> usize {
        self.used
    }

    pub fn truncate(&mut self, length: usize) {
        self.used = length;
    }

    /// The runs from a number on.
    #[inline]
    pub fn from(&self, number: usize) -> &[Run] {
        &self.runs[number..self.used]
    }

    /// Reads the text of a set that isn't empty, ended by a quote: ascending maximal runs, which
    /// are put at the end. Gives the quote's place.
    ///
    /// Whether `,` or `-` is next can't be foreseen, so nothing branches on it.
    pub fn read(&mut self, text: &[u8], mut at: usize) -> Option<usize> {
        if self.runs.len() < self.used + MOST {
            self.runs.resize(self.used + MOST, Run { first: 0, last: 0 });
        }
        let room = &mut self.runs[self.used..][..MOST];
        // The number of the next run, the number before, and whether a `-` was before that.
        let (mut count, mut previous, mut after_dash) = (0, -1, false);
        let mut dash = false;
        let mut legal = true;
        loop {
            let (value, end) = number(text, at)?;
            legal &= i32::from(value) > previous + i32::from(!dash);
            legal &= !(dash & after_dash);
            count += usize::from(!dash);
            let run = room.get_mut(count - 1)?;
            run.first = if dash { run.first } else { value };
            run.last = value;
            (previous, after_dash) = (i32::from(value), dash);
            let byte = *text.get(end)?;
            dash = byte == b'-';
            if !(dash | (byte == b',')) {
                self.used += count;
                return (legal && byte == b'"').then_some(end);
            }
            at = end + 1;
        }
    }
}

/// The first number of a legal text.
pub fn first(text: &[u8]) -> u16 {
    number(text, 0).map_or(0, |(value, _)| value)
}

/// Where the last number of a legal text begins.
fn last_number(text: &[u8]) -> usize {
    text.len() - text.iter().rev().take_while(|byte| byte.is_ascii_digit()).count()
}

/// The last number of a legal text.
pub fn last(text: &[u8]) -> u16 {
    first(&text[last_number(text)..])
}

pub fn write_number(number: u16, out: &mut Vec<u8>) {
    if number >= 100 {
        out.push(b'0' + (number / 100) as u8);
    }
    if number >= 10 {
        out.push(b'0' + (number / 10 % 10) as u8);
    }
    out.push(b'0' + (number % 10) as u8);
}

fn write_run(run: Run, out: &mut Vec<u8>) {
    write_number(run.first, out);
    if run.last > run.first {
        out.push(b'-');
        write_number(run.last, out);
    }
}

/// The text of `1-n`.
pub fn write_all(n: u16, out: &mut Vec<u8>) {
    write_run(Run { first: 1, last: n }, out);
}

/// The text of a set's numbers up to i; there is one. Runs are taken off the end, and what is
/// before the last run that stays is as it was.
pub fn write_to(text: &[u8], i: u16, out: &mut Vec<u8>) {
    let mut end = text.len();
    loop {
        let begin = text[..end].iter().rposition(|&byte| byte == b',').map_or(0, |comma| comma + 1);
        let first = first(&text[begin..end]);
        if first <= i || begin == 0 {
            out.extend_from_slice(&text[..begin]);
            return write_run(Run { first, last: last(&text[begin..end]).min(i) }, out);
        }
        end = begin - 1;
    }
}

/// The text of a set with the number n put in, which is over all of its numbers.
pub fn write_with(text: &[u8], n: u16, out: &mut Vec<u8>) {
    if last(text) + 1 < n {
        out.extend_from_slice(text);
        out.push(b',');
    } else {
        // The last run is continued: `1-3` without its last number, or `3` as it is.
        let kept = &text[..last_number(text)];
        let continued = kept.last() == Some(&b'-');
        out.extend_from_slice(if continued { kept } else { text });
        if !continued {
            out.push(b'-');
        }
    }
    write_number(n, out);
}

/// Writes the longest text over 1 to n, n being at least 1, to the output's first bytes and gives its
/// length; none if the output is shorter. Of each three numbers from n downwards the first two are in it.
pub fn write_longest(n: u16, out: &mut [u8]) -> Option<usize> {
    // How many of so many numbers up to n are in it.
    let among = |numbers: u16| (2 * numbers as usize + 2) / 3;
    // A digit of each and the byte after it, which n has not; second and third digits.
    let length = 2 * among(n) - 1 + among(n.saturating_sub(9)) + among(n.saturating_sub(99));
    // The runs over 99 have eight bytes each, with the comma before. What is before them is the text up
    // to 98, 99 or 100, or to n.
    let runs = n.saturating_sub(98) / 3;
    let before = n - 3 * runs;
    let (low, high) = out.get_mut(..length)?.split_at_mut(length - 8 * runs as usize);
    write_low(before, low);
    for (run, last) in high.chunks_exact_mut(8).zip((before + 3..).step_by(3)) {
        let ([a, b, c], [d, e, f]) = (digits(last - 1), digits(last));
        run.copy_from_slice(&[b',', a, b, c, b'-', d, e, f]);
    }
    Some(length)
}

/// The longest text over 1 to n, n being at most 100, in an output of its length.
fn write_low(n: u16, mut out: &mut [u8]) {
    let mut number = if n % 3 == 0 { 2 } else { 1 };
    let mut in_run = n % 3 != 1;
    while number < n {
        let [_, tens, ones] = digits(number);
        let after = if in_run { b'-' } else { b',' };
        out = if number < 10 { put(out, [ones, after]) } else { put(out, [tens, ones, after]) };
        number += if in_run { 1 } else { 2 };
        in_run = !in_run;
    }
    out.copy_from_slice(&digits(n)[3 - out.len()..]);
}

/// Puts bytes at the front and gives what is after them.
fn put<const N: usize>(out: &mut [u8], bytes: [u8; N]) -> &mut [u8] {
    let (place, rest) = out.split_at_mut(N);
    place.copy_from_slice(&bytes);
    rest
}

fn digits(number: u16) -> [u8; 3] {
    [number / 100, number / 10 % 10, number % 10].map(|digit| b'0' + digit as u8)
}
