//! Bytes, names and runs of text.

/// Legal in text and the same in written form: any legal byte but `<`, `&`, `>` and CR, which is
/// read as LF and in no archive.
pub const ORDINARY: u8 = 1;
pub const WHITE: u8 = 2;
/// Letters, digits, `.`, `-`, `_`.
pub const NAME: u8 = 4;
/// Letters and `_`.
pub const START: u8 = 8;

const fn class_of(byte: u8) -> u8 {
    match byte {
        b'\t' | b'\n' | b' ' => ORDINARY | WHITE,
        b'\r' => WHITE,
        b'A'..=b'Z' | b'a'..=b'z' | b'_' => ORDINARY | NAME | START,
        b'0'..=b'9' | b'.' | b'-' => ORDINARY | NAME,
        b'<' | b'&' | b'>' => 0,
        0x20..=0x7E => ORDINARY,
        _ => 0,
    }
}

const fn classes() -> [u8; 256] {
    let mut table = [0; 256];
    let mut byte = 0;
    while byte < 256 {
        table[byte] = class_of(byte as u8);
        byte += 1;
    }
    table
}

static CLASSES: [u8; 256] = classes();

#[inline]
pub fn is(byte: u8, class: u8) -> bool {
    CLASSES[byte as usize] & class != 0
}

/// Positions in a text; no text has more than 32,768 bytes here.
#[derive(Clone, Copy, Default)]
pub struct Span {
    pub start: u32,
    pub end: u32,
}

impl Span {
    pub fn new(start: usize, end: usize) -> Span {
        Span { start: start as u32, end: end as u32 }
    }

    #[inline]
    pub fn of(self, text: &[u8]) -> &[u8] {
        &text[self.start as usize..self.end as usize]
    }

    pub fn len(self) -> usize {
        (self.end - self.start) as usize
    }
}

/// Whether two short byte strings are equal; faster than a call of memcmp.
#[inline]
pub fn same(a: &[u8], b: &[u8]) -> bool {
    a.len() == b.len() && a.iter().zip(b).all(|(a, b)| a == b)
}

/// Whether this name or value stands at that place.
#[inline]
pub fn stands_name(text: &[u8], at: usize, name: &[u8]) -> bool {
    text.get(at..at + name.len()).is_some_and(|here| same(here, name))
}

/// Whether these few bytes stand at that place.
#[inline]
pub fn stands<const N: usize>(text: &[u8], at: usize, bytes: &[u8; N]) -> bool {
    text.get(at..at + N).is_some_and(|here| here == bytes)
}

/// The end of the name at a place: 1 to 32 bytes.
#[inline]
pub fn name_end(text: &[u8], at: usize) -> Option<usize> {
    let first = *text.get(at)?;
    if !is(first, START) {
        return None;
    }
    let mut end = at + 1;
    while end < text.len() && is(text[end], NAME) {
        end += 1;
    }
    (end - at <= 32).then_some(end)
}

/// A key value: 1 to 32 letters, digits, `.`, `-`, `_`.
#[inline]
pub fn is_value(bytes: &[u8]) -> bool {
    (1..=32).contains(&bytes.len()) && bytes.iter().all(|&byte| is(byte, NAME))
}

/// The first place from `at` with a byte that isn't white space.
#[inline]
pub fn white_end(text: &[u8], mut at: usize) -> usize {
    while at < text.len() && is(text[at], WHITE) {
        at += 1;
    }
    at
}

/// The first place from `at` with a byte that isn't ordinary; the text's length if there is none.
/// Long runs are gone over by sixteen bytes at a time.
#[inline]
pub fn ordinary_end(text: &[u8], mut at: usize) -> usize {
    let near = text.len().min(at + 16);
    while at < near {
        if !is(text[at], ORDINARY) {
            return at;
        }
        at += 1;
    }
    while let Some(chunk) = text[at..].first_chunk::<16>() {
        if !all_ordinary(chunk) {
            break;
        }
        at += 16;
    }
    while at < text.len() && is(text[at], ORDINARY) {
        at += 1;
    }
    at
}

/// Without branches, so that it becomes vector instructions. The rare tab counts as not ordinary
/// here and is left to the loop by bytes.
#[inline]
fn all_ordinary(chunk: &[u8; 16]) -> bool {
    let odd = |byte: u8| ((byte.wrapping_sub(0x20) > 0x5E) & (byte != b'\n')) | (byte == b'<') | (byte == b'&') | (byte == b'>');
    !chunk.iter().fold(false, |any, &byte| any | odd(byte))
}
