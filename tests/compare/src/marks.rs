//! Tables of marks as bytes, legal and damaged, and names.

use crate::random::Random;
use reference::marks::{self, is_mark_name, Mark, ENTRIES, ENTRY_BYTES, NAME_BYTES, TABLE_BYTES};

/// A table of unused entries.
pub const UNUSED: [u8; TABLE_BYTES] = [0; TABLE_BYTES];

const ALPHABET: &[u8] = b"ABCDEFGHIJKLMNOPQRSTUVWXYZabcdefghijklmnopqrstuvwxyz0123456789.-_";

const NAMES: [&str; 10] = ["as-commissioned", "as-commissioned.", "a", "A", "aa", "new_lens", "0", "-", "_", "2026.11.16"];

/// The bytes of the table with these marks.
pub fn table(marks: &[Mark]) -> Vec<u8> {
    marks::bytes(&marks::table(marks))
}

/// A legal name, often one that is often given.
pub fn name(r: &mut Random) -> Vec<u8> {
    if r.chance(30) {
        return r.choose(&NAMES).as_bytes().to_vec();
    }
    let length = r.choose(&[1, 2, 3, 8, 15, 16]);
    (0..length).map(|_| r.choose(ALPHABET)).collect()
}

/// A legal table under n, with some marks, with none, or full.
pub fn legal(r: &mut Random, n: usize) -> Vec<u8> {
    let count = r.choose(&[0, 1, 2, 3, 5, 12, 31, 32, 32]);
    let mut held: Vec<Mark> = vec![];
    while held.len() < count {
        let name = name(r);
        if marks::held_in(&held, &name).is_none() {
            held.push(Mark { name, version: 1 + r.below(n) });
        }
    }
    table(&held)
}

/// A name that is held, new, near a held one, or illegal.
pub fn any_name(r: &mut Random, table: &[u8]) -> Vec<u8> {
    let names = table.chunks_exact(ENTRY_BYTES).filter_map(|entry| entry[..NAME_BYTES].get(..entry[NAME_BYTES].into()));
    let held: Vec<&[u8]> = names.filter(|name| !name.is_empty()).collect();
    if held.is_empty() || r.chance(20) {
        return if r.chance(50) { name(r) } else { illegal(r) };
    }
    let mut name = r.pick(&held).to_vec();
    match r.below(12) {
        0 => name.push(r.choose(b"a0\0")),
        1 => {
            name.pop();
        }
        2 => {
            let at = r.below(name.len());
            name[at] ^= r.choose(&[1, 0x20, 0x80]);
        }
        3 => name.resize(NAME_BYTES, 0),
        _ => (),
    }
    name
}

/// A name that no mark can have.
pub fn illegal(r: &mut Random) -> Vec<u8> {
    let mut name = name(r);
    match r.below(4) {
        0 => vec![],
        1 => vec![r.choose(ALPHABET); r.choose(&[17, 18, 32, 33, 255, 256, 257, 272, 4_097, 32_769])],
        _ => {
            let at = r.below(name.len());
            name[at] = r.choose(b"\0\x01\t\n\r !\"#$%&'()*+,/:;<=>?@[\\]^`{|}~\x7f\x80\xad\xae\xc1\xff");
            name
        }
    }
}

/// A table near a legal one under n. Some are legal still.
pub fn damaged(r: &mut Random, table: &[u8], n: usize) -> Vec<u8> {
    let mut table = table.to_vec();
    if table.len() != TABLE_BYTES {
        return table;
    }
    let held = table.chunks(ENTRY_BYTES).filter(|entry| entry[NAME_BYTES] != 0).count();
    // An entry, one that is used if there is one, and the first that is not.
    let one = r.below(held.max(1)) * ENTRY_BYTES;
    let other = r.below(held.max(1)) * ENTRY_BYTES;
    let next = held.min(ENTRIES - 1) * ENTRY_BYTES;
    match r.below(16) {
        // One byte changed: anywhere, in a used entry, in an unused one.
        0 => {
            let at = r.below(TABLE_BYTES);
            table[at] = table[at].wrapping_add(r.choose(&[1, 16, 128, 255]));
        }
        1 => {
            let at = one + r.below(ENTRY_BYTES);
            table[at] = r.choose(b"\0\x01\x02\x10\x11aA.-/:@[`{ \xff");
        }
        2 => {
            let at = next + r.below(TABLE_BYTES - next);
            table[at] = r.choose(b"\x01aA\xff");
        }
        // Not of 32 entries.
        3 => table.resize(r.choose(&[0, 19, 589, 607, 607, 607, 609, 609, 627, 1_216]), 0),
        4 => table.truncate(r.below(TABLE_BYTES)),
        // A name twice, a gap, entries exchanged.
        5 | 6 => table.copy_within(one..one + NAME_BYTES + 1, other),
        7 => table[one..one + ENTRY_BYTES].fill(0),
        8 => {
            let past = (next + ENTRY_BYTES).min(TABLE_BYTES - ENTRY_BYTES);
            table.copy_within(one..one + ENTRY_BYTES, past);
            table[past] = r.choose(ALPHABET);
        }
        9 => {
            let entry = table[one..one + ENTRY_BYTES].to_vec();
            table.copy_within(other..other + ENTRY_BYTES, one);
            table[other..other + ENTRY_BYTES].copy_from_slice(&entry);
        }
        // A version past n, or none.
        10 | 11 => {
            let version = r.choose(&[0, 1, n, n + 1, n + 2, n + 256, 256, 999, 1_000, 65_535]) as u16;
            table[one + NAME_BYTES + 1..one + ENTRY_BYTES].copy_from_slice(&version.to_le_bytes());
        }
        12 => table.swap(one + NAME_BYTES + 1, one + NAME_BYTES + 2),
        // Bytes past a name, or one of its bytes past its length.
        13 => {
            let length = usize::from(table[one + NAME_BYTES]).min(NAME_BYTES - 1);
            let at = one + length + r.below(NAME_BYTES - length);
            table[at] = r.choose(b"a\x01\xff");
        }
        14 => table[one + NAME_BYTES] = r.choose(&[0, 1, 2, 15, 16, 17, 18, 32, 255]),
        // An illegal name.
        _ => {
            let name = illegal(r);
            let length = name.len().min(NAME_BYTES);
            table[one..one + NAME_BYTES].fill(0);
            table[one..one + length].copy_from_slice(&name[..length]);
            table[one + NAME_BYTES] = name.len().min(255) as u8;
        }
    }
    table
}

/// A name of so many bytes.
pub fn name_of(length: usize) -> Vec<u8> {
    let name: Vec<u8> = (0..length).map(|at| ALPHABET[at % ALPHABET.len()]).collect();
    debug_assert_eq!(is_mark_name(&name), (1..=NAME_BYTES).contains(&length));
    name
}
