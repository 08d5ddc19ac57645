//! Marks: a table of 608 bytes, checked and changed where it stands.

use super::text::{is, same, NAME};
use super::Outcome;

const ENTRIES: usize = 32;
/// An entry: the name and zero bytes past it, the name's length, the version.
const NAME_BYTES: usize = 16;
const ENTRY_BYTES: usize = 19;
const TABLE_BYTES: usize = ENTRIES * ENTRY_BYTES;

/// How many marks a table holds; 17 if it is not a legal one under n.
pub fn count(table: &[u8], n: u16) -> Outcome<usize> {
    legal(table, n).ok_or(17)
}

fn legal(table: &[u8], n: u16) -> Option<usize> {
    let table: &[u8; TABLE_BYTES] = table.try_into().ok()?;
    // With zero bytes past them, names are equal if they are as numbers.
    let mut names = [0u128; ENTRIES];
    let mut count = 0;
    for entry in table.chunks_exact(ENTRY_BYTES).take_while(|entry| entry[NAME_BYTES] != 0) {
        let bytes: &[u8; NAME_BYTES] = entry.first_chunk()?;
        let length = entry[NAME_BYTES] as usize;
        if !bytes.get(..length)?.iter().all(|&byte| is(byte, NAME)) {
            return None;
        }
        let name = u128::from_le_bytes(*bytes);
        let past = name.checked_shr(8 * length as u32).unwrap_or(0);
        if past != 0 || !(1..=n).contains(&version(entry)) || names[..count].contains(&name) {
            return None;
        }
        names[count] = name;
        count += 1;
    }
    table[count * ENTRY_BYTES..].iter().all(|&byte| byte == 0).then_some(count)
}

fn version(entry: &[u8]) -> u16 {
    u16::from_le_bytes([entry[NAME_BYTES + 1], entry[NAME_BYTES + 2]])
}

/// The version of the mark with this name, 0 if there is none; of a table that need not be legal.
pub fn version_of(table: &[u8], name: &[u8]) -> usize {
    let is_it = |entry: &&[u8]| entry[NAME_BYTES] as usize == name.len() && same(&entry[..name.len()], name);
    if !(1..=NAME_BYTES).contains(&name.len()) {
        return 0;
    }
    table.chunks_exact(ENTRY_BYTES).find(is_it).map_or(0, |entry| version(entry) as usize)
}

/// Puts a mark into a legal table with `count` of them, if 15, 16 and 11 don't refuse it.
pub fn set(table: &mut [u8], count: usize, name: &[u8], i: usize, n: u16) -> Outcome<()> {
    let is_name = (1..=NAME_BYTES).contains(&name.len()) && name.iter().all(|&byte| is(byte, NAME));
    if !is_name || version_of(table, name) != 0 {
        return Err(15);
    }
    if count == ENTRIES {
        return Err(16);
    }
    let i = super::standing(i, n)?;
    let entry = &mut table[count * ENTRY_BYTES..][..ENTRY_BYTES];
    entry[..name.len()].copy_from_slice(name);
    entry[NAME_BYTES] = name.len() as u8;
    entry[NAME_BYTES + 1..].copy_from_slice(&i.to_le_bytes());
    Ok(())
}

/// Drops the marks of versions later than i from a legal table with `count` marks.
pub fn drop_later(table: &mut [u8], count: usize, i: u16) {
    let mut kept = 0;
    for at in 0..count {
        let entry = at * ENTRY_BYTES;
        if version(&table[entry..]) <= i {
            if kept != at {
                table.copy_within(entry..entry + ENTRY_BYTES, kept * ENTRY_BYTES);
            }
            kept += 1;
        }
    }
    table[kept * ENTRY_BYTES..count * ENTRY_BYTES].fill(0);
}
