//! Named versions: marks, the lent table of 32 that holds them, and the table as 608 bytes.

use crate::xml::is_value;
use crate::Outcome;

pub const ENTRIES: usize = 32;
pub const NAME_BYTES: usize = 16;
/// Of an entry: the name, its length, the version.
pub const ENTRY_BYTES: usize = NAME_BYTES + 3;
pub const TABLE_BYTES: usize = ENTRIES * ENTRY_BYTES;

/// An entry of a lent table, whatever it holds.
#[derive(Clone, Copy, Debug, Default, PartialEq, Eq)]
pub struct Entry {
    pub name: [u8; NAME_BYTES],
    pub length: u8,
    pub version: u16,
}

/// An unused entry is all zero.
pub const UNUSED: Entry = Entry { name: [0; NAME_BYTES], length: 0, version: 0 };

/// A mark: a name and a version.
#[derive(Clone, Debug, PartialEq, Eq)]
pub struct Mark {
    pub name: Vec<u8>,
    pub version: usize,
}

/// The entries of a table as C passes it. None if the bytes are no whole number of entries.
pub fn entries(bytes: &[u8]) -> Option<Vec<Entry>> {
    let entry = |bytes: &[u8]| Entry {
        name: bytes[..NAME_BYTES].try_into().expect("an entry's bytes"),
        length: bytes[NAME_BYTES],
        version: u16::from(bytes[NAME_BYTES + 1]) + 256 * u16::from(bytes[NAME_BYTES + 2]),
    };
    (bytes.len() % ENTRY_BYTES == 0).then(|| bytes.chunks(ENTRY_BYTES).map(entry).collect())
}

/// Per entry 16 of name, one of its length, two of version, low byte first.
pub fn bytes(entries: &[Entry]) -> Vec<u8> {
    let entry = |entry: &Entry| [&entry.name[..], &[entry.length], &entry.version.to_le_bytes()].concat();
    entries.iter().flat_map(entry).collect()
}

/// The table that holds these marks, 32 at most, in their order; unused entries follow.
pub fn table(marks: &[Mark]) -> Vec<Entry> {
    let mut table = vec![UNUSED; ENTRIES];
    for (entry, mark) in table.iter_mut().zip(marks) {
        entry.name[..mark.name.len()].copy_from_slice(&mark.name);
        entry.length = mark.name.len() as u8;
        entry.version = mark.version as u16;
    }
    table
}

/// 1 to 16 bytes of the key value alphabet.
pub fn is_mark_name(name: &[u8]) -> bool {
    name.len() <= NAME_BYTES && is_value(name)
}

/// The marks of a lent table, in order of setting, or 17.
pub fn read(table: &[Entry], n: usize) -> Outcome<Vec<Mark>> {
    marks_of(table, n).ok_or(17)
}

fn marks_of(table: &[Entry], n: usize) -> Option<Vec<Mark>> {
    if table.len() != ENTRIES {
        return None;
    }
    let held = table.iter().position(|entry| *entry == UNUSED).unwrap_or(ENTRIES);
    let (held, unused) = table.split_at(held);
    if unused.iter().any(|entry| *entry != UNUSED) {
        return None;
    }
    let mut marks: Vec<Mark> = vec![];
    for entry in held {
        let mark = mark_of(entry, n)?;
        if held_in(&marks, &mark.name).is_some() {
            return None;
        }
        marks.push(mark);
    }
    Some(marks)
}

/// The mark of a used entry: a legal name, zero bytes past it, a version from 1 to n.
fn mark_of(entry: &Entry, n: usize) -> Option<Mark> {
    let name = entry.name.get(..usize::from(entry.length))?;
    let past = &entry.name[name.len()..];
    let version = usize::from(entry.version);
    let fits = is_mark_name(name) && past.iter().all(|&byte| byte == 0) && (1..=n).contains(&version);
    fits.then(|| Mark { name: name.to_vec(), version })
}

/// The mark of this name, if it is held.
pub fn held_in<'a>(marks: &'a [Mark], name: &[u8]) -> Option<&'a Mark> {
    marks.iter().find(|mark| mark.name == name)
}

/// Sets a mark: a name illegal or already held is 15, 32 held 16, a version outside 1 to n 11.
pub fn set(marks: &mut Vec<Mark>, name: &[u8], version: usize, n: usize) -> Outcome<()> {
    if !is_mark_name(name) || held_in(marks, name).is_some() {
        return Err(15);
    }
    if marks.len() == ENTRIES {
        return Err(16);
    }
    if version < 1 || version > n {
        return Err(11);
    }
    marks.push(Mark { name: name.to_vec(), version });
    Ok(())
}

/// The version of the mark with this name; a name illegal or not held is 15.
pub fn find(marks: &[Mark], name: &[u8]) -> Outcome<usize> {
    // An illegal name is not held.
    held_in(marks, name).map(|mark| mark.version).ok_or(15)
}

/// Drops the marks of versions later than i and keeps the others in order.
pub fn drop_later(marks: &mut Vec<Mark>, i: usize) {
    marks.retain(|mark| mark.version <= i);
}
