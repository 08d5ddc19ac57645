//! The station archive of document 01, with document 02's marks, line ends, vacant
//! versions and longest history line: a second implementation, by the definitions.
//!
//! The archive is computed from the list of versions, never by merging. A text is a legal
//! archive exactly if it is the archive of the only versions that it can be the archive of.
//! Slow and plain on purpose: the modules follow document 01's order and terms.

pub mod address;
pub mod archive;
pub mod keys;
pub mod marks;
pub mod shelf;
pub mod timestamp;
pub mod version;
pub mod written;
pub mod xml;

use keys::KeyList;
use marks::Mark;
use version::Version;
use written::Written;

/// What a call returns: number 0 and the result, or a refusal's number and no bytes.
/// The length that document 01 speaks of is that of `bytes`.
#[derive(Clone, Debug, PartialEq, Eq)]
pub struct Answer {
    pub number: u32,
    pub bytes: Vec<u8>,
}

/// A result, or the number of a refusal.
pub type Outcome<R> = Result<R, u32>;

pub const WORK_CELLS: usize = 16_384;
pub const KEY_LIST_BYTES: usize = 4_096;
pub const VERSION_BYTES: usize = 16_384;
pub const ARCHIVE_BYTES: usize = 32_768;
pub const ADDRESS_BYTES: usize = 2_560;
pub const VERSION_NODES: usize = 512;
pub const ARCHIVE_NODES: usize = 1_024;
pub const DEPTH: usize = 16;
pub const VERSIONS: usize = 999;

/// Check a key list.
pub fn check_keys(keys: &[u8], work_len: usize) -> Answer {
    answer(|| {
        lent(work_len, &[(keys, KEY_LIST_BYTES)])?;
        KeyList::read(keys)?;
        Ok(vec![])
    })
}

/// Found an archive from version 1.
pub fn found(keys: &[u8], version: &[u8], out_len: usize, work_len: usize) -> Answer {
    answer(|| {
        lent(work_len, &[(keys, KEY_LIST_BYTES), (version, VERSION_BYTES)])?;
        let keys = KeyList::read(keys)?;
        let version = version::read(&keys, version)?;
        into_output(archive::archive(&keys, &[version]), out_len)
    })
}

/// Add a version.
pub fn add(keys: &[u8], archive: &[u8], version: &[u8], out_len: usize, work_len: usize) -> Answer {
    answer(|| {
        lent(work_len, &[(keys, KEY_LIST_BYTES), (archive, ARCHIVE_BYTES), (version, VERSION_BYTES)])?;
        let keys = KeyList::read(keys)?;
        let version = version::read(&keys, version)?;
        let mut versions = archive::versions(&keys, archive)?;
        if versions.len() == VERSIONS {
            return Err(11);
        }
        versions.push(version);
        into_output(archive::archive(&keys, &versions), out_len)
    })
}

/// Retrieve version i.
pub fn retrieve(keys: &[u8], archive: &[u8], i: usize, out_len: usize, work_len: usize) -> Answer {
    answer(|| {
        lent(work_len, &[(keys, KEY_LIST_BYTES), (archive, ARCHIVE_BYTES)])?;
        let keys = KeyList::read(keys)?;
        let versions = archive::versions(&keys, archive)?;
        if i < 1 || i > versions.len() {
            return Err(11);
        }
        into_output(version::written(&keys, &versions[i - 1]), out_len)
    })
}

/// Give the history of an address.
pub fn history(keys: &[u8], archive: &[u8], address: &[u8], out_len: usize, work_len: usize) -> Answer {
    answer(|| {
        lent(work_len, &[(keys, KEY_LIST_BYTES), (archive, ARCHIVE_BYTES), (address, ADDRESS_BYTES)])?;
        let keys = KeyList::read(keys)?;
        let versions = archive::versions(&keys, archive)?;
        let address = address::read(&keys, address)?;
        into_output(Written { bytes: address::history(&keys, &versions, &address), nodes: 0 }, out_len)
    })
}

/// Set a mark: the name stands for version i from here on. A table is lent as its bytes, 608 if it
/// is of 32 entries; a refusal leaves it untouched.
pub fn set_mark(keys: &[u8], archive: &[u8], table: &mut [u8], name: &[u8], i: usize, work_len: usize) -> Answer {
    answer(|| {
        let (_, versions, mut marks) = lent_marks(keys, archive, table, work_len)?;
        marks::set(&mut marks, name, i, versions.len())?;
        table.copy_from_slice(&marks::bytes(&marks::table(&marks)));
        Ok(vec![])
    })
}

/// Find a mark: also gives the version, 0 when refused.
pub fn find_mark(keys: &[u8], archive: &[u8], table: &[u8], name: &[u8], work_len: usize) -> (Answer, usize) {
    let version = lent_marks(keys, archive, table, work_len).and_then(|(_, _, marks)| marks::find(&marks, name));
    (answer(|| version.map(|_| vec![])), version.unwrap_or(0))
}

/// Step back to version i.
pub fn back(keys: &[u8], archive: &[u8], table: &mut [u8], i: usize, out_len: usize, work_len: usize) -> Answer {
    answer(|| {
        let (keys, versions, marks) = lent_marks(keys, archive, table, work_len)?;
        if i < 1 || i > versions.len() {
            return Err(11);
        }
        step_back(&keys, &versions[..i], marks, table, out_len)
    })
}

/// Step back to the version of a mark.
pub fn back_to_mark(keys: &[u8], archive: &[u8], table: &mut [u8], name: &[u8], out_len: usize, work_len: usize) -> Answer {
    answer(|| {
        let (keys, versions, marks) = lent_marks(keys, archive, table, work_len)?;
        let i = marks::find(&marks, name)?;
        step_back(&keys, &versions[..i], marks, table, out_len)
    })
}

/// Write the longest history text over versions 1 to n; of those that tie, that of `timestamp::longest`.
pub fn longest_history(n: usize, out_len: usize, work_len: usize) -> Answer {
    answer(|| {
        lent(work_len, &[])?;
        if n < 1 || n > VERSIONS {
            return Err(11);
        }
        into_output(Written { bytes: timestamp::text(&timestamp::longest(n)), nodes: 0 }, out_len)
    })
}

/// The archive of the versions that are kept; the table loses the marks of the others.
fn step_back(keys: &KeyList, kept: &[Version], mut marks: Vec<Mark>, table: &mut [u8], out_len: usize) -> Outcome<Vec<u8>> {
    let result = into_output(archive::archive(keys, kept), out_len)?;
    marks::drop_later(&mut marks, kept.len());
    table.copy_from_slice(&marks::bytes(&marks::table(&marks)));
    Ok(result)
}

/// 1 to 4, 10 and 17: what a call over a key list, an archive and a table is lent.
fn lent_marks(keys: &[u8], archive: &[u8], table: &[u8], work_len: usize) -> Outcome<(KeyList, Vec<Version>, Vec<Mark>)> {
    lent(work_len, &[(keys, KEY_LIST_BYTES), (archive, ARCHIVE_BYTES)])?;
    let keys = KeyList::read(keys)?;
    let versions = archive::versions(&keys, archive)?;
    let table = marks::entries(table).ok_or(17u32)?;
    let marks = marks::read(&table, versions.len())?;
    Ok((keys, versions, marks))
}

fn answer(call: impl FnOnce() -> Outcome<Vec<u8>>) -> Answer {
    match call() {
        Ok(bytes) => Answer { number: 0, bytes },
        Err(number) => Answer { number, bytes: vec![] },
    }
}

/// 1 and 2: the work and the sizes of the texts that the call takes.
fn lent(work_len: usize, texts: &[(&[u8], usize)]) -> Outcome<()> {
    if work_len < WORK_CELLS {
        return Err(1);
    }
    if texts.iter().any(|(text, most)| text.len() > *most) {
        return Err(2);
    }
    Ok(())
}

/// 13 and 14: the size of the result and of the output.
fn into_output(result: Written, out_len: usize) -> Outcome<Vec<u8>> {
    if result.nodes > ARCHIVE_NODES || result.bytes.len() > ARCHIVE_BYTES {
        return Err(13);
    }
    if out_len < result.bytes.len() {
        return Err(14);
    }
    Ok(result.bytes)
}
