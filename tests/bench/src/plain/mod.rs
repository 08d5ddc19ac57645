//! Document 01's six calls, document 02's three over marks and its longest history, with line ends and vacant versions,
//! plain and fast: what one would write for speed, without proofs.
//!
//! Texts are read in one pass into flat arrays; siblings are merged by two pointers; an archive
//! is checked where it stands, and unchanged parts of it are copied as they are. The work is on
//! the heap, so there is no refusal 1, which the C entries can't return either.

mod address;
mod archive;
mod keys;
mod marks;
mod text;
mod timestamp;
mod version;
mod writing;

use keys::KeyList;

/// A result, or the number of a refusal.
type Outcome<R> = Result<R, u32>;

const KEY_LIST_BYTES: usize = 4_096;
const VERSION_BYTES: usize = 16_384;
const ARCHIVE_BYTES: usize = 32_768;
const ADDRESS_BYTES: usize = 2_560;
const VERSION_NODES: u32 = 512;
const ARCHIVE_NODES: u32 = 1_024;
const DEPTH: usize = 16;
const VERSIONS: u16 = 999;

/// Check a key list.
pub fn check_keys(keys: &[u8]) -> (u32, usize) {
    answer(|| {
        within(keys, KEY_LIST_BYTES)?;
        KeyList::read(keys)?;
        Ok(0)
    })
}

/// Found an archive from version 1.
pub fn found(keys: &[u8], version: &[u8], out: &mut [u8]) -> (u32, usize) {
    answer(|| {
        within(keys, KEY_LIST_BYTES)?;
        within(version, VERSION_BYTES)?;
        let keys = KeyList::read(keys)?;
        let version = version::read(&keys, version)?;
        let mut bytes = Vec::with_capacity(version.length + 13);
        bytes.extend_from_slice(b"<T t=\"1\">");
        if let Some(root) = version.root() {
            version.write(&keys, root, &mut bytes);
        }
        bytes.extend_from_slice(archive::CLOSE_T);
        give(&bytes, out)
    })
}

/// Add a version.
pub fn add(keys: &[u8], archive: &[u8], version: &[u8], out: &mut [u8]) -> (u32, usize) {
    answer(|| {
        within(keys, KEY_LIST_BYTES)?;
        within(archive, ARCHIVE_BYTES)?;
        within(version, VERSION_BYTES)?;
        let keys = KeyList::read(keys)?;
        let version = version::read(&keys, version)?;
        let archive = archive::read(&keys, archive, 0).ok_or(10u32)?;
        if archive.n == VERSIONS {
            return Err(11);
        }
        let (bytes, nodes) = writing::added(&keys, &archive, &version);
        if nodes > ARCHIVE_NODES || bytes.len() > ARCHIVE_BYTES {
            return Err(13);
        }
        give(&bytes, out)
    })
}

/// Retrieve version i.
pub fn retrieve(keys: &[u8], archive: &[u8], i: usize, out: &mut [u8]) -> (u32, usize) {
    answer(|| {
        within(keys, KEY_LIST_BYTES)?;
        within(archive, ARCHIVE_BYTES)?;
        let keys = KeyList::read(keys)?;
        let archive = archive::read(&keys, archive, i).ok_or(10u32)?;
        standing(i, archive.n)?;
        give(&writing::retrieved(&keys, &archive), out)
    })
}

/// Give the history of an address.
pub fn history(keys: &[u8], archive: &[u8], address: &[u8], out: &mut [u8]) -> (u32, usize) {
    answer(|| {
        within(keys, KEY_LIST_BYTES)?;
        within(archive, ARCHIVE_BYTES)?;
        within(address, ADDRESS_BYTES)?;
        let keys = KeyList::read(keys)?;
        let archive = archive::read(&keys, archive, 0).ok_or(10u32)?;
        let address = address::read(&keys, address).ok_or(12u32)?;
        give(address.history(&keys, &archive).of(archive.text), out)
    })
}

/// Step back to version i; the table loses the marks of later versions.
pub fn back(keys: &[u8], archive: &[u8], table: &mut [u8], i: usize, out: &mut [u8]) -> (u32, usize) {
    answer(|| {
        within(keys, KEY_LIST_BYTES)?;
        within(archive, ARCHIVE_BYTES)?;
        let keys = KeyList::read(keys)?;
        let archive = archive::read(&keys, archive, i).ok_or(10u32)?;
        let count = marks::count(table, archive.n)?;
        let i = standing(i, archive.n)?;
        let length = give(&writing::stepped_back(&keys, &archive, i), out)?;
        marks::drop_later(table, count, i);
        Ok(length)
    })
}

/// Step back to the version of a mark.
pub fn back_to_mark(keys: &[u8], archive: &[u8], table: &mut [u8], name: &[u8], out: &mut [u8]) -> (u32, usize) {
    answer(|| {
        within(keys, KEY_LIST_BYTES)?;
        within(archive, ARCHIVE_BYTES)?;
        let keys = KeyList::read(keys)?;
        // The version is asked for before the table is known to be legal, as reading the archive needs it.
        let i = marks::version_of(table, name);
        let archive = archive::read(&keys, archive, i).ok_or(10u32)?;
        let count = marks::count(table, archive.n)?;
        let i = standing(i, archive.n).map_err(|_| 15u32)?;
        let length = give(&writing::stepped_back(&keys, &archive, i), out)?;
        marks::drop_later(table, count, i);
        Ok(length)
    })
}

/// Set a mark.
pub fn set_mark(keys: &[u8], archive: &[u8], table: &mut [u8], name: &[u8], i: usize) -> (u32, usize) {
    answer(|| {
        let n = versions(keys, archive)?;
        let count = marks::count(table, n)?;
        marks::set(table, count, name, i, n)?;
        Ok(0)
    })
}

/// Find a mark: the number and the version, 0 when refused. The length is 0.
pub fn find_mark(keys: &[u8], archive: &[u8], table: &[u8], name: &[u8]) -> (u32, usize) {
    answer(|| {
        marks::count(table, versions(keys, archive)?)?;
        match marks::version_of(table, name) {
            0 => Err(15),
            version => Ok(version),
        }
    })
}

/// Write the longest history text over versions 1 to n.
pub fn longest_history(n: usize, out: &mut [u8]) -> (u32, usize) {
    answer(|| {
        let n = standing(n, VERSIONS)?;
        timestamp::write_longest(n, out).ok_or(14)
    })
}

/// How many versions an archive has.
fn versions(keys: &[u8], archive: &[u8]) -> Outcome<u16> {
    within(keys, KEY_LIST_BYTES)?;
    within(archive, ARCHIVE_BYTES)?;
    let keys = KeyList::read(keys)?;
    archive::read(&keys, archive, 0).map(|archive| archive.n).ok_or(10)
}

/// Number and length.
fn answer(call: impl FnOnce() -> Outcome<usize>) -> (u32, usize) {
    match call() {
        Ok(length) => (0, length),
        Err(number) => (number, 0),
    }
}

/// 2: a text's size.
fn within(text: &[u8], most: usize) -> Outcome<()> {
    if text.len() > most {
        return Err(2);
    }
    Ok(())
}

/// 11: i in 1 to n.
fn standing(i: usize, n: u16) -> Outcome<u16> {
    if i < 1 || i > n as usize {
        return Err(11);
    }
    Ok(i as u16)
}

/// 14: the result goes to the output's first bytes.
fn give(result: &[u8], out: &mut [u8]) -> Outcome<usize> {
    let place = out.get_mut(..result.len()).ok_or(14u32)?;
    place.copy_from_slice(result);
    Ok(result.len())
}
