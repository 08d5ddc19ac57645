//! The station: an implementation of the calls that is compared with the reference.

use reference::{Answer, WORK_CELLS};

/// A call with its arguments, besides the key list and the output. A table of marks is its bytes, as
/// they are lent: 608 if it is of 32 entries. The longest history takes no key list: whatever is given
/// as one is not looked at.
#[derive(Clone, Copy)]
pub enum Call<'a> {
    CheckKeys,
    Found { version: &'a [u8] },
    Add { archive: &'a [u8], version: &'a [u8] },
    Retrieve { archive: &'a [u8], i: usize },
    History { archive: &'a [u8], address: &'a [u8] },
    Back { archive: &'a [u8], table: &'a [u8], i: usize },
    BackToMark { archive: &'a [u8], table: &'a [u8], name: &'a [u8] },
    SetMark { archive: &'a [u8], table: &'a [u8], name: &'a [u8], i: usize },
    FindMark { archive: &'a [u8], table: &'a [u8], name: &'a [u8] },
    LongestHistory { n: usize },
}

pub const CALLS: [&str; 10] =
    ["check_keys", "found", "add", "retrieve", "history", "back", "back_to_mark", "set_mark", "find_mark", "longest_history"];

impl<'a> Call<'a> {
    pub fn index(&self) -> usize {
        match self {
            Call::CheckKeys => 0,
            Call::Found { .. } => 1,
            Call::Add { .. } => 2,
            Call::Retrieve { .. } => 3,
            Call::History { .. } => 4,
            Call::Back { .. } => 5,
            Call::BackToMark { .. } => 6,
            Call::SetMark { .. } => 7,
            Call::FindMark { .. } => 8,
            Call::LongestHistory { .. } => 9,
        }
    }

    pub fn has_output(&self) -> bool {
        !matches!(self, Call::CheckKeys | Call::SetMark { .. } | Call::FindMark { .. })
    }

    /// The table that is lent; none is no bytes.
    pub fn table(&self) -> &'a [u8] {
        match *self {
            Call::Back { table, .. } | Call::BackToMark { table, .. } | Call::SetMark { table, .. } | Call::FindMark { table, .. } => table,
            _ => &[],
        }
    }
}

/// What a station returns; the version is that of the mark found, 0 of every other call.
#[derive(Clone, Copy, Debug, PartialEq, Eq)]
pub struct Returned {
    pub number: u32,
    pub length: usize,
    pub version: usize,
}

impl Returned {
    /// Of a call that finds no version.
    pub fn plain((number, length): (u32, usize)) -> Returned {
        Returned { number, length, version: 0 }
    }
}

pub trait Station {
    fn name(&self) -> &'static str;

    /// `table` has the bytes of the call's own and is what the station is lent: it holds the marks
    /// at exit. The result goes to the output's first bytes.
    fn call(&self, keys: &[u8], call: Call, table: &mut [u8], out: &mut [u8]) -> Returned;
}

/// What is expected of a call: the result, the table at exit, and the version found.
#[derive(Clone)]
pub struct Expected {
    pub number: u32,
    pub bytes: Vec<u8>,
    pub table: Vec<u8>,
    pub version: usize,
}

/// The reference's answer to a call.
pub fn answer(keys: &[u8], call: Call, out_len: usize) -> Expected {
    let mut lent = call.table().to_vec();
    let table = &mut lent;
    let mut version = 0;
    let Answer { number, bytes } = match call {
        Call::CheckKeys => reference::check_keys(keys, WORK_CELLS),
        Call::Found { version } => reference::found(keys, version, out_len, WORK_CELLS),
        Call::Add { archive, version } => reference::add(keys, archive, version, out_len, WORK_CELLS),
        Call::Retrieve { archive, i } => reference::retrieve(keys, archive, i, out_len, WORK_CELLS),
        Call::History { archive, address } => reference::history(keys, archive, address, out_len, WORK_CELLS),
        Call::Back { archive, i, .. } => reference::back(keys, archive, table, i, out_len, WORK_CELLS),
        Call::BackToMark { archive, name, .. } => reference::back_to_mark(keys, archive, table, name, out_len, WORK_CELLS),
        Call::SetMark { archive, name, i, .. } => reference::set_mark(keys, archive, table, name, i, WORK_CELLS),
        Call::FindMark { archive, name, .. } => {
            let (answer, found) = reference::find_mark(keys, archive, table, name, WORK_CELLS);
            version = found;
            answer
        }
        Call::LongestHistory { n } => reference::longest_history(n, out_len, WORK_CELLS),
    };
    Expected { number, bytes, table: lent, version }
}

/// The reference itself as the station: the generators can be run without a library.
#[cfg_attr(feature = "library", allow(dead_code))]
pub struct Reference;

impl Station for Reference {
    fn name(&self) -> &'static str {
        "the reference itself"
    }

    fn call(&self, keys: &[u8], call: Call, table: &mut [u8], out: &mut [u8]) -> Returned {
        let answer = answer(keys, call, out.len());
        out[..answer.bytes.len()].copy_from_slice(&answer.bytes);
        table.copy_from_slice(&answer.table);
        Returned { number: answer.number, length: answer.bytes.len(), version: answer.version }
    }
}

/// The static library behind the C entries.
#[cfg(feature = "library")]
pub mod library {
    use super::{Call, Returned, Station};

    #[rustfmt::skip]
    extern "C" {
        fn archive_check_keys(keys: *const u8, keys_len: usize, length: *mut usize) -> u32;
        fn archive_found(keys: *const u8, keys_len: usize, version: *const u8, version_len: usize,
            out: *mut u8, out_len: usize, length: *mut usize) -> u32;
        fn archive_add(keys: *const u8, keys_len: usize, archive: *const u8, archive_len: usize,
            version: *const u8, version_len: usize, out: *mut u8, out_len: usize, length: *mut usize) -> u32;
        fn archive_retrieve(keys: *const u8, keys_len: usize, archive: *const u8, archive_len: usize,
            i: usize, out: *mut u8, out_len: usize, length: *mut usize) -> u32;
        fn archive_history(keys: *const u8, keys_len: usize, archive: *const u8, archive_len: usize,
            address: *const u8, address_len: usize, out: *mut u8, out_len: usize, length: *mut usize) -> u32;
        fn archive_back(keys: *const u8, keys_len: usize, archive: *const u8, archive_len: usize,
            marks: *mut u8, marks_len: usize, i: usize, out: *mut u8, out_len: usize, length: *mut usize) -> u32;
        fn archive_back_to_mark(keys: *const u8, keys_len: usize, archive: *const u8, archive_len: usize,
            marks: *mut u8, marks_len: usize, name: *const u8, name_len: usize,
            out: *mut u8, out_len: usize, length: *mut usize) -> u32;
        fn archive_set_mark(keys: *const u8, keys_len: usize, archive: *const u8, archive_len: usize,
            marks: *mut u8, marks_len: usize, name: *const u8, name_len: usize, i: usize, length: *mut usize) -> u32;
        fn archive_find_mark(keys: *const u8, keys_len: usize, archive: *const u8, archive_len: usize,
            marks: *const u8, marks_len: usize, name: *const u8, name_len: usize,
            version: *mut usize, length: *mut usize) -> u32;
        fn archive_longest_history(n: usize, out: *mut u8, out_len: usize, length: *mut usize) -> u32;
    }

    pub struct Library;

    impl Station for Library {
        fn name(&self) -> &'static str {
            "the library libfirmware.a"
        }

        fn call(&self, keys: &[u8], call: Call, table: &mut [u8], out: &mut [u8]) -> Returned {
            let (k, kl) = (keys.as_ptr(), keys.len());
            let (m, ml) = (table.as_mut_ptr(), table.len());
            let (o, ol) = (out.as_mut_ptr(), out.len());
            // Values that no call gives: the entry has to write the length, and the version if it finds one.
            let mut length = usize::MAX;
            let l = &mut length as *mut usize;
            let mut version = if matches!(call, Call::FindMark { .. }) { usize::MAX } else { 0 };
            let v = &mut version as *mut usize;
            // Each pointer and length are those of a living slice.
            let number = unsafe {
                match call {
                    Call::CheckKeys => archive_check_keys(k, kl, l),
                    Call::Found { version } => archive_found(k, kl, version.as_ptr(), version.len(), o, ol, l),
                    Call::Add { archive, version } => {
                        archive_add(k, kl, archive.as_ptr(), archive.len(), version.as_ptr(), version.len(), o, ol, l)
                    }
                    Call::Retrieve { archive, i } => archive_retrieve(k, kl, archive.as_ptr(), archive.len(), i, o, ol, l),
                    Call::History { archive, address } => {
                        archive_history(k, kl, archive.as_ptr(), archive.len(), address.as_ptr(), address.len(), o, ol, l)
                    }
                    Call::Back { archive, i, .. } => archive_back(k, kl, archive.as_ptr(), archive.len(), m, ml, i, o, ol, l),
                    Call::BackToMark { archive, name, .. } => {
                        archive_back_to_mark(k, kl, archive.as_ptr(), archive.len(), m, ml, name.as_ptr(), name.len(), o, ol, l)
                    }
                    Call::SetMark { archive, name, i, .. } => {
                        archive_set_mark(k, kl, archive.as_ptr(), archive.len(), m, ml, name.as_ptr(), name.len(), i, l)
                    }
                    Call::FindMark { archive, name, .. } => {
                        archive_find_mark(k, kl, archive.as_ptr(), archive.len(), m, ml, name.as_ptr(), name.len(), v, l)
                    }
                    Call::LongestHistory { n } => archive_longest_history(n, o, ol, l),
                }
            };
            Returned { number, length, version }
        }
    }
}
