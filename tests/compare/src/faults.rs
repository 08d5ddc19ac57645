//! The comparison finds planted faults: those of document 01's "Held to by each call", 3, those of
//! an output, length or number that is not as promised, and those of marks, of vacant versions and of
//! the longest history (document 02, Q-2, Q-6 and Q-14). Those of byte classes by formula, each
//! range of a class one byte too wide or too narrow at each of its ends, are found by the sweep of
//! that byte alone (`bytes`), at each kind of place where the class decides. Those of line ends
//! are in `line_end_faults`.

use crate::bytes::{self, Places};
use crate::comparison::Comparison;
use crate::round;
use crate::station::{answer, Call, Reference, Returned, Station};
use reference::marks::{self, entries, Mark, TABLE_BYTES, UNUSED};
use reference::timestamp::{self, longest};
use reference::xml::is_white_space;
use reference::WORK_CELLS;

#[derive(Clone, Copy, Debug)]
enum Fault {
    None,
    AddOnlyRaisesN,
    AddHandsBack,
    BackHandsBack,
    HistoryIsAll,
    HistoryIsEmpty,
    FixedArchive,
    RefusesAll,
    RefusesExactOutput,
    WritesBeyondTheResult,
    WritesWhenRefusing,
    LengthWhenRefusing,
    TenForEleven,
    ChecksNoArchive,
    BackKeepsLater,
    BackDropsItsOwn,
    BackLosesOrder,
    SetsOverHeld,
    SetsAtTheFront,
    FindsAnother,
    FindsWhenRefusing,
    RefusalTouchesTable,
    RefusedSetWrites,
    FullBeforeHeld,
    LongNameIsTwo,
    NamedBackToN,
    NamedBackToFirst,
    TakesShortTable,
    TakesLaterMarks,
    ChecksNoTable,
    TakesNamesTwice,
    TakesBytesPastNames,
    ElevenBeforeSeventeen,
    VacantIsFive,
    OnlyEmptyIsVacant,
    VacantIsAbsent,
    RootBareOverGap,
    OuterIsTheRoots,
    EmptySetWritten,
    TakesOuterSetRepeated,
    TakesEmptySet,
    LongestOfSingles,
    LongestLosesAByte,
    LongestPastN,
    LongestUpwards,
    LongestOf1000,
    LongestOfNone,
    LongestOf16Bits,
    LongestOf32Bits,
    LongestCut,
    SeesAs(Misread),
}

/// A text that a call is lent.
#[derive(Clone, Copy, Debug)]
enum Lent {
    Keys,
    Version,
    Address,
    Archive,
}

impl Lent {
    /// This text of a call; none if the call doesn't take it.
    fn of<'a>(self, keys: &'a [u8], call: Call<'a>) -> Option<&'a [u8]> {
        match (self, call) {
            (Lent::Keys, _) => Some(keys),
            (Lent::Version, Call::Found { version } | Call::Add { version, .. }) => Some(version),
            (Lent::Address, Call::History { address, .. }) => Some(address),
            (Lent::Archive, Call::Add { archive, .. } | Call::Retrieve { archive, .. }) => Some(archive),
            (Lent::Archive, Call::History { archive, .. } | Call::Back { archive, .. }) => Some(archive),
            _ => None,
        }
    }

    /// The key list and the call with another text in place of this one.
    fn exchanged<'a>(self, keys: &'a [u8], call: Call<'a>, text: &'a [u8]) -> (&'a [u8], Call<'a>) {
        match (self, call) {
            (Lent::Keys, _) => (text, call),
            (Lent::Version, Call::Found { .. }) => (keys, Call::Found { version: text }),
            (Lent::Version, Call::Add { archive, .. }) => (keys, Call::Add { archive, version: text }),
            (Lent::Address, Call::History { archive, .. }) => (keys, Call::History { archive, address: text }),
            (Lent::Archive, Call::Add { version, .. }) => (keys, Call::Add { archive: text, version }),
            (Lent::Archive, Call::Retrieve { i, .. }) => (keys, Call::Retrieve { archive: text, i }),
            (Lent::Archive, Call::History { address, .. }) => (keys, Call::History { archive: text, address }),
            (Lent::Archive, Call::Back { table, i, .. }) => (keys, Call::Back { archive: text, table, i }),
            _ => (keys, call),
        }
    }
}

/// A wrong range: a byte of one lent text is seen as another byte.
#[derive(Clone, Copy, Debug)]
struct Misread {
    lent: Lent,
    byte: u8,
    seen_as: u8,
    /// Too wide a range takes texts that are to be refused, too narrow a range refuses legal ones.
    /// Only such calls are answered wrongly, as a byte misread in every tag would be found at once.
    too_wide: bool,
    /// The byte is misread only from the first of these places of a run up to the second. A run begins
    /// after `<`, `>` or `"`, and with the text.
    run: (usize, usize),
}

impl Misread {
    /// The texts that a text is seen as: the byte misread in one of its places, or in two, as a name is
    /// in a start tag and in its end tag.
    fn seen(&self, text: &[u8]) -> Vec<Vec<u8>> {
        let (from, to) = self.run;
        let place = |at: usize| text[..at].iter().rev().take_while(|byte| !b"<>\"".contains(byte)).count();
        let misread: Vec<usize> = (0..text.len()).filter(|&at| text[at] == self.byte && (from..to).contains(&place(at))).collect();
        let mut seen = vec![];
        for (number, &one) in misread.iter().enumerate() {
            for &other in &misread[number..] {
                let mut text = text.to_vec();
                (text[one], text[other]) = (self.seen_as, self.seen_as);
                seen.push(text);
            }
        }
        seen
    }
}

struct Faulty(Fault);

fn put(result: &[u8], out: &mut [u8]) -> Returned {
    if out.len() < result.len() {
        return refusal(14);
    }
    out[..result.len()].copy_from_slice(result);
    Returned::plain((0, result.len()))
}

fn refusal(number: u32) -> Returned {
    Returned::plain((number, 0))
}

/// The marks of a legal table.
fn marks_in(table: &[u8]) -> Vec<Mark> {
    marks::read(&entries(table).unwrap(), 999).unwrap()
}

fn write_marks(marks: &[Mark], table: &mut [u8]) {
    table.copy_from_slice(&marks::bytes(&marks::table(marks)));
}

/// The marks of the entries that are not unused, whatever else is wrong with the table.
fn marks_anyhow(table: &[u8]) -> Vec<Mark> {
    let used = entries(table).unwrap().into_iter().filter(|entry| *entry != UNUSED);
    used.filter_map(|entry| Some(Mark { name: entry.name.get(..entry.length.into())?.to_vec(), version: entry.version.into() })).collect()
}

/// What a find returns that takes a table as it is.
fn found_anyhow(table: &[u8], name: &[u8], right: Returned) -> Returned {
    marks::find(&marks_anyhow(table), name).map_or(right, |version| Returned { number: 0, version, ..right })
}

/// `1-n` of a legal archive.
fn outermost(archive: &[u8]) -> &[u8] {
    let end = archive[6..].iter().position(|&byte| byte == b'"').unwrap();
    &archive[6..6 + end]
}

/// The set of the `T` that a text is, and what is in it.
fn opened(text: &[u8]) -> Option<(&[u8], &[u8])> {
    let text = text.strip_prefix(b"<T t=\"")?.strip_suffix(b"</T>")?;
    let end = text.iter().position(|&byte| byte == b'"')?;
    Some((&text[..end], text[end + 1..].strip_prefix(b">")?))
}

fn in_t(set: &[u8], inside: &[u8]) -> Vec<u8> {
    [b"<T t=\"", set, b"\">", inside, b"</T>"].concat()
}

/// An archive's outer set, that of the root's own `T`, and the root; none if it has no such `T`.
fn root_in_t(archive: &[u8]) -> Option<(&[u8], &[u8], &[u8])> {
    let (all, inside) = opened(archive)?;
    let (own, root) = opened(inside)?;
    Some((all, own, root))
}

/// The right text of the longest history; no bytes if n is refused.
fn longest_text(n: usize) -> Vec<u8> {
    reference::longest_history(n, usize::MAX, WORK_CELLS).bytes
}

fn is_legal(keys: &[u8], archive: &[u8]) -> bool {
    reference::retrieve(keys, archive, 1, usize::MAX, WORK_CELLS).number == 0
}

impl Station for Faulty {
    fn name(&self) -> &'static str {
        "a faulty one"
    }

    fn call(&self, keys: &[u8], call: Call, table: &mut [u8], out: &mut [u8]) -> Returned {
        if let Some(wrong) = self.misread(keys, call, table, out) {
            return wrong;
        }
        let before = out.to_vec();
        let right = Reference.call(keys, call, table, out);
        let Returned { number, length, .. } = right;
        let wrong = match call {
            Call::LongestHistory { n } => self.wrong_longest(n, out.len()),
            _ => self.wrong_result(keys, call, number, &out[..length]),
        };
        if let Some(wrong) = wrong {
            out.copy_from_slice(&before);
            return put(&wrong, out);
        }
        match (self.0, call) {
            (Fault::AddOnlyRaisesN, Call::Add { archive, .. }) if number == 0 => {
                let raised = outermost(&out[..length]).to_vec();
                let rest = &archive[6 + outermost(archive).len()..];
                out.copy_from_slice(&before);
                put(&[b"<T t=\"", &raised[..], rest].concat(), out)
            }
            (Fault::AddHandsBack, Call::Add { archive, .. })
            | (Fault::BackHandsBack, Call::Back { archive, .. })
            | (Fault::NamedBackToN, Call::BackToMark { archive, .. })
                if number == 0 =>
            {
                out.copy_from_slice(&before);
                put(archive, out)
            }
            (Fault::HistoryIsAll, Call::History { archive, .. }) if number == 0 => {
                out.copy_from_slice(&before);
                put(outermost(archive), out)
            }
            (Fault::HistoryIsEmpty, Call::History { .. }) if number == 0 => {
                out.copy_from_slice(&before);
                refusal(0)
            }
            (Fault::FixedArchive, Call::Found { .. } | Call::Add { .. } | Call::Back { .. }) if number == 0 => {
                out.copy_from_slice(&before);
                put(b"<T t=\"1\"><a></a></T>", out)
            }
            (Fault::RefusesAll, _) => {
                out.copy_from_slice(&before);
                refusal(3)
            }
            (Fault::RefusesExactOutput, Call::Found { .. }) if number == 0 && length == out.len() => {
                out.copy_from_slice(&before);
                refusal(14)
            }
            (Fault::WritesBeyondTheResult, _) if number == 0 && length < out.len() => {
                out[length] ^= 1;
                right
            }
            (Fault::WritesWhenRefusing, _) if number == 14 && !out.is_empty() => {
                out[0] = b'<';
                right
            }
            (Fault::LengthWhenRefusing, _) if number == 14 => Returned { length: 1, ..right },
            (Fault::TenForEleven, _) if number == 11 => refusal(10),
            (Fault::ChecksNoArchive, Call::Retrieve { .. }) if number == 10 => put(b"", out),
            (Fault::VacantIsFive, Call::Found { version } | Call::Add { version, .. }) if number == 0 && is_white_space(version) => {
                out.copy_from_slice(&before);
                refusal(5)
            }
            (Fault::OnlyEmptyIsVacant, Call::Found { version } | Call::Add { version, .. })
                if number == 0 && is_white_space(version) && !version.is_empty() =>
            {
                out.copy_from_slice(&before);
                refusal(5)
            }
            _ => self.marked(keys, call, table, out, right),
        }
    }
}

impl Faulty {
    /// The faults of byte classes: the answer for a lent text as it is seen, where only that one or only
    /// the right one is refused; none for every other call.
    fn misread(&self, keys: &[u8], call: Call, table: &mut [u8], out: &mut [u8]) -> Option<Returned> {
        let Fault::SeesAs(misread) = self.0 else { return None };
        let is_taken = |keys: &[u8], call: Call| answer(keys, call, usize::MAX).number == 0;
        let text = misread.lent.of(keys, call)?;
        if !text.contains(&misread.byte) || is_taken(keys, call) == misread.too_wide {
            return None;
        }
        misread.seen(text).iter().find_map(|seen| {
            let (keys, call) = misread.lent.exchanged(keys, call, seen);
            (is_taken(keys, call) == misread.too_wide).then(|| Reference.call(keys, call, table, out))
        })
    }

    /// The faults of vacant versions: what is given in place of the right number and result.
    fn wrong_result(&self, keys: &[u8], call: Call, number: u32, result: &[u8]) -> Option<Vec<u8>> {
        match (self.0, call) {
            (Fault::VacantIsAbsent, Call::Add { archive, version }) if number == 0 && is_white_space(version) => Some(archive.to_vec()),
            (Fault::RootBareOverGap, _) => root_in_t(result).map(|(all, _, root)| in_t(all, root)),
            (Fault::OuterIsTheRoots, _) => root_in_t(result).map(|(_, own, root)| in_t(own, root)),
            (Fault::EmptySetWritten, Call::Back { archive, .. } | Call::BackToMark { archive, .. }) if number == 0 => {
                let (all, inside) = opened(result)?;
                let (_, _, root) = root_in_t(archive)?;
                inside.is_empty().then(|| in_t(all, &in_t(b"", root)))
            }
            (Fault::TakesOuterSetRepeated, Call::Retrieve { archive, .. } | Call::History { archive, .. } | Call::Back { archive, .. }) if number == 10 => {
                let (all, own, root) = root_in_t(archive)?;
                (all == own && is_legal(keys, &in_t(all, root))).then(Vec::new)
            }
            (Fault::TakesEmptySet, Call::Retrieve { archive, .. } | Call::History { archive, .. } | Call::Back { archive, .. }) if number == 10 => {
                let (all, own, _) = root_in_t(archive)?;
                (own.is_empty() && is_legal(keys, &in_t(all, b""))).then(Vec::new)
            }
            _ => None,
        }
    }

    /// The faults of the longest history: the text that is given in place of the right one, or of a refusal.
    fn wrong_longest(&self, n: usize, out_len: usize) -> Option<Vec<u8>> {
        let legal = (1..=999).contains(&n);
        match self.0 {
            Fault::LongestOfSingles if legal => Some(timestamp::text(&(1..=n).step_by(2).collect())),
            Fault::LongestLosesAByte if legal => longest_text(n).split_last().map(|(_, rest)| rest.to_vec()),
            Fault::LongestPastN if legal => Some(timestamp::text(&longest(n + 1))),
            // It ties: runs of two from 1 upwards.
            Fault::LongestUpwards if legal => Some(timestamp::text(&(1..=n).filter(|number| number % 3 > 0).collect())),
            Fault::LongestOf1000 if n == 1_000 => Some(timestamp::text(&longest(n))),
            Fault::LongestOfNone if n == 0 => Some(vec![]),
            Fault::LongestOf16Bits if n >= 1 << 16 => Some(longest_text(n % (1 << 16))).filter(|text| !text.is_empty()),
            Fault::LongestOf32Bits if n >= 1 << 32 => Some(longest_text(n % (1 << 32))).filter(|text| !text.is_empty()),
            Fault::LongestCut if legal => longest_text(n).get(..out_len).map(<[u8]>::to_vec),
            _ => None,
        }
    }

    /// The faults of marks; `right` is what the call should return, and gave to the table and the output.
    fn marked(&self, keys: &[u8], call: Call, table: &mut [u8], out: &mut [u8], right: Returned) -> Returned {
        let number = right.number;
        match (self.0, call) {
            (Fault::BackKeepsLater, Call::Back { .. } | Call::BackToMark { .. }) => {
                table.copy_from_slice(call.table());
                right
            }
            (Fault::BackDropsItsOwn, Call::Back { i, .. }) if number == 0 => {
                let kept: Vec<Mark> = marks_in(table).into_iter().filter(|mark| mark.version < i).collect();
                write_marks(&kept, table);
                right
            }
            (Fault::BackLosesOrder, Call::Back { .. } | Call::BackToMark { .. }) if number == 0 && table != call.table() => {
                let mut kept = marks_in(table);
                kept.reverse();
                write_marks(&kept, table);
                right
            }
            (Fault::SetsOverHeld, Call::SetMark { name, i, .. }) if number == 15 && i == 1 => {
                let mut marks = marks_in(table);
                let Some(held) = marks.iter_mut().find(|mark| mark.name == name) else { return right };
                held.version = i;
                write_marks(&marks, table);
                refusal(0)
            }
            (Fault::SetsAtTheFront, Call::SetMark { .. }) if number == 0 => {
                let mut marks = marks_in(table);
                marks.rotate_right(1);
                write_marks(&marks, table);
                right
            }
            (Fault::FindsAnother, Call::FindMark { .. }) if number == 0 => Returned { version: marks_in(table)[0].version, ..right },
            (Fault::FindsWhenRefusing, Call::FindMark { .. }) if number == 15 => {
                let first = marks_in(table).first().map_or(0, |mark| mark.version);
                Returned { version: first, ..right }
            }
            (Fault::RefusalTouchesTable, Call::Back { i, .. }) if number == 14 => {
                let kept: Vec<Mark> = marks_in(table).into_iter().filter(|mark| mark.version <= i).collect();
                write_marks(&kept, table);
                right
            }
            (Fault::RefusedSetWrites, Call::SetMark { name, i, .. }) if number == 11 => {
                let mut marks = marks_in(table);
                marks.push(Mark { name: name.to_vec(), version: i });
                write_marks(&marks, table);
                right
            }
            (Fault::FullBeforeHeld, Call::SetMark { .. }) if number == 15 && marks_in(table).len() == 32 => refusal(16),
            (Fault::LongNameIsTwo, Call::FindMark { name, .. }) if number == 15 && name.len() > 16 => refusal(2),
            (Fault::NamedBackToFirst, Call::BackToMark { archive, .. }) if number == 0 => {
                let i = marks_in(call.table())[0].version;
                out.fill(0);
                table.copy_from_slice(call.table());
                Reference.call(keys, Call::Back { archive, table: call.table(), i }, table, out)
            }
            (Fault::TakesShortTable, _) if number == 17 && table.len() == TABLE_BYTES - 1 => refusal(0),
            (Fault::TakesLaterMarks, Call::FindMark { name, .. }) if number == 17 => {
                let fits = entries(table).is_some_and(|entries| marks::read(&entries, 65_535).is_ok());
                if fits { found_anyhow(table, name, right) } else { right }
            }
            (Fault::ChecksNoTable, Call::FindMark { name, .. }) if number == 17 && table.len() == TABLE_BYTES => found_anyhow(table, name, right),
            (Fault::TakesNamesTwice, Call::FindMark { name, .. }) if number == 17 && table.len() == TABLE_BYTES => {
                let all = marks_anyhow(table);
                let mut distinct = all.clone();
                distinct.sort_by(|a, b| a.name.cmp(&b.name));
                distinct.dedup_by(|a, b| a.name == b.name);
                let fits = marks::read(&marks::table(&distinct), 999).is_ok() && distinct.len() < all.len();
                if fits { found_anyhow(table, name, right) } else { right }
            }
            (Fault::TakesBytesPastNames, Call::Back { .. }) if number == 17 && table.len() == TABLE_BYTES => {
                let mended = marks::bytes(&marks::table(&marks_anyhow(table)));
                let fits = marks::read(&entries(&mended).unwrap(), 999).is_ok();
                if fits && mended != table { put(b"", out) } else { right }
            }
            (Fault::ElevenBeforeSeventeen, Call::Back { i, .. }) if number == 17 && !(1..=999).contains(&i) => refusal(11),
            _ => right,
        }
    }
}

/// Whether a round, of sixty, finds a difference.
fn is_found(fault: Fault) -> bool {
    let station = Faulty(fault);
    let mut c = Comparison::new(&station);
    (0..60).any(|number| {
        round(&mut c, 7, number);
        !c.differences.is_empty()
    })
}

#[test]
fn no_fault_no_difference() {
    assert!(!is_found(Fault::None));
}

#[test]
fn each_fault_is_found() {
    use Fault::*;
    let faults = [
        AddOnlyRaisesN, AddHandsBack, BackHandsBack, HistoryIsAll, HistoryIsEmpty, FixedArchive, RefusesAll, RefusesExactOutput,
        WritesBeyondTheResult, WritesWhenRefusing, LengthWhenRefusing, TenForEleven, ChecksNoArchive, BackKeepsLater, BackDropsItsOwn,
        BackLosesOrder, SetsOverHeld, SetsAtTheFront, FindsAnother, FindsWhenRefusing, RefusalTouchesTable, RefusedSetWrites,
        FullBeforeHeld, LongNameIsTwo, NamedBackToN, NamedBackToFirst, TakesShortTable, TakesLaterMarks, ChecksNoTable, TakesNamesTwice,
        TakesBytesPastNames, ElevenBeforeSeventeen, VacantIsFive, OnlyEmptyIsVacant, VacantIsAbsent, RootBareOverGap, OuterIsTheRoots,
        EmptySetWritten, TakesOuterSetRepeated, TakesEmptySet, LongestOfSingles, LongestLosesAByte, LongestPastN, LongestUpwards,
        LongestOf1000, LongestOfNone, LongestOf16Bits, LongestOf32Bits, LongestCut,
    ];
    for fault in faults {
        assert!(is_found(fault), "{fault:?}");
    }
}

/// All places of a run.
const ANY: (usize, usize) = (0, usize::MAX);

/// The ends of the ranges of name bytes, and the name bytes in no range: the byte outside and that one.
const NAME_ENDS: [(u8, u8); 10] = [
    (b'@', b'A'), (b'[', b'Z'), (b'`', b'a'), (b'{', b'z'), (b'/', b'0'), (b':', b'9'), (b'^', b'_'), (b'`', b'_'), (b',', b'-'), (b'/', b'.'),
];

/// The ends of the range of text. The space is white space, so the least byte of other text is the next.
const TEXT_ENDS: [(u8, u8); 2] = [(0x1F, b'!'), (0x7F, b'~')];

/// Asserts that the sweep of the misread byte at these places finds the fault: a part of `bytes::run`.
fn assert_found(places: &Places, misread: Misread) {
    let station = Faulty(Fault::SeesAs(misread));
    let mut c = Comparison::new(&station);
    places.ask(&mut c, misread.byte);
    assert!(!c.differences.is_empty(), "{misread:x?}");
}

/// A range is too wide: it takes the byte outside as the one at its end.
fn assert_wide_found(places: &Places, lent: Lent, run: (usize, usize), (outside, end): (u8, u8)) {
    assert_found(places, Misread { lent, byte: outside, seen_as: end, too_wide: true, run });
}

/// A range is too narrow: the byte at its end is taken as the one outside.
fn assert_narrow_found(places: &Places, lent: Lent, run: (usize, usize), (outside, end): (u8, u8)) {
    assert_found(places, Misread { lent, byte: end, seen_as: outside, too_wide: false, run });
}

fn wrong_name_bytes(places: &Places, lent: Lent, run: (usize, usize)) {
    for ends in NAME_ENDS {
        assert_wide_found(places, lent, run, ends);
        assert_narrow_found(places, lent, run, ends);
    }
    // The highest bit is not looked at.
    for byte in *b"AZaz09._-" {
        assert_wide_found(places, lent, run, (byte | 0x80, byte));
    }
}

/// Other name bytes begin a name, or `_` does not.
fn wrong_first_bytes(places: &Places, lent: Lent) {
    for byte in *b"09.-" {
        assert_wide_found(places, lent, ANY, (byte, b'n'));
    }
    assert_narrow_found(places, lent, ANY, (b'-', b'_'));
}

fn wrong_texts(places: &Places, lent: Lent, run: (usize, usize)) {
    for ends in TEXT_ENDS {
        assert_wide_found(places, lent, run, ends);
        assert_narrow_found(places, lent, run, ends);
    }
    for byte in [0x00, 0x80, 0xA1, 0xFF, b'&', b'<'] {
        assert_wide_found(places, lent, run, (byte, b'!'));
    }
    // The bytes beside `&` and `<` are taken as these.
    for ends in [(b'&', b'%'), (b'&', b'\''), (b'<', b';'), (b'<', b'=')] {
        assert_narrow_found(places, lent, run, ends);
    }
}

/// Too much or too little is taken as white space: what is none is illegal, or other text.
fn wrong_white_space(places: &Places, run: (usize, usize)) {
    for (byte, white_space) in [(0x08, b'\t'), (0x0B, b'\n'), (0x0C, b'\r'), (0x0E, b'\r'), (0x1F, b' '), (b'!', b' '), (0x00, b' '), (0x85, b' '), (0xA0, b' ')] {
        assert_wide_found(places, Lent::Version, run, (byte, white_space));
    }
    for white_space in *b"\t\n\r " {
        for byte in [0x0B, b'!'] {
            assert_narrow_found(places, Lent::Version, run, (byte, white_space));
        }
    }
}

fn wrong_digits(places: &Places, run: (usize, usize)) {
    for ends in [(b'/', b'0'), (b':', b'9')] {
        assert_wide_found(places, Lent::Archive, run, ends);
        assert_narrow_found(places, Lent::Archive, run, ends);
    }
    assert_wide_found(places, Lent::Archive, run, (b'0' | 0x80, b'0'));
}

#[test]
fn each_wrong_range_is_found() {
    use Lent::*;
    let [texts, white_space, names, values, key_lists, addresses, timestamps, _] = bytes::kinds();
    for (places, lent) in [(&names, Version), (&names, Archive), (&key_lists, Keys)] {
        wrong_first_bytes(places, lent);
    }
    wrong_name_bytes(&names, Archive, ANY);
    wrong_name_bytes(&key_lists, Keys, ANY);
    // In every place of a run, or only in some: a scanner may compare a block of bytes by other means.
    for run in [ANY, (1, 16), (16, 31), (31, 32)] {
        for (places, lent) in [(&names, Version), (&values, Version), (&values, Archive), (&addresses, Address)] {
            wrong_name_bytes(places, lent, run);
        }
    }
    for run in [ANY, (0, 6), (6, 9), (14, 18), (16, 32), (32, 34), (34, usize::MAX)] {
        wrong_texts(&texts, Version, run);
        wrong_texts(&texts, Archive, run);
    }
    for run in [ANY, (0, 8), (8, 16), (16, 32), (32, usize::MAX)] {
        wrong_white_space(&white_space, run);
    }
    for run in [ANY, (0, 16), (16, 32), (32, 48), (48, usize::MAX)] {
        wrong_digits(&timestamps, run);
    }
}

#[test]
fn no_wrong_range_no_difference() {
    let station = Faulty(Fault::None);
    let mut c = Comparison::new(&station);
    bytes::run(&mut c);
    assert!(c.differences.is_empty(), "{}", c.summary());
}
