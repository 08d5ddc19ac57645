//! The comparison finds planted faults of line ends (document 02, Q-4): in the step, in what comes before it and after
//! it, in the comparison of contents, in archives holding CR. Each is found by the fixed cases of one kind alone
//! (`line_ends`), and by the rounds alone.

use crate::comparison::Comparison;
use crate::line_ends::kinds;
use crate::round;
use crate::station::{Call, Reference, Returned, Station};
use reference::archive::{archive, versions};
use reference::keys::{join, KeyList};
use reference::version::{read, read_received, Element, Node, Version};
use reference::xml::{is_white_space, line_ends};
use reference::{Outcome, ARCHIVE_BYTES, ARCHIVE_NODES, KEY_LIST_BYTES, VERSIONS, VERSION_BYTES};

#[derive(Clone, Copy, Debug, PartialEq, Eq)]
enum Fault {
    NoFault,
    // The step, by bytes.
    NoStep,
    CrLfIsTwo,
    LoneCrKept,
    LoneCrDropped,
    CrLfKept,
    CrDropped,
    LfCrIsOne,
    CrCrIsOne,
    CrCrLfIsOne,
    CrLfAcrossABorderOfTheText,
    CrBeforeAnEntityKept,
    CrInATagDropped,
    CharacterReferenceTaken,
    // The step, by runs.
    OnlyDirectlyInAFrontier,
    OnlyInElementsOfAFrontier,
    OnlyTheFirstOfARun,
    FirstByteOfARunKept,
    LastByteOfARunKept,
    CrLfAcrossABorderOfARun,
    KeptInBlocks,
    KeptInShortRuns,
    KeptInLongRuns,
    KeptAfterTheLastBlock,
    // What is before the step, and after it.
    TwoAfterTheStep,
    TwoAfterTheStepWhenVacant,
    SixBeforeTheStep,
    VacantWithCrRefused,
    CrAroundTheRootRefused,
    DroppedCrRefused,
    BracketsAcrossCr,
    AddsWithoutTheStep,
    // Contents compared.
    ComparedAsLent,
    LineEndsNotCompared,
    ByteAfterTheLastEndNotCompared,
    ByteBeforeTheLastEndNotCompared,
    LastCrNotCompared,
    // Other texts.
    KeyListToo,
    AddressToo,
    /// An archive holding CR is taken, by each call.
    Takes(Seen),
}

/// How an archive holding CR is seen.
#[derive(Clone, Copy, Debug, PartialEq, Eq)]
enum Seen {
    /// CR LF and a lone CR as LF.
    WithTheStep,
    /// CR LF as LF; a lone CR is refused still.
    CrLfAsLf,
    /// A lone CR as LF; CR LF is refused still.
    LoneCrAsLf,
    /// Line ends around it are not looked at.
    WithoutItsEnds,
    /// As before Q-4: CR is white space and legal text.
    AsBefore,
}

struct Misreading(Fault);

fn replaced(text: &[u8], from: &[u8], to: &[u8]) -> Vec<u8> {
    let mut all = vec![];
    let mut rest = text;
    while !rest.is_empty() {
        if let Some(after) = rest.strip_prefix(from) {
            all.extend_from_slice(to);
            rest = after;
        } else {
            all.push(rest[0]);
            rest = &rest[1..];
        }
    }
    all
}

/// The step by places: CR and CR LF at a place are read as LF, or kept.
fn where_read(text: &[u8], is_read: impl Fn(usize) -> bool) -> Vec<u8> {
    let mut seen = vec![];
    for (at, &byte) in text.iter().enumerate() {
        let after_cr = at > 0 && text[at - 1] == b'\r';
        match byte {
            b'\r' if is_read(at) => seen.push(b'\n'),
            b'\n' if after_cr && is_read(at - 1) => (),
            _ => seen.push(byte),
        }
    }
    seen
}

/// The step, but for a CR LF of which the CR is the last byte of a block of sixteen: it is read as two.
fn border_missed(text: &[u8]) -> Vec<u8> {
    let mut seen = vec![];
    for (at, &byte) in text.iter().enumerate() {
        let after_cr = at > 0 && text[at - 1] == b'\r';
        match byte {
            b'\r' => seen.push(b'\n'),
            b'\n' if after_cr && at % 16 != 0 => (),
            _ => seen.push(byte),
        }
    }
    seen
}

/// Without the CRs in tags.
fn without_cr_in_tags(text: &[u8]) -> Vec<u8> {
    let mut in_tag = false;
    let mut seen = vec![];
    for &byte in text {
        in_tag = (in_tag || byte == b'<') && byte != b'>';
        if !(in_tag && byte == b'\r') {
            seen.push(byte);
        }
    }
    seen
}

/// Without the line ends around it.
fn without_ends(text: &[u8]) -> Vec<u8> {
    let is_end = |byte: &u8| *byte == b'\r' || *byte == b'\n';
    let from = text.iter().position(|byte| !is_end(byte)).unwrap_or(text.len());
    let to = text.iter().rposition(|byte| !is_end(byte)).map_or(from, |last| last + 1);
    text[from..to].to_vec()
}

/// A version with each run of its frontiers seen otherwise; the function is told whether the run stands directly in one.
fn each_run(keys: &KeyList, version: Version, see: &dyn Fn(bool, &[u8]) -> Vec<u8>) -> Version {
    version.map(|root| above(keys, b"", root, see))
}

fn above(keys: &KeyList, parent: &[u8], element: Element, see: &dyn Fn(bool, &[u8]) -> Vec<u8>) -> Element {
    let path = join(parent, &element.name);
    if keys.is_frontier(&path) {
        return within(element, true, see);
    }
    let node = |node: Node| match node {
        Node::Element(child) => Node::Element(above(keys, &path, child, see)),
        Node::Text(text) => Node::Text(text),
    };
    Element { content: element.content.into_iter().map(node).collect(), ..element }
}

fn within(element: Element, directly: bool, see: &dyn Fn(bool, &[u8]) -> Vec<u8>) -> Element {
    let node = |node: Node| match node {
        Node::Element(child) => Node::Element(within(child, false, see)),
        Node::Text(text) => Node::Text(see(directly, &text)),
    };
    Element { content: element.content.into_iter().map(node).collect(), ..element }
}

/// All runs of text of versions.
fn runs_of(versions: &[Version]) -> Vec<Vec<u8>> {
    fn down(element: &Element, runs: &mut Vec<Vec<u8>>) {
        for node in &element.content {
            match node {
                Node::Element(child) => down(child, runs),
                Node::Text(text) => runs.push(text.clone()),
            }
        }
    }
    let mut runs = vec![];
    versions.iter().flatten().for_each(|root| down(root, &mut runs));
    runs
}

/// The only place where two runs of one length differ.
fn only_difference(one: &[u8], other: &[u8]) -> Option<usize> {
    let mut places = (0..one.len()).filter(|&at| one.len() == other.len() && one[at] != other[at]);
    let first = places.next()?;
    places.next().is_none().then_some(first)
}

impl Misreading {
    /// The version that a text is taken for.
    fn read(&self, keys: &KeyList, text: &[u8]) -> Outcome<Version> {
        use Fault::*;
        let has_cr = text.contains(&b'\r');
        let received = match self.0 {
            NoStep => text.to_vec(),
            CrLfIsTwo => replaced(text, b"\r", b"\n"),
            LoneCrKept => replaced(text, b"\r\n", b"\n"),
            LoneCrDropped => replaced(&replaced(text, b"\r\n", b"\n"), b"\r", b""),
            CrLfKept => where_read(text, |at| text.get(at + 1) != Some(&b'\n')),
            CrDropped => replaced(text, b"\r", b""),
            LfCrIsOne => line_ends(&replaced(text, b"\n\r", b"\n")),
            CrCrIsOne => line_ends(&replaced(text, b"\r\r", b"\r")),
            CrCrLfIsOne => line_ends(&replaced(text, b"\r\r\n", b"\n")),
            CrLfAcrossABorderOfTheText => border_missed(text),
            CrBeforeAnEntityKept => where_read(text, |at| text.get(at + 1) != Some(&b'&')),
            CrInATagDropped => line_ends(&without_cr_in_tags(text)),
            CharacterReferenceTaken => line_ends(&replaced(text, b"&#13;", b"\r")),
            VacantWithCrRefused if has_cr && is_white_space(text) => return Err(5),
            CrAroundTheRootRefused if has_cr && !is_white_space(text) => {
                let first = text.iter().position(|&byte| byte == b'<').unwrap_or(text.len());
                let last = text.iter().rposition(|&byte| byte == b'>').unwrap_or(0);
                if text[..first].contains(&b'\r') || text[last..].contains(&b'\r') {
                    return Err(5);
                }
                line_ends(text)
            }
            DroppedCrRefused if read(keys, text).is_ok() && read(keys, &replaced(text, b"\r", b"\rx")) == Err(7) => return Err(7),
            BracketsAcrossCr if [&b"]]\r>"[..], b"]]\r\n>"].iter().any(|brackets| text.windows(brackets.len()).any(|window| window == *brackets)) => return Err(5),
            SixBeforeTheStep if read_received(keys, text) == Err(6) => return Err(6),
            _ => line_ends(text),
        };
        let version = read_received(keys, &received)?;
        // Faults by runs: of a version that is taken anyway.
        match (self.by_runs(), read_received(keys, text)) {
            (Some(see), Ok(lent)) => Ok(each_run(keys, lent, see)),
            _ => Ok(version),
        }
    }

    /// How a run is seen, told whether it stands directly in a frontier.
    fn by_runs(&self) -> Option<&'static dyn Fn(bool, &[u8]) -> Vec<u8>> {
        use Fault::*;
        Some(match self.0 {
            OnlyDirectlyInAFrontier => &|directly, run| where_read(run, |_| directly),
            OnlyInElementsOfAFrontier => &|directly, run| where_read(run, |_| !directly),
            OnlyTheFirstOfARun => &|_, run| {
                let first = run.iter().position(|&byte| byte == b'\r' || byte == b'\n');
                where_read(run, |at| Some(at) == first)
            },
            FirstByteOfARunKept => &|_, run| where_read(run, |at| at > 0),
            LastByteOfARunKept => &|_, run| where_read(run, |at| at + 1 < run.len()),
            CrLfAcrossABorderOfARun => &|_, run| border_missed(run),
            // A scanner that reads the first sixteen bytes one by one, then blocks of sixteen, then the rest.
            KeptInBlocks => &|_, run| where_read(run, |at| at < 16 || at >= run.len() - run.len() % 16),
            KeptAfterTheLastBlock => &|_, run| where_read(run, |at| at < 16 || at < run.len() - run.len() % 16),
            KeptInShortRuns => &|_, run| where_read(run, |_| run.len() >= 16),
            KeptInLongRuns => &|_, run| where_read(run, |_| run.len() <= 128),
            _ => return None,
        })
    }

    /// What a founding, or an add, gives with an output that is long enough.
    fn made(&self, keys: &[u8], lent: Option<&[u8]>, text: &[u8]) -> Outcome<Vec<u8>> {
        let after_step = match self.0 {
            Fault::TwoAfterTheStep => true,
            Fault::TwoAfterTheStepWhenVacant => is_white_space(text),
            _ => false,
        };
        let length = if after_step { line_ends(text).len() } else { text.len() };
        if keys.len() > KEY_LIST_BYTES || length > VERSION_BYTES || lent.is_some_and(|archive| archive.len() > ARCHIVE_BYTES) {
            return Err(2);
        }
        let keys = &KeyList::read(keys)?;
        let version = match self.0 {
            Fault::AddsWithoutTheStep if lent.is_some() => read_received(keys, text)?,
            _ => self.read(keys, text)?,
        };
        let mut all = lent.map_or(Ok(vec![]), |archive| versions(keys, archive))?;
        if all.len() == VERSIONS {
            return Err(11);
        }
        all.push(self.as_compared(keys, text, version, &all));
        let made = archive(keys, &all);
        if made.nodes > ARCHIVE_NODES || made.bytes.len() > ARCHIVE_BYTES {
            return Err(13);
        }
        Ok(if self.0 == Fault::ComparedAsLent { line_ends(&made.bytes) } else { made.bytes })
    }

    /// A version as its contents are compared with those of others: a run that is taken for another's is that one.
    fn as_compared(&self, keys: &KeyList, text: &[u8], version: Version, others: &[Version]) -> Version {
        let runs = runs_of(others);
        let taken_for = |run: &[u8], fits: &dyn Fn(&[u8]) -> bool| runs.iter().find(|other| fits(other)).cloned().unwrap_or(run.to_vec());
        let last_end = |run: &[u8]| run.iter().rposition(|&byte| byte == b'\n');
        let beside = |run: &[u8], place: Option<usize>| taken_for(run, &|other| place.is_some() && only_difference(run, other) == place);
        let lent = || read_received(keys, text).unwrap_or(version.clone());
        match self.0 {
            Fault::ComparedAsLent => lent(),
            Fault::LineEndsNotCompared => each_run(keys, version, &|_, run| taken_for(run, &|other| replaced(run, b"\n", b"") == replaced(other, b"\n", b""))),
            Fault::ByteAfterTheLastEndNotCompared => each_run(keys, version, &|_, run| beside(run, last_end(run).map(|at| at + 1))),
            Fault::ByteBeforeTheLastEndNotCompared => each_run(keys, version, &|_, run| beside(run, last_end(run).and_then(|at| at.checked_sub(1)))),
            Fault::LastCrNotCompared => each_run(keys, lent(), &|_, run| {
                let received = line_ends(run);
                let last = if run.ends_with(b"\r") { Some(received.len() - 1) } else { None };
                beside(&received, last)
            }),
            _ => version,
        }
    }

    /// The call as it is seen, if it is lent an archive holding CR, a key list or an address, and this is misread.
    fn as_seen(&self, keys: &[u8], call: Call, table: &mut [u8], out: &mut [u8]) -> Option<Returned> {
        match (self.0, call) {
            (Fault::KeyListToo, _) => Some(Reference.call(&line_ends(keys), call, table, out)),
            (Fault::AddressToo, Call::History { archive, address }) if address.contains(&b'\r') => {
                // Line ends around it are none of its bytes.
                let address = &without_ends(address);
                Some(Reference.call(keys, Call::History { archive, address }, table, out))
            }
            (Fault::Takes(seen), _) => {
                let lent = archive_of(call).filter(|archive| archive.contains(&b'\r') && archive.len() <= ARCHIVE_BYTES)?;
                let archive = match seen {
                    Seen::AsBefore => return with_tabs(keys, call, lent, table, out),
                    Seen::WithTheStep => line_ends(lent),
                    Seen::CrLfAsLf => replaced(lent, b"\r\n", b"\n"),
                    Seen::LoneCrAsLf => where_read(lent, |at| lent.get(at + 1) != Some(&b'\n')),
                    Seen::WithoutItsEnds => without_ends(lent),
                };
                Some(Reference.call(keys, with_archive(call, &archive), table, out))
            }
            _ => None,
        }
    }
}

fn archive_of<'a>(call: Call<'a>) -> Option<&'a [u8]> {
    match call {
        Call::Add { archive, .. } | Call::Retrieve { archive, .. } | Call::History { archive, .. } | Call::Back { archive, .. } => Some(archive),
        Call::BackToMark { archive, .. } | Call::SetMark { archive, .. } | Call::FindMark { archive, .. } => Some(archive),
        Call::CheckKeys | Call::Found { .. } | Call::LongestHistory { .. } => None,
    }
}

fn with_archive<'a>(call: Call<'a>, archive: &'a [u8]) -> Call<'a> {
    match call {
        Call::Add { version, .. } => Call::Add { archive, version },
        Call::Retrieve { i, .. } => Call::Retrieve { archive, i },
        Call::History { address, .. } => Call::History { archive, address },
        Call::Back { table, i, .. } => Call::Back { archive, table, i },
        Call::BackToMark { table, name, .. } => Call::BackToMark { archive, table, name },
        Call::SetMark { table, name, i, .. } => Call::SetMark { archive, table, name, i },
        Call::FindMark { table, name, .. } => Call::FindMark { archive, table, name },
        Call::CheckKeys | Call::Found { .. } | Call::LongestHistory { .. } => call,
    }
}

/// An archive whose CRs are legal text: those of one with tabs in their place, of which the result has CRs again.
fn with_tabs(keys: &[u8], call: Call, lent: &[u8], table: &mut [u8], out: &mut [u8]) -> Option<Returned> {
    if lent.contains(&b'\t') {
        return None;
    }
    let returned = Reference.call(keys, with_archive(call, &replaced(lent, b"\r", b"\t")), table, out);
    out[..returned.length].iter_mut().filter(|byte| **byte == b'\t').for_each(|byte| *byte = b'\r');
    Some(returned)
}

impl Station for Misreading {
    fn name(&self) -> &'static str {
        "one that misreads line ends"
    }

    fn call(&self, keys: &[u8], call: Call, table: &mut [u8], out: &mut [u8]) -> Returned {
        if let Some(returned) = self.as_seen(keys, call, table, out) {
            return returned;
        }
        let made = match call {
            Call::Found { version } => self.made(keys, None, version),
            Call::Add { archive, version } => self.made(keys, Some(archive), version),
            _ => return Reference.call(keys, call, table, out),
        };
        Returned::plain(match made {
            Err(number) => (number, 0),
            Ok(bytes) if bytes.len() > out.len() => (14, 0),
            Ok(bytes) => {
                out[..bytes.len()].copy_from_slice(&bytes);
                (0, bytes.len())
            }
        })
    }
}

/// The faults but for those of archives, by the kind of the fixed cases that finds them.
fn faults() -> Vec<(&'static str, Vec<Fault>)> {
    use Fault::*;
    let step = vec![
        NoStep, CrLfIsTwo, LoneCrKept, LoneCrDropped, CrLfKept, CrDropped, LfCrIsOne, CrCrIsOne, CrCrLfIsOne, CrLfAcrossABorderOfTheText,
        CrLfAcrossABorderOfARun, OnlyDirectlyInAFrontier, OnlyInElementsOfAFrontier, OnlyTheFirstOfARun, FirstByteOfARunKept, LastByteOfARunKept,
        KeptInBlocks, KeptAfterTheLastBlock, KeptInShortRuns,
    ];
    vec![
        ("places of runs", step),
        ("long runs", vec![KeptInLongRuns]),
        ("spellings", vec![CrBeforeAnEntityKept, CrInATagDropped, CharacterReferenceTaken, BracketsAcrossCr]),
        ("white space", vec![VacantWithCrRefused, CrAroundTheRootRefused, DroppedCrRefused]),
        ("contents", vec![ComparedAsLent, LineEndsNotCompared, ByteAfterTheLastEndNotCompared, ByteBeforeTheLastEndNotCompared, LastCrNotCompared]),
        ("tablets", vec![AddsWithoutTheStep]),
        ("sizes", vec![TwoAfterTheStep, TwoAfterTheStepWhenVacant, SixBeforeTheStep]),
        ("other texts", vec![KeyListToo, AddressToo]),
    ]
}

const SEEN: [Seen; 5] = [Seen::WithTheStep, Seen::CrLfAsLf, Seen::LoneCrAsLf, Seen::WithoutItsEnds, Seen::AsBefore];

/// The calls that have a difference, by their numbers.
fn calls_found(c: &Comparison) -> Vec<usize> {
    let mut calls: Vec<usize> = c.differences.keys().map(|(call, _, _)| *call).collect();
    calls.dedup();
    calls
}

/// Runs the fixed cases of a kind.
fn run_kind(c: &mut Comparison, wanted: &str) {
    kinds().iter().filter(|(name, _)| *name == wanted).for_each(|(_, kind)| kind(c));
}

/// Runs rounds, at most 300, until these calls have a difference.
fn run_rounds(c: &mut Comparison, calls: &[usize]) -> bool {
    (0..300).any(|number| {
        round(c, 7, number);
        let found = calls_found(c);
        !found.is_empty() && calls.iter().all(|call| found.contains(call))
    })
}

#[test]
fn no_fault_no_difference() {
    let station = Misreading(Fault::NoFault);
    let mut c = Comparison::new(&station);
    kinds().iter().for_each(|(_, kind)| kind(&mut c));
    (0..60).for_each(|number| round(&mut c, 7, number));
    assert!(c.differences.is_empty(), "{}", c.summary());
}

#[test]
fn each_fault_is_found_by_its_cases() {
    for (kind, faults) in faults() {
        for fault in faults {
            let station = Misreading(fault);
            let mut c = Comparison::new(&station);
            run_kind(&mut c, kind);
            assert!(!c.differences.is_empty(), "{kind}: {fault:?}");
        }
    }
}

#[test]
fn each_fault_is_found_by_rounds() {
    for fault in faults().into_iter().flat_map(|(_, faults)| faults) {
        let station = Misreading(fault);
        assert!(run_rounds(&mut Comparison::new(&station), &[]), "{fault:?}");
    }
}

/// Each call that takes an archive takes one holding CR: add, retrieve, history, back, those over marks. The rounds ask
/// the first four of them often enough.
#[test]
fn archives_holding_cr_are_found() {
    for seen in SEEN {
        let station = Misreading(Fault::Takes(seen));
        let mut c = Comparison::new(&station);
        run_kind(&mut c, "archives");
        assert_eq!(calls_found(&c), [2, 3, 4, 5, 6, 7, 8], "{seen:?}");
        assert!(run_rounds(&mut Comparison::new(&station), &[2, 3, 4, 5]), "{seen:?}");
    }
}
