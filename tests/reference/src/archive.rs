//! Archives: the archive of a list of versions, and which texts are one.

use crate::keys::{join, KeyList};
use crate::timestamp::{self, Timestamp};
use crate::version::{self, elements, key, Element, Key, Node, Version};
use crate::written::Written;
use crate::{Outcome, ARCHIVE_NODES};
use std::collections::BTreeMap;

/// The versions that contain a keyed element: number and the element there, ascending.
type Standing<'a> = Vec<(usize, &'a Element)>;

/// The archive of n legal versions, n at least 1. "The outer `T` still reads `1-n`. The root is
/// treated as any other child: wrapped in its own `T` when its set differs, and left out if no
/// version has it" (Q-6).
pub fn archive(keys: &KeyList, versions: &[Version]) -> Written {
    let all: Timestamp = (1..=versions.len()).collect();
    let roots: Standing = (1..).zip(versions).filter_map(|(number, version)| Some((number, version.as_ref()?))).collect();
    let mut out = Written::default();
    out.open_t(&all);
    if !roots.is_empty() {
        keyed_element(keys, b"", &roots, &all, &mut out);
    }
    out.close_t();
    out
}

fn set_of(standing: &Standing) -> Timestamp {
    standing.iter().map(|(number, _)| *number).collect()
}

/// A keyed element, in a `T` if the set of versions containing it differs from its parent's.
fn keyed_element(keys: &KeyList, parent: &[u8], standing: &Standing, parents_set: &Timestamp, out: &mut Written) {
    let name = &standing[0].1.name;
    let path = join(parent, name);
    let set = set_of(standing);
    let differs = set != *parents_set;
    if differs {
        out.open_t(&set);
    }
    out.open(name);
    if keys.is_frontier(&path) {
        frontier_contents(standing, out);
    } else {
        // Each keyed element stands once among its siblings, in their order.
        let mut children: BTreeMap<Key, Standing> = BTreeMap::new();
        for (number, element) in standing {
            for child in elements(element) {
                children.entry(key(keys, &path, child)).or_default().push((*number, child));
            }
        }
        for child in children.values() {
            keyed_element(keys, &path, child, &set, out);
        }
    }
    out.close(name);
    if differs {
        out.close_t();
    }
}

/// One content over a frontier's life is bare; of two or more, each distinct one is in a `T`
/// with its versions, ordered by first version.
fn frontier_contents(standing: &Standing, out: &mut Written) {
    let mut contents: Vec<(&[Node], Timestamp)> = vec![];
    for (number, element) in standing {
        match contents.iter_mut().find(|(content, _)| *content == &element.content[..]) {
            Some((_, set)) => set.push(*number),
            None => contents.push((&element.content, vec![*number])),
        }
    }
    match &contents[..] {
        [(content, _)] => out.content(content),
        _ => {
            for (content, set) in contents {
                out.open_t(&set);
                out.content(content);
                out.close_t();
            }
        }
    }
}

/// The versions of a legal archive, or 10.
///
/// If a text is the archive of some versions, then they are its candidates (as version texts in
/// written form; that of a vacant version is empty). So it is legal exactly if its candidates are legal versions and it is their archive.
/// A text holding CR is none: a candidate's CR is read as LF, so no archive of the candidates has one.
pub fn versions(keys: &KeyList, text: &[u8]) -> Outcome<Vec<Version>> {
    let candidates = candidates(text).ok_or(10u32)?;
    let versions: Outcome<Vec<Version>> = candidates.iter().map(|text| version::read(keys, text)).collect();
    let versions = versions.map_err(|_| 10u32)?;
    let archive = archive(keys, &versions);
    if archive.bytes != text || archive.nodes > ARCHIVE_NODES {
        return Err(10);
    }
    Ok(versions)
}

/// A part of an archive's text: a tag of `T`, or other bytes.
enum Part<'a> {
    OpenT(Timestamp),
    CloseT,
    Other(&'a [u8]),
}

/// The texts of the only versions that `text` can be the archive of: version i has the bytes
/// that are in no `T` without i. None if the text doesn't begin as an archive or its `T`s don't match.
fn candidates(text: &[u8]) -> Option<Vec<Vec<u8>>> {
    let parts = parts(text)?;
    let Some(Part::OpenT(all)) = parts.first() else { return None };
    // The outermost set is 1 to n, with n at least 1.
    if all.is_empty() || *all != (1..=all.len()).collect::<Timestamp>() {
        return None;
    }
    all.iter().map(|&number| candidate(&parts, number)).collect()
}

fn candidate(parts: &[Part], number: usize) -> Option<Vec<u8>> {
    let mut text = vec![];
    // For each open T, whether the number belongs to its set.
    let mut belongs = vec![];
    for part in parts {
        match part {
            Part::OpenT(set) => belongs.push(set.binary_search(&number).is_ok()),
            Part::CloseT => {
                belongs.pop()?;
            }
            Part::Other(bytes) if belongs.iter().all(|&belongs| belongs) => text.extend_from_slice(bytes),
            Part::Other(_) => (),
        }
    }
    belongs.is_empty().then_some(text)
}

fn parts(text: &[u8]) -> Option<Vec<Part<'_>>> {
    let mut parts = vec![];
    let mut rest = text;
    while !rest.is_empty() {
        if let Some(after) = rest.strip_prefix(b"<T t=\"") {
            let end = after.iter().position(|&byte| byte == b'"')?;
            parts.push(Part::OpenT(timestamp::read(&after[..end])?));
            rest = after[end + 1..].strip_prefix(b">")?;
        } else if let Some(after) = rest.strip_prefix(b"</T>") {
            parts.push(Part::CloseT);
            rest = after;
        } else {
            let end = rest[1..].iter().position(|&byte| byte == b'<').map_or(rest.len(), |at| at + 1);
            parts.push(Part::Other(&rest[..end]));
            rest = &rest[end..];
        }
    }
    Some(parts)
}
