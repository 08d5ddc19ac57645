//! Key lists.

use crate::xml::is_name;
use crate::Outcome;
use std::collections::BTreeMap;

/// A key: context path, name, key names.
struct Line {
    context: Vec<u8>,
    name: Vec<u8>,
    key_names: Vec<Vec<u8>>,
}

/// A listed path, implied ones included.
pub struct Listed {
    pub key_names: Vec<Vec<u8>>,
    pub frontier: bool,
}

/// The paths of a legal key list. A path is its text, such as `/station/lamp`.
pub struct KeyList {
    paths: BTreeMap<Vec<u8>, Listed>,
}

/// A path, or context, joined to a name. The path above the root is the empty text.
pub fn join(path: &[u8], name: &[u8]) -> Vec<u8> {
    [path, b"/", name].concat()
}

impl KeyList {
    pub fn read(text: &[u8]) -> Outcome<KeyList> {
        let lines = notation(text).ok_or(3u32)?;
        rules(&lines).ok_or(4)
    }

    /// What the list says of a path; none if the path is not listed.
    pub fn get(&self, path: &[u8]) -> Option<&Listed> {
        self.paths.get(path)
    }

    pub fn is_frontier(&self, path: &[u8]) -> bool {
        self.get(path).is_some_and(|listed| listed.frontier)
    }

    /// Listed and no frontier: only elements stand directly in such an element.
    pub fn is_above_frontiers(&self, path: &[u8]) -> bool {
        self.get(path).is_some_and(|listed| !listed.frontier)
    }
}

/// 3: the notation, which is all of the paragraph before the bullets.
fn notation(text: &[u8]) -> Option<Vec<Line>> {
    let lines = text.strip_suffix(b"\n")?.split(|&byte| byte == b'\n');
    lines.enumerate().map(|(number, text)| line(text, number == 0)).collect()
}

/// A line without its LF: `(/station, (lamp, {pos}))`.
fn line(text: &[u8], first: bool) -> Option<Line> {
    let inside = text.strip_prefix(b"(")?.strip_suffix(b"}))")?;
    let (context, inside) = split_once(inside, b", (")?;
    let (name, key_names) = split_once(inside, b", {")?;
    let key_names = if key_names.is_empty() { vec![] } else { split(key_names, b", ") };
    let context_fits = if first {
        context == b"/"
    } else {
        split(context.strip_prefix(b"/")?, b"/").iter().all(|name| is_name(name))
    };
    let distinct = (1..key_names.len()).all(|at| !key_names[..at].contains(&key_names[at]));
    let names_fit = is_name(name) && key_names.iter().all(|name| is_name(name));
    let fits = context_fits && names_fit && key_names.len() <= 4 && distinct;
    // The path above the root is the empty text, so `/` joined to a name is `/name`.
    let context = if first { vec![] } else { context.to_vec() };
    fits.then_some(Line { context, name: name.to_vec(), key_names })
}

/// 4: the rules of the bulleted list.
fn rules(lines: &[Line]) -> Option<KeyList> {
    if !lines[0].key_names.is_empty() || lines.len() > 64 {
        return None;
    }
    let mut paths: BTreeMap<Vec<u8>, Listed> = BTreeMap::new();
    let mut earlier: Vec<Vec<u8>> = vec![];
    for (number, line) in lines.iter().enumerate() {
        if number > 0 && !earlier.contains(&line.context) {
            return None;
        }
        let path = join(&line.context, &line.name);
        let implied = line.key_names.iter().map(|name| (join(&path, name), vec![]));
        for (path, key_names) in std::iter::once((path.clone(), line.key_names.clone())).chain(implied) {
            let names = path[1..].split(|&byte| byte == b'/');
            if names.clone().count() > 8 || names.clone().any(|name| name == b"T") {
                return None;
            }
            if paths.insert(path, Listed { key_names, frontier: false }).is_some() {
                return None;
            }
        }
        earlier.push(path);
    }
    // A context is no implied path: it would have to be given twice to be an earlier line's too.
    if paths.len() > 128 {
        return None;
    }
    let all: Vec<Vec<u8>> = paths.keys().cloned().collect();
    for (path, listed) in &mut paths {
        let continued = join(path, b"");
        listed.frontier = !all.iter().any(|other| other.starts_with(&continued));
    }
    Some(KeyList { paths })
}

fn split_once<'a>(text: &'a [u8], by: &[u8]) -> Option<(&'a [u8], &'a [u8])> {
    let at = text.windows(by.len()).position(|window| window == by)?;
    Some((&text[..at], &text[at + by.len()..]))
}

/// The parts of a text between each occurrence of `by` and the next; one part if there is none.
pub fn split(text: &[u8], by: &[u8]) -> Vec<Vec<u8>> {
    let mut parts = vec![];
    let mut rest = text;
    while let Some((part, after)) = split_once(rest, by) {
        parts.push(part.to_vec());
        rest = after;
    }
    parts.push(rest.to_vec());
    parts
}
