//! Key lists: the notation (3) and the rules (4).

use super::text::{name_end, same, stands};
use super::Outcome;
use std::cmp::Ordering;

pub const NONE: u8 = u8::MAX;
const LINES: usize = 64;
const PATHS: usize = 128;
const NAMES: u8 = 8;

/// A listed path, implied ones included.
pub struct Path<'a> {
    pub name: &'a [u8],
    parent: u8,
    /// How many names it has.
    depth: u8,
    /// The first of its key names' paths, which follow one another, and how many they are.
    pub keys: u8,
    pub key_count: u8,
    /// The number of the key name whose implied path this is.
    pub slot: u8,
    /// Its children in `KeyList::sorted`.
    children: u8,
    child_count: u8,
    /// Its place in `KeyList::sorted`: siblings' ranks are in the order of their names.
    pub rank: u8,
}

impl Path<'_> {
    #[inline]
    pub fn is_frontier(&self) -> bool {
        self.child_count == 0
    }
}

/// A legal key list; path 0 is the root's.
pub struct KeyList<'a> {
    pub paths: Vec<Path<'a>>,
    /// The paths but the root's, ordered by parent and then by name.
    sorted: Vec<u8>,
}

/// A line of the notation.
struct Line<'a> {
    context: &'a [u8],
    name: &'a [u8],
    key_names: [&'a [u8]; 4],
    key_count: usize,
}

impl<'a> KeyList<'a> {
    pub fn read(text: &'a [u8]) -> Outcome<KeyList<'a>> {
        let mut builder = Builder { list: KeyList { paths: Vec::with_capacity(16), sorted: vec![] }, lines: vec![], latest: (&[], 0) };
        let mut legal = true;
        let mut at = 0;
        // The notation goes before the rules, so it is read to its end in any case.
        while at < text.len() || at == 0 {
            let (line, end) = line(text, at).ok_or(3u32)?;
            legal = legal && builder.add(&line);
            at = end;
        }
        if legal && builder.list.sort() {
            Ok(builder.list)
        } else {
            Err(4)
        }
    }

    /// The rank of a path's first child.
    pub fn first_rank(&self, parent: u8) -> u8 {
        self.paths[parent as usize].children
    }

    /// The path that continues another by a name. The hint is the rank of the sibling before:
    /// often the next element has the same path or the next one.
    #[inline]
    pub fn child(&self, parent: u8, name: &[u8], hint: u8) -> Option<u8> {
        let Path { children, child_count, .. } = self.paths[parent as usize];
        let children = &self.sorted[children as usize..][..child_count as usize];
        let from = usize::from(hint.wrapping_sub(self.paths[parent as usize].children));
        for &path in children.iter().skip(from).take(2) {
            if same(self.paths[path as usize].name, name) {
                return Some(path);
            }
        }
        let found = children.binary_search_by(|&path| self.paths[path as usize].name.cmp(name));
        found.ok().map(|at| children[at])
    }

    /// Orders the paths; false if one is given twice.
    fn sort(&mut self) -> bool {
        let paths = &mut self.paths;
        let order = |&a: &u8, &b: &u8| {
            let (a, b) = (&paths[a as usize], &paths[b as usize]);
            a.parent.cmp(&b.parent).then_with(|| a.name.cmp(b.name))
        };
        self.sorted = (1..paths.len() as u8).collect();
        self.sorted.sort_unstable_by(order);
        if self.sorted.windows(2).any(|pair| order(&pair[0], &pair[1]) == Ordering::Equal) {
            return false;
        }
        for (rank, &path) in self.sorted.iter().enumerate() {
            paths[path as usize].rank = rank as u8;
            let parent = paths[path as usize].parent as usize;
            let parent = &mut paths[parent];
            if parent.child_count == 0 {
                parent.children = rank as u8;
            }
            parent.child_count += 1;
        }
        true
    }
}

/// A key list under way.
struct Builder<'a> {
    list: KeyList<'a>,
    /// The paths of the lines, without the implied ones.
    lines: Vec<u8>,
    /// The latest context and its path: often the next line has the same.
    latest: (&'a [u8], u8),
}

impl<'a> Builder<'a> {
    /// Adds a line's paths; false if it breaks a rule, except that a path may be given twice.
    fn add(&mut self, line: &Line<'a>) -> bool {
        let first = self.lines.is_empty();
        let full = self.lines.len() == LINES || self.list.paths.len() + 1 + line.key_count > PATHS;
        if full || (first && line.key_count > 0) {
            return false;
        }
        let context = if first { Some((NONE, 0)) } else { self.context(line.context) };
        let Some((parent, depth)) = context else { return false };
        let path = self.list.paths.len() as u8;
        let deepest = depth + 1 + u8::from(line.key_count > 0);
        self.lines.push(path);
        self.push(parent, depth + 1, line.name, NONE);
        self.list.paths[path as usize].key_count = line.key_count as u8;
        let key_names = &line.key_names[..line.key_count];
        for (slot, name) in key_names.iter().enumerate() {
            self.push(path, depth + 2, name, slot as u8);
        }
        deepest <= NAMES && line.name != b"T" && key_names.iter().all(|name| *name != b"T")
    }

    fn push(&mut self, parent: u8, depth: u8, name: &'a [u8], slot: u8) {
        let keys = self.list.paths.len() as u8 + 1;
        self.list.paths.push(Path { name, parent, depth, keys, key_count: 0, slot, children: 0, child_count: 0, rank: 0 });
    }

    /// The path that a context is, of an earlier line, and how many names it has.
    fn context(&mut self, context: &'a [u8]) -> Option<(u8, u8)> {
        if self.latest.0 != context {
            let mut names = context[1..].split(|&byte| byte == b'/');
            let mut path = 0;
            if names.next()? != self.list.paths[0].name {
                return None;
            }
            for name in names {
                path = *self.lines.iter().find(|&&line| {
                    let line = &self.list.paths[line as usize];
                    line.parent == path && same(line.name, name)
                })?;
            }
            self.latest = (context, path);
        }
        let path = self.latest.1;
        Some((path, self.list.paths[path as usize].depth))
    }
}

/// The line at a place, and the place after its LF.
fn line(text: &[u8], start: usize) -> Option<(Line<'_>, usize)> {
    let mut at = past(text, start, b"(")?;
    let context = context_end(text, at, start == 0)?;
    let context = &text[std::mem::replace(&mut at, context)..context];
    let begin = past(text, at, b", (")?;
    at = name_end(text, begin)?;
    let mut line = Line { context, name: &text[begin..at], key_names: [&[]; 4], key_count: 0 };
    at = past(text, at, b", {")?;
    if !stands(text, at, b"}") {
        at = key_names(text, at, &mut line)?;
    }
    Some((line, past(text, at, b"}))\n")?))
}

/// The place after these bytes.
#[inline]
fn past<const N: usize>(text: &[u8], at: usize, bytes: &[u8; N]) -> Option<usize> {
    stands(text, at, bytes).then_some(at + N)
}

/// `/` in the first line, `/name/name` in others.
fn context_end(text: &[u8], start: usize, first: bool) -> Option<usize> {
    let mut at = past(text, start, b"/")?;
    if first {
        return Some(at);
    }
    at = name_end(text, at)?;
    while stands(text, at, b"/") {
        at = name_end(text, at + 1)?;
    }
    Some(at)
}

/// One to four distinct names joined by `, `.
fn key_names<'a>(text: &'a [u8], mut at: usize, line: &mut Line<'a>) -> Option<usize> {
    loop {
        let end = name_end(text, at)?;
        let name = &text[at..end];
        if line.key_count == 4 || line.key_names[..line.key_count].contains(&name) {
            return None;
        }
        line.key_names[line.key_count] = name;
        line.key_count += 1;
        if !stands(text, end, b", ") {
            return Some(end);
        }
        at = end + 2;
    }
}
