//! Version texts: one pass that finds 5 to 9, orders siblings and writes the frontiers.

use super::keys::{KeyList, NONE};
use super::text::{is_value, name_end, ordinary_end, same, stands, stands_name, white_end, Span};
use super::{Outcome, DEPTH, VERSION_BYTES, VERSION_NODES};
use std::cmp::Ordering;

/// An element above or at a frontier.
pub struct Element {
    pub path: u8,
    /// The nodes of it and all in it.
    pub nodes: u32,
    /// The first of its key values in `Version::values`.
    pub values: u32,
    /// A frontier's written form, tags included, in `Version::frontiers`; of another element its
    /// children in `Version::order`.
    pub inside: Span,
}

/// A legal version. The root is its first element; a vacant version has none.
pub struct Version {
    pub elements: Vec<Element>,
    /// Children, in the order of the written form.
    order: Vec<u16>,
    values: Vec<Span>,
    /// The frontiers' written forms.
    pub frontiers: Vec<u8>,
    /// The length of the whole written form.
    pub length: usize,
}

impl Version {
    pub fn children(&self, element: &Element) -> &[u16] {
        &self.order[element.inside.start as usize..element.inside.end as usize]
    }

    /// The key value of a number.
    #[inline]
    pub fn value(&self, element: &Element, slot: usize) -> &[u8] {
        self.values[element.values as usize + slot].of(&self.frontiers)
    }

    /// The root; none if the version is vacant.
    pub fn root(&self) -> Option<u16> {
        (!self.elements.is_empty()).then_some(0)
    }

    /// The content of a frontier, in written form.
    pub fn content(&self, keys: &KeyList, frontier: &Element) -> &[u8] {
        let name = keys.paths[frontier.path as usize].name.len();
        let written = frontier.inside.of(&self.frontiers);
        &written[name + 2..written.len() - name - 3]
    }

    /// Writes an element and all in it.
    pub fn write(&self, keys: &KeyList, element: u16, out: &mut Vec<u8>) {
        let element = &self.elements[element as usize];
        let path = &keys.paths[element.path as usize];
        if path.is_frontier() {
            return out.extend_from_slice(element.inside.of(&self.frontiers));
        }
        open_tag(path.name, out);
        for &child in self.children(element) {
            self.write(keys, child, out);
        }
        close_tag(path.name, out);
    }

    fn order_of(&self, keys: &KeyList, a: u16, b: u16) -> Ordering {
        let (a, b) = (&self.elements[a as usize], &self.elements[b as usize]);
        let (path, other) = (&keys.paths[a.path as usize], &keys.paths[b.path as usize]);
        let by_values = || {
            let slots = 0..path.key_count as usize;
            slots.map(|slot| self.value(a, slot).cmp(self.value(b, slot))).find(|order| order.is_ne())
        };
        path.rank.cmp(&other.rank).then_with(|| by_values().unwrap_or(Ordering::Equal))
    }
}

pub fn open_tag(name: &[u8], out: &mut Vec<u8>) {
    out.push(b'<');
    out.extend_from_slice(name);
    out.push(b'>');
}

pub fn close_tag(name: &[u8], out: &mut Vec<u8>) {
    out.extend_from_slice(b"</");
    out.extend_from_slice(name);
    out.push(b'>');
}

/// An element that is open.
struct Open {
    name: Span,
    /// Its path if it is above or at a frontier and listed.
    path: u8,
    /// Whether it is listed and no frontier.
    above: bool,
    /// The rank of its latest child's path.
    hint: u8,
    element: u16,
    /// The nodes before it.
    nodes: u32,
    /// Where its children begin in `Reader::closed`.
    closed: u32,
}

const NO_VALUE: Span = Span { start: u32::MAX, end: u32::MAX };

struct Reader<'a> {
    keys: &'a KeyList<'a>,
    text: &'a [u8],
    version: Version,
    open: Vec<Open>,
    /// Elements that are closed, whose parents are open.
    closed: Vec<u16>,
    deepest: usize,
    nodes: u32,
    misplaced: bool,
    bad_key: bool,
    doubled: bool,
}

/// The version that a text is, or the refusal, 5 to 9.
pub fn read(keys: &KeyList, text: &[u8]) -> Outcome<Version> {
    let capacity = text.len() / 16 + 4;
    let version = Version {
        elements: Vec::with_capacity(capacity),
        order: Vec::with_capacity(capacity),
        values: Vec::with_capacity(capacity),
        frontiers: Vec::with_capacity(text.len()),
        length: 0,
    };
    let (open, closed) = (Vec::with_capacity(DEPTH), Vec::with_capacity(capacity));
    let mut reader = Reader { keys, text, version, open, closed, deepest: 0, nodes: 0, misplaced: false, bad_key: false, doubled: false };
    reader.document().ok_or(5u32)?;
    reader.refusal()?;
    Ok(reader.version)
}

impl Reader<'_> {
    fn refusal(&self) -> Outcome<()> {
        let large = self.nodes > VERSION_NODES || self.version.length > VERSION_BYTES;
        match () {
            _ if self.deepest > DEPTH || large => Err(6),
            _ if self.misplaced => Err(7),
            _ if self.bad_key => Err(8),
            _ if self.doubled => Err(9),
            _ => Ok(()),
        }
    }

    /// The whole text, which may be of white space alone; none if it isn't in the subset.
    fn document(&mut self) -> Option<()> {
        let mut at = white_end(self.text, 0);
        match self.text.get(at) {
            None => return Some(()),
            Some(b'<') => (),
            Some(_) => return None,
        }
        loop {
            at = self.tag(at)?;
            if self.open.is_empty() {
                break;
            }
            if *self.text.get(at)? != b'<' {
                at = self.run(at)?;
            }
        }
        (white_end(self.text, at) == self.text.len()).then_some(())
    }

    /// The tag at a place, and the place after it.
    fn tag(&mut self, at: usize) -> Option<usize> {
        if stands(self.text, at + 1, b"/") {
            let name = self.open.last()?.name;
            let end = at + 2 + name.len();
            if !stands_name(self.text, at + 2, name.of(self.text)) || *self.text.get(end)? != b'>' {
                return None;
            }
            self.close();
            return Some(end + 1);
        }
        let end = name_end(self.text, at + 1)?;
        self.open(Span::new(at + 1, end));
        match self.text.get(end)? {
            b'>' => Some(end + 1),
            b'/' if stands(self.text, end + 1, b">") => {
                self.close();
                Some(end + 2)
            }
            _ => None,
        }
    }

    fn open(&mut self, name: Span) {
        let nodes = self.nodes;
        let bytes = name.of(self.text);
        self.version.length += 2 * bytes.len() + 5;
        if bytes == b"T" {
            self.misplaced = true;
        } else {
            self.nodes += 1;
        }
        let path = self.path(bytes);
        let above = path != NONE && !self.keys.paths[path as usize].is_frontier();
        let element = self.version.elements.len() as u16;
        if path != NONE {
            self.begin(path);
        }
        if !above {
            open_tag(bytes, &mut self.version.frontiers);
        }
        let closed = self.closed.len() as u32;
        let hint = if above { self.keys.first_rank(path) } else { NONE };
        self.open.push(Open { name, path, above, hint, element, nodes, closed });
        self.deepest = self.deepest.max(self.open.len());
    }

    /// The path of an element that is about to be opened. None beneath a frontier, or if it is
    /// unlisted, and then it is misplaced.
    fn path(&mut self, name: &[u8]) -> u8 {
        let path = match self.open.last_mut() {
            None => same(name, self.keys.paths[0].name).then_some(0),
            Some(parent) if parent.above => {
                let path = self.keys.child(parent.path, name, parent.hint);
                parent.hint = path.map_or(parent.hint, |path| self.keys.paths[path as usize].rank);
                path
            }
            Some(_) => return NONE,
        };
        self.misplaced |= path.is_none();
        path.unwrap_or(NONE)
    }

    /// A listed element begins.
    fn begin(&mut self, path: u8) {
        let version = &mut self.version;
        let values = version.values.len() as u32;
        let begin = version.frontiers.len() as u32;
        let key_count = self.keys.paths[path as usize].key_count as usize;
        version.values.resize(version.values.len() + key_count, NO_VALUE);
        version.elements.push(Element { path, nodes: 0, values, inside: Span { start: begin, end: begin } });
    }

    fn close(&mut self) {
        let Some(open) = self.open.pop() else { return };
        if !open.above {
            close_tag(open.name.of(self.text), &mut self.version.frontiers);
        }
        if open.path == NONE {
            return;
        }
        let element = &mut self.version.elements[open.element as usize];
        element.nodes = self.nodes - open.nodes;
        if open.above {
            self.close_above(&open);
        } else {
            element.inside.end = self.version.frontiers.len() as u32;
            self.close_frontier(&open);
        }
        self.closed.push(open.element);
    }

    /// A frontier that is a key child gives its parent a key value.
    fn close_frontier(&mut self, open: &Open) {
        let slot = self.keys.paths[open.path as usize].slot;
        let Some(parent) = self.open.last().filter(|_| slot != NONE) else { return };
        let element = &self.version.elements[open.element as usize];
        let (start, end) = (element.inside.start as usize + open.name.len() + 2, element.inside.end as usize - open.name.len() - 3);
        let values = self.version.elements[parent.element as usize].values as usize;
        let place = &mut self.version.values[values + slot as usize];
        let repeated = place.start != NO_VALUE.start;
        *place = Span::new(start, end);
        self.bad_key |= repeated || !is_value(&self.version.frontiers[start..end]);
    }

    /// The children of an element above the frontiers are put in order.
    fn close_above(&mut self, open: &Open) {
        let version = &mut self.version;
        let element = &version.elements[open.element as usize];
        let key_count = self.keys.paths[open.path as usize].key_count as usize;
        let values = &version.values[element.values as usize..][..key_count];
        self.bad_key |= values.iter().any(|value| value.start == NO_VALUE.start);
        if self.bad_key {
            return;
        }
        let children = &mut self.closed[open.closed as usize..];
        let in_order = |pair: &[u16]| version.order_of(self.keys, pair[0], pair[1]).is_lt();
        if !children.windows(2).all(in_order) {
            children.sort_unstable_by(|&a, &b| version.order_of(self.keys, a, b));
            self.doubled |= !children.windows(2).all(in_order);
        }
        let begin = version.order.len();
        version.order.extend_from_slice(children);
        version.elements[open.element as usize].inside = Span::new(begin, version.order.len());
        self.closed.truncate(open.closed as usize);
    }

    /// A run of text, up to the tag after it. Directly in an element above the frontiers, white
    /// space is dropped and other text is misplaced.
    fn run(&mut self, start: usize) -> Option<usize> {
        let above = self.open.last().is_some_and(|open| open.above);
        if above {
            let end = white_end(self.text, start);
            if *self.text.get(end)? == b'<' {
                return Some(end);
            }
            self.misplaced = true;
        }
        let before = self.version.frontiers.len();
        let end = self.write_run(start)?;
        self.nodes += 1;
        self.version.length += self.version.frontiers.len() - before;
        if above {
            self.version.frontiers.truncate(before);
        }
        Some(end)
    }

    /// Writes a run, CR LF and a lone CR as LF; none if it isn't legal text.
    fn write_run(&mut self, start: usize) -> Option<usize> {
        let out = &mut self.version.frontiers;
        // What is before `from` has been written.
        let (mut from, mut at) = (start, start);
        loop {
            at = ordinary_end(self.text, at);
            let (replaced, by): (usize, &[u8]) = match *self.text.get(at)? {
                b'<' => break,
                b'>' if at - start >= 2 && &self.text[at - 2..at] == b"]]" => return None,
                b'>' => (1, b"&gt;"),
                // The LF after it is written with what follows.
                b'\r' if stands(self.text, at + 1, b"\n") => (1, b""),
                b'\r' => (1, b"\n"),
                b'&' if stands(self.text, at, b"&quot;") => (6, b"\""),
                b'&' if stands(self.text, at, b"&apos;") => (6, b"'"),
                b'&' => {
                    at = written_entity(self.text, at)?;
                    continue;
                }
                _ => return None,
            };
            out.extend_from_slice(&self.text[from..at]);
            out.extend_from_slice(by);
            at += replaced;
            from = at;
        }
        out.extend_from_slice(&self.text[from..at]);
        Some(at)
    }
}

/// The place after `&lt;`, `&gt;` or `&amp;`, which are themselves in written form.
pub fn written_entity(text: &[u8], at: usize) -> Option<usize> {
    if stands(text, at, b"&lt;") || stands(text, at, b"&gt;") {
        Some(at + 4)
    } else {
        stands(text, at, b"&amp;").then_some(at + 5)
    }
}
