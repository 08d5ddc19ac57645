//! Archives: one pass that decides whether a text is a legal archive (10).
//!
//! The text is checked against the archive's definition where it stands: written form, siblings
//! in strict order, each `T` a set that may be there, contents of a frontier distinct and their
//! sets a partition, and the sizes of all versions by differences over the runs of the sets.

use super::keys::{KeyList, NONE};
use super::text::{is_value, name_end, ordinary_end, stands, stands_name, Span};
use super::timestamp::{Run, Runs, Timestamp};
use super::version::written_entity;
use super::{ARCHIVE_NODES, DEPTH, VERSIONS, VERSION_BYTES, VERSION_NODES};
use std::cmp::Ordering;

pub const OPEN_T: &[u8; 6] = b"<T t=\"";
pub const CLOSE_T: &[u8; 4] = b"</T>";

/// A keyed element.
pub struct Element {
    pub path: u8,
    /// Whether a `T` is around it.
    pub wrapped: bool,
    /// The element after it and all in it; elements stand in the order of the text.
    pub next: u16,
    /// Its text, from `<` of the first tag to after the last.
    pub span: Span,
    /// The text of the set of versions containing it.
    pub set: Span,
    /// Whether version i is in its set.
    pub here: bool,
    /// Whether its set differs from its parent's in one of the first i versions.
    pub differs: bool,
    /// The first of its key values in `Archive::values`.
    values: u32,
    /// A frontier's contents in `Archive::contents`.
    pub contents: Span,
}

/// A distinct content of a frontier. A bare one's set is the element's.
pub struct Content {
    pub span: Span,
    pub set: Span,
    /// Whether version i is in its set.
    pub here: bool,
}

/// A legal archive. The root is its first element; if all versions are vacant, it has none.
pub struct Archive<'a> {
    pub text: &'a [u8],
    pub n: u16,
    pub nodes: u32,
    pub elements: Vec<Element>,
    pub contents: Vec<Content>,
    values: Vec<Span>,
}

impl Archive<'_> {
    /// The key value of a number.
    #[inline]
    pub fn value(&self, element: &Element, slot: usize) -> &[u8] {
        self.values[element.values as usize + slot].of(self.text)
    }

    /// The root's number; none if all versions are vacant.
    pub fn root(&self) -> Option<usize> {
        (!self.elements.is_empty()).then_some(0)
    }

    pub fn contents(&self, frontier: &Element) -> &[Content] {
        &self.contents[frontier.contents.start as usize..frontier.contents.end as usize]
    }

    /// The numbers of an element's children.
    pub fn children(&self, element: usize) -> impl Iterator<Item = usize> + '_ {
        let end = self.elements[element].next as usize;
        let first = (element + 1 < end).then_some(element + 1);
        std::iter::successors(first, move |&child| Some(self.elements[child].next as usize).filter(|&next| next < end))
    }
}

/// Nodes and bytes in one number, for sums.
fn size(nodes: u32, bytes: usize) -> u64 {
    u64::from(nodes) << 32 | bytes as u64
}

/// A node takes at least three bytes, so in so short an archive no version is too large.
const SMALL: usize = 3 * VERSION_NODES as usize;

struct Reader<'a> {
    keys: &'a KeyList<'a>,
    text: &'a [u8],
    /// The version that is asked for; any number, which need not be in 1 to n.
    i: u16,
    archive: Archive<'a>,
    /// The runs of the `T`s that are open.
    runs: Runs,
    /// The size of what is directly in the innermost open `T`.
    scope: u64,
    /// The size of version i less that of version i - 1; empty if it isn't needed.
    sizes: Vec<u64>,
    /// A hash table of contents.
    table: Vec<u16>,
    /// The names of the elements of a content that are open.
    open: [Span; DEPTH],
}

/// The archive that a text is, if it is a legal one. What the call needs to know of version i in
/// each set is found on the way.
pub fn read<'a>(keys: &'a KeyList<'a>, text: &'a [u8], i: usize) -> Option<Archive<'a>> {
    let i = i.min(VERSIONS as usize + 1) as u16;
    let capacity = text.len() / 32 + 8;
    let (elements, contents, values) = (Vec::with_capacity(capacity), Vec::with_capacity(capacity), Vec::with_capacity(capacity));
    let archive = Archive { text, n: 0, nodes: 0, elements, contents, values };
    let mut reader = Reader { keys, text, i, archive, runs: Runs::new(), scope: 0, sizes: vec![], table: vec![], open: [Span::default(); DEPTH] };
    reader.document()?;
    Some(reader.archive)
}

impl Reader<'_> {
    fn document(&mut self) -> Option<()> {
        let (at, set_text) = self.open_t(0)?;
        let &[all @ Run { first: 1, last: n }] = self.runs.from(0) else { return None };
        self.archive.n = n;
        if self.text.len() > SMALL {
            self.sizes = vec![0; n as usize + 2];
        }
        let mut set = Timestamp::EMPTY;
        set.insert(all);
        let at = if stands(self.text, at, CLOSE_T) {
            at
        } else {
            let around = Place { path: NONE, depth: 0, wrapped: false, set_text, here: true, differs: false };
            self.child(at, &around, &set, |reader, at| reader.root_path(at))?
        };
        self.close_t(0)?;
        let fits = self.archive.nodes <= ARCHIVE_NODES && self.sizes_fit();
        (self.past(at, CLOSE_T)? == self.text.len() && fits).then_some(())
    }

    /// The place after these bytes.
    #[inline]
    fn past<const N: usize>(&self, at: usize, bytes: &[u8; N]) -> Option<usize> {
        stands(self.text, at, bytes).then_some(at + N)
    }

    /// The place after `name>`, the rest of an end tag.
    #[inline]
    fn past_name(&self, at: usize, name: &[u8]) -> Option<usize> {
        let end = at + name.len();
        (stands_name(self.text, at, name) && *self.text.get(end)? == b'>').then_some(end + 1)
    }

    /// `<T t="1-3,5">`: its runs are put at the end of `runs`. Gives the place after it and where
    /// the set's text is.
    fn open_t(&mut self, at: usize) -> Option<(usize, Span)> {
        let begin = self.past(at, OPEN_T)?;
        let end = self.runs.read(self.text, begin)?;
        Some((self.past(end, b"\">")?, Span::new(begin, end)))
    }

    /// What was directly in the innermost `T` belongs to the versions of its set, whose runs
    /// begin at `runs`.
    fn close_t(&mut self, runs: usize) -> Option<()> {
        if !self.sizes.is_empty() {
            for run in self.runs.from(runs) {
                let first = self.sizes.get_mut(run.first as usize)?;
                *first = first.wrapping_add(self.scope);
                let after = self.sizes.get_mut(run.last as usize + 1)?;
                *after = after.wrapping_sub(self.scope);
            }
        }
        self.runs.truncate(runs);
        Some(())
    }

    /// Each version has at most 512 nodes and 16,384 bytes.
    fn sizes_fit(&self) -> bool {
        let mut sum = 0u64;
        self.sizes.iter().all(|size| {
            sum = sum.wrapping_add(*size);
            (sum >> 32) as u32 <= VERSION_NODES && sum as u32 as usize <= VERSION_BYTES
        })
    }
}

/// Where a keyed element stands.
struct Place {
    path: u8,
    /// How deep it is; the root is 1.
    depth: usize,
    wrapped: bool,
    /// The text of its set.
    set_text: Span,
    /// As in `Element`.
    here: bool,
    differs: bool,
}

/// The child of an element that was read before the one at hand.
struct Previous {
    element: usize,
    rank: u8,
}

impl<'a> Reader<'a> {
    /// The keyed element at a place, whose name has been looked at; the place after it.
    fn element(&mut self, at: usize, place: Place, set: &Timestamp) -> Option<usize> {
        let path = &self.keys.paths[place.path as usize];
        let number = self.archive.elements.len();
        let begin = self.past(at + 1 + path.name.len(), b">")?;
        self.archive.nodes += 1;
        self.scope += size(1, 2 * path.name.len() + 5);
        let Place { path: path_number, wrapped, set_text, here, differs, .. } = place;
        let values = self.archive.values.len() as u32;
        let first = self.archive.contents.len();
        self.archive.elements.push(Element {
            path: path_number,
            wrapped,
            next: 0,
            span: Span::default(),
            set: set_text,
            here,
            differs,
            values,
            contents: Span::default(),
        });
        let end = if path.is_frontier() {
            self.frontier(begin, &place, set)?
        } else {
            self.archive.values.resize(values as usize + path.key_count as usize, Span::default());
            self.children(begin, &place, number, set)?
        };
        let end = self.past_name(self.past(end, b"</")?, path.name)?;
        let next = self.archive.elements.len() as u16;
        let element = &mut self.archive.elements[number];
        element.next = next;
        element.span = Span::new(at, end);
        if path.is_frontier() {
            element.contents = Span::new(first, self.archive.contents.len());
        }
        (self.archive.nodes <= ARCHIVE_NODES).then_some(end)
    }

    /// The children of a keyed element above the frontiers, up to its end tag.
    fn children(&mut self, mut at: usize, place: &Place, parent: usize, set: &Timestamp) -> Option<usize> {
        let path = &self.keys.paths[place.path as usize];
        let mut previous: Option<Previous> = None;
        let mut keys_seen = 0;
        while !stands(self.text, at, b"</") {
            let number = self.archive.elements.len();
            let hint = previous.as_ref().map_or(self.keys.first_rank(place.path), |previous| previous.rank);
            at = self.child(at, place, set, |reader, at| reader.child_path(at, place, hint))?;
            let child = &self.archive.elements[number];
            let child_path = &self.keys.paths[child.path as usize];
            if child_path.slot != NONE {
                self.key_value(parent, number, child_path.slot)?;
                keys_seen += 1;
            }
            if previous.is_some_and(|previous| !self.in_order(previous.element, number)) {
                return None;
            }
            previous = Some(Previous { element: number, rank: child_path.rank });
        }
        // Siblings are distinct, so no key child has been seen twice.
        (keys_seen == path.key_count).then_some(at)
    }

    /// A child, alone or in a `T` whose set is a part of its parent's. The root is one too, of what stands around it.
    #[inline]
    fn child(&mut self, at: usize, parent: &Place, set: &Timestamp, path: impl Fn(&Self, usize) -> Option<u8>) -> Option<usize> {
        if !stands(self.text, at, OPEN_T) {
            let path = path(self, at)?;
            let place = Place { path, depth: parent.depth + 1, wrapped: false, differs: false, ..*parent };
            return self.element(at, place, set);
        }
        let runs = self.runs.len();
        let (begin, set_text) = self.open_t(at)?;
        let mut own = Timestamp::EMPTY;
        self.runs.from(runs).iter().for_each(|&run| {
            own.insert(run);
        });
        if !own.is_subset(set) || own == *set {
            return None;
        }
        let path = path(self, begin)?;
        let differs = own.differs(set, self.i);
        let place = Place { path, depth: parent.depth + 1, wrapped: true, set_text, here: own.contains(self.i), differs };
        let around = std::mem::take(&mut self.scope);
        let end = self.element(begin, place, &own)?;
        self.close_t(runs)?;
        self.scope = around;
        self.past(end, CLOSE_T)
    }

    /// The root's path, if its first tag is at a place; that its name ends there is seen when it is read.
    /// It is asked once, and not inlined, so that the loop over children is as fast as without it.
    #[inline(never)]
    fn root_path(&self, at: usize) -> Option<u8> {
        let begin = self.past(at, b"<")?;
        stands_name(self.text, begin, self.keys.paths[0].name).then_some(0)
    }

    /// The path of the child whose first tag is at a place.
    fn child_path(&self, at: usize, parent: &Place, hint: u8) -> Option<u8> {
        let begin = self.past(at, b"<")?;
        let end = name_end(self.text, begin)?;
        self.keys.child(parent.path, &self.text[begin..end], hint)
    }

    /// A key child is in each version that its parent is in, with one legal value.
    fn key_value(&mut self, parent: usize, child: usize, slot: u8) -> Option<()> {
        let child = &self.archive.elements[child];
        let [content] = self.archive.contents(child) else { return None };
        if child.wrapped || !is_value(content.span.of(self.text)) {
            return None;
        }
        let values = self.archive.elements[parent].values as usize;
        self.archive.values[values + slot as usize] = content.span;
        Some(())
    }

    /// Whether a sibling goes before another, by name and then by key values.
    fn in_order(&self, before: usize, after: usize) -> bool {
        let (before, after) = (&self.archive.elements[before], &self.archive.elements[after]);
        let (path, other) = (&self.keys.paths[before.path as usize], &self.keys.paths[after.path as usize]);
        if path.rank != other.rank {
            return path.rank < other.rank;
        }
        let slots = 0..path.key_count as usize;
        let orders = slots.map(|slot| self.archive.value(before, slot).cmp(self.archive.value(after, slot)));
        orders.into_iter().find(|order| order.is_ne()) == Some(Ordering::Less)
    }

    /// The contents of a frontier: one bare, or two or more, each in a `T`.
    fn frontier(&mut self, at: usize, place: &Place, set: &Timestamp) -> Option<usize> {
        if stands(self.text, at, OPEN_T) {
            return self.alternatives(at, place.depth, set);
        }
        let end = self.content(at, place.depth)?;
        self.archive.contents.push(Content { span: Span::new(at, end), set: place.set_text, here: place.here });
        Some(end)
    }

    /// Distinct contents, ordered by first version, whose sets are a partition of the element's.
    fn alternatives(&mut self, mut at: usize, depth: usize, set: &Timestamp) -> Option<usize> {
        let first = self.archive.contents.len();
        let runs = self.runs.len();
        let around = self.scope;
        let mut union = Timestamp::EMPTY;
        let mut latest = 0;
        while stands(self.text, at, OPEN_T) {
            let (begin, set_text) = self.open_t(at)?;
            let own = self.runs.from(runs);
            if own[0].first <= latest || !own.iter().all(|&run| union.insert(run)) {
                return None;
            }
            latest = own[0].first;
            let here = own.iter().any(|run| run.first <= self.i && self.i <= run.last);
            self.scope = 0;
            let end = self.content(begin, depth)?;
            self.close_t(runs)?;
            self.archive.contents.push(Content { span: Span::new(begin, end), set: set_text, here });
            at = self.past(end, CLOSE_T)?;
        }
        self.scope = around;
        let two = self.archive.contents.len() - first >= 2;
        (two && union == *set && self.distinct(first)).then_some(at)
    }

    /// Content in written form, up to the end tag that isn't of an element in it.
    fn content(&mut self, start: usize, depth: usize) -> Option<usize> {
        let text = self.text;
        let mut level = 0;
        let mut nodes = 0;
        let mut at = start;
        loop {
            let end = text_end(text, at)?;
            nodes += u32::from(end > at);
            at = end + 1;
            if *text.get(at)? == b'/' {
                if level == 0 {
                    break;
                }
                level -= 1;
                at = self.past_name(at + 1, self.open[level].of(text))?;
            } else {
                let end = name_end(text, at)?;
                if depth + level == DEPTH || &text[at..end] == b"T" || *text.get(end)? != b'>' {
                    return None;
                }
                self.open[level] = Span::new(at, end);
                level += 1;
                nodes += 1;
                at = end + 1;
            }
        }
        self.archive.nodes += nodes;
        self.scope += size(nodes, at - 1 - start);
        (self.archive.nodes <= ARCHIVE_NODES).then_some(at - 1)
    }

    /// Whether the contents from a number on are distinct.
    fn distinct(&mut self, first: usize) -> bool {
        let contents = &self.archive.contents[first..];
        if contents.len() <= 8 {
            let text = |content: &Content| content.span.of(self.text);
            return (1..contents.len()).all(|at| contents[..at].iter().all(|other| text(other) != text(&contents[at])));
        }
        let size = (2 * contents.len()).next_power_of_two();
        self.table.clear();
        self.table.resize(size, 0);
        for (number, content) in contents.iter().enumerate() {
            let bytes = content.span.of(self.text);
            let mut slot = hash(bytes) as usize & (size - 1);
            while self.table[slot] != 0 {
                if contents[self.table[slot] as usize - 1].span.of(self.text) == bytes {
                    return false;
                }
                slot = (slot + 1) & (size - 1);
            }
            self.table[slot] = number as u16 + 1;
        }
        true
    }
}

/// The end of a run of text in written form, at a `<`.
#[inline]
fn text_end(text: &[u8], mut at: usize) -> Option<usize> {
    loop {
        at = ordinary_end(text, at);
        match *text.get(at)? {
            b'<' => return Some(at),
            b'&' => at = written_entity(text, at)?,
            _ => return None,
        }
    }
}

/// By eight bytes at a time.
fn hash(bytes: &[u8]) -> u64 {
    const FACTOR: u64 = 0x9E37_79B9_7F4A_7C15;
    let mix = |hash: u64, word: u64| (hash.rotate_left(23) ^ word).wrapping_mul(FACTOR);
    let chunks = bytes.chunks_exact(8);
    let rest = chunks.remainder().iter().fold(bytes.len() as u64, |word, &byte| word << 8 | u64::from(byte));
    let hash = chunks.fold(FACTOR, |hash, chunk| mix(hash, u64::from_le_bytes(chunk.try_into().unwrap_or_default())));
    let hash = mix(hash, rest);
    hash ^ hash >> 32
}

const _: () = assert!(VERSIONS < 1_024);
