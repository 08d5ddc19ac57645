//! Results made from an archive: a version of it, an earlier archive, one with a version more.

use super::archive::{Archive, Element, CLOSE_T, OPEN_T};
use super::keys::KeyList;
use super::timestamp;
use super::version::{self, Version};
use std::cmp::Ordering;

/// A result under way. Parts of the archive that follow one another are copied at once.
struct Output<'a> {
    archive: &'a [u8],
    /// The part of the archive that is still to be copied.
    from: usize,
    to: usize,
    bytes: Vec<u8>,
}

impl<'a> Output<'a> {
    fn new(archive: &'a [u8], capacity: usize) -> Output<'a> {
        Output { archive, from: 0, to: 0, bytes: Vec::with_capacity(capacity) }
    }

    /// A part of the archive.
    #[inline]
    fn keep(&mut self, from: usize, to: usize) {
        if from != self.to {
            self.copy();
            self.from = from;
        }
        self.to = to;
    }

    fn copy(&mut self) {
        self.bytes.extend_from_slice(&self.archive[self.from..self.to]);
        self.from = self.to;
    }

    /// What has been written, to be continued.
    fn written(&mut self) -> &mut Vec<u8> {
        self.copy();
        &mut self.bytes
    }

    /// `<T t="…">`, the set's text being written by a function.
    fn open_t(&mut self, set: impl FnOnce(&mut Vec<u8>)) {
        let bytes = self.written();
        bytes.extend_from_slice(OPEN_T);
        set(bytes);
        bytes.extend_from_slice(b"\">");
    }

    fn close_t(&mut self) {
        self.written().extend_from_slice(CLOSE_T);
    }

    fn keep_first_tag(&mut self, keys: &KeyList, element: &Element) {
        let start = element.span.start as usize;
        self.keep(start, start + keys.paths[element.path as usize].name.len() + 2);
    }

    fn keep_last_tag(&mut self, keys: &KeyList, element: &Element) {
        let end = element.span.end as usize;
        self.keep(end - keys.paths[element.path as usize].name.len() - 3, end);
    }

    fn keep_all(&mut self, element: &Element) {
        self.keep(element.span.start as usize, element.span.end as usize);
    }
}

/// The written form of the version that the archive was read for, in 1 to n.
pub fn retrieved(keys: &KeyList, archive: &Archive) -> Vec<u8> {
    let mut out = Output::new(archive.text, archive.text.len());
    if let Some(root) = archive.root().filter(|&root| archive.elements[root].here) {
        retrieve(keys, archive, root, &mut out);
    }
    out.copy();
    out.bytes
}

fn retrieve(keys: &KeyList, archive: &Archive, number: usize, out: &mut Output) {
    let element = &archive.elements[number];
    let contents = archive.contents(element);
    if contents.len() == 1 {
        return out.keep_all(element);
    }
    out.keep_first_tag(keys, element);
    if let Some(content) = contents.iter().find(|content| content.here) {
        out.keep(content.span.start as usize, content.span.end as usize);
    }
    for child in archive.children(number) {
        if archive.elements[child].here {
            retrieve(keys, archive, child, out);
        }
    }
    out.keep_last_tag(keys, element);
}

/// The archive of the first i versions, i in 1 to n, of an archive that was read for i.
pub fn stepped_back(keys: &KeyList, archive: &Archive, i: u16) -> Vec<u8> {
    if i == archive.n {
        return archive.text.to_vec();
    }
    let mut out = Output::new(archive.text, archive.text.len());
    out.open_t(|bytes| timestamp::write_all(i, bytes));
    if let Some(root) = archive.root() {
        step_back_child(keys, archive, root, i, &mut out);
    }
    out.close_t();
    out.bytes
}

/// A child, or the root, in its `T` if there still is one; nothing if it is in none of the first i versions.
fn step_back_child(keys: &KeyList, archive: &Archive, child: usize, i: u16, out: &mut Output) {
    let standing = &archive.elements[child];
    let set = standing.set.of(archive.text);
    if !standing.wrapped {
        step_back(keys, archive, child, i, out);
    } else if timestamp::first(set) <= i {
        if standing.differs {
            out.open_t(|bytes| timestamp::write_to(set, i, bytes));
        }
        step_back(keys, archive, child, i, out);
        if standing.differs {
            out.close_t();
        }
    }
}

/// An element that is in one of the first i versions, without the `T` around it.
fn step_back(keys: &KeyList, archive: &Archive, number: usize, i: u16, out: &mut Output) {
    let text = archive.text;
    let element = &archive.elements[number];
    let contents = archive.contents(element);
    // Nothing in it changes if it has one content, or is in none of the versions that go.
    if contents.len() == 1 || timestamp::last(element.set.of(text)) <= i {
        return out.keep_all(element);
    }
    out.keep_first_tag(keys, element);
    let staying = contents.iter().take_while(|content| timestamp::first(content.set.of(text)) <= i).count();
    for content in &contents[..staying] {
        if staying > 1 {
            out.open_t(|bytes| timestamp::write_to(content.set.of(text), i, bytes));
        }
        out.keep(content.span.start as usize, content.span.end as usize);
        if staying > 1 {
            out.close_t();
        }
    }
    for child in archive.children(number) {
        step_back_child(keys, archive, child, i, out);
    }
    out.keep_last_tag(keys, element);
}

/// An archive and the version that is added to it.
struct Merge<'a> {
    keys: &'a KeyList<'a>,
    archive: &'a Archive<'a>,
    version: &'a Version,
    /// The number of the version.
    n: u16,
    out: Output<'a>,
    nodes: u32,
}

/// The archive with a version more, and its nodes.
pub fn added(keys: &KeyList, archive: &Archive, version: &Version) -> (Vec<u8>, u32) {
    let out = Output::new(archive.text, archive.text.len() + version.length + 1_024);
    let mut merge = Merge { keys, archive, version, n: archive.n + 1, out, nodes: archive.nodes };
    merge.out.open_t(|bytes| timestamp::write_all(archive.n + 1, bytes));
    merge.child(archive.root(), version.root());
    merge.out.close_t();
    (merge.out.bytes, merge.nodes)
}

impl Merge<'_> {
    /// An element of the archive that is in the version too, without the `T` around it.
    fn both(&mut self, old: usize, new: u16) {
        let (archive, version) = (self.archive, self.version);
        let element = &archive.elements[old];
        if self.keys.paths[element.path as usize].is_frontier() {
            return self.frontier(element, &version.elements[new as usize]);
        }
        self.out.keep_first_tag(self.keys, element);
        let mut olds = archive.children(old).peekable();
        let mut news = version.children(&version.elements[new as usize]).iter().copied().peekable();
        loop {
            let order = match (olds.peek(), news.peek()) {
                (Some(&old), Some(&new)) => self.order(old, new),
                (Some(_), None) => Ordering::Less,
                (None, Some(_)) => Ordering::Greater,
                (None, None) => break,
            };
            let old = if order.is_le() { olds.next() } else { None };
            let new = if order.is_ge() { news.next() } else { None };
            self.child(old, new);
        }
        self.out.keep_last_tag(self.keys, element);
    }

    /// A child, or the root, of the archive, of the version or of both.
    fn child(&mut self, old: Option<usize>, new: Option<u16>) {
        match (old, new) {
            (Some(old), Some(new)) => self.standing(old, new),
            (Some(old), None) => self.gone(old),
            (None, Some(new)) => self.come(new),
            (None, None) => (),
        }
    }

    fn order(&self, old: usize, new: u16) -> Ordering {
        let (old, new) = (&self.archive.elements[old], &self.version.elements[new as usize]);
        let (path, other) = (&self.keys.paths[old.path as usize], &self.keys.paths[new.path as usize]);
        let by_values = || {
            let slots = 0..path.key_count as usize;
            slots.map(|slot| self.archive.value(old, slot).cmp(self.version.value(new, slot))).find(|order| order.is_ne())
        };
        path.rank.cmp(&other.rank).then_with(|| by_values().unwrap_or(Ordering::Equal))
    }

    /// A child that is in both: its set still differs from its parent's if it did.
    fn standing(&mut self, old: usize, new: u16) {
        let element = &self.archive.elements[old];
        if !element.wrapped {
            return self.both(old, new);
        }
        let set = element.set.of(self.archive.text);
        let n = self.n;
        self.out.open_t(|bytes| timestamp::write_with(set, n, bytes));
        self.both(old, new);
        self.out.close_t();
    }

    /// A child that isn't in the version, though its parent is.
    fn gone(&mut self, old: usize) {
        let element = &self.archive.elements[old];
        if element.wrapped {
            return self.out.keep(element.set.start as usize - OPEN_T.len(), element.span.end as usize + CLOSE_T.len());
        }
        let set = element.set.of(self.archive.text);
        self.out.open_t(|bytes| bytes.extend_from_slice(set));
        self.out.keep_all(element);
        self.out.close_t();
    }

    /// A child that isn't in the archive, though its parent is.
    fn come(&mut self, new: u16) {
        let n = self.n;
        self.out.open_t(|bytes| timestamp::write_number(n, bytes));
        self.version.write(self.keys, new, self.out.written());
        self.out.close_t();
        self.nodes += self.version.elements[new as usize].nodes;
    }

    fn frontier(&mut self, old: &Element, new: &version::Element) {
        let text = self.archive.text;
        let contents = self.archive.contents(old);
        let content = self.version.content(self.keys, new);
        let n = self.n;
        let known = contents.iter().position(|known| known.span.of(text) == content);
        if contents.len() == 1 && known.is_some() {
            return self.out.keep_all(old);
        }
        self.out.keep_first_tag(self.keys, old);
        for (number, here) in contents.iter().enumerate() {
            let set = here.set.of(text);
            if known == Some(number) {
                self.out.open_t(|bytes| timestamp::write_with(set, n, bytes));
                self.out.keep(here.span.start as usize, here.span.end as usize + CLOSE_T.len());
            } else if contents.len() == 1 {
                self.out.open_t(|bytes| bytes.extend_from_slice(set));
                self.out.keep(here.span.start as usize, here.span.end as usize);
                self.out.close_t();
            } else {
                self.out.keep(here.set.start as usize - OPEN_T.len(), here.span.end as usize + CLOSE_T.len());
            }
        }
        if known.is_none() {
            self.out.open_t(|bytes| timestamp::write_number(n, bytes));
            self.out.written().extend_from_slice(content);
            self.out.close_t();
            // The frontier's own node is in the archive.
            self.nodes += new.nodes - 1;
        }
        self.out.keep_last_tag(self.keys, old);
    }
}
