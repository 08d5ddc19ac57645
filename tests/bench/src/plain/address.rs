//! Addresses (12) and histories.

use super::archive::{Archive, Element};
use super::keys::KeyList;
use super::text::{is, name_end, same, stands, stands_name, Span, NAME};

/// A step: its path, and its key values in the address's text.
struct Step {
    path: u8,
    values: [Span; 4],
}

/// A legal address.
pub struct Address<'a> {
    text: &'a [u8],
    steps: Vec<Step>,
}

/// The address that a text is.
pub fn read<'a>(keys: &KeyList, text: &'a [u8]) -> Option<Address<'a>> {
    let mut steps: Vec<Step> = Vec::with_capacity(8);
    let mut at = 0;
    while at < text.len() || at == 0 {
        if !stands(text, at, b"/") {
            return None;
        }
        let end = name_end(text, at + 1)?;
        let name = &text[at + 1..end];
        let path = match steps.last() {
            None => same(name, keys.paths[0].name).then_some(0),
            Some(above) => keys.child(above.path, name, keys.first_rank(above.path)),
        };
        let mut step = Step { path: path?, values: [Span::default(); 4] };
        at = conditions(keys, text, end, &mut step)?;
        steps.push(step);
    }
    Some(Address { text, steps })
}

/// `[pos="2" and side="left"]`, or nothing if the step's path has no key names.
fn conditions(keys: &KeyList, text: &[u8], mut at: usize, step: &mut Step) -> Option<usize> {
    let past = |at: usize, byte: u8| (text.get(at) == Some(&byte)).then_some(at + 1);
    let path = &keys.paths[step.path as usize];
    let names = &keys.paths[path.keys as usize..][..path.key_count as usize];
    for (slot, key_name) in names.iter().enumerate() {
        if slot == 0 {
            at = past(at, b'[')?;
        } else {
            at = stands(text, at, b" and ").then_some(at + 5)?;
        }
        let equals = at + key_name.name.len();
        if !stands_name(text, at, key_name.name) || !stands(text, equals, b"=\"") {
            return None;
        }
        let begin = equals + 2;
        let length = text[begin..].iter().take_while(|&&byte| is(byte, NAME)).count();
        if !(1..=32).contains(&length) {
            return None;
        }
        step.values[slot] = Span::new(begin, begin + length);
        at = past(begin + length, b'"')?;
    }
    if names.is_empty() {
        Some(at)
    } else {
        past(at, b']')
    }
}

impl Address<'_> {
    /// Where the text of the set of versions holding the address stands in the archive; an
    /// empty span if there are none.
    pub fn history(&self, keys: &KeyList, archive: &Archive) -> Span {
        let Some(mut element) = archive.root() else { return Span::default() };
        for step in &self.steps[1..] {
            let mut children = archive.children(element);
            match children.find(|&child| self.fits(keys, archive, &archive.elements[child], step)) {
                Some(child) => element = child,
                None => return Span::default(),
            }
        }
        archive.elements[element].set
    }

    fn fits(&self, keys: &KeyList, archive: &Archive, element: &Element, step: &Step) -> bool {
        let slots = 0..keys.paths[step.path as usize].key_count as usize;
        element.path == step.path && slots.into_iter().all(|slot| same(archive.value(element, slot), step.values[slot].of(self.text)))
    }
}
