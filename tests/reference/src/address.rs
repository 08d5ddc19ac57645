//! Addresses and histories.

use crate::keys::{join, split, KeyList};
use crate::timestamp::{self, Timestamp};
use crate::version::{elements, key, Element, Key, Version};
use crate::xml::is_value;
use crate::Outcome;

/// The steps of an address, from the root down: a name and key values in list order.
pub type Address = Vec<Key>;

/// The address that a text is, or 12. Its steps are of the list, which has at most eight names
/// in a path and four key names for one.
pub fn read(keys: &KeyList, text: &[u8]) -> Outcome<Address> {
    steps(keys, text).ok_or(12)
}

fn steps(keys: &KeyList, text: &[u8]) -> Option<Address> {
    let mut path = vec![];
    let mut address = vec![];
    for step in split(text.strip_prefix(b"/")?, b"/") {
        let name_ends = step.iter().position(|&byte| byte == b'[').unwrap_or(step.len());
        let (name, conditions) = step.split_at(name_ends);
        path = join(&path, name);
        let values = conditions_values(&keys.get(&path)?.key_names, conditions)?;
        address.push((name.to_vec(), values));
    }
    Some(address)
}

/// The key values of `[pos="2" and side="left"]`; of nothing if there are no key names.
fn conditions_values(key_names: &[Vec<u8>], text: &[u8]) -> Option<Vec<Vec<u8>>> {
    if key_names.is_empty() {
        return text.is_empty().then(Vec::new);
    }
    let conditions = split(text.strip_prefix(b"[")?.strip_suffix(b"]")?, b" and ");
    let value = |(name, condition): (&Vec<u8>, &Vec<u8>)| {
        let value = condition.strip_prefix(&name[..])?.strip_prefix(b"=\"")?.strip_suffix(b"\"")?;
        is_value(value).then(|| value.to_vec())
    };
    if conditions.len() != key_names.len() {
        return None;
    }
    key_names.iter().zip(&conditions).map(value).collect()
}

/// A version holds an address if it has, from its root down, an element for each step with that
/// name and those key values. A vacant version holds no address.
pub fn holds(keys: &KeyList, version: &Version, address: &Address) -> bool {
    version.as_ref().is_some_and(|root| element_holds(keys, b"", root, address))
}

fn element_holds(keys: &KeyList, parent: &[u8], element: &Element, steps: &[Key]) -> bool {
    let path = join(parent, &element.name);
    key_is(keys, parent, element, &steps[0])
        && (steps.len() == 1 || elements(element).any(|child| element_holds(keys, &path, child, &steps[1..])))
}

/// Whether an element has a step's name and key values. The step's path is listed, so an element
/// with that name has a listed path; another name is looked at no further.
fn key_is(keys: &KeyList, parent: &[u8], element: &Element, step: &Key) -> bool {
    element.name == step.0 && key(keys, parent, element) == *step
}

/// The text of the set of numbers whose versions hold the address.
pub fn history(keys: &KeyList, versions: &[Version], address: &Address) -> Vec<u8> {
    let held = (1..).zip(versions).filter(|(_, version)| holds(keys, version, address));
    let set: Timestamp = held.map(|(number, _)| number).collect();
    timestamp::text(&set)
}
