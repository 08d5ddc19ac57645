//! Version texts: which are legal, and their written form.

use crate::keys::{join, KeyList};
use crate::written::{escaped_length, Written};
use crate::xml::{self, is_value, is_white_space, line_ends, Token};
use crate::{Outcome, DEPTH, VERSION_BYTES, VERSION_NODES};
use std::collections::BTreeSet;

/// A version: its root, or none if it is vacant. "A version that is empty or white space alone is
/// now legal, replacing case P8, and holds no address" (Q-6).
pub type Version = Option<Element>;

#[derive(Clone, Debug, PartialEq, Eq)]
pub struct Element {
    pub name: Vec<u8>,
    pub content: Vec<Node>,
}

/// What content holds: elements and kept maximal runs of text.
#[derive(Clone, Debug, PartialEq, Eq)]
pub enum Node {
    Element(Element),
    Text(Vec<u8>),
}

/// The version that a text is, or the refusal, 5 to 9. "In a version CR LF and a lone CR are read as LF
/// before all but the length test of 2" (Q-4), which the calls make.
pub fn read(keys: &KeyList, text: &[u8]) -> Outcome<Version> {
    read_received(keys, &line_ends(text))
}

/// The version that a text is after that step, or the refusal, 5 to 9.
pub fn read_received(keys: &KeyList, text: &[u8]) -> Outcome<Version> {
    if is_white_space(text) {
        return Ok(None);
    }
    let tokens = kept(keys, xml::read(text).ok_or(5u32)?);
    if depth(&tokens) > DEPTH || nodes(&tokens) > VERSION_NODES || written_length(&tokens) > VERSION_BYTES {
        return Err(6);
    }
    let root = tree(tokens);
    if !placed(keys, b"", &root) || has_name_t(&root) {
        return Err(7);
    }
    if !key_children(keys, b"", &root) {
        return Err(8);
    }
    if !distinct_siblings(keys, b"", &root) {
        return Err(9);
    }
    Ok(Some(root))
}

/// Without the runs of white space directly in an element whose path is listed and no frontier.
fn kept(keys: &KeyList, tokens: Vec<Token>) -> Vec<Token> {
    let mut path = vec![];
    let keep = |token: &Token| {
        match token {
            Token::Open(name) => path = join(&path, name),
            Token::Close => path.truncate(path.iter().rposition(|&byte| byte == b'/').unwrap()),
            Token::Run(run) => return !(is_white_space(run) && keys.is_above_frontiers(&path)),
        }
        true
    };
    tokens.into_iter().filter(keep).collect()
}

/// 6: the root is 1 deep. An element named `T` counts here.
fn depth(tokens: &[Token]) -> usize {
    let (mut open, mut deepest) = (0, 0);
    for token in tokens {
        match token {
            Token::Open(_) => open += 1,
            Token::Close => open -= 1,
            Token::Run(_) => (),
        }
        deepest = deepest.max(open);
    }
    deepest
}

/// 6: nodes are elements, those named `T` not counted, and kept runs.
fn nodes(tokens: &[Token]) -> usize {
    let counts = |token: &&Token| match token {
        Token::Open(name) => name != b"T",
        Token::Close => false,
        Token::Run(_) => true,
    };
    tokens.iter().filter(counts).count()
}

/// 6: the length of the written form; the order of siblings doesn't matter for it.
fn written_length(tokens: &[Token]) -> usize {
    let length = |token: &Token| match token {
        Token::Open(name) => name.len() + 2 + name.len() + 3,
        Token::Close => 0,
        Token::Run(run) => escaped_length(run),
    };
    tokens.iter().map(length).sum()
}

/// The root element, from tokens at most sixteen deep.
fn tree(tokens: Vec<Token>) -> Element {
    // The lowest element stands for what is around the root.
    let mut open = vec![Element { name: vec![], content: vec![] }];
    for token in tokens {
        match token {
            Token::Open(name) => open.push(Element { name, content: vec![] }),
            Token::Close => {
                let closed = open.pop().unwrap();
                open.last_mut().unwrap().content.push(Node::Element(closed));
            }
            Token::Run(run) => open.last_mut().unwrap().content.push(Node::Text(run)),
        }
    }
    match open.pop().unwrap().content.pop() {
        Some(Node::Element(root)) => root,
        _ => unreachable!("one root"),
    }
}

/// 7: above or at a frontier each path is listed, and above one there is no text.
fn placed(keys: &KeyList, parent: &[u8], element: &Element) -> bool {
    let path = join(parent, &element.name);
    match keys.get(&path) {
        None => false,
        Some(listed) if listed.frontier => true,
        Some(_) => element.content.iter().all(|node| match node {
            Node::Text(_) => false,
            Node::Element(child) => placed(keys, &path, child),
        }),
    }
}

/// 7: the name `T` anywhere.
fn has_name_t(element: &Element) -> bool {
    element.name == b"T" || elements(element).any(has_name_t)
}

/// 8: each element with key names has each key child just once, with a legal value.
fn key_children(keys: &KeyList, parent: &[u8], element: &Element) -> bool {
    let path = join(parent, &element.name);
    let Some(listed) = keys.get(&path) else { return true };
    let legal = |name: &Vec<u8>| {
        let children: Vec<&Element> = elements(element).filter(|child| child.name == *name).collect();
        children.len() == 1 && value(children[0]).is_some()
    };
    listed.key_names.iter().all(legal) && elements(element).all(|child| key_children(keys, &path, child))
}

/// The value of a key child; none if it is illegal.
fn value(key_child: &Element) -> Option<&Vec<u8>> {
    match &key_child.content[..] {
        [Node::Text(value)] if is_value(value) => Some(value),
        _ => None,
    }
}

/// 9: no two siblings above or at a frontier have one name and key.
fn distinct_siblings(keys: &KeyList, parent: &[u8], element: &Element) -> bool {
    let path = join(parent, &element.name);
    if !keys.is_above_frontiers(&path) {
        return true;
    }
    let mut seen = BTreeSet::new();
    elements(element).all(|child| seen.insert(key(keys, &path, child)) && distinct_siblings(keys, &path, child))
}

pub fn elements(element: &Element) -> impl Iterator<Item = &Element> {
    element.content.iter().filter_map(|node| match node {
        Node::Element(element) => Some(element),
        Node::Text(_) => None,
    })
}

/// Name and key values in list order; their order is that of byte strings, a prefix first.
pub type Key = (Vec<u8>, Vec<Vec<u8>>);

/// The key of an element above or at a frontier, in a version with legal key children.
pub fn key(keys: &KeyList, parent: &[u8], element: &Element) -> Key {
    let listed = keys.get(&join(parent, &element.name)).expect("a listed path");
    let value_of = |name: &Vec<u8>| {
        let child = elements(element).find(|child| child.name == *name).expect("a key child");
        value(child).expect("a legal value").clone()
    };
    (element.name.clone(), listed.key_names.iter().map(value_of).collect())
}

/// The written form of a legal version. "Retrieving such a version gives length 0": a vacant
/// one has no bytes.
pub fn written(keys: &KeyList, version: &Version) -> Written {
    let mut out = Written::default();
    if let Some(root) = version {
        write(keys, b"", root, &mut out);
    }
    out
}

fn write(keys: &KeyList, parent: &[u8], element: &Element, out: &mut Written) {
    let path = join(parent, &element.name);
    out.open(&element.name);
    if keys.is_frontier(&path) {
        out.content(&element.content);
    } else {
        let mut children: Vec<&Element> = elements(element).collect();
        children.sort_by_cached_key(|child| key(keys, &path, child));
        for child in children {
            write(keys, &path, child, out);
        }
    }
    out.close(&element.name);
}
