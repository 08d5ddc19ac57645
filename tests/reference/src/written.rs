//! The written form's parts: tags, text, and the archive's `T` tags.

use crate::timestamp::{self, Timestamp};
use crate::version::Node;

/// What has been written: its bytes and its nodes. `T` elements are not counted.
#[derive(Clone, Debug, Default, PartialEq, Eq)]
pub struct Written {
    pub bytes: Vec<u8>,
    pub nodes: usize,
}

impl Written {
    pub fn open(&mut self, name: &[u8]) {
        self.nodes += 1;
        self.put(&[b"<", name, b">"]);
    }

    pub fn close(&mut self, name: &[u8]) {
        self.put(&[b"</", name, b">"]);
    }

    pub fn open_t(&mut self, set: &Timestamp) {
        self.put(&[b"<T t=\"", &timestamp::text(set), b"\">"]);
    }

    pub fn close_t(&mut self) {
        self.put(&[b"</T>"]);
    }

    /// Content at or beneath a frontier, in the order it has.
    pub fn content(&mut self, content: &[Node]) {
        for node in content {
            match node {
                Node::Element(element) => {
                    self.open(&element.name);
                    self.content(&element.content);
                    self.close(&element.name);
                }
                Node::Text(text) => {
                    self.nodes += 1;
                    text.iter().for_each(|byte| self.put(&[escaped(byte)]));
                }
            }
        }
    }

    fn put(&mut self, parts: &[&[u8]]) {
        parts.iter().for_each(|part| self.bytes.extend_from_slice(part));
    }
}

fn escaped(byte: &u8) -> &[u8] {
    match byte {
        b'&' => b"&amp;",
        b'<' => b"&lt;",
        b'>' => b"&gt;",
        _ => std::slice::from_ref(byte),
    }
}

pub fn escaped_length(text: &[u8]) -> usize {
    text.iter().map(|byte| escaped(byte).len()).sum()
}
