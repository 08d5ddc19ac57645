//! The XML subset ("Version texts", first paragraph): bytes, names, line ends, tags, text.

#[derive(Clone, Copy, Debug, PartialEq, Eq)]
pub enum Class {
    Illegal,
    WhiteSpace,
    NameStart,
    OtherName,
    Markup,
    OtherText,
}

/// The class of a byte.
pub fn class(byte: u8) -> Class {
    match byte {
        b'\t' | b'\n' | b'\r' | b' ' => Class::WhiteSpace,
        b'A'..=b'Z' | b'a'..=b'z' | b'_' => Class::NameStart,
        b'0'..=b'9' | b'.' | b'-' => Class::OtherName,
        b'<' | b'&' => Class::Markup,
        0x20..=0x7E => Class::OtherText,
        _ => Class::Illegal,
    }
}

/// A name is 1 to 32 bytes: a letter or `_`, then letters, digits, `.`, `-`, `_`.
pub fn is_name(bytes: &[u8]) -> bool {
    is_value(bytes) && class(bytes[0]) == Class::NameStart
}

/// A key value is 1 to 32 letters, digits, `.`, `-`, `_`.
pub fn is_value(bytes: &[u8]) -> bool {
    (1..=32).contains(&bytes.len())
        && bytes.iter().all(|&byte| matches!(class(byte), Class::NameStart | Class::OtherName))
}

pub fn is_white_space(run: &[u8]) -> bool {
    run.iter().all(|&byte| class(byte) == Class::WhiteSpace)
}

/// What was received: the text with each CR LF and each lone CR read as LF (Q-4; XML 1.0, section 2.11).
pub fn line_ends(text: &[u8]) -> Vec<u8> {
    let mut received = vec![];
    let mut before = 0;
    for &byte in text {
        match (before, byte) {
            // It has been read with the CR.
            (b'\r', b'\n') => (),
            (_, b'\r') => received.push(b'\n'),
            _ => received.push(byte),
        }
        before = byte;
    }
    received
}

/// A text of the subset, part by part. A run stands between two tags, so it is maximal;
/// it is never empty, and its entities are replaced by what they stand for.
#[derive(Clone, Debug, PartialEq, Eq)]
pub enum Token {
    Open(Vec<u8>),
    Close,
    Run(Vec<u8>),
}

/// The tokens of a text with one root element, white space allowed around it;
/// none if the text is not in the subset.
pub fn read(text: &[u8]) -> Option<Vec<Token>> {
    let mut tokens = vec![];
    let mut open: Vec<&[u8]> = vec![];
    let mut rest = text;
    while !rest.is_empty() {
        if rest[0] == b'<' {
            let end = rest.iter().position(|&byte| byte == b'>')?;
            let tag = &rest[1..end];
            rest = &rest[end + 1..];
            if let Some(name) = tag.strip_prefix(b"/") {
                if open.pop()? != name {
                    return None;
                }
                tokens.push(Token::Close);
            } else {
                let second_root = open.is_empty() && !tokens.is_empty();
                let (name, empty) = match tag.strip_suffix(b"/") {
                    Some(name) => (name, true),
                    None => (tag, false),
                };
                if second_root || !is_name(name) {
                    return None;
                }
                tokens.push(Token::Open(name.to_vec()));
                if empty {
                    tokens.push(Token::Close);
                } else {
                    open.push(name);
                }
            }
        } else {
            let end = rest.iter().position(|&byte| byte == b'<').unwrap_or(rest.len());
            let run = &rest[..end];
            rest = &rest[end..];
            if !open.is_empty() {
                tokens.push(Token::Run(text_of(run)?));
            } else if !is_white_space(run) {
                return None;
            }
        }
    }
    let one_root = open.is_empty() && !tokens.is_empty();
    one_root.then_some(tokens)
}

const ENTITIES: [(&[u8], u8); 5] =
    [(b"&lt;", b'<'), (b"&gt;", b'>'), (b"&amp;", b'&'), (b"&quot;", b'"'), (b"&apos;", b'\'')];

/// The text that a raw run stands for; none if it isn't legal text.
fn text_of(run: &[u8]) -> Option<Vec<u8>> {
    if run.windows(3).any(|three| three == b"]]>") {
        return None;
    }
    let mut text = vec![];
    let mut rest = run;
    while let Some(&byte) = rest.first() {
        if byte == b'&' {
            let (entity, meant) = ENTITIES.iter().find(|(entity, _)| rest.starts_with(entity))?;
            text.push(*meant);
            rest = &rest[entity.len()..];
        } else if class(byte) == Class::Illegal {
            return None;
        } else {
            text.push(byte);
            rest = &rest[1..];
        }
    }
    Some(text)
}
