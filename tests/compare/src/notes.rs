//! Notes: texts of several lines, and the line ends that tablets give them (document 02, Q-4).

use crate::random::Random;

/// How the lines of a text end.
#[derive(Clone, Copy)]
pub enum Ends {
    Lf,
    CrLf,
    Cr,
    Mixed,
}

pub fn any_ends(r: &mut Random) -> Ends {
    r.choose(&[Ends::Lf, Ends::Lf, Ends::CrLf, Ends::CrLf, Ends::Cr, Ends::Mixed])
}

/// Spells one line end. After a CR it is no LF alone, as the two would be one.
pub fn spell_end(r: &mut Random, ends: Ends, text: &mut Vec<u8>) {
    let end: &[u8] = match ends {
        Ends::Lf => b"\n",
        Ends::CrLf => b"\r\n",
        Ends::Cr => b"\r",
        Ends::Mixed => r.choose(&[&b"\n"[..], b"\r\n", b"\r"]),
    };
    let joined = end == b"\n" && text.ends_with(b"\r");
    text.extend_from_slice(if joined { b"\r\n" } else { end });
}

/// A text with its line ends spelled otherwise, and nothing else: what was received is the same.
pub fn other_ends(r: &mut Random, text: &[u8]) -> Vec<u8> {
    let ends = any_ends(r);
    let mut other = vec![];
    for (at, &byte) in text.iter().enumerate() {
        match byte {
            b'\n' if at > 0 && text[at - 1] == b'\r' => (),
            b'\r' | b'\n' => spell_end(r, ends, &mut other),
            _ => other.push(byte),
        }
    }
    other
}

/// What the lines of a note have.
const WORDS: &[u8] = b"Fl 5s white; lamp 2 of 4 was lit at dusk & the \"lens\" is clean (see log) > all's well. ";

/// A note as it is meant: any number of bytes up to 160, with line ends at its beginning, its end, beside each other
/// or anywhere.
pub fn note(r: &mut Random) -> Vec<u8> {
    let length = r.choose(&[1, 4, 14, 15, 16, 17, 30, 34, 46, 62, 78, 126, 150]) + r.below(4);
    let start = r.below(WORDS.len());
    let mut note: Vec<u8> = WORDS.iter().copied().cycle().skip(start).take(length).collect();
    for _ in 0..r.choose(&[1, 1, 2, 3, 5, 8]) {
        let at = match r.below(8) {
            0 => 0,
            1 => note.len() - 1,
            2 => note.iter().position(|&byte| byte == b'\n').map_or(0, |at| (at + 1) % note.len()),
            _ => r.below(note.len()),
        };
        note[at] = b'\n';
    }
    note
}

/// Another note: a byte changed, put in or taken out, near the beginning, near the end, or beside a line end.
pub fn changed(r: &mut Random, note: &[u8]) -> Vec<u8> {
    let mut note = note.to_vec();
    let near = r.below(note.len().min(3));
    let at = match r.below(3) {
        0 => near,
        1 => note.len() - 1 - near,
        _ => note.iter().rposition(|&byte| byte == b'\n').map_or(near, |at| (at + 1).min(note.len() - 1)),
    };
    let other = r.choose(b";:x\n\t -M>");
    match r.below(4) {
        0 => note.insert(at, other),
        1 if note.len() > 1 => {
            note.remove(at);
        }
        _ => note[at] = if note[at] == other { b'~' } else { other },
    }
    note
}

#[cfg(test)]
mod tests {
    use super::*;
    use reference::xml::line_ends;

    #[test]
    fn other_ends_are_of_the_same_text() {
        let r = &mut Random::new(11);
        for _ in 0..2_000 {
            let note = note(r);
            let [one, other] = [other_ends(r, &note), other_ends(r, &note)];
            let again = other_ends(r, &one);
            for text in [one, other, again] {
                assert_eq!(line_ends(&text), note, "{}", text.escape_ascii());
            }
            assert_ne!(changed(r, &note), note);
        }
    }
}
