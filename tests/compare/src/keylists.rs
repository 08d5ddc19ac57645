//! Random key lists: legal ones, and ones damaged by a rule or by bytes.

use crate::random::{damage_bytes, Random};

#[derive(Clone)]
pub struct Line {
    pub context: String,
    pub name: String,
    pub keys: Vec<String>,
}

/// A listed path, with the listed paths just beneath it. The first is the root's.
pub struct Place {
    pub path: String,
    pub name: String,
    pub key_names: Vec<String>,
    pub children: Vec<usize>,
}

pub struct Keys {
    pub lines: Vec<Line>,
    pub text: Vec<u8>,
    pub places: Vec<Place>,
}

impl Keys {
    pub fn is_frontier(&self, place: usize) -> bool {
        self.places[place].children.is_empty()
    }

    pub fn of(lines: Vec<Line>) -> Keys {
        let mut places: Vec<Place> = vec![];
        for line in &lines {
            let path = path_of(line);
            let parent = places.iter().position(|place| place.path == line.context);
            let at = places.len();
            if let Some(parent) = parent {
                places[parent].children.push(at);
            }
            let children = (at + 1..=at + line.keys.len()).collect();
            places.push(Place { path: path.clone(), name: line.name.clone(), key_names: line.keys.clone(), children });
            for key in &line.keys {
                places.push(Place { path: format!("{path}/{key}"), name: key.clone(), key_names: vec![], children: vec![] });
            }
        }
        Keys { text: text(&lines), lines, places }
    }
}

fn path_of(line: &Line) -> String {
    if line.context == "/" {
        format!("/{}", line.name)
    } else {
        format!("{}/{}", line.context, line.name)
    }
}

pub fn text(lines: &[Line]) -> Vec<u8> {
    let line = |line: &Line| format!("({}, ({}, {{{}}}))\n", line.context, line.name, line.keys.join(", "));
    lines.iter().map(line).collect::<String>().into_bytes()
}

/// Names that are prefixes of each other, that differ in letter case, and that order otherwise
/// with the byte after a name in a tag (`>` is after `-`, `.` and digits and before letters).
pub const NAMES: [&str; 26] = [
    "a", "b", "c", "ab", "a-", "a.b", "a1", "a_", "A", "B", "_", "_1", "t", "TT", "T1", "T.", "lamp", "light", "pos", "hours", "type", "station", "x", "y", "Z",
    "long_name-of.exactly.32.bytes_xx",
];

fn name(r: &mut Random) -> String {
    match r.below(12) {
        0 => format!("n{}", r.below(100)),
        _ => r.pick(&NAMES).to_string(),
    }
}

pub fn legal(r: &mut Random) -> Keys {
    let wanted = match r.below(24) {
        0 => 1,
        1 => 64,
        2..=4 => 8 + r.below(20),
        _ => 2 + r.below(6),
    };
    sized(r, wanted)
}

/// A legal key list with about as many lines as wanted.
pub fn sized(r: &mut Random, wanted: usize) -> Keys {
    let mut lines = vec![Line { context: "/".into(), name: name(r), keys: vec![] }];
    let mut paths = vec![path_of(&lines[0])];
    let deep = r.chance(25);
    for _ in 0..wanted * 3 {
        if lines.len() >= wanted {
            break;
        }
        let at = if deep { lines.len() - 1 } else { r.below(lines.len()) };
        let context = path_of(&lines[at]);
        let depth = context.matches('/').count();
        let mut keys: Vec<String> = vec![];
        if depth <= 6 && r.chance(45) {
            for _ in 0..r.choose(&[1, 1, 1, 2, 2, 3, 4]) {
                let key = name(r);
                if !keys.contains(&key) {
                    keys.push(key);
                }
            }
        }
        let line = Line { context, name: name(r), keys };
        let path = path_of(&line);
        if depth > 7 || paths.contains(&path) || paths.len() + 1 + line.keys.len() > 128 {
            continue;
        }
        paths.push(path.clone());
        paths.extend(line.keys.iter().map(|key| format!("{path}/{key}")));
        lines.push(line);
        if text(&lines).len() > 4_096 {
            lines.pop();
            break;
        }
    }
    Keys::of(lines)
}

const PARTS: [&[u8]; 18] =
    [b" ", b"\n", b"\r", b"/", b",", b", ", b"(", b")", b"{", b"}", b"T", b"()", b"{}", b"/T", b"(/, (s, {}))\n", b"\0", b"\t", b"a, "];

/// A key list with one rule broken, or one byte damaged.
pub fn damaged(r: &mut Random, keys: &Keys) -> Vec<u8> {
    let mut lines = keys.lines.clone();
    let at = r.below(lines.len());
    let line = lines[at].clone();
    let path = path_of(&line);
    let child = |name: &str| Line { context: path.clone(), name: name.into(), keys: vec![] };
    let t = "T".to_string();
    let long = "n".repeat(33);
    match r.below(33) {
        0 => lines[0].keys = vec![name(r)],
        1 => lines.push(line),
        2 => lines.push(Line { keys: vec![name(r)], ..line }),
        3 if !line.keys.is_empty() => lines.push(child(&line.keys[0])),
        4 if !line.keys.is_empty() => {
            lines.push(Line { context: format!("{path}/{}", r.pick(&line.keys)), ..child("zz") });
        }
        // A line whose implied path is a later line's.
        5 => lines.extend([Line { keys: vec!["zk".into()], ..child("zz") }, Line { context: format!("{path}/zz"), ..child("zk") }]),
        6 => lines.extend([Line { context: format!("{path}/zz"), ..child("zy") }, child("zz")]),
        7 => {
            let other = r.below(lines.len());
            lines.swap(at, other);
        }
        8 => lines[at].context = format!("{}/zz", if at == 0 { "" } else { &line.context }),
        9 => lines[at].name = t,
        10 => lines.push(Line { keys: vec![t], ..child("zz") }),
        11 => lines.push(Line { context: format!("{path}/T"), ..child("zz") }),
        // 64, 65 or 66 lines; 128, 129 or 130 paths.
        12 => {
            for i in lines.len()..64 + r.below(3) {
                lines.push(Line { context: path_of(&keys.lines[0]), ..child(&format!("z{i}")) });
            }
        }
        13 => {
            let wanted = 128 + r.below(3);
            let mut paths = keys.places.len();
            while paths < wanted {
                let many = ["a", "b", "c", "d"].iter().take(wanted - paths - 1).map(|key| key.to_string()).collect::<Vec<String>>();
                paths += 1 + many.len();
                lines.push(Line { context: path_of(&keys.lines[0]), keys: many, ..child(&format!("z{paths}")) });
            }
        }
        14 => {
            let mut path = path.clone();
            for _ in 0..8 {
                lines.push(Line { context: path.clone(), ..child("zz") });
                path += "/zz";
            }
        }
        15 => lines[at].keys = ["a", "b", "a"].map(String::from).to_vec(),
        16 => lines[at].keys = ["a", "b", "c", "d", "e"].map(String::from).to_vec(),
        17 => lines[at].keys.push(line.keys.first().cloned().unwrap_or_default()),
        18 => lines[at].name = long,
        19 => lines[at].keys.push(long),
        20 => lines[at].name = r.pick(&["", "1", "-a", ".", "a b", "a:b", "a/b", "\u{e9}", "a\u{7f}"]).to_string(),
        21 => lines[at].keys.push(r.pick(&["", "1", "-a", ".", "a b", "a,b", "{}"]).to_string()),
        22 => lines.push(Line { context: "/".into(), ..child("zz") }),
        23 => {
            lines.remove(0);
        }
        24 => lines[at].context += "/",
        25 => lines[at].context.insert(0, '/'),
        26 => lines[at].context = r.pick(&["", "a", " /", "/ ", "/1", "/T"]).to_string(),
        27 => {
            let mut text = text(&lines);
            text.pop();
            text.extend_from_slice(r.choose(&[&b""[..], b"\r\n", b"\n\n", b" \n", b"\0"]));
            return text;
        }
        28 => {
            let spacing = [(", (", ",("), (", {", " {"), ("}))", "} ))"), ("(", "( "), (", ", ",  "), ("\n", "\r\n"), (", ", ",\t"), ("))", ")")];
            let (from, to) = r.pick(&spacing);
            let text = String::from_utf8(text(&lines)).unwrap();
            return if r.chance(50) { text.replacen(from, to, 1) } else { text.replace(from, to) }.into_bytes();
        }
        29 if r.chance(30) => {
            let mut text = text(&lines);
            text.resize(4_090 + r.below(12), b'\n');
            return text;
        }
        _ => return damage_bytes(r, &keys.text, &PARTS),
    }
    text(&lines)
}
