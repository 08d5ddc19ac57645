//! Near-legal archives: a legal one with its tree damaged once or twice, or its bytes.

use crate::keylists::NAMES;
use crate::random::{damage_bytes, Random};
use reference::timestamp;

#[derive(Clone, PartialEq)]
enum Kind {
    /// With the text of its set.
    T(Vec<u8>),
    Element(Vec<u8>),
    /// As it is spelled.
    Text(Vec<u8>),
}

#[derive(Clone, PartialEq)]
struct Part {
    kind: Kind,
    parts: Vec<Part>,
}

fn part(kind: Kind, parts: Vec<Part>) -> Part {
    Part { kind, parts }
}

fn text(bytes: &[u8]) -> Part {
    part(Kind::Text(bytes.to_vec()), vec![])
}

fn t(set: &[usize], parts: Vec<Part>) -> Part {
    part(Kind::T(timestamp::text(&set.to_vec())), parts)
}

/// The parts of a legal archive's text, up to the end tag that belongs above.
fn read(rest: &mut &[u8]) -> Vec<Part> {
    let mut parts = vec![];
    while !rest.is_empty() && !rest.starts_with(b"</") {
        if rest[0] != b'<' {
            let end = rest.iter().position(|&byte| byte == b'<').unwrap();
            parts.push(text(&rest[..end]));
            *rest = &rest[end..];
            continue;
        }
        let end = rest.iter().position(|&byte| byte == b'>').unwrap();
        let tag = rest[1..end].to_vec();
        let kind = match tag.strip_prefix(b"T t=\"") {
            Some(set) => Kind::T(set[..set.len() - 1].to_vec()),
            None => Kind::Element(tag),
        };
        *rest = &rest[end + 1..];
        let inside = read(rest);
        let end = rest.iter().position(|&byte| byte == b'>').unwrap();
        *rest = &rest[end + 1..];
        parts.push(part(kind, inside));
    }
    parts
}

fn write(parts: &[Part], out: &mut Vec<u8>) {
    for part in parts {
        match &part.kind {
            Kind::T(set) => out.extend_from_slice(&[b"<T t=\"", &set[..], b"\">"].concat()),
            Kind::Element(name) => out.extend_from_slice(&[b"<", &name[..], b">"].concat()),
            Kind::Text(text) => out.extend_from_slice(text),
        }
        write(&part.parts, out);
        match &part.kind {
            Kind::T(_) => out.extend_from_slice(b"</T>"),
            Kind::Element(name) => out.extend_from_slice(&[b"</", &name[..], b">"].concat()),
            Kind::Text(_) => (),
        }
    }
}

/// A part's place: the way down to the part that holds it, its number there, and the set of the
/// nearest `T` above it.
#[derive(Clone)]
struct Place {
    way: Vec<usize>,
    number: usize,
    set: Vec<u8>,
}

fn places(top: &Part, fits: &dyn Fn(&Part) -> bool) -> Vec<Place> {
    fn down(holder: &Part, way: &mut Vec<usize>, set: &[u8], fits: &dyn Fn(&Part) -> bool, all: &mut Vec<Place>) {
        let set = if let Kind::T(own) = &holder.kind { own } else { set };
        for (number, part) in holder.parts.iter().enumerate() {
            if fits(part) {
                all.push(Place { way: way.clone(), number, set: set.to_vec() });
            }
            way.push(number);
            down(part, way, set, fits, all);
            way.pop();
        }
    }
    let mut all = vec![];
    down(top, &mut vec![], b"", fits, &mut all);
    all
}

/// The parts among which a place is.
fn siblings<'a>(top: &'a mut Part, way: &[usize]) -> &'a mut Vec<Part> {
    way.iter().fold(top, |holder, &number| &mut holder.parts[number]).parts.as_mut()
}

const SETS: [&str; 22] = [
    "", "0", "1", "2", "1-2", "1,2", "1-1", "2-1", "01", "1-02", "1,", ",1", "1,1", "1 ", "1--2", "1-2-3", "1-1000", "1000", "4294967297", "1-18446744073709551617", "3,1", "1-2,2-3",
];

const TEXTS: [&str; 18] = ["", "1", "2", "10", "x", " ", "&gt;", ">", "&quot;", "\"", "]]&gt;", "]]>", "&amp;lt;", "a b", "a\nb", "\n", "a\rb", "a\r\nb"];

const SNIPPETS: [&str; 24] = [
    "<T t=\"1\">", "</T>", "<T t=\"2\"></T>", "<T>", "<T/>", "<T t='1'>", "<T  t=\"1\">", "<T t=\"1\" >", "<T t=\"1\"/>", " ", "\n", "\r", "\r\n", "<a></a>", "<a/>", "x", ">", "&", "&lt;", "</", "<", "]]>", "<!---->", "\0",
];

/// An archive near a legal one of n versions. Some are legal still.
pub fn damaged(r: &mut Random, archive: &[u8], n: usize) -> Vec<u8> {
    let snippets = SNIPPETS.map(str::as_bytes);
    if r.chance(12) {
        return damage_bytes(r, archive, &snippets);
    }
    if r.chance(10) {
        return with_cr(r, archive);
    }
    let mut top = part(Kind::Element(vec![]), read(&mut &archive[..]));
    for _ in 0..r.choose(&[1, 1, 1, 1, 2, 3]) {
        damage(r, &mut top, n);
    }
    let mut out = vec![];
    write(&top.parts, &mut out);
    match r.below(200) {
        0 | 1 => out.resize(out.len().max(32_768 + r.below(3)), r.choose(b" x\n")),
        2 | 3 => out.push(r.choose(b" \n\rx\0<")),
        4 => out.insert(0, r.choose(b" \n\rx\0<")),
        _ => (),
    }
    out
}

/// The places of a text for which a byte, and the one after it, are such.
fn places_of(text: &[u8], fits: &dyn Fn(u8, u8) -> bool) -> Vec<usize> {
    (0..text.len()).filter(|&at| fits(text[at], text.get(at + 1).copied().unwrap_or(0))).collect()
}

/// An archive holding CR (Q-4): in place of one LF or of all, or before them; before or after any byte, beside a tag, in a
/// tag or a timestamp, or around the outermost `T`.
fn with_cr(r: &mut Random, archive: &[u8]) -> Vec<u8> {
    let end: &[u8] = r.choose(&[&b"\r"[..], b"\r", b"\r\n", b"\r\n", b"\n\r"]);
    let line_ends = places_of(archive, &|byte, _| byte == b'\n');
    let kind = r.below(10);
    if kind < 5 && !line_ends.is_empty() {
        let one = r.choose(&line_ends);
        let with = |at: usize| if kind == 4 || at == one { end } else { &archive[at..=at] };
        return (0..archive.len()).flat_map(|at| if archive[at] == b'\n' { with(at) } else { &archive[at..=at] }).copied().collect();
    }
    let places = match kind {
        5 => places_of(archive, &|byte, next| byte == b'>' || next == b'<'),
        6 => places_of(archive, &|byte, _| byte == b'<' || byte == b'/'),
        7 => places_of(archive, &|byte, next| byte.is_ascii_digit() || next == b'"' || byte == b'"'),
        8 => vec![0, archive.len() - 1],
        _ => (0..archive.len()).collect(),
    };
    let at = r.choose(&places) + usize::from(kind < 8 || r.chance(50));
    [&archive[..at], end, &archive[at..]].concat()
}

fn some(r: &mut Random, top: &Part, fits: &dyn Fn(&Part) -> bool) -> Option<Place> {
    let places = places(top, fits);
    (!places.is_empty()).then(|| r.pick(&places).clone())
}

fn any_set(r: &mut Random, n: usize, above: &[u8]) -> Vec<usize> {
    let above = timestamp::read(above).unwrap_or_default();
    match r.below(5) {
        0 => above,
        1 => above.into_iter().filter(|_| r.chance(50)).collect(),
        2 => vec![1 + r.below(n)],
        3 => (1..=n).filter(|_| r.chance(50)).collect(),
        _ => (1 + r.below(n)..=n).collect(),
    }
}

/// The kind of the outermost `T` of so many versions.
fn all_of(n: usize) -> Kind {
    t(&(1..=n).collect::<Vec<usize>>(), vec![]).kind
}

/// The root and the `T`s around it, which are the root's own, if it has one, and the outermost.
fn damage_root(r: &mut Random, top: &mut Part, n: usize) {
    let Some(outermost) = top.parts.first_mut() else { return };
    let all = outermost.kind.clone();
    // The set of the root's own T, and what is in it.
    let own = outermost.parts.first().filter(|part| matches!(part.kind, Kind::T(_))).map(|part| part.kind.clone());
    let inside = if own.is_some() { outermost.parts[0].parts.clone() } else { outermost.parts.clone() };
    let Kind::T(set) = own.clone().unwrap_or(all.clone()) else { return };
    let numbers = any_set(r, n, &set);
    match r.below(12) {
        // Bare; in a T with the outer set, with none, with any, in two.
        0 => outermost.parts = inside,
        1 => outermost.parts = vec![part(all, inside)],
        2 => outermost.parts = vec![t(&[], inside)],
        3 => outermost.parts = vec![t(&numbers, inside)],
        4 => outermost.parts = vec![t(&numbers, outermost.parts.clone())],
        // Twice: as it stands, bare beside it, in a T beside it.
        5 => outermost.parts.extend(outermost.parts.clone()),
        6 => outermost.parts.extend(inside),
        7 => outermost.parts.push(t(&numbers, inside)),
        // The outer set: the root's own if it has one, shortened, grown.
        8 => outermost.kind = own.unwrap_or_else(|| t(&numbers, vec![]).kind),
        9 => outermost.kind = all_of(r.choose(&[n.max(2) - 1, n + 1])),
        // No root, with its T or without; white space.
        10 => outermost.parts = if r.chance(50) { vec![] } else { vec![t(&numbers, vec![])] },
        _ => {
            let holder = if own.is_some() && r.chance(50) { &mut outermost.parts[0] } else { outermost };
            let at = r.below(holder.parts.len() + 1);
            holder.parts.insert(at, text(r.choose(&[&b" "[..], b"\n", b"\r\n", b"x"])));
        }
    }
}

fn damage(r: &mut Random, top: &mut Part, n: usize) {
    if r.chance(12) {
        return damage_root(r, top, n);
    }
    let is_t = |part: &Part| matches!(part.kind, Kind::T(_));
    let is_element = |part: &Part| matches!(part.kind, Kind::Element(_));
    let is_text = |part: &Part| matches!(part.kind, Kind::Text(_));
    let anything = |_: &Part| true;
    let holds_two = |part: &Part| part.parts.len() > 1;
    let holds_two_ts = |part: &Part| part.parts.len() > 1 && part.parts.iter().all(is_t);
    let holds_content = |part: &Part| is_element(part) && part.parts.iter().all(is_text);
    let kind = r.below(32);
    let fits: &dyn Fn(&Part) -> bool = match kind {
        0..=4 | 18 | 24 | 26 => &is_t,
        5..=7 => &anything,
        8 | 25 => &holds_two_ts,
        9 | 10 | 23 => &holds_two,
        13..=15 => &is_text,
        16 | 17 | 20 | 28 => &holds_content,
        19 | 21 => &is_element,
        _ => &anything,
    };
    let Some(Place { way, number, set }) = some(r, top, fits) else { return };
    let among = siblings(top, &way);
    let chosen = among[number].clone();
    let inside = among[number].parts.len();
    match kind {
        // A set: one number more or less, the parent's, any, a spelling that is not the text of a set.
        0 | 1 => {
            let Kind::T(own) = &chosen.kind else { return };
            let mut numbers = timestamp::read(own).unwrap_or_default();
            let one = 1 + r.below(n + 1);
            match numbers.binary_search(&one) {
                Ok(at) => {
                    numbers.remove(at);
                }
                Err(at) => numbers.insert(at, one),
            }
            among[number] = t(&numbers, chosen.parts);
        }
        2 => among[number].kind = Kind::T(set),
        3 => {
            let numbers = any_set(r, n, &set);
            among[number] = t(&numbers, chosen.parts);
        }
        4 => among[number].kind = Kind::T(r.pick(&SETS).as_bytes().to_vec()),
        // A T around a part or around two.
        5 | 6 => {
            let numbers = any_set(r, n, &set);
            among[number] = t(&numbers, vec![chosen]);
        }
        7 => {
            let numbers = any_set(r, n, &set);
            let end = (number + 2).min(among.len());
            let held: Vec<Part> = among.drain(number..end).collect();
            among.insert(number, t(&numbers, held));
        }
        // Two Ts side by side: made one, exchanged, with one content, with their sets exchanged.
        8 => {
            let at = r.below(inside - 1);
            let parts = &mut among[number].parts;
            let second = parts.remove(at + 1);
            if let (Kind::T(a), Kind::T(b)) = (&parts[at].kind, &second.kind) {
                let both = [&a[..], b",", &b[..]].concat();
                parts[at].kind = Kind::T(timestamp::text(&timestamp::read(&both).unwrap_or_default()));
            }
            if r.chance(30) {
                parts[at].parts.extend(second.parts);
            }
        }
        25 => {
            let at = r.below(inside - 1);
            let parts = &mut among[number].parts;
            match r.below(3) {
                0 => parts[at + 1].parts = parts[at].parts.clone(),
                1 => {
                    let first = parts[at].kind.clone();
                    parts[at].kind = parts[at + 1].kind.clone();
                    parts[at + 1].kind = first;
                }
                _ => parts.reverse(),
            }
        }
        // Out of order.
        9 | 10 => {
            let at = r.below(inside - 1);
            among[number].parts.swap(at, at + 1);
        }
        23 => {
            let (a, b) = (r.below(inside), r.below(inside));
            among[number].parts.swap(a, b);
        }
        // Doubled, perhaps with a set for each; gone.
        11 => {
            if r.chance(50) && n > 1 {
                let split = 1 + r.below(n - 1);
                let numbers = timestamp::read(&set).unwrap_or_default();
                let (first, second): (Vec<usize>, Vec<usize>) = numbers.iter().partition(|&&number| number <= split);
                among[number] = t(&first, vec![chosen.clone()]);
                among.insert(number + 1, t(&second, vec![chosen]));
            } else {
                among.insert(number, chosen);
            }
        }
        12 => {
            among.remove(number);
        }
        // A text: another, two in Ts, spelled otherwise.
        13 => among[number] = text(r.pick(&TEXTS).as_bytes()),
        14 => {
            let numbers = timestamp::read(&set).unwrap_or_default();
            let (first, second): (Vec<usize>, Vec<usize>) = numbers.into_iter().partition(|_| r.chance(50));
            let other = text(r.pick(&TEXTS).as_bytes());
            among[number] = t(&first, vec![chosen]);
            among.insert(number + 1, t(&second, vec![other]));
        }
        15 => {
            let Kind::Text(bytes) = &chosen.kind else { return };
            let spelled = String::from_utf8_lossy(bytes).into_owned();
            let (from, to) = r.choose(&[("&gt;", ">"), ("\"", "&quot;"), ("'", "&apos;"), ("&amp;", "&"), ("1", "&#49;"), ("", ">"), ("", " "), ("", "&apos;")]);
            among[number] = text(spelled.replacen(from, to, 1).as_bytes());
        }
        // A content: in a T with the whole set, in two Ts, made bare or empty, an element in it.
        16 => {
            let numbers = timestamp::read(&set).unwrap_or_default();
            among[number].parts = vec![t(&numbers, chosen.parts)];
        }
        17 => {
            let numbers = timestamp::read(&set).unwrap_or_default();
            let (first, second): (Vec<usize>, Vec<usize>) = numbers.iter().partition(|&&number| number == numbers[0]);
            let other = text(r.pick(&TEXTS).as_bytes());
            among[number].parts = vec![t(&first, chosen.parts), t(&second, vec![other])];
        }
        18 => {
            among.splice(number..=number, chosen.parts);
        }
        20 => {
            let at = r.below(inside + 1);
            let name = r.pick(&NAMES).as_bytes().to_vec();
            among[number].parts.insert(at, part(Kind::Element(name), vec![]));
        }
        // An element: its name, its tags, text or white space put in.
        19 => {
            let name = if r.chance(30) { b"T".to_vec() } else { r.pick(&NAMES).as_bytes().to_vec() };
            among[number].kind = Kind::Element(name);
        }
        21 => {
            let Kind::Element(name) = &chosen.kind else { return };
            if inside == 0 {
                among[number] = text(&[b"<", &name[..], b"/>"].concat());
            } else {
                let at = r.below(inside + 1);
                among[number].parts.insert(at, text(r.choose(&[&b" "[..], b"\n", b"x"])));
            }
        }
        22 => {
            let bytes = r.pick(&SNIPPETS).as_bytes();
            among.insert(number, text(bytes));
        }
        // A T inside out; a T in a T; a set's T gone from the inside to the outside.
        24 => {
            if let [Part { kind: Kind::Element(name), parts }] = &chosen.parts[..] {
                let name = name.clone();
                among[number] = part(Kind::Element(name), vec![part(chosen.kind.clone(), parts.clone())]);
            }
        }
        26 => among[number].parts = vec![chosen],
        // A version of the archive at or over a version's limits, or the archive over its own.
        27 | 28 if r.chance(40) => {
            let elements = way.len();
            let mut target = &mut among[number];
            if matches!(target.kind, Kind::Text(_)) {
                *target = part(Kind::Element(b"z".to_vec()), vec![]);
            }
            match r.below(3) {
                0 => {
                    let many = r.choose(&[480, 500, 505, 508, 509, 510, 511, 1_018, 1_020, 1_022]);
                    target.parts.extend((0..many).map(|_| part(Kind::Element(b"z".to_vec()), vec![])));
                }
                1 => target.parts.push(text(&b"x".repeat(16_384 - r.below(120)))),
                _ => {
                    for _ in elements..r.choose(&[14, 15, 16, 17]) {
                        target.parts.push(part(Kind::Element(b"z".to_vec()), vec![]));
                        target = target.parts.last_mut().unwrap();
                    }
                }
            }
        }
        // The outermost set.
        29 => {
            let last = r.choose(&[n + 1, n.max(2) - 1, 999, 1_000, n + 64]);
            top.parts[0].kind = all_of(last);
        }
        // A part moved elsewhere.
        _ => {
            let moved = among.remove(number);
            let Some(to) = some(r, top, &anything) else { return };
            siblings(top, &to.way).insert(to.number, moved);
        }
    }
}
