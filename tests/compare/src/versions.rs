//! Random versions for a key list: legal ones, spelled in many ways, and near-legal ones.

use crate::keylists::{Keys, NAMES};
use crate::notes::{self, Ends};
use crate::random::{damage_bytes, Random};

#[derive(Clone)]
pub enum Item {
    Element(Tree),
    /// What is meant; it can be spelled with entities, and its line ends, which are LF, with CR.
    Text(Vec<u8>),
    /// Spelled as it is.
    Raw(Vec<u8>),
}

#[derive(Clone)]
pub struct Tree {
    pub name: String,
    pub items: Vec<Item>,
    /// The listed path, if it is one; none beneath a frontier.
    pub place: Option<usize>,
}

/// Values that are prefixes of each other and order otherwise as numbers.
pub const VALUES: [&str; 14] = ["1", "2", "10", "1.", "1-", "9", "a", "A", "_", "-", ".", "01", "T", "value-of_exactly.32.bytes_XXYZ"];

const TEXTS: [&str; 25] = [
    "1", "2", "40", "90", "x y", " ", "\t\n ", "a<b", "&", ">", "\"'", "]]", "]]>", "]>", "]", "&amp;", "\n", "~!@#$%^*()", " padded ", "1-3,5", "t=\"1\"", "&lt;", "a\nb", "\n\n", "]]\n>\n",
];

pub fn legal(r: &mut Random, keys: &Keys) -> Tree {
    let mut budget = r.choose(&[3, 10, 20, 40]);
    element(r, keys, 0, &[], &mut budget)
}

/// An element at a listed path, with these key values.
fn element(r: &mut Random, keys: &Keys, place: usize, values: &[&str], budget: &mut usize) -> Tree {
    let here = &keys.places[place];
    let mut items: Vec<Item> = vec![];
    if keys.is_frontier(place) {
        items = content(r, 0);
    }
    for &child in &here.children {
        let there = &keys.places[child];
        if let Some(number) = here.key_names.iter().position(|name| *name == there.name) {
            let items_of_key = vec![Item::Text(values[number].as_bytes().to_vec())];
            items.push(Item::Element(Tree { name: there.name.clone(), items: items_of_key, place: Some(child) }));
            continue;
        }
        let count = if there.key_names.is_empty() { usize::from(r.chance(65)) } else { r.below(4) };
        let mut used: Vec<Vec<&str>> = vec![];
        for _ in 0..count {
            let values: Vec<&str> = there.key_names.iter().map(|_| value(r)).collect();
            if *budget > 0 && !used.contains(&values) {
                *budget -= 1;
                items.push(Item::Element(element(r, keys, child, &values, budget)));
                used.push(values);
            }
        }
    }
    Tree { name: here.name.clone(), items, place: Some(place) }
}

fn value(r: &mut Random) -> &'static str {
    if r.chance(70) {
        VALUES[r.below(4)]
    } else {
        r.choose(&VALUES)
    }
}

/// Content of a frontier, or beneath one: no two runs side by side.
fn content(r: &mut Random, depth: usize) -> Vec<Item> {
    let text = |r: &mut Random| Item::Text(if r.chance(15) { notes::note(r) } else { r.pick(&TEXTS).as_bytes().to_vec() });
    match r.below(10) {
        0 | 1 => vec![],
        2..=6 => vec![text(r)],
        _ if depth > 2 => vec![],
        _ => {
            let mut items = vec![];
            for _ in 0..1 + r.below(3) {
                if r.chance(30) {
                    items.push(text(r));
                }
                items.push(Item::Element(Tree { name: free_name(r), items: content(r, depth + 1), place: None }));
            }
            if r.chance(30) {
                items.push(text(r));
            }
            items
        }
    }
}

fn free_name(r: &mut Random) -> String {
    NAMES[r.below(NAMES.len())].to_string()
}

/// Where the elements are that fit: for each, the way down from the root by item numbers.
fn ways(tree: &Tree, fits: &dyn Fn(&Tree) -> bool) -> Vec<Vec<usize>> {
    fn down(tree: &Tree, way: &mut Vec<usize>, fits: &dyn Fn(&Tree) -> bool, all: &mut Vec<Vec<usize>>) {
        if fits(tree) {
            all.push(way.clone());
        }
        for (at, item) in tree.items.iter().enumerate() {
            if let Item::Element(child) = item {
                way.push(at);
                down(child, way, fits, all);
                way.pop();
            }
        }
    }
    let mut all = vec![];
    down(tree, &mut vec![], fits, &mut all);
    all
}

fn at<'a>(tree: &'a mut Tree, way: &[usize]) -> &'a mut Tree {
    match way {
        [] => tree,
        [first, rest @ ..] => match &mut tree.items[*first] {
            Item::Element(child) => at(child, rest),
            _ => unreachable!("a way leads to an element"),
        },
    }
}

/// A random element that fits.
fn some<'a>(r: &mut Random, tree: &'a mut Tree, fits: &dyn Fn(&Tree) -> bool) -> Option<&'a mut Tree> {
    let ways = ways(tree, fits);
    if ways.is_empty() {
        return None;
    }
    let way = r.pick(&ways).clone();
    Some(at(tree, &way))
}

fn is_above(keys: &Keys, tree: &Tree) -> bool {
    tree.place.is_some_and(|place| !keys.is_frontier(place))
}

fn has_key_names(keys: &Keys, tree: &Tree) -> bool {
    tree.place.is_some_and(|place| !keys.places[place].key_names.is_empty())
}

/// A key child is one whose name is a key name of the element above it.
fn is_key_child(keys: &Keys, place: usize) -> bool {
    keys.places.iter().any(|above| above.children.contains(&place) && above.key_names.contains(&keys.places[place].name))
}

fn is_plain_frontier(keys: &Keys, tree: &Tree) -> bool {
    tree.place.is_some_and(|place| keys.is_frontier(place) && !is_key_child(keys, place))
}

/// A legal version near a legal one: contents changed, elements gone and come.
pub fn varied(r: &mut Random, keys: &Keys, tree: &Tree) -> Tree {
    let mut tree = tree.clone();
    for _ in 0..1 + r.below(3) {
        match r.below(5) {
            0..=2 => {
                let items = content(r, 0);
                if let Some(frontier) = some(r, &mut tree, &|tree| is_plain_frontier(keys, tree)) {
                    frontier.items = items;
                }
            }
            3 => {
                if let Some(above) = some(r, &mut tree, &|tree| is_above(keys, tree) && !tree.items.is_empty()) {
                    let gone = r.below(above.items.len());
                    let Item::Element(child) = &above.items[gone] else { continue };
                    if child.place.is_some_and(|place| !is_key_child(keys, place)) {
                        above.items.remove(gone);
                    }
                }
            }
            _ => {
                // A child of another version's root, if none of its name is here yet.
                let fresh = legal(r, keys);
                if !keys.is_frontier(0) && !fresh.items.is_empty() {
                    let Item::Element(child) = r.pick(&fresh.items) else { continue };
                    let here = |item: &Item| matches!(item, Item::Element(other) if other.name == child.name);
                    if !tree.items.iter().any(here) {
                        tree.items.push(Item::Element(child.clone()));
                    }
                }
            }
        }
    }
    tree
}

/// A version like this one, with notes in one of its frontiers, and in elements beneath it, up to eight deep; none
/// if it has no frontier for them.
pub fn with_notes(r: &mut Random, keys: &Keys, tree: &Tree) -> Option<Tree> {
    let mut tree = tree.clone();
    let frontier = some(r, &mut tree, &|tree| is_plain_frontier(keys, tree))?;
    let mut items = vec![Item::Text(notes::note(r))];
    for _ in 0..r.choose(&[0, 0, 1, 1, 2, 5, 8]) {
        let name = free_name(r);
        items = vec![Item::Text(notes::note(r)), leaf(&name, items)];
        if r.chance(50) {
            items.push(Item::Text(notes::note(r)));
        }
        if r.chance(30) {
            items.remove(0);
        }
    }
    frontier.items = items;
    Some(tree)
}

/// A version like this one, but for a byte of one of its notes.
pub fn note_changed(r: &mut Random, tree: &Tree) -> Tree {
    let mut tree = tree.clone();
    let is_note = |item: &Item| matches!(item, Item::Text(text) if text.contains(&b'\n'));
    if let Some(holder) = some(r, &mut tree, &|tree| tree.items.iter().any(is_note)) {
        let note = holder.items.iter_mut().find(|item| is_note(item));
        if let Some(Item::Text(note)) = note {
            *note = notes::changed(r, note);
        }
    }
    tree
}

/// How a version is spelled: with white space where it is dropped, or without, and how its lines end.
#[derive(Clone, Copy)]
struct Spelling {
    spaced: bool,
    ends: Ends,
}

/// A spelling of a version: sibling order, white space, line ends, entities and empty tags by chance.
pub fn spelled(r: &mut Random, keys: &Keys, tree: &Tree) -> Vec<u8> {
    let mut text = vec![];
    let spelling = Spelling { spaced: r.chance(50), ends: notes::any_ends(r) };
    white_space(r, spelling, &mut text);
    spell(r, keys, tree, spelling, &mut text);
    white_space(r, spelling, &mut text);
    text
}

/// Sometimes white space, and now and then a long run of it.
fn white_space(r: &mut Random, Spelling { spaced, ends }: Spelling, text: &mut Vec<u8>) {
    if !spaced || r.chance(50) {
        return;
    }
    let count = if r.chance(3) { r.below(80) } else { 1 };
    for _ in 0..count {
        match r.below(6) {
            0 | 1 => notes::spell_end(r, ends, text),
            2 => {
                notes::spell_end(r, ends, text);
                text.extend_from_slice(b"  ");
            }
            _ => text.extend_from_slice(r.choose(&[&b" "[..], b"\t", b"\r\n", b" \t\r\n", b"\r", b"\n\r", b"\r\r\n"])),
        }
    }
}

fn spell(r: &mut Random, keys: &Keys, tree: &Tree, spelling: Spelling, text: &mut Vec<u8>) {
    let name = tree.name.as_bytes();
    let above = is_above(keys, tree);
    let mut inside = vec![];
    let mut order: Vec<&Item> = tree.items.iter().collect();
    if above {
        r.shuffle(&mut order);
    }
    for item in order {
        if above {
            white_space(r, spelling, &mut inside);
        }
        match item {
            Item::Element(child) => spell(r, keys, child, spelling, &mut inside),
            Item::Text(bytes) => spell_text(r, bytes, spelling.ends, &mut inside),
            Item::Raw(bytes) => inside.extend_from_slice(bytes),
        }
    }
    if above {
        white_space(r, spelling, &mut inside);
    }
    if inside.is_empty() && r.chance(50) {
        text.extend_from_slice(&[b"<", name, b"/>"].concat());
    } else {
        text.extend_from_slice(&[b"<", name, b">", &inside, b"</", name, b">"].concat());
    }
}

fn spell_text(r: &mut Random, bytes: &[u8], ends: Ends, text: &mut Vec<u8>) {
    for &byte in bytes {
        if byte == b'\n' {
            notes::spell_end(r, ends, text);
            continue;
        }
        let entity: &[u8] = match byte {
            b'<' => b"&lt;",
            b'&' => b"&amp;",
            b'>' => b"&gt;",
            b'"' => b"&quot;",
            b'\'' => b"&apos;",
            _ => b"",
        };
        let must = matches!(byte, b'<' | b'&') || (byte == b'>' && text.ends_with(b"]]"));
        if !entity.is_empty() && (must || r.chance(40)) {
            text.extend_from_slice(entity);
        } else {
            text.push(byte);
        }
    }
}

/// Nodes as document 01 counts them, of a version with no raw items.
pub fn nodes(tree: &Tree) -> usize {
    let own = usize::from(tree.name != "T");
    own + tree.items.iter().map(|item| if let Item::Element(child) = item { nodes(child) } else { 1 }).sum::<usize>()
}

/// The length of the written form, of a version with no raw items.
pub fn written_length(tree: &Tree) -> usize {
    let length = |byte: &u8| match byte {
        b'&' => 5,
        b'<' | b'>' => 4,
        _ => 1,
    };
    let item = |item: &Item| match item {
        Item::Element(child) => written_length(child),
        Item::Text(text) | Item::Raw(text) => text.iter().map(length).sum(),
    };
    2 * tree.name.len() + 5 + tree.items.iter().map(item).sum::<usize>()
}

fn leaf(name: &str, items: Vec<Item>) -> Item {
    Item::Element(Tree { name: name.into(), items, place: None })
}

/// Fills a frontier with elements until the version has so many nodes.
pub fn fill_nodes(r: &mut Random, keys: &Keys, tree: &mut Tree, wanted: usize, name: &str) -> bool {
    let have = nodes(tree);
    let Some(frontier) = some(r, tree, &|tree| is_plain_frontier(keys, tree)) else { return false };
    frontier.items.extend((have..wanted).map(|_| leaf(name, vec![])));
    have <= wanted
}

/// Fills a frontier with a text until the written form has such a length.
pub fn fill_length(r: &mut Random, keys: &Keys, tree: &mut Tree, wanted: usize, byte: u8) -> bool {
    let have = written_length(tree) + 7;
    let Some(frontier) = some(r, tree, &|tree| is_plain_frontier(keys, tree)) else { return false };
    if have >= wanted {
        return false;
    }
    let more = wanted - have;
    let text = match byte {
        b'>' => [b"x".repeat(more % 4), b">".repeat(more / 4)].concat(),
        // Lines of five bytes written: with CR LF the text that is lent is shorter still than its written form.
        b'\n' => [b"x".repeat(more % 5), b">\n".repeat(more / 5)].concat(),
        _ => [byte].repeat(more),
    };
    frontier.items.push(leaf("z", vec![Item::Text(text)]));
    true
}

/// Nests elements in a frontier until the version is so deep.
pub fn nest(r: &mut Random, keys: &Keys, tree: &mut Tree, wanted: usize, name: &str) -> bool {
    let ways = ways(tree, &|tree| is_plain_frontier(keys, tree));
    if ways.is_empty() {
        return false;
    }
    let way = r.pick(&ways).clone();
    let depth = way.len() + 1;
    let mut nested = vec![];
    for _ in depth..wanted {
        nested = vec![leaf(name, nested)];
    }
    at(tree, &way).items.extend(nested);
    true
}

const SNIPPETS: [&str; 49] = [
    "<!-- c -->", "<?p?>", "<![CDATA[x]]>", "]]>", "]]&gt;", "&#65;", "&#x41;", "&nbsp;", "&lt", "&;", "&", "<", ">", "</", "/>", "<a b=\"c\"/>", "<a >", "</a >", "< a/>", "<a/ >", "<>", "</>",
    "<T t=\"1\">", "<T>", "</T>", "<T/>", "<a/>", "<a></a>", "x", " ", "&amp;", "<name_of_thirty_three_bytes_xxxxxxx/>", "<xml/>", "<a:b/>",
    "\r", "\r\n", "\n\r", "\r\r\n", "\r&lt;", "&lt;\r\n", "]]\r>", "]]\r\n>", "\r]]>", "<a\r/>", "</a\r>", "&lt\r;", "&#13;", "&#xD;", "\r<a>\r\n</a>\r",
];

/// A vacant version: empty, or white space alone, now and then as long as a version may be.
pub fn vacant(r: &mut Random) -> Vec<u8> {
    let length = match r.below(20) {
        0..=6 => 0,
        7..=17 => 1 + r.below(9),
        _ => 16_384 - r.below(2),
    };
    (0..length).map(|_| r.choose(b" \t\r\n")).collect()
}

/// A text near a vacant version: with one other byte, or about as long as a version may be.
fn near_vacant(r: &mut Random) -> Vec<u8> {
    let mut text = vacant(r);
    if r.chance(30) {
        text.resize(16_383 + r.below(3), b' ');
    } else {
        let at = r.below(text.len() + 1);
        text.insert(at, r.choose(b"x<>&/;\0\x08\x0b\x0c\x0e\x1f!\x7f\x80\x85\xa0\xff"));
    }
    text
}

/// A text near a legal version: its tree damaged once or twice, or its bytes; or one near a vacant version.
pub fn damaged(r: &mut Random, keys: &Keys, tree: &Tree) -> Vec<u8> {
    if r.chance(6) {
        return near_vacant(r);
    }
    let mut tree = tree.clone();
    let count = r.choose(&[0, 1, 1, 1, 1, 2, 2, 3]);
    for _ in 0..count {
        damage_tree(r, keys, &mut tree);
    }
    let mut text = spelled(r, keys, &tree);
    if count == 0 || r.chance(10) {
        let snippets = SNIPPETS.map(str::as_bytes);
        for _ in 0..r.choose(&[1, 1, 1, 2]) {
            text = damage_bytes(r, &text, &snippets);
        }
    }
    if r.chance(3) {
        // Something before or after the root: perhaps a second one.
        let more = if r.chance(40) { text.clone() } else { r.choose(&SNIPPETS).as_bytes().to_vec() };
        text = if r.chance(50) { [text, more].concat() } else { [more, text].concat() };
    }
    if r.chance(2) {
        text.resize(text.len().max(16_384 + r.below(3)), r.choose(b" \nx"));
    }
    text
}

fn damage_tree(r: &mut Random, keys: &Keys, tree: &mut Tree) {
    let anywhere = |_: &Tree| true;
    let above = |tree: &Tree| is_above(keys, tree);
    let keyed = |tree: &Tree| has_key_names(keys, tree);
    let text = |text: &str| Item::Text(text.as_bytes().to_vec());
    match r.below(28) {
        // A key child missing, repeated, illegal.
        kind @ (0..=5 | 22 | 23) => {
            let Some(element) = some(r, tree, &keyed) else { return };
            let names = &keys.places[element.place.unwrap()].key_names;
            let name = r.pick(names).clone();
            let is_it = |item: &Item| matches!(item, Item::Element(child) if child.name == name);
            let Some(number) = element.items.iter().position(is_it) else { return };
            let (value, other) = (r.choose(&VALUES), r.below(element.items.len() + 1));
            let Item::Element(key_child) = &mut element.items[number] else { return };
            match kind {
                0 | 22 => {
                    element.items.remove(number);
                }
                1 => {
                    let mut again = key_child.clone();
                    if r.chance(50) {
                        again.items = vec![text(value)];
                    }
                    element.items.insert(other, Item::Element(again));
                }
                2 => key_child.items = vec![],
                3 | 23 => {
                    let long = "v".repeat(33);
                    let illegal = [" ", "a b", " 1", "1\n", "a:", "<", ">", "&", "\"", "1/2", "+", long.as_str()];
                    key_child.items = vec![text(r.choose(&illegal))];
                }
                4 => key_child.items.push(leaf("a", vec![])),
                _ => key_child.items = vec![leaf("a", vec![text("1")])],
            }
        }
        // Doubled siblings.
        6..=8 | 24..=26 => {
            let Some(element) = some(r, tree, &|tree| is_above(keys, tree) && !tree.items.is_empty()) else { return };
            // A keyed one rather than one without a key, if there is one.
            let keyed = element.items.iter().find(|item| matches!(item, Item::Element(child) if has_key_names(keys, child)));
            let picked = if r.chance(50) { keyed.unwrap_or(&element.items[0]) } else { r.pick(&element.items) };
            let Item::Element(twin) = picked else { return };
            let mut twin = twin.clone();
            if let Some(frontier) = some(r, &mut twin, &|tree| is_plain_frontier(keys, tree)) {
                frontier.items = content(r, 0);
            }
            element.items.push(Item::Element(twin));
        }
        // An unlisted path: a new element, another name, an element around or gone.
        9 => {
            let name = free_name(r);
            let items = content(r, 1);
            let Some(element) = some(r, tree, &above) else { return };
            element.items.push(leaf(&name, items));
        }
        10 => {
            let name = free_name(r);
            some(r, tree, &anywhere).unwrap().name = name;
        }
        11 => {
            let inside = some(r, tree, &anywhere).unwrap();
            let around = Tree { name: inside.name.clone(), items: vec![Item::Element(inside.clone())], place: inside.place };
            *inside = around;
        }
        12 => {
            let name = keys.places[r.below(keys.places.len())].name.clone();
            let Some(element) = some(r, tree, &above) else { return };
            element.items.push(leaf(&name, vec![]));
        }
        // Text where it is refused.
        13 | 14 => {
            let refused = r.choose(&["x", " x ", "&", ">", "\nx"]);
            let Some(element) = some(r, tree, &above) else { return };
            element.items.push(text(refused));
        }
        // The name T.
        15 => some(r, tree, &anywhere).unwrap().name = "T".into(),
        16 => {
            let items = content(r, 1);
            let element = some(r, tree, &anywhere).unwrap();
            element.items.push(leaf("T", items));
        }
        // Too deep, too many nodes, too long.
        17 => {
            let (wanted, name) = (r.choose(&[15, 16, 16, 17, 17, 18, 40]), r.choose(&["a", "a", "b", "T"]));
            nest(r, keys, tree, wanted, name);
        }
        18 if r.chance(50) => {
            let (wanted, name) = (r.choose(&[511, 512, 512, 513, 513, 600]), r.choose(&["a", "b", "T"]));
            fill_nodes(r, keys, tree, wanted, name);
        }
        19 if r.chance(50) => {
            let (wanted, byte) = (r.choose(&[16_383, 16_384, 16_384, 16_385, 16_385, 17_000]), r.choose(b">>\n\nx"));
            fill_length(r, keys, tree, wanted, byte);
        }
        // White space or text as a run of its own, in any element.
        20 => {
            let run = r.choose(&[" ", "\n", "x", "]]>", "\t \t", "\n\n"]);
            let element = some(r, tree, &anywhere).unwrap();
            element.items.push(text(run));
        }
        _ => {
            let snippet = r.pick(&SNIPPETS).as_bytes().to_vec();
            let element = some(r, tree, &anywhere).unwrap();
            let at = r.below(element.items.len() + 1);
            element.items.insert(at, Item::Raw(snippet));
        }
    }
}
