//! Rounds of calls: lists with a shelf beside them, and single calls on damaged texts.

use crate::addresses;
use crate::archives;
use crate::comparison::Comparison;
use crate::keylists::{self, Keys, Line};
use crate::marks;
use crate::notes;
use crate::random::Random;
use crate::station::{Call, Expected};
use crate::versions::{self, Tree};
use reference::shelf::Shelf;

/// What a list has come to: the archive, the table of marks, the shelf, and the versions' trees (for
/// addresses and as models of later versions; they may not tell what is on the shelf exactly: that of
/// a vacant version is what the station was like before, or is to be).
struct Standing {
    archive: Vec<u8>,
    table: Vec<u8>,
    shelf: Shelf,
    trees: Vec<Tree>,
}

/// One round: a random key list, near-legal texts, a list of calls, near-legal archives, longest histories.
pub fn round(c: &mut Comparison, r: &mut Random) {
    match r.below(200) {
        0..=7 => return heavy(c, r),
        8 => return long(c, r),
        _ => (),
    }
    let keys = keylists::legal(r);
    c.ask(r, &keys.text, Call::CheckKeys);
    for _ in 0..2 {
        let damaged = keylists::damaged(r, &keys);
        c.ask(r, &damaged, Call::CheckKeys);
    }
    let model = versions::legal(r, &keys);
    for _ in 0..6 {
        let version = versions::damaged(r, &keys, &model);
        c.ask(r, &keys.text, Call::Found { version: &version });
    }
    let Some(standing) = list(c, r, &keys, model) else { return };
    for _ in 0..12 {
        near(c, r, &keys, &standing);
    }
    for _ in 0..12 {
        near_table(c, r, &keys, &standing);
    }
    for _ in 0..4 {
        let n = any_count(r);
        c.ask(r, &keys.text, Call::LongestHistory { n });
    }
}

/// A list of calls: the founding, adds, of vacant versions and of notes saved on several tablets too, marks set, steps
/// back by number and by name, refused ones between them, then retrievals and histories. After each call that was not refused, result and
/// table are measured against the shelf.
fn list(c: &mut Comparison, r: &mut Random, keys: &Keys, model: Tree) -> Option<Standing> {
    let text = if r.chance(15) { versions::vacant(r) } else { versions::spelled(r, keys, &model) };
    let call = Call::Found { version: &text };
    let founded = c.ask(r, &keys.text, call);
    if founded.number != 0 {
        return None;
    }
    let shelf = Shelf::found(&keys.text, &text).expect("a founding that succeeded");
    c.shelf_gives(&keys.text, call, &founded.bytes, &shelf.archive());
    let mut standing = Standing { archive: founded.bytes, table: shelf.table(), shelf, trees: vec![model] };
    for _ in 0..r.choose(&[0, 2, 4, 8, 12, 16]) {
        match r.below(35) {
            0..=12 => {
                let earlier = r.pick(&standing.trees).clone();
                let latest = standing.trees.last().unwrap();
                let tree = match r.below(8) {
                    0 => versions::legal(r, keys),
                    1 => earlier,
                    2 => versions::varied(r, keys, &earlier),
                    3 => latest.clone(),
                    _ => versions::varied(r, keys, latest),
                };
                let text = versions::spelled(r, keys, &tree);
                add(c, r, keys, &mut standing, text, tree);
            }
            13 | 14 => {
                let tree = standing.trees.last().unwrap().clone();
                let text = versions::damaged(r, keys, &tree);
                add(c, r, keys, &mut standing, text, tree);
            }
            15..=17 => {
                let i = 1 + r.below(standing.shelf.count());
                back(c, r, keys, &mut standing, i);
            }
            18 | 19 => {
                let i = any_number(r, standing.shelf.count());
                back(c, r, keys, &mut standing, i);
            }
            20 | 21 => back_to_mark(c, r, keys, &mut standing),
            22 | 23 => (0..r.choose(&[1, 1, 2, 3])).for_each(|_| strike_off(c, r, keys, &mut standing)),
            24 if r.chance(10) => (0..33).for_each(|_| set_mark(c, r, keys, &mut standing)),
            25..=27 => save_on_tablets(c, r, keys, &mut standing),
            _ => set_mark(c, r, keys, &mut standing),
        }
    }
    read_back(c, r, keys, &standing);
    Some(standing)
}

/// A number that may not be in 1 to n.
fn any_number(r: &mut Random, n: usize) -> usize {
    r.choose(&[0, 1, n, n + 1, n + 2, 64, 999, 1_000, 1 << 32, (1 << 32) + 1, usize::MAX])
}

/// A number of versions: any, one at a border, or one that there can't be, with legal low bits too.
fn any_count(r: &mut Random) -> usize {
    let n = 1 + r.below(999);
    match r.below(12) {
        0..=2 => r.choose(&[1, 2, 3, 9, 10, 11, 12, 99, 100, 101, 102, 998, 999]),
        3 => r.choose(&[0, 1_000, 1_001, usize::MAX]),
        4 | 5 => n + (1 << r.choose(&[10, 16, 32, 63])),
        _ => n,
    }
}

fn add(c: &mut Comparison, r: &mut Random, keys: &Keys, standing: &mut Standing, text: Vec<u8>, tree: Tree) -> u32 {
    let call = Call::Add { archive: &standing.archive, version: &text };
    let added = c.ask(r, &keys.text, call);
    if added.number == 0 {
        standing.shelf.add(&text).expect("an add that succeeded");
        c.shelf_gives(&keys.text, call, &added.bytes, &standing.shelf.archive());
        standing.archive = added.bytes;
        standing.trees.push(tree);
    }
    added.number
}

/// Adds a version with notes, and the same text with other line ends, which is the same version; then one that
/// differs in a byte of a note as well as in its line ends; sometimes the first again.
fn save_on_tablets(c: &mut Comparison, r: &mut Random, keys: &Keys, standing: &mut Standing) {
    let Some(tree) = versions::with_notes(r, keys, standing.trees.last().unwrap()) else { return };
    let text = versions::spelled(r, keys, &tree);
    let again = notes::other_ends(r, &text);
    add(c, r, keys, standing, text.clone(), tree.clone());
    add(c, r, keys, standing, again, tree.clone());
    let changed = versions::note_changed(r, &tree);
    let other = versions::spelled(r, keys, &changed);
    add(c, r, keys, standing, other, changed);
    if r.chance(50) {
        let again = notes::other_ends(r, &text);
        add(c, r, keys, standing, again, tree);
    }
}

/// Adds a vacant version.
fn strike_off(c: &mut Comparison, r: &mut Random, keys: &Keys, standing: &mut Standing) {
    let text = versions::vacant(r);
    let tree = standing.trees.last().unwrap().clone();
    add(c, r, keys, standing, text, tree);
}

fn back(c: &mut Comparison, r: &mut Random, keys: &Keys, standing: &mut Standing, i: usize) {
    let (archive, table) = (standing.archive.clone(), standing.table.clone());
    let call = Call::Back { archive: &archive, table: &table, i };
    let stepped = c.ask(r, &keys.text, call);
    if stepped.number == 0 {
        standing.shelf.back(i);
        hand_on(c, keys, standing, call, stepped);
    }
}

fn back_to_mark(c: &mut Comparison, r: &mut Random, keys: &Keys, standing: &mut Standing) {
    let (archive, table) = (standing.archive.clone(), standing.table.clone());
    let name = marks::any_name(r, &table);
    let call = Call::BackToMark { archive: &archive, table: &table, name: &name };
    let stepped = c.ask(r, &keys.text, call);
    if stepped.number == 0 {
        standing.shelf.back_to_mark(&name);
        hand_on(c, keys, standing, call, stepped);
    }
}

/// What a step back gave is lent to the next call; it is what the shelf gives.
fn hand_on(c: &mut Comparison, keys: &Keys, standing: &mut Standing, call: Call, stepped: Expected) {
    c.shelf_gives(&keys.text, call, &stepped.bytes, &standing.shelf.archive());
    c.shelf_gives(&keys.text, call, &stepped.table, &standing.shelf.table());
    standing.archive = stepped.bytes;
    standing.table = stepped.table;
    standing.trees.truncate(standing.shelf.count());
}

fn set_mark(c: &mut Comparison, r: &mut Random, keys: &Keys, standing: &mut Standing) {
    let n = standing.shelf.count();
    let name = if r.chance(75) { marks::name(r) } else { marks::any_name(r, &standing.table) };
    let i = if r.chance(85) { 1 + r.below(n) } else { any_number(r, n) };
    let call = Call::SetMark { archive: &standing.archive, table: &standing.table, name: &name, i };
    let set = c.ask(r, &keys.text, call);
    if set.number == 0 {
        standing.shelf.set_mark(&name, i);
        c.shelf_gives(&keys.text, call, &set.table, &standing.shelf.table());
        standing.table = set.table;
    }
}

/// Retrievals, histories and marks of what stands.
fn read_back(c: &mut Comparison, r: &mut Random, keys: &Keys, standing: &Standing) {
    let archive = &standing.archive;
    let n = standing.shelf.count();
    for _ in 0..3 {
        let name = marks::any_name(r, &standing.table);
        let call = Call::FindMark { archive, table: &standing.table, name: &name };
        let found = c.ask(r, &keys.text, call);
        let [found, shelfs] = [found.version, standing.shelf.version_of(&name)].map(|version| version.to_string());
        c.shelf_gives(&keys.text, call, found.as_bytes(), shelfs.as_bytes());
    }
    for _ in 0..3 {
        let i = 1 + r.below(n);
        let call = Call::Retrieve { archive, i };
        let retrieved = c.ask(r, &keys.text, call);
        c.shelf_gives(&keys.text, call, &retrieved.bytes, &standing.shelf.written(i));
    }
    let i = any_number(r, n);
    c.ask(r, &keys.text, Call::Retrieve { archive, i });
    for _ in 0..5 {
        let tree = r.pick(&standing.trees);
        let address = if r.chance(70) { addresses::held(r, keys, tree) } else { addresses::listed(r, keys) };
        let call = Call::History { archive, address: &address };
        let history = c.ask(r, &keys.text, call);
        if let Ok(shelfs) = standing.shelf.history(&address) {
            c.shelf_gives(&keys.text, call, &history.bytes, &shelfs);
        }
        if r.chance(60) {
            let address = addresses::damaged(r, keys, &address);
            c.ask(r, &keys.text, Call::History { archive, address: &address });
        }
    }
}

/// One call with a near-legal archive, now and then with other damaged texts beside it.
fn near(c: &mut Comparison, r: &mut Random, keys: &Keys, standing: &Standing) {
    let n = standing.shelf.count();
    let archive = if r.chance(96) { archives::damaged(r, &standing.archive, n) } else { standing.archive.clone() };
    let key_list = if r.chance(96) { keys.text.clone() } else { keylists::damaged(r, keys) };
    let i = if r.chance(80) { 1 + r.below(n) } else { any_number(r, n) };
    let tree = r.pick(&standing.trees);
    match r.below(5) {
        0 => {
            let version = match r.below(20) {
                0 | 1 => versions::damaged(r, keys, tree),
                2 | 3 => versions::vacant(r),
                _ => versions::spelled(r, keys, tree),
            };
            c.ask(r, &key_list, Call::Add { archive: &archive, version: &version });
        }
        1 => {
            c.ask(r, &key_list, Call::Retrieve { archive: &archive, i });
        }
        2 => {
            let mut address = addresses::held(r, keys, tree);
            if r.chance(20) {
                address = addresses::damaged(r, keys, &address);
            }
            c.ask(r, &key_list, Call::History { archive: &archive, address: &address });
        }
        3 => {
            c.ask(r, &key_list, Call::Back { archive: &archive, table: &marks::UNUSED, i });
        }
        _ => {
            let table = marks::legal(r, n);
            ask_marks(c, r, &key_list, &archive, &table, i);
        }
    }
}

/// A call with a legal archive and a table of marks that may be damaged.
fn near_table(c: &mut Comparison, r: &mut Random, keys: &Keys, standing: &Standing) {
    let n = standing.shelf.count();
    let mut table = if r.chance(80) { marks::legal(r, n) } else { standing.table.clone() };
    if r.chance(60) {
        table = marks::damaged(r, &table, n);
    }
    let i = if r.chance(80) { 1 + r.below(n) } else { any_number(r, n) };
    ask_marks(c, r, &keys.text, &standing.archive, &table, i);
}

/// One of the calls that take a table.
fn ask_marks(c: &mut Comparison, r: &mut Random, keys: &[u8], archive: &[u8], table: &[u8], i: usize) {
    let any = marks::any_name(r, table);
    let new = marks::name(r);
    let call = match r.below(5) {
        0 => Call::Back { archive, table, i },
        1 => Call::BackToMark { archive, table, name: &any },
        2 => Call::FindMark { archive, table, name: &any },
        3 => Call::SetMark { archive, table, name: &any, i },
        _ => Call::SetMark { archive, table, name: &new, i },
    };
    c.ask(r, keys, call);
}

fn line(context: &str, name: &str, keys: &[&str]) -> Line {
    Line { context: context.into(), name: name.into(), keys: keys.iter().map(|key| key.to_string()).collect() }
}

/// A small key list whose root always can have a frontier.
fn small_keys() -> Keys {
    Keys::of(vec![line("/", "s", &[]), line("/s", "f", &[]), line("/s", "k", &["p"]), line("/s/k", "v", &[])])
}

/// `<s><f>…</f></s>` with a content.
fn version_f(content: &str) -> Vec<u8> {
    format!("<s><f>{content}</f></s>").into_bytes()
}

/// Large contents, until a result is over 1,024 nodes or 32,768 bytes; then results of exactly
/// that size and of one more.
fn heavy(c: &mut Comparison, r: &mut Random) {
    let keys = small_keys();
    let tree = versions::legal(r, &keys);
    let text = version_f("");
    let call = Call::Found { version: &text };
    let founded = c.ask(r, &keys.text, call);
    let shelf = Shelf::found(&keys.text, &text).unwrap();
    c.shelf_gives(&keys.text, call, &founded.bytes, &shelf.archive());
    let mut standing = Standing { archive: founded.bytes, table: shelf.table(), shelf, trees: vec![tree] };
    let by_nodes = r.chance(50);
    for number in 0..8 {
        if r.chance(10) {
            strike_off(c, r, &keys, &mut standing);
        }
        let mut tree = versions::legal(r, &keys);
        let name = format!("h{number}");
        let filled = if by_nodes {
            let wanted = r.choose(&[100, 300, 500, 511, 512, 513]);
            versions::fill_nodes(r, &keys, &mut tree, wanted, &name)
        } else {
            let wanted = r.choose(&[4_000, 9_000, 16_000, 16_384, 16_385]);
            let byte = if r.chance(25) { b'\n' } else { b'a' + number };
            versions::fill_length(r, &keys, &mut tree, wanted, byte)
        };
        if !filled {
            continue;
        }
        let text = versions::spelled(r, &keys, &tree);
        if add(c, r, &keys, &mut standing, text, tree) == 13 && r.chance(30) {
            break;
        }
    }
    // A new content of so many nodes, or bytes, that the archive is exactly full or one over.
    for over in [1usize, 0] {
        let text = if by_nodes {
            let nodes = standing.shelf.archive_nodes();
            version_f(&"<g/>".repeat((1_024 + over).saturating_sub(nodes).min(510)))
        } else {
            let mut with_one = standing.archive.clone();
            let one = reference::add(&keys.text, &with_one, &version_f("!"), usize::MAX, reference::WORK_CELLS);
            if one.number == 0 {
                with_one = one.bytes;
            }
            version_f(&"!".repeat((32_768 + 1 + over).saturating_sub(with_one.len()).min(16_300)))
        };
        let tree = standing.trees[0].clone();
        add(c, r, &keys, &mut standing, text, tree);
    }
    if r.chance(50) {
        strike_off(c, r, &keys, &mut standing);
    }
    (0..r.below(5)).for_each(|_| set_mark(c, r, &keys, &mut standing));
    read_back(c, r, &keys, &standing);
    for _ in 0..3 {
        near(c, r, &keys, &standing);
        near_table(c, r, &keys, &standing);
    }
    let i = 1 + r.below(standing.shelf.count());
    back(c, r, &keys, &mut standing, i);
}

/// Many versions, up to 999: timestamps of more than one word. In half of the rounds the station is
/// struck off and relit all the time, or now and then.
fn long(c: &mut Comparison, r: &mut Random) {
    let wanted = 1 + r.below(6);
    let keys = keylists::sized(r, wanted);
    let mut trees = vec![versions::legal(r, &keys)];
    for _ in 0..4 {
        let tree = versions::varied(r, &keys, trees.last().unwrap());
        trees.push(tree);
    }
    let n = r.choose(&[63, 64, 65, 66, 70, 100, 127, 128, 129, 130, 200, 300, 998, 999]);
    let percent = r.choose(&[0, 0, 4, 60]);
    let mut lit = !r.chance(percent);
    let mut shelf = None;
    let mut kept = vec![];
    for _ in 0..n {
        let tree = r.pick(&trees).clone();
        let text = if lit { versions::spelled(r, &keys, &tree) } else { versions::vacant(r) };
        lit ^= r.chance(percent);
        match &mut shelf {
            None => shelf = Shelf::found(&keys.text, &text).ok(),
            Some(shelf) => shelf.add(&text).expect("a legal version"),
        }
        kept.push(tree);
    }
    let Some(shelf) = shelf else { return };
    let mut standing = Standing { archive: shelf.archive(), table: shelf.table(), shelf, trees: kept };
    if standing.archive.len() > 32_768 || standing.shelf.archive_nodes() > 1_024 {
        return;
    }
    for _ in 0..2 {
        if r.chance(30) {
            strike_off(c, r, &keys, &mut standing);
            continue;
        }
        let tree = r.pick(&trees).clone();
        let text = versions::spelled(r, &keys, &tree);
        add(c, r, &keys, &mut standing, text, tree);
    }
    (0..r.below(5)).for_each(|_| set_mark(c, r, &keys, &mut standing));
    read_back(c, r, &keys, &standing);
    for _ in 0..3 {
        near(c, r, &keys, &standing);
        near_table(c, r, &keys, &standing);
    }
    let i = 1 + r.below(standing.shelf.count());
    back(c, r, &keys, &mut standing, i);
    read_back(c, r, &keys, &standing);
}
