//! Rounds for the comparison of plain with the reference, beside those of `../compare`: what a
//! fast implementation is likeliest to get wrong. Frontiers with many contents, sets with many
//! runs, and archives whose versions are just within or just over a version's limits.

use crate::workloads::{self, Workload};
use compare::archives;
use compare::comparison::Comparison;
use compare::marks::{self, UNUSED};
use compare::notes;
use compare::random::Random;
use compare::station::Call;
use reference::archive::archive;
use reference::keys::KeyList;
use reference::version::{written, Element, Node, Version};

fn random(seed: u64, number: u64) -> Random {
    Random::new(seed.wrapping_mul(0x1_0000_0003).wrapping_add(number))
}

/// A workload with fewer versions, now and then with all: its own calls, and the archive damaged.
pub fn damaged_workload(c: &mut Comparison, seed: u64, number: u64) {
    c.place = format!("seed {seed}, workload {number}");
    let r = &mut random(seed, number);
    let versions = if r.below(400) == 0 { 999 } else { r.choose(&[2, 5, 9, 12, 20]) };
    let workload = match r.below(6) {
        0 => workloads::typical(versions.min(50)),
        1 | 2 => workloads::counter(versions),
        3 => workloads::gaps(versions),
        4 => workloads::notes(versions.min(12)),
        _ => workloads::lamps(versions),
    };
    for call in workload.calls() {
        c.ask(r, &workload.keys, call);
    }
    // The same version with other line ends.
    let version = &notes::other_ends(r, &workload.version);
    c.ask(r, &workload.keys, Call::Found { version });
    c.ask(r, &workload.keys, Call::Add { archive: &workload.before, version });
    c.ask(r, &workload.keys, Call::Add { archive: &workload.archive, version });
    let count = if versions == 999 { 2 } else { 8 };
    for _ in 0..count {
        let archive = if r.chance(30) { one_content_twice(r, &workload) } else { archives::damaged(r, &workload.archive, workload.n) };
        ask_one(c, r, &workload, &archive);
    }
}

/// One of the calls that take an archive, with a table that may be damaged.
fn ask_one(c: &mut Comparison, r: &mut Random, workload: &Workload, archive: &[u8]) {
    let i = 1 + r.below(workload.n);
    let tables = [marks::damaged(r, &workload.marked, workload.n), workload.marked.clone(), workload.table.clone()];
    let table = r.pick(&tables);
    let name = &marks::any_name(r, table);
    let call = match r.below(7) {
        0 => Call::Add { archive, version: &workload.version },
        1 => Call::Retrieve { archive, i },
        2 => Call::History { archive, address: &workload.address },
        3 => Call::BackToMark { archive, table, name },
        4 => Call::SetMark { archive, table, name, i },
        5 => Call::FindMark { archive, table, name },
        _ => Call::Back { archive, table, i },
    };
    c.ask(r, &workload.keys, call);
}

/// The text in one place of the archive, between two tags, put in another such place.
fn one_content_twice(r: &mut Random, workload: &Workload) -> Vec<u8> {
    let text = &workload.archive;
    let begins: Vec<usize> = (1..text.len()).filter(|&at| text[at - 1] == b'>' && text[at] != b'<').collect();
    let run = |begin: usize| begin..begin + text[begin..].iter().position(|&byte| byte == b'<').unwrap_or(0);
    let (from, to) = (run(r.choose(&begins)), run(r.choose(&begins)));
    let mut doubled = text.clone();
    doubled.splice(to, text[from].to_vec());
    doubled
}

const KEYS: &[u8] = b"(/, (s, {}))\n(/s, (f, {}))\n(/s, (g, {}))\n(/s, (k, {p}))\n(/s/k, (v, {}))\n";

/// An archive with a version of about 512 nodes or 16,384 bytes; in half of the rounds some versions are vacant.
pub fn large_versions(c: &mut Comparison, seed: u64, number: u64) {
    c.place = format!("seed {seed}, large versions {number}");
    let r = &mut random(seed, number);
    let Ok(keys) = KeyList::read(KEYS) else { return };
    let by_nodes = r.chance(50);
    let mut contents: Vec<Vec<Node>> = (0..6).map(|_| large_content(r, by_nodes)).collect();
    let n = r.choose(&[1, 2, 3, 5, 9, 64, 70]);
    let choices: Vec<[usize; 3]> = (0..n).map(|_| [r.below(7), r.below(7), r.below(9)]).collect();
    // One content is made longer, so that a version is just at the limit.
    let chosen = r.choose(&choices);
    let Some(&content) = chosen[..2].iter().find(|&&content| content < 6) else { return };
    let times = chosen.iter().filter(|&&other| other == content).count();
    let size = written(&keys, &Some(version(&contents, &chosen)));
    let (have, limit) = if by_nodes { (size.nodes, 512) } else { (size.bytes.len(), 16_384) };
    let wanted = limit + r.below(4 * times) - 2 * times;
    if wanted < have || times == 0 {
        return;
    }
    lengthen(&mut contents[content], (wanted - have) / times, by_nodes);
    let vacant = r.choose(&[0, 30]);
    let versions: Vec<Version> = choices.iter().map(|choice| (!r.chance(vacant)).then(|| version(&contents, choice))).collect();
    let text = archive(&keys, &versions).bytes;
    for i in [1, n] {
        c.ask(r, KEYS, Call::Retrieve { archive: &text, i });
        c.ask(r, KEYS, Call::Back { archive: &text, table: &UNUSED, i });
    }
    c.ask(r, KEYS, Call::History { archive: &text, address: b"/s/k[p=\"1\"]/v" });
    let last = written(&keys, &versions[n - 1]).bytes;
    c.ask(r, KEYS, Call::Found { version: &last });
    c.ask(r, KEYS, Call::Add { archive: &text, version: &last });
    c.ask(r, KEYS, Call::Add { archive: &text, version: b"<s></s>" });
    c.ask(r, KEYS, Call::Add { archive: &text, version: b"" });
}

fn element(name: &str, content: Vec<Node>) -> Node {
    Node::Element(Element { name: name.into(), content })
}

fn large_content(r: &mut Random, by_nodes: bool) -> Vec<Node> {
    let number = Node::Text(format!("{}", r.below(1_000)).into_bytes());
    let mut content = vec![number, element("m", vec![])];
    lengthen(&mut content, r.below(if by_nodes { 200 } else { 6_000 }), by_nodes);
    content
}

/// More nodes, or more bytes in an element at the end.
fn lengthen(content: &mut Vec<Node>, by: usize, by_nodes: bool) {
    if by_nodes {
        content.extend((0..by).map(|_| element("a", vec![])));
    } else if let Some(Node::Element(last)) = content.last_mut() {
        match last.content.last_mut() {
            Some(Node::Text(text)) => text.resize(text.len() + by, b'x'),
            _ => last.content.push(Node::Text(vec![b'x'; by + 1])),
        }
    }
}

/// A version with contents for `f`, `g` and the `v` of a keyed element; 6 and over are absent.
fn version(contents: &[Vec<Node>], choice: &[usize; 3]) -> Element {
    let frontier = |name: &str, choice: usize| contents.get(choice).map(|content| element(name, content.clone()));
    let mut content: Vec<Node> = [frontier("f", choice[0]), frontier("g", choice[1])].into_iter().flatten().collect();
    if choice[2] < 8 {
        let key = element("p", vec![Node::Text(b"1".to_vec())]);
        let inside = [Some(key), frontier("v", choice[2])].into_iter().flatten().collect();
        content.push(element("k", inside));
    }
    Element { name: b"s".to_vec(), content }
}
