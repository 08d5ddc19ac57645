//! Random addresses: of a version's own elements, of the list alone, and damaged ones.

use crate::keylists::Keys;
use crate::random::{damage_bytes, Random};
use crate::versions::{Item, Tree, VALUES};

/// An address of an element that a version holds.
pub fn held(r: &mut Random, keys: &Keys, version: &Tree) -> Vec<u8> {
    let mut address = String::new();
    let mut element = version;
    while let Some(place) = element.place {
        let values = keys.places[place].key_names.iter().map(|name| value_of(element, name)).collect();
        address += &step(keys, place, values);
        let children: Vec<&Tree> = elements(element).filter(|child| child.place.is_some()).collect();
        if children.is_empty() || r.chance(20) {
            break;
        }
        element = r.choose(&children);
    }
    address.into_bytes()
}

fn elements(tree: &Tree) -> impl Iterator<Item = &Tree> {
    tree.items.iter().filter_map(|item| if let Item::Element(child) = item { Some(child) } else { None })
}

fn value_of(element: &Tree, name: &str) -> String {
    let child = elements(element).find(|child| child.name == name);
    match child.map(|child| &child.items[..]) {
        Some([Item::Text(value)]) => String::from_utf8_lossy(value).into_owned(),
        _ => "1".into(),
    }
}

/// An address of the list, with any values.
pub fn listed(r: &mut Random, keys: &Keys) -> Vec<u8> {
    let mut address = String::new();
    let mut place = 0;
    loop {
        let values = keys.places[place].key_names.iter().map(|_| r.pick(&VALUES[..6]).to_string()).collect();
        address += &step(keys, place, values);
        if keys.is_frontier(place) || r.chance(20) {
            break;
        }
        place = r.choose(&keys.places[place].children);
    }
    address.into_bytes()
}

fn step(keys: &Keys, place: usize, values: Vec<String>) -> String {
    let here = &keys.places[place];
    let conditions: Vec<String> = here.key_names.iter().zip(&values).map(|(name, value)| format!("{name}=\"{value}\"")).collect();
    if conditions.is_empty() {
        format!("/{}", here.name)
    } else {
        format!("/{}[{}]", here.name, conditions.join(" and "))
    }
}

const PARTS: [&[u8]; 16] =
    [b"/", b"[", b"]", b"\"", b"=", b" and ", b" ", b"'", b"/T", b"/a", b"[]", b"[a=\"1\"]", b"*", b"//", b"1", b"&quot;"];

/// An address near a legal one.
pub fn damaged(r: &mut Random, keys: &Keys, address: &[u8]) -> Vec<u8> {
    let text = String::from_utf8_lossy(address).into_owned();
    let long = format!("=\"{}\"", "v".repeat(33));
    let replaced = |from: &str, to: &str| text.replacen(from, to, 1);
    let damaged = match r.below(23) {
        0 => replaced(" and ", " or "),
        1 => replaced(" and ", "  and "),
        2 => replaced(" and ", "]["),
        3 => replaced("\"", "'"),
        4 => text.replace('"', "'"),
        5 => replaced("=\"", "= \""),
        6 => replaced("[", " ["),
        7 => text + "/",
        8 => text[text.len().min(1)..].to_string(),
        9 => text + "/" + &keys.places[r.below(keys.places.len())].name,
        10 => text + "[a=\"1\"]",
        11 => text + "[]",
        // The conditions of one step gone, or turned round, or one of them gone.
        12 => match (text.find('['), text.find(']')) {
            (Some(from), Some(to)) => [&text[..from], &text[to + 1..]].concat(),
            _ => text + "/T",
        },
        13 | 14 => match (text.find('['), text.find(']')) {
            (Some(from), Some(to)) => {
                let mut conditions: Vec<&str> = text[from + 1..to].split(" and ").collect();
                match r.below(3) {
                    0 => conditions.reverse(),
                    1 => conditions.push(conditions[0]),
                    _ => {
                        conditions.pop();
                    }
                }
                format!("{}[{}]{}", &text[..from], conditions.join(" and "), &text[to + 1..])
            }
            _ => text + "\n",
        },
        15 => replaced("=\"", "=\"+"),
        16 => match text.find("=\"") {
            Some(from) => {
                let to = from + 2 + text[from + 2..].find('"').unwrap_or(0) + 1;
                let value = r.choose(&["=\"\"", "=\"a b\"", "=\"&lt;\"", "=\"]\"", "=\"a/b\"", long.as_str()]);
                [&text[..from], value, &text[to..]].concat()
            }
            None => String::new(),
        },
        17 => text.repeat(2),
        19 => text + r.choose(&["\r", "\r\n", "\n"]),
        18 if r.chance(40) => {
            let mut address = address.to_vec();
            address.resize(2_559 + r.below(4), b'/');
            return address;
        }
        _ => return damage_bytes(r, address, &PARTS),
    };
    damaged.into_bytes()
}
