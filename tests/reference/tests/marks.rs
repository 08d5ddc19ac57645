//! Named versions: the table as bytes and as entries, each rule of it, the four calls and the shelf.

use reference::marks::{bytes, entries, read, table, Entry, Mark, ENTRIES, ENTRY_BYTES, TABLE_BYTES, UNUSED};
use reference::shelf::Shelf;
use reference::{back, back_to_mark, find_mark, set_mark, Answer, WORK_CELLS};

const KEYS: &[u8] = b"(/, (s, {}))\n(/s, (f, {}))\n";
const THREE: &[u8] = b"<T t=\"1-3\"><s><f><T t=\"1\">x</T><T t=\"2\">y</T><T t=\"3\">z</T></f></s></T>";

type Table = [u8; TABLE_BYTES];

fn refused(number: u32) -> Answer {
    Answer { number, bytes: vec![] }
}

fn done() -> Answer {
    refused(0)
}

fn marks(marks: &[(&str, usize)]) -> Vec<Mark> {
    marks.iter().map(|(name, version)| Mark { name: name.as_bytes().to_vec(), version: *version }).collect()
}

fn table_of(held: &[(&str, usize)]) -> Table {
    bytes(&table(&marks(held))).try_into().expect("608 bytes")
}

fn set(table: &mut [u8], name: &str, i: usize) -> Answer {
    set_mark(KEYS, THREE, table, name.as_bytes(), i, WORK_CELLS)
}

fn find(table: &[u8], name: &str) -> (u32, usize) {
    let (answer, version) = find_mark(KEYS, THREE, table, name.as_bytes(), WORK_CELLS);
    assert_eq!(answer.bytes, b"");
    (answer.number, version)
}

#[test]
fn bytes_and_entries() {
    let held = table_of(&[("as-commissioned", 1), ("new_lens", 770)]);
    assert_eq!(&held[..ENTRY_BYTES], b"as-commissioned\0\x0f\x01\x00");
    assert_eq!(&held[ENTRY_BYTES..2 * ENTRY_BYTES], b"new_lens\0\0\0\0\0\0\0\0\x08\x02\x03");
    assert_eq!(held[2 * ENTRY_BYTES..], [0; 30 * ENTRY_BYTES]);
    assert_eq!(bytes(&entries(&held).unwrap()), held);
    assert_eq!(table_of(&[]), [0; TABLE_BYTES]);
    assert_eq!(entries(&[0; TABLE_BYTES]).unwrap(), [UNUSED; ENTRIES]);
    for length in [1, 18, 607, 609] {
        assert_eq!(entries(&vec![0; length]), None);
    }
    // Any bytes are entries, and these give them back.
    let any: Vec<u8> = (0..TABLE_BYTES).map(|at| (at * 37 % 251) as u8).collect();
    assert_eq!(bytes(&entries(&any).unwrap()), any);
}

/// 17, each clause.
#[test]
fn legal_tables() {
    let two = [("a", 2), ("b", 1)];
    assert_eq!(read(&table(&marks(&two)), 2), Ok(marks(&two)));
    assert_eq!(read(&table(&marks(&two)), 1), Err(17));
    let with = |at: usize, entry: Entry| {
        let mut table = table(&marks(&two));
        table[at] = entry;
        read(&table, 2).map(|marks| marks.len())
    };
    let entry = |name: &[u8], length: u8, version: u16| {
        let mut entry = Entry { length, version, ..UNUSED };
        entry.name[..name.len()].copy_from_slice(name);
        entry
    };
    assert_eq!(with(2, entry(b"c", 1, 2)), Ok(3));
    assert_eq!(with(2, entry(b"abcdefghijklmno.", 16, 2)), Ok(3));
    assert_eq!(with(2, UNUSED), Ok(2));
    assert_eq!(with(1, UNUSED), Ok(1));
    // A gap; a name twice, also one after the other; a version 0, past n, or past 255.
    assert_eq!(with(0, UNUSED), Err(17));
    assert_eq!(with(3, entry(b"c", 1, 2)), Err(17));
    assert_eq!(with(2, entry(b"a", 1, 1)), Err(17));
    assert_eq!(with(2, entry(b"b", 1, 1)), Err(17));
    for version in [0, 3, 256, 257, 512, 65_535] {
        assert_eq!(with(2, entry(b"c", 1, version)), Err(17), "{version}");
    }
    // Bytes past a name; a length that is not the name's, or over 16; an illegal byte; an unused entry that is not all zero.
    assert_eq!(with(2, entry(b"c\0c", 1, 2)), Err(17));
    assert_eq!(with(2, entry(b"cd", 1, 2)), Err(17));
    for length in [0, 2, 16, 17, 18, 255] {
        assert_eq!(with(2, entry(b"c", length, 2)), Err(17), "{length}");
    }
    for byte in [b' ', b'/', b':', b'@', b'[', b'^', b'`', b'{', b'&', 0x7f, 0x80, 0xff] {
        assert_eq!(with(2, entry(&[b'c', byte], 2, 2)), Err(17), "{byte}");
        assert_eq!(with(31, entry(&[byte], 0, 0)), Err(17), "{byte}");
    }
    assert_eq!(with(31, entry(b"", 1, 0)), Err(17));
    assert_eq!(with(31, entry(b"", 0, 1)), Err(17));
    for count in [0, 1, 31, 33, 64] {
        assert_eq!(read(&vec![UNUSED; count], 2), Err(17), "{count}");
    }
}

#[test]
fn setting_and_finding() {
    let mut table = [0; TABLE_BYTES];
    for (name, i) in [("as-commissioned", 1), ("0123456789abcdef", 3), (".", 3), ("A", 2), ("a", 2)] {
        assert_eq!(set(&mut table, name, i), done(), "{name}");
    }
    assert_eq!(table, table_of(&[("as-commissioned", 1), ("0123456789abcdef", 3), (".", 3), ("A", 2), ("a", 2)]));
    let before = table;
    for name in ["as-commissioned", "a", "", " ", "a b", "a/b", "@a", "a\0", "0123456789abcdefg", "\u{e9}", &"a".repeat(40_000)] {
        assert_eq!(set(&mut table, name, 1), refused(15), "{name}");
        assert_eq!(set(&mut table, name, 0), refused(15), "{name}");
    }
    for i in [0, 4, 1_000, 65_537, usize::MAX] {
        assert_eq!(set(&mut table, "b", i), refused(11), "{i}");
    }
    assert_eq!(table, before);
    assert_eq!(find(&table, "as-commissioned"), (0, 1));
    assert_eq!(find(&table, "0123456789abcdef"), (0, 3));
    assert_eq!((find(&table, "A"), find(&table, "a"), find(&table, ".")), ((0, 2), (0, 2), (0, 3)));
    for name in ["", "as-commissione", "as-commissioned\0", "0123456789abcdefg", "b", " "] {
        assert_eq!(find(&table, name), (15, 0), "{name}");
    }
    for length in [0, 1, 19, 589, 607, 609, 627, 1_216] {
        let mut other = vec![0; length];
        assert_eq!(set(&mut other, "a", 1), refused(17), "{length}");
        assert_eq!(find(&other, "a"), (17, 0), "{length}");
        assert_eq!(other, vec![0; length]);
    }
}

#[test]
fn stepping_back_with_marks() {
    let held = [("c", 3), ("b", 2), ("a", 1), ("d", 3), ("b2", 2)];
    let step = |i: usize, out_len: usize| {
        let mut table = table_of(&held);
        (back(KEYS, THREE, &mut table, i, out_len, WORK_CELLS), table)
    };
    let by_name = |name: &str, out_len: usize| {
        let mut table = table_of(&held);
        (back_to_mark(KEYS, THREE, &mut table, name.as_bytes(), out_len, WORK_CELLS), table)
    };
    assert_eq!(step(3, 100), (Answer { number: 0, bytes: THREE.to_vec() }, table_of(&held)));
    assert_eq!(step(2, 100).1, table_of(&[("b", 2), ("a", 1), ("b2", 2)]));
    assert_eq!(step(1, 100).1, table_of(&[("a", 1)]));
    // By name it is stepping back by that mark's number.
    for (name, i) in held {
        for out_len in [0, 30, 100] {
            assert_eq!(by_name(name, out_len), step(i, out_len), "{name}");
        }
    }
    // Every refusal leaves the table untouched.
    assert_eq!(step(1, 0), (refused(14), table_of(&held)));
    assert_eq!(step(0, 100), (refused(11), table_of(&held)));
    assert_eq!(step(4, 100), (refused(11), table_of(&held)));
    assert_eq!(by_name("a", 0), (refused(14), table_of(&held)));
    assert_eq!(by_name("e", 0), (refused(15), table_of(&held)));
    // 17 goes before 11 and 15; a mark of a version past n is 17.
    let two = back(KEYS, THREE, &mut [0; TABLE_BYTES], 2, 100, WORK_CELLS).bytes;
    let mut table = table_of(&held);
    assert_eq!(back(KEYS, &two, &mut table, 0, 100, WORK_CELLS), refused(17));
    assert_eq!(back_to_mark(KEYS, &two, &mut table, b"a", 100, WORK_CELLS), refused(17));
    assert_eq!(back_to_mark(KEYS, &two, &mut table, b"", 100, WORK_CELLS), refused(17));
    assert_eq!(table, table_of(&held));
}

#[test]
fn the_shelf() {
    let mut shelf = Shelf::found(KEYS, b"<s><f>x</f></s>").unwrap();
    assert_eq!(shelf.table(), [0; TABLE_BYTES]);
    shelf.set_mark(b"first", 1);
    shelf.add(b"<s><f>y</f></s>").unwrap();
    shelf.set_mark(b"second", 2);
    shelf.set_mark(b"first-too", 1);
    shelf.add(b"<s><f>z</f></s>").unwrap();
    assert_eq!(shelf.archive(), THREE);
    assert_eq!(shelf.table(), table_of(&[("first", 1), ("second", 2), ("first-too", 1)]));
    let mut table = table_of(&[("first", 1), ("second", 2), ("first-too", 1)]);
    let result = back_to_mark(KEYS, THREE, &mut table, b"first-too", 100, WORK_CELLS);
    shelf.back_to_mark(b"first-too");
    assert_eq!((shelf.count(), shelf.archive(), shelf.table()), (1, result.bytes, table.to_vec()));
    assert_eq!((shelf.version_of(b"first"), shelf.version_of(b"second")), (1, 0));
}
