//! Vacant versions (Q-6): their texts, archives with some and with nothing else, and those that are not legal.

use reference::marks::TABLE_BYTES;
use reference::shelf::Shelf;
use reference::{add, back_to_mark, found, history, retrieve, set_mark, Answer, WORK_CELLS};

const KEYS: &[u8] = b"(/, (s, {}))\n(/s, (f, {}))\n";
const ROOM: usize = 40_000;

fn gives(text: &str) -> Answer {
    Answer { number: 0, bytes: text.as_bytes().to_vec() }
}

fn founds(version: &[u8]) -> Answer {
    found(KEYS, version, ROOM, WORK_CELLS)
}

fn adds(archive: &str, version: &str) -> Answer {
    add(KEYS, archive.as_bytes(), version.as_bytes(), ROOM, WORK_CELLS)
}

fn retrieves(archive: &str, i: usize, room: usize) -> Answer {
    retrieve(KEYS, archive.as_bytes(), i, room, WORK_CELLS)
}

fn histories(archive: &str, address: &str) -> Answer {
    history(KEYS, archive.as_bytes(), address.as_bytes(), ROOM, WORK_CELLS)
}

/// With a table of unused entries.
fn back(archive: &str, i: usize) -> Answer {
    reference::back(KEYS, archive.as_bytes(), &mut [0; TABLE_BYTES], i, ROOM, WORK_CELLS)
}

#[test]
fn texts() {
    let one = r#"<T t="1"></T>"#;
    for text in ["", " ", "\t", "\n", "\r", " \t\r\n \n"] {
        assert_eq!(founds(text.as_bytes()), gives(one), "{text:?}");
        assert_eq!(adds(one, text), gives(r#"<T t="1-2"></T>"#), "{text:?}");
    }
    assert_eq!(found(KEYS, b"\n", one.len(), WORK_CELLS), gives(one));
    assert_eq!(found(KEYS, b"\n", one.len() - 1, WORK_CELLS).number, 14);
    // The length test goes first.
    assert_eq!(founds(&[b' '; 16_384]), gives(one));
    assert_eq!(founds(&[b' '; 16_385]).number, 2);
    assert_eq!(found(b"bad", &[b' '; 16_385], 0, WORK_CELLS).number, 2);
    assert_eq!(found(b"bad", b"", 0, WORK_CELLS).number, 3);
    // Any other byte is no white space.
    for byte in (0..=255u8).filter(|byte| !b"\t\n\r ".contains(byte)) {
        for text in [&[byte][..], &[b' ', byte], &[byte, b' '], &[b'\n', byte, b'\t']] {
            assert_eq!(founds(text).number, 5, "{text:?}");
        }
    }
    // A version is still refused before the archive that it is to be added to.
    assert_eq!(adds("bad", "<s>").number, 5);
    assert_eq!(adds("bad", "").number, 10);
}

#[test]
fn founded_vacant_and_lit() {
    let (one, two) = (r#"<T t="1"></T>"#, r#"<T t="1-2"><T t="2"><s><f>x</f></s></T></T>"#);
    assert_eq!(adds(one, "<s><f>x</f></s>"), gives(two));
    assert_eq!(adds(two, "<s><f>y</f></s>"), gives(r#"<T t="1-3"><T t="2-3"><s><f><T t="2">x</T><T t="3">y</T></f></s></T></T>"#));
    assert_eq!(adds(two, "<s/>"), gives(r#"<T t="1-3"><T t="2-3"><s><T t="2"><f>x</f></T></s></T></T>"#));
    assert_eq!(adds(two, " "), gives(r#"<T t="1-3"><T t="2"><s><f>x</f></s></T></T>"#));
    assert_eq!((retrieves(two, 1, 0), retrieves(two, 2, ROOM)), (gives(""), gives("<s><f>x</f></s>")));
    assert_eq!((histories(two, "/s"), histories(two, "/s/f")), (gives("2"), gives("2")));
    assert_eq!((back(two, 1), back(two, 2)), (gives(one), gives(two)));
}

#[test]
fn all_vacant() {
    let three = r#"<T t="1-3"></T>"#;
    for i in 1..=3 {
        assert_eq!(retrieves(three, i, 0), gives(""));
    }
    assert_eq!((retrieves(three, 0, 0).number, retrieves(three, 4, 0).number), (11, 11));
    assert_eq!((histories(three, "/s"), histories(three, "/s/f")), (gives(""), gives("")));
    assert_eq!((histories(three, "/t").number, histories(three, "/").number), (12, 12));
    assert_eq!((back(three, 1), back(three, 2)), (gives(r#"<T t="1"></T>"#), gives(r#"<T t="1-2"></T>"#)));
    assert_eq!(adds(three, "<s/>"), gives(r#"<T t="1-4"><T t="4"><s></s></T></T>"#));
    // Vacant versions are versions: 999 of them, and marks of them.
    let most = r#"<T t="1-999"></T>"#;
    assert_eq!(adds(r#"<T t="1-998"></T>"#, ""), gives(most));
    assert_eq!((adds(most, "").number, adds(most, "<s/>").number), (11, 11));
    let mut table = [0; TABLE_BYTES];
    assert_eq!(set_mark(KEYS, three.as_bytes(), &mut table, b"struck-off", 2, WORK_CELLS), gives(""));
    assert_eq!(back_to_mark(KEYS, three.as_bytes(), &mut table, b"struck-off", ROOM, WORK_CELLS), gives(r#"<T t="1-2"></T>"#));
}

/// The same for a root that is a frontier: its contents are over its own life.
#[test]
fn root_at_a_frontier() {
    let keys = b"(/, (s, {}))\n";
    let mut archive = found(keys, b"<s>x</s>", ROOM, WORK_CELLS);
    for version in [&b"\n"[..], b"<s>x</s>"] {
        archive = add(keys, &archive.bytes, version, ROOM, WORK_CELLS);
    }
    assert_eq!(archive, gives(r#"<T t="1-3"><T t="1,3"><s>x</s></T></T>"#));
    let archive = add(keys, &archive.bytes, b"<s/>", ROOM, WORK_CELLS);
    assert_eq!(archive, gives(r#"<T t="1-4"><T t="1,3-4"><s><T t="1,3">x</T><T t="4"></T></s></T></T>"#));
}

/// "Stepping back across a vacant stretch shares every byte with the shorter run just as before."
#[test]
fn every_step_back_is_the_shorter_run() {
    let versions = ["", "<s/>", " ", "\n", "<s><f>x</f></s>", "<s><f>y</f></s>", "", "<s><f>x</f></s>", "\t"];
    let mut shelf = Shelf::found(KEYS, versions[0].as_bytes()).unwrap();
    let mut runs = vec![shelf.archive()];
    for version in &versions[1..] {
        shelf.add(version.as_bytes()).unwrap();
        runs.push(shelf.archive());
    }
    let last = String::from_utf8(runs[8].clone()).unwrap();
    assert_eq!(last, r#"<T t="1-9"><T t="2,5-6,8"><s><T t="5-6,8"><f><T t="5,8">x</T><T t="6">y</T></f></T></s></T></T>"#);
    for (i, run) in (1..).zip(&runs) {
        assert_eq!(back(&last, i).bytes, *run, "{i}");
        assert_eq!(retrieves(&last, i, ROOM).bytes, shelf.written(i), "{i}");
    }
}

#[test]
fn legal_archives() {
    let number = |archive: &str| retrieves(archive, 1, ROOM).number;
    for legal in [
        r#"<T t="1"></T>"#,
        r#"<T t="1-2"></T>"#,
        r#"<T t="1-999"></T>"#,
        r#"<T t="1-2"><T t="1"><s></s></T></T>"#,
        r#"<T t="1-2"><T t="2"><s></s></T></T>"#,
        r#"<T t="1-3"><T t="1,3"><s><T t="3"><f></f></T></s></T></T>"#,
        r#"<T t="1-3"><T t="1,3"><s><f><T t="1">x</T><T t="3"></T></f></s></T></T>"#,
    ] {
        assert_eq!(number(legal), 0, "{legal}");
    }
    for illegal in [
        // The empty set written, of the root or of all versions.
        r#"<T t="1"><T t=""><s></s></T></T>"#,
        r#"<T t="1-2"><T t=""></T></T>"#,
        r#"<T t=""></T>"#,
        // The outer `T` shortened to the root's set, or to less than it.
        r#"<T t="1,3"><s></s></T>"#,
        r#"<T t="2"><s></s></T>"#,
        r#"<T t="2-3"></T>"#,
        r#"<T t="1"><T t="1-2"><s></s></T></T>"#,
        r#"<T t="1-2"><T t="1,3"><s></s></T></T>"#,
        // The root in a `T` with the outer set, or in two.
        r#"<T t="1"><T t="1"><s></s></T></T>"#,
        r#"<T t="1-2"><T t="1-2"><s></s></T></T>"#,
        r#"<T t="1-2"><T t="1"><T t="1"><s></s></T></T></T>"#,
        // The root twice.
        r#"<T t="1-3"><T t="1"><s></s></T><T t="3"><s></s></T></T>"#,
        r#"<T t="1-3"><T t="1,3"><s></s><s></s></T></T>"#,
        r#"<T t="1-2"><s></s><T t="2"><s></s></T></T>"#,
        // Text in the outer `T`, or beside the root in its own; a `T` around nothing.
        r#"<T t="1"> </T>"#,
        "<T t=\"1\">\n</T>",
        r#"<T t="1-2"> <T t="1"><s></s></T></T>"#,
        r#"<T t="1-2"><T t="1"><s></s></T> </T>"#,
        r#"<T t="1-2"><T t="1"> <s></s></T></T>"#,
        r#"<T t="1-2"><T t="1"></T></T>"#,
        r#"<T t="1-2"><T t="1"> </T></T>"#,
        // Sets that are the root's, or past it.
        r#"<T t="1-3"><T t="1,3"><s><T t="1,3"><f></f></T></s></T></T>"#,
        r#"<T t="1-3"><T t="1,3"><s><T t="1-2"><f></f></T></s></T></T>"#,
        r#"<T t="1-3"><T t="1,3"><s><f><T t="1-2">x</T><T t="3">y</T></f></s></T></T>"#,
        r#"<T t="1-3"><T t="1,3"><s><f><T t="1">x</T></f></s></T></T>"#,
        // Not in written form; another root; more versions than there can be.
        r#"<T t="1"/>"#,
        r#"<T t="1-1"></T>"#,
        r#"<T t="1,2"></T>"#,
        r#"<T t="1-2"><T t="1"><s/></T></T>"#,
        r#"<T t="1-2"><T t="1"><t></t></T></T>"#,
        r#"<T t="1-1000"></T>"#,
    ] {
        assert_eq!(number(illegal), 10, "{illegal}");
    }
}

/// The archive grows by the root's `T`: 32,768 bytes exactly, and one more.
#[test]
fn struck_off_at_the_limit() {
    let f = |byte: &str, count: usize| format!("<s><f>{}</f></s>", byte.repeat(count));
    let around = r#"<T t="1-4"><T t="1-3"><s><f><T t="1"></T><T t="2"></T><T t="3"></T></f></s></T></T>"#.len();
    let archive = |third: usize| {
        let mut shelf = Shelf::found(KEYS, f("x", 16_000).as_bytes()).unwrap();
        shelf.add(f("y", 16_000).as_bytes()).unwrap();
        shelf.add(f("z", third).as_bytes()).unwrap();
        String::from_utf8(shelf.archive()).unwrap()
    };
    let exact = 32_768 - 32_000 - around;
    let full = adds(&archive(exact), "");
    assert_eq!((full.number, full.bytes.len()), (0, 32_768));
    assert_eq!(back(std::str::from_utf8(&full.bytes).unwrap(), 3), gives(&archive(exact)));
    assert_eq!(adds(&archive(exact + 1), "").number, 13);
}
