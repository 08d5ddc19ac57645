//! Line ends (Q-4): in a version CR LF and a lone CR are read as LF before all but the length test of 2;
//! an archive text holding CR is not legal.

use reference::marks::TABLE_BYTES;
use reference::shelf::Shelf;
use reference::xml::line_ends;
use reference::{add, back, back_to_mark, check_keys, find_mark, found, history, retrieve, set_mark, Answer, WORK_CELLS};

const KEYS: &[u8] = b"(/, (s, {}))\n(/s, (f, {}))\n(/s, (k, {p}))\n";
const ROOM: usize = 40_000;

fn gives(text: &str) -> Answer {
    Answer { number: 0, bytes: text.as_bytes().to_vec() }
}

fn founds(version: &str) -> Answer {
    found(KEYS, version.as_bytes(), ROOM, WORK_CELLS)
}

fn adds(archive: &[u8], version: &str) -> Answer {
    add(KEYS, archive, version.as_bytes(), ROOM, WORK_CELLS)
}

fn f(content: &str) -> String {
    format!("<s><f>{content}</f></s>")
}

/// A note with line ends in text, in elements beneath the frontier, in dropped white space and around the root.
fn note(end: &str) -> String {
    let note = "@<s>@ <f>Fl 5s.@@<by>keeper@W<at>@</at></by>&gt;@</f>@<k>@<p>1</p></k></s>@";
    note.replace('@', end)
}

#[test]
fn the_step_alone() {
    for (text, received) in [
        ("", ""),
        ("a", "a"),
        ("\n", "\n"),
        ("\r", "\n"),
        ("\r\n", "\n"),
        ("\n\r", "\n\n"),
        ("\r\r", "\n\n"),
        ("\r\r\n", "\n\n"),
        ("\r\n\r", "\n\n"),
        ("\r\n\r\n", "\n\n"),
        ("\r\n\n", "\n\n"),
        ("\n\r\n", "\n\n"),
        ("\n\r\r\n\n", "\n\n\n\n"),
        ("a\r b\r\tc\r\nd", "a\n b\n\tc\nd"),
    ] {
        assert_eq!(line_ends(text.as_bytes()), received.as_bytes(), "{text:?}");
        // Once is enough.
        assert_eq!(line_ends(received.as_bytes()), received.as_bytes(), "{text:?}");
    }
}

#[test]
fn three_spellings_of_a_note_give_one_archive() {
    let archive = "<T t=\"1\"><s><f>Fl 5s.\n\n<by>keeper\nW<at>\n</at></by>&gt;\n</f><k><p>1</p></k></s></T>";
    for end in ["\n", "\r\n", "\r"] {
        assert_eq!(founds(&note(end)), gives(archive), "{end:?}");
    }
    // Saved on each tablet, it is one content.
    for (first, second, third) in [("\n", "\r\n", "\r"), ("\r\n", "\r", "\n"), ("\r", "\n", "\r\n")] {
        let one = founds(&note(first)).bytes;
        let two = adds(&one, &note(second)).bytes;
        let three = adds(&two, &note(third));
        assert_eq!(three, gives(&archive.replace("\"1\"", "\"1-3\"")));
        for i in 1..=3 {
            let written = &archive[9..archive.len() - 4];
            assert_eq!(retrieve(KEYS, &three.bytes, i, ROOM, WORK_CELLS), gives(written));
        }
        let mut shelf = Shelf::found(KEYS, note(first).as_bytes()).unwrap();
        shelf.add(note(second).as_bytes()).unwrap();
        shelf.add(note(third).as_bytes()).unwrap();
        assert_eq!(shelf.archive(), three.bytes);
    }
    // Another note stays another one, whatever its line ends.
    let other = note("\r\n").replace("keeper", "Keeper");
    let two = adds(&founds(&note("\n")).bytes, &other);
    assert!(two.bytes.starts_with(b"<T t=\"1-2\"><s><f><T t=\"1\">Fl 5s.\n\n<by>keeper\nW<at>\n</at></by>&gt;\n</T><T t=\"2\">Fl 5s.\n\n<by>Keeper\n"));
}

#[test]
fn line_ends_side_by_side() {
    for (content, written) in [
        ("a\r\r\nb", "a\n\nb"),
        ("a\n\rb", "a\n\nb"),
        ("a\r\rb", "a\n\nb"),
        ("a\r\n\rb", "a\n\nb"),
        ("a\n\r\nb", "a\n\nb"),
        ("a\r b", "a\n b"),
        ("\r\n", "\n"),
        ("\r", "\n"),
        ("\t\r", "\t\n"),
        // At the end of a run, before `<` or `&`, and at its beginning.
        ("a\r<n/>b", "a\n<n></n>b"),
        ("a\r\n<n/>\r\nb", "a\n<n></n>\nb"),
        ("\r<n/>\n", "\n<n></n>\n"),
        ("a\r&lt;b", "a\n&lt;b"),
        ("a\r&amp;\n", "a\n&amp;\n"),
        ("a\r\n&quot;\rb", "a\n\"\nb"),
        ("&gt;\r\n>\r", "&gt;\n&gt;\n"),
        // CR ends one run, and LF begins another.
        ("<n>\r</n>\n<n/>\r<n>\n</n>", "<n>\n</n>\n<n></n>\n<n>\n</n>"),
        // `]]>` is looked for after the step, which takes no line end away.
        ("]]\r>", "]]\n&gt;"),
        ("]\r]>", "]\n]&gt;"),
        ("]]\r\n>", "]]\n&gt;"),
        ("\r]]\r&gt;\r", "\n]]\n&gt;\n"),
    ] {
        assert_eq!(founds(&f(content)), gives(&format!("<T t=\"1\"><s><f>{written}</f></s></T>")), "{content:?}");
    }
    // Beneath a frontier as deep as there may be.
    let deep = |end: &str| f(&("<n>".repeat(14) + end + &"</n>".repeat(14)));
    assert_eq!(founds(&deep("a\r\nb\r")), founds(&deep("a\nb\n")));
    assert_eq!(founds(&deep("\r")).number, 0);
}

#[test]
fn not_in_the_subset() {
    for text in [
        "<s\r/>", "<s/\r>", "<\rs/>", "\r<s\r></s>", "<s></s\r>", "<s></\rs>", "<s\r\n/>", "<s><\r/s>", "<s\r", "\r<", "x\r", "<s/>\r<s/>", "&#13;",
    ] {
        assert_eq!(founds(text).number, 5, "{text:?}");
    }
    for content in [
        "&#13;", "&#xD;", "&#xd;", "&#10;", "\r&#13;", "&#13;\n", "&\r", "&\rlt;", "&l\rt;", "&lt\r;", "&lt\r\n;", "]]>\r", "\r]]>", "\r\n]]>\r\n", "<n\r></n>", "<n></n\r>", "\x0b\r", "\r\x0c", "\r\x0e\n", "\r\u{85}",
    ] {
        assert_eq!(founds(&f(content)).number, 5, "{content:?}");
        assert_eq!(adds(b"<T t=\"1\"><s></s></T>", &f(content)).number, 5, "{content:?}");
    }
    // White space above a frontier is dropped, other text is refused; a key value has no line end.
    assert_eq!(founds("\r<s>\r\n<f/>\r</s>\r\n"), gives("<T t=\"1\"><s><f></f></s></T>"));
    assert_eq!(founds("<s>\rx</s>").number, 7);
    for value in ["\r", "1\r", "\r1", "1\r\n", "1\r2"] {
        assert_eq!(founds(&format!("<s><k><p>{value}</p></k></s>")).number, 8, "{value:?}");
    }
}

#[test]
fn vacant_versions() {
    for text in ["\r", "\r\n", "\r\r", "\n\r", "\r\r\n", " \r\t\r\n"] {
        assert_eq!(founds(text), gives("<T t=\"1\"></T>"), "{text:?}");
        assert_eq!(adds(b"<T t=\"1\"></T>", text), gives("<T t=\"1-2\"></T>"), "{text:?}");
    }
    assert_eq!(founds(&"\r\n".repeat(8_192)), gives("<T t=\"1\"></T>"));
    assert_eq!(founds(&("\r\n".repeat(8_192) + "\n")).number, 2);
}

/// 2 counts the bytes that are lent, 6 those of the written form, which is that of what was received.
#[test]
fn sizes() {
    let around = f("").len();
    assert_eq!(around, 14);
    let lines = |count: usize, more: &str| f(&("\r\n".repeat(count) + more));
    assert_eq!(lines(8_185, "").len(), 16_384);
    assert_eq!(founds(&lines(8_185, "")).bytes.len(), 13 + 14 + 8_185);
    assert_eq!(lines(8_185, "x").len(), 16_385);
    assert_eq!(founds(&lines(8_185, "x")).number, 2);
    assert_eq!(founds(&(lines(8_185, "") + "\r")).number, 2);
    assert_eq!(found(b"bad", lines(8_185, "x").as_bytes(), ROOM, WORK_CELLS).number, 2);
    assert_eq!(adds(b"bad", &lines(8_185, "x")).number, 2);
    // 14 + 5 n bytes written.
    let greater = |count: usize, more: &str| f(&(">\r\n".repeat(count) + more));
    assert_eq!(founds(&greater(3_274, "")).bytes.len(), 13 + 16_384);
    assert_eq!(founds(&greater(3_274, "\r")).number, 6);
    assert_eq!(founds(&greater(3_274, "x")).number, 6);
    assert_eq!(founds(&greater(3_275, "")).number, 6);
    // A CR LF is one byte of the written form: as many as with LF, where each for itself would be over 16,384.
    let full = |end: &str| f(&(">".repeat(4_000) + &end.repeat(370)));
    assert_eq!(founds(&full("\r\n")), founds(&full("\n")));
    assert_eq!(founds(&full("\r\n")).bytes.len(), 13 + 16_384);
    assert_eq!(founds(&full("\r\r")).number, 6);
    // Nodes: a run of CR LF is one, and so is one of CR; dropped ones are none.
    assert_eq!(founds(&f(&"<a/>\r\n".repeat(255))).number, 0);
    assert_eq!(founds(&f(&("\r".to_string() + &"<a/>\r\n".repeat(255)))).number, 6);
    assert_eq!(founds(&format!("<s>\r\n<f>{}</f>\r</s>", "<a/>\r".repeat(255))).number, 0);
}

/// The number of each call that takes the archive.
fn archive_numbers(archive: &[u8]) -> [u32; 7] {
    let mut table = [0; TABLE_BYTES];
    [
        retrieve(KEYS, archive, 1, ROOM, WORK_CELLS).number,
        history(KEYS, archive, b"/s/f", ROOM, WORK_CELLS).number,
        adds(archive, "<s/>").number,
        back(KEYS, archive, &mut table, 1, ROOM, WORK_CELLS).number,
        back_to_mark(KEYS, archive, &mut table, b"m", ROOM, WORK_CELLS).number,
        set_mark(KEYS, archive, &mut table, b"m", 1, WORK_CELLS).number,
        find_mark(KEYS, archive, &table, b"m", WORK_CELLS).0.number,
    ]
}

#[test]
fn archives_holding_cr() {
    let legal = "<T t=\"1-3\"><T t=\"1-2\"><s><f><T t=\"1\">a\nb\n<n>\n</n></T><T t=\"2\">\nc</T></f><k><p>1</p></k></s></T></T>";
    assert_eq!(archive_numbers(legal.as_bytes()), [0, 0, 0, 0, 15, 0, 0]);
    // CR before any byte, after the last, and in place of any.
    for at in 0..=legal.len() {
        for put_in in ["\r", "\r\n", "\n\r"] {
            let archive = format!("{}{put_in}{}", &legal[..at], &legal[at..]);
            assert_eq!(archive_numbers(archive.as_bytes()), [10; 7], "{archive:?}");
        }
        let mut archive = legal.as_bytes().to_vec();
        if let Some(byte) = archive.get_mut(at) {
            *byte = b'\r';
            assert_eq!(archive_numbers(&archive), [10; 7], "{}", archive.escape_ascii());
        }
    }
    for end in ["\r", "\r\n", "\n\r", "\r\r\n"] {
        assert_eq!(archive_numbers(legal.replace('\n', end).as_bytes()), [10; 7], "{end:?}");
        // The only archive near it is of vacant versions.
        for archive in [format!("<T t=\"1\">{end}</T>"), format!("{end}<T t=\"1\"></T>"), format!("<T t=\"1\"></T>{end}"), format!("<T t=\"1{end}\"></T>"), end.into()] {
            assert_eq!(archive_numbers(archive.as_bytes()), [10; 7], "{archive:?}");
        }
    }
    // A version is refused before the archive, 2 before both.
    assert_eq!(adds(b"<T t=\"1\">\r</T>", "<s\r/>").number, 5);
    assert_eq!(retrieve(KEYS, &[b'\r'; 32_768], 1, ROOM, WORK_CELLS).number, 10);
    assert_eq!(retrieve(KEYS, &[b'\r'; 32_769], 1, ROOM, WORK_CELLS).number, 2);
}

/// The step is of versions: in a key list, an address and a mark's name a CR is what it was.
#[test]
fn other_texts() {
    let keys = std::str::from_utf8(KEYS).unwrap();
    for end in ["\r", "\r\n", "\n\r", "\r\r\n"] {
        assert_eq!(check_keys(keys.replace('\n', end).as_bytes(), WORK_CELLS).number, 3, "{end:?}");
        assert_eq!(check_keys((keys.to_string() + end).as_bytes(), WORK_CELLS).number, 3, "{end:?}");
    }
    let archive = b"<T t=\"1\"><s><f>\n</f></s></T>";
    for address in ["\r", "/s\r", "\r/s", "/s\r\n", "/s/f\r", "/s\r/f", "/s/k[p=\"1\r\"]", "/s/k[p=\"1\"\r]"] {
        assert_eq!(history(KEYS, archive, address.as_bytes(), ROOM, WORK_CELLS).number, 12, "{address:?}");
    }
    for name in ["\r", "m\r", "\rm", "m\r\n"] {
        assert_eq!(set_mark(KEYS, archive, &mut [0; TABLE_BYTES], name.as_bytes(), 1, WORK_CELLS).number, 15, "{name:?}");
    }
}
