//! The cases of the program `limits` (crates/limits), asked of the second implementation: its lines are
//! that program's stored `stdout`. One line a case: name, number, length, and a result's bytes or, where
//! they are over 120, their Adler-32 checksum; then, of a call over marks, that of its table, or the version found.
//!
//!     cargo run --offline --release --bin limits > ../../crates/limits/stdout

use reference::marks::TABLE_BYTES;
use reference::{add, back, back_to_mark, check_keys, find_mark, found, history, longest_history, retrieve, set_mark, Answer, WORK_CELLS};

const KEYS: &[u8] = b"(/, (s, {}))\n(/s, (f, {}))\n(/s, (k, {p}))\n";
const ROOM: usize = 32_768;

type Table = [u8; TABLE_BYTES];
const UNUSED: Table = [0; TABLE_BYTES];

/// The Adler-32 checksum of bytes (RFC 1950).
fn checksum(bytes: &[u8]) -> u64 {
    let (a, b) = bytes.iter().fold((1u64, 0u64), |(a, b), byte| {
        let a = (a + u64::from(*byte)) % 65_521;
        (a, (b + a) % 65_521)
    });
    b * 65_536 + a
}

fn line(name: &str, answer: &Answer) {
    println!("{}", case(name, answer));
}

fn table_line(name: &str, answer: &Answer, table: &Table) {
    println!("{} table {:08x}", case(name, answer), checksum(table));
}

fn case(name: &str, answer: &Answer) -> String {
    let bytes = &answer.bytes;
    let shown = match bytes.len() {
        0 => String::new(),
        1..=120 => format!(" {}", String::from_utf8_lossy(bytes)),
        _ => format!(" sum {:08x}", checksum(bytes)),
    };
    format!("{name}: {} {}{shown}", answer.number, bytes.len())
}

/// A version whose one frontier holds so many times a word, and as many times what closes it.
fn version(word: &str, count: usize, close: &str) -> Vec<u8> {
    format!("<s><f>{}{}</f></s>", word.repeat(count), close.repeat(count)).into_bytes()
}

fn founds(name: &str, version: &[u8], room: usize) -> Answer {
    let answer = found(KEYS, version, room, WORK_CELLS);
    line(name, &answer);
    answer
}

fn adds(name: &str, archive: &[u8], version: &[u8], room: usize) -> Answer {
    let answer = add(KEYS, archive, version, room, WORK_CELLS);
    line(name, &answer);
    answer
}

fn retrieves(name: &str, archive: &[u8], i: usize, room: usize) {
    line(name, &retrieve(KEYS, archive, i, room, WORK_CELLS));
}

fn histories(name: &str, archive: &[u8], address: &str, room: usize) {
    line(name, &history(KEYS, archive, address.as_bytes(), room, WORK_CELLS));
}

/// With a table of unused entries.
fn backs(name: &str, archive: &[u8], i: usize, room: usize) {
    line(name, &back(KEYS, archive, &mut [0; TABLE_BYTES], i, room, WORK_CELLS));
}

fn marked_backs(name: &str, archive: &[u8], mut table: Table, i: usize, room: usize) {
    let answer = back(KEYS, archive, &mut table, i, room, WORK_CELLS);
    table_line(name, &answer, &table);
}

fn named_backs(name: &str, archive: &[u8], mut table: Table, mark: &[u8], room: usize) {
    let answer = back_to_mark(KEYS, archive, &mut table, mark, room, WORK_CELLS);
    table_line(name, &answer, &table);
}

/// The table that is left.
fn sets(name: &str, archive: &[u8], mut table: Table, mark: &[u8], i: usize) -> Table {
    let answer = set_mark(KEYS, archive, &mut table, mark, i, WORK_CELLS);
    table_line(name, &answer, &table);
    table
}

fn finds(name: &str, archive: &[u8], table: Table, mark: &[u8]) {
    let (answer, version) = find_mark(KEYS, archive, &table, mark, WORK_CELLS);
    println!("{} version {version}", case(name, &answer));
}

fn sizes() {
    founds("512 nodes", &version("<a/>", 510, ""), ROOM);
    founds("513 nodes", &version("<a/>", 511, ""), ROOM);
    founds("depth 16", &version("<a>", 14, "</a>"), ROOM);
    founds("depth 17", &version("<a>", 15, "</a>"), ROOM);
}

fn outputs() {
    let version = b"<s><f>x</f></s>";
    let one = b"<T t=\"1\"><s><f>x</f></s></T>";
    let two = b"<T t=\"1-2\"><s><T t=\"1\"><f>x</f></T></s></T>";
    founds("found exact", version, 28);
    founds("found short", version, 27);
    adds("add exact", one, b"<s/>", 43);
    adds("add short", one, b"<s/>", 42);
    retrieves("retrieve exact", two, 1, 15);
    retrieves("retrieve short", two, 1, 14);
    histories("history exact", two, "/s", 3);
    histories("history short", two, "/s", 2);
    backs("back exact", two, 1, 28);
    backs("back short", two, 1, 27);
}

fn versions() {
    let with = b"<s><f>x</f></s>";
    let mut archive = found(KEYS, with, ROOM, WORK_CELLS).bytes;
    for _ in 0..498 {
        archive = add(KEYS, &archive, b"<s/>", ROOM, WORK_CELLS).bytes;
        archive = add(KEYS, &archive, with, ROOM, WORK_CELLS).bytes;
    }
    let before = adds("version 998", &archive, b"<s/>", ROOM).bytes;
    let last = adds("version 999", &before, b"<s><f>y</f></s>", ROOM).bytes;
    adds("version 1,000", &last, b"<s/>", ROOM);
    retrieves("retrieve 998", &last, 998, ROOM);
    retrieves("retrieve 999", &last, 999, ROOM);
    retrieves("retrieve 1,000", &last, 1_000, ROOM);
    histories("history of s", &last, "/s", ROOM);
    histories("history of f", &last, "/s/f", ROOM);
    backs("back to 998", &last, 998, ROOM);
    backs("back to 1", &last, 1, ROOM);
    last_marks(&last);
}

/// Marks of the archive of 999 versions.
fn last_marks(archive: &[u8]) {
    let table = sets("mark of 998", archive, UNUSED, b"new-lens", 998);
    let table = sets("mark of 999", archive, table, b"new-lamp", 999);
    sets("mark of 1,000", archive, table, b"newer", 1_000);
    finds("find 999", archive, table, b"new-lamp");
    named_backs("back to the mark of 999", archive, table, b"new-lamp", ROOM);
    named_backs("back to the mark of 998", archive, table, b"new-lens", ROOM);
}

fn key_refusals() {
    let checks = |name: &str, keys: &[u8], cells: usize| line(name, &check_keys(keys, cells));
    checks("refusal 1", KEYS, WORK_CELLS - 1);
    checks("refusal 2", &[b'x'; 4_097], WORK_CELLS);
    checks("refusal 3", b"(/, (s, {}))", WORK_CELLS);
    checks("refusal 4", b"(/, (T, {}))\n", WORK_CELLS);
    checks("keys", KEYS, WORK_CELLS);
}

fn version_refusals() {
    founds("refusal 5", b"<s>", ROOM);
    founds("refusal 6", &version(">", 4_093, ""), ROOM);
    founds("refusal 7", b"<s>x</s>", ROOM);
    founds("refusal 8", b"<s><k/></s>", ROOM);
    founds("refusal 9", b"<s><f/><f/></s>", ROOM);
}

fn archive_refusals() {
    let archive = b"<T t=\"1\"><s></s></T>";
    retrieves("refusal 10", b"<T t=\"1\"><s></s></T>\n", 1, ROOM);
    retrieves("refusal 11", archive, 0, ROOM);
    histories("refusal 12", archive, "/s/", ROOM);
    backs("refusal 14", archive, 1, 0);
}

/// A table with a mark for each of the names, which have a byte each; they are of versions 2 and 1 by turns.
fn marked(archive: &[u8], names: &[u8]) -> Table {
    let mut table = UNUSED;
    for (at, name) in names.chunks(1).enumerate() {
        set_mark(KEYS, archive, &mut table, name, 2 - at % 2, WORK_CELLS);
    }
    table
}

fn marks(two: &[u8]) {
    sets("mark 1", two, UNUSED, b"A", 2);
    let full = sets("mark 32", two, marked(two, b"ABCDEFGHIJKLMNOPQRSTUVWXYZabcde"), b"f", 1);
    sets("refusal 16", two, full, b"g", 1);
    sets("full, and no version", two, full, b"g", 0);
    sets("full, and held", two, full, b"A", 1);
    finds("find the first", two, full, b"A");
    finds("find the last", two, full, b"f");
    finds("find none", two, full, b"g");
    marked_backs("marks kept", two, full, 2, ROOM);
    marked_backs("marks dropped", two, full, 1, ROOM);
}

fn mark_names(two: &[u8]) {
    let table = sets("name of 16", two, UNUSED, b"as_commissioned.", 1);
    sets("name of 17", two, table, b"as_commissioned.1", 1);
    sets("name of none", two, table, b"", 1);
    sets("refusal 15", two, table, b"as commissioned", 1);
    finds("find a name of 16", two, table, b"as_commissioned.");
    finds("find a name of 15", two, table, b"as_commissioned");
    sets("mark of n + 1", two, table, b"later", 3);
    sets("mark of 0", two, table, b"never", 0);
}

fn mark_outputs(two: &[u8]) {
    let table = marked(two, b"AB");
    named_backs("back to mark exact", two, table, b"B", 28);
    named_backs("back to mark short", two, table, b"B", 27);
    marked_backs("marked back exact", two, table, 1, 28);
    marked_backs("marked back short", two, table, 1, 27);
    named_backs("back to no mark", two, table, b"C", 0);
}

/// Marks of version 2 lent with an archive of one version; an unused entry that is not all zero.
fn table_refusals(two: &[u8]) {
    let one = b"<T t=\"1\"><s></s></T>";
    let table = marked(two, b"AB");
    sets("refusal 17", one, table, b"", 0);
    finds("find refusal 17", one, table, b"A");
    marked_backs("back refusal 17", one, table, 0, 0);
    named_backs("back to mark refusal 17", one, table, b"", 0);
    let mut unused = UNUSED;
    unused[607] = 1;
    sets("last byte 1", two, unused, b"A", 1);
    sets("archive before table", b"", unused, b"A", 1);
}

fn nodes() {
    let one = found(KEYS, &version("<a/>", 510, ""), ROOM, WORK_CELLS).bytes;
    let two = adds("1,012 nodes", &one, &version("<b/>", 500, ""), ROOM).bytes;
    adds("1,024 nodes", &two, &version("<c/>", 12, ""), ROOM);
    adds("refusal 13", &two, &version("<c/>", 13, ""), ROOM);
}

/// Vacant versions (Q-6): founding, striking off and relighting, stepping back across them, illegal sets of a root.
fn vacancies(two: &[u8]) {
    founds("vacant exact", b"", 13);
    founds("vacant short", b" \t\r\n", 12);
    founds("16,384 spaces", &[b' '; 16_384], ROOM);
    let none = adds("vacant twice", b"<T t=\"1\"></T>", b"", ROOM).bytes;
    let lit = adds("lit at last", &none, b"<s><f>x</f></s>", ROOM).bytes;
    let off = adds("struck off", two, b"\n", ROOM).bytes;
    let relit = adds("relit", &off, b"<s/>", ROOM).bytes;
    retrieves("retrieve vacant", &relit, 3, 0);
    retrieves("retrieve relit", &relit, 4, ROOM);
    histories("history of a relit root", &relit, "/s", ROOM);
    histories("history of no root", &none, "/s", 0);
    backs("back to vacant", &relit, 3, ROOM);
    backs("back past vacant", &relit, 2, ROOM);
    backs("back to no root", &lit, 2, ROOM);
    let table = sets("mark of a vacant version", &relit, UNUSED, b"struck-off", 3);
    named_backs("back to the vacant mark", &relit, table, b"struck-off", ROOM);
    retrieves("empty set", b"<T t=\"1\"><T t=\"\"><s></s></T></T>", 1, ROOM);
    retrieves("outer set shortened", b"<T t=\"1\"><T t=\"1-2\"><s></s></T></T>", 1, ROOM);
    retrieves("outer set repeated", b"<T t=\"1\"><T t=\"1\"><s></s></T></T>", 1, ROOM);
    retrieves("999 vacant", b"<T t=\"1-999\"></T>", 999, 0);
    adds("1,000 vacant", b"<T t=\"1-999\"></T>", b"", ROOM);
}

/// The longest history line (Q-14): short texts, the borders, outputs, refusals, and an archive of 999 versions with such a history.
fn lines() {
    let longest = |name: &str, n: usize, room: usize, cells: usize| {
        let answer = longest_history(n, room, cells);
        line(name, &answer);
        answer.bytes
    };
    for n in [1, 2, 3, 9, 10, 35, 99, 100, 101, 102, 998, 999] {
        longest(&format!("longest of {n}"), n, ROOM, WORK_CELLS);
    }
    let set = longest("longest exact", 999, 2_591, WORK_CELLS);
    longest("longest short", 999, 2_590, WORK_CELLS);
    longest("longest of 0", 0, 0, WORK_CELLS);
    longest("longest of 1,000", 1_000, 0, WORK_CELLS);
    longest("longest refusal 1", 0, ROOM, WORK_CELLS - 1);
    let archive = [b"<T t=\"1-999\"><T t=\"", &set[..], b"\"><s></s></T></T>"].concat();
    histories("longest history", &archive, "/s", 2_591);
    histories("longest history short", &archive, "/s", 2_590);
}

/// A note whose lines end in this way: in its text, in an element of it, and around both.
fn note(end: &str, light: &str) -> Vec<u8> {
    format!("<s>{end}<f>{light}.{end}{end}<by>keeper{end}W</by>{end}</f>{end}</s>{end}").into_bytes()
}

/// Line ends (Q-4): a note from each tablet, one note saved on all three, archives holding CR, the sizes of 2 and 6.
fn line_ends() {
    for (tablet, end) in [("LF", "\n"), ("CR LF", "\r\n"), ("CR", "\r")] {
        let one = founds(&format!("{tablet} founded"), &note(end, "Fl 5s"), ROOM).bytes;
        let two = adds(&format!("{tablet} added"), &one, &note(end, "Oc 4s"), ROOM).bytes;
        adds(&format!("{tablet} added again"), &two, &note(end, "Fl 5s"), ROOM);
    }
    let one = found(KEYS, &note("\n", "Fl 5s"), ROOM, WORK_CELLS).bytes;
    let two = adds("saved on CR LF", &one, &note("\r\n", "Fl 5s"), ROOM).bytes;
    let three = adds("saved on CR", &two, &note("\r", "Fl 5s"), ROOM).bytes;
    retrieves("note retrieved", &three, 2, ROOM);
    histories("note history", &three, "/s/f", ROOM);
    backs("note back", &three, 1, ROOM);
    retrieves("archive with CR LF", b"<T t=\"1\"><s><f>a\r\nb</f></s></T>", 1, ROOM);
    retrieves("archive with CR", b"<T t=\"1\"><s><f>a\rb</f></s></T>", 1, ROOM);
    retrieves("archive with CR after it", b"<T t=\"1\"><s></s></T>\r", 1, ROOM);
    founds("16,384 bytes with CR LF", &version("\r\n", 8_185, ""), ROOM);
    founds("16,384 written with CR LF", &version(">\r\n", 3_274, ""), ROOM);
    founds("refusal 6 with CR LF", &version(">\r\n", 3_275, ""), ROOM);
}

fn main() {
    sizes();
    outputs();
    versions();
    key_refusals();
    version_refusals();
    archive_refusals();
    nodes();
    let two = b"<T t=\"1-2\"><s><T t=\"1\"><f>x</f></T></s></T>";
    marks(two);
    mark_names(two);
    mark_outputs(two);
    table_refusals(two);
    vacancies(two);
    lines();
    line_ends();
}
