//! Each refusal, its order, and the choices where document 01 is open.

use reference::marks::TABLE_BYTES;
use reference::{add, back, back_to_mark, check_keys, find_mark, found, history, longest_history, retrieve, set_mark, WORK_CELLS};

const KEYS: &str = "(/, (s, {}))\n(/s, (f, {}))\n(/s, (k, {p, q}))\n(/s/k, (v, {}))\n";
const EMPTY: &str = r#"<T t="1"><s></s></T>"#;
const FULL: &str = r#"<T t="1-2"><s><T t="2"><f>x</f></T><k><p>1</p><q>2</q><v><T t="1">a</T><T t="2"></T></v></k></s></T>"#;

fn keys_number(keys: &str) -> u32 {
    check_keys(keys.as_bytes(), WORK_CELLS).number
}

fn version_number(version: &str) -> u32 {
    found(KEYS.as_bytes(), version.as_bytes(), 40_000, WORK_CELLS).number
}

fn archive_number(archive: &str) -> u32 {
    retrieve(KEYS.as_bytes(), archive.as_bytes(), 1, 40_000, WORK_CELLS).number
}

fn address_number(address: &str) -> u32 {
    history(KEYS.as_bytes(), FULL.as_bytes(), address.as_bytes(), 40_000, WORK_CELLS).number
}

fn all<'a>(number: u32, of: impl Fn(&str) -> u32, texts: &[&'a str]) {
    for text in texts {
        assert_eq!(of(text), number, "{text}");
    }
}

#[test]
fn one_and_two_come_first() {
    let short = WORK_CELLS - 1;
    let (long, long_address) = (vec![b' '; 40_000], vec![b'/'; 2_561]);
    let (k, a) = (KEYS.as_bytes(), EMPTY.as_bytes());
    assert_eq!(check_keys(&long, short).number, 1);
    assert_eq!(found(k, &long, 0, short).number, 1);
    assert_eq!(add(k, a, &long, 0, short).number, 1);
    assert_eq!(retrieve(k, &long, 1, 0, short).number, 1);
    assert_eq!(history(k, a, &long, 0, short).number, 1);
    assert_eq!(back(k, &long, &mut [], 1, 0, short).number, 1);
    assert_eq!(back_to_mark(k, &long, &mut [], b"", 0, short).number, 1);
    assert_eq!(set_mark(k, &long, &mut [], b"", 1, short).number, 1);
    assert_eq!(find_mark(k, &long, &[], b"", short).0.number, 1);
    assert_eq!(longest_history(0, 0, short).number, 1);
    assert_eq!(check_keys(&long, WORK_CELLS).number, 2);
    assert_eq!(found(b"bad", &long, 0, WORK_CELLS).number, 2);
    assert_eq!(add(b"bad", a, &long, 0, WORK_CELLS).number, 2);
    assert_eq!(add(b"bad", &long, b"", 0, WORK_CELLS).number, 2);
    assert_eq!(retrieve(b"bad", &long, 1, 0, WORK_CELLS).number, 2);
    assert_eq!(history(b"bad", a, &long_address, 0, WORK_CELLS).number, 2);
    assert_eq!(history(b"bad", a, &long_address[1..], 0, WORK_CELLS).number, 3);
    assert_eq!(back(b"bad", &long, &mut [], 1, 0, WORK_CELLS).number, 2);
    assert_eq!(back_to_mark(b"bad", &long, &mut [], b"", 0, WORK_CELLS).number, 2);
    assert_eq!(set_mark(b"bad", &long, &mut [], b"", 1, WORK_CELLS).number, 2);
    assert_eq!(find_mark(b"bad", &long, &[], b"", WORK_CELLS).0.number, 2);
    // A name is never too long for 2.
    assert_eq!(find_mark(b"bad", a, &[], &long, WORK_CELLS).0.number, 3);
}

#[test]
fn key_list_notation() {
    all(0, keys_number, &[KEYS, "(/, (s, {}))\n"]);
    all(
        3,
        keys_number,
        &[
            "",
            "\n",
            "(/, (s, {}))",
            "(/, (s, {}))\n\n",
            "(/, (s, {}))\r\n",
            "(/,(s, {}))\n",
            "(/, (s,{}))\n",
            "(/, (s, {} ))\n",
            " (/, (s, {}))\n",
            "(/s, (s, {}))\n",
            "(, (s, {}))\n",
            "(/, (1s, {}))\n",
            "(/, (, {}))\n",
            "(/, (s, {}))\n(/, (t, {}))\n",
            "(/, (s, {}))\n(/s/, (t, {}))\n",
            "(/, (s, {}))\n(s, (t, {}))\n",
            "(/, (s, {}))\n(/s, (t, {a,b}))\n",
            "(/, (s, {}))\n(/s, (t, {a, }))\n",
            "(/, (s, {}))\n(/s, (t, {a, a}))\n",
            "(/, (s, {}))\n(/s, (t, {a, b, c, d, e}))\n",
        ],
    );
    // The notation of all lines is before the rules of any.
    assert_eq!(keys_number("(/, (T, {}))\n(/, (t, {}))\n"), 3);
}

#[test]
fn key_list_rules() {
    all(
        4,
        keys_number,
        &[
            "(/, (s, {a}))\n",
            "(/, (T, {}))\n",
            "(/, (s, {}))\n(/s, (t, {T}))\n",
            "(/, (s, {}))\n(/s/T, (t, {}))\n",
            "(/, (s, {}))\n(/s, (t, {}))\n(/s, (t, {}))\n",
            "(/, (s, {}))\n(/s, (t, {a}))\n(/s, (t, {}))\n",
            "(/, (s, {}))\n(/s, (t, {a}))\n(/s/t, (a, {}))\n",
            "(/, (s, {}))\n(/s, (t, {a}))\n(/s/t/a, (b, {}))\n",
            "(/, (s, {}))\n(/s/t, (b, {}))\n(/s, (t, {}))\n",
            "(/, (s, {}))\n(/x, (b, {}))\n",
        ],
    );
}

#[test]
fn xml_subset() {
    all(
        0,
        version_number,
        &[
            " \t\r\n<s/>\n",
            "<s> <f>a>b ]] > ]]&gt; &lt;&gt;&amp;&quot;&apos; \t\r\n \"'~</f> </s>",
            "<s><k><q>2</q>\n<p>A.-_9</p></k></s>",
            "<s><f><s>a<s/>b<s/></s><s/> <f/></f></s>",
        ],
    );
    all(
        5,
        version_number,
        &[
            "x",
            "<s>",
            "<s></t>",
            "</s>",
            "<s/><s/>",
            "<s/>x",
            "&amp;<s/>",
            "<s/ >",
            "<s />",
            "<s ></s>",
            "< s></s>",
            "<s></s >",
            "<>",
            "<s></>",
            "<s//>",
            "<1s/>",
            "<s a=\"b\"/>",
            "<s><!-- --></s>",
            "<s><?a?></s>",
            "<?xml?><s/>",
            "<s><f><![CDATA[]]></f></s>",
            "<s><f>]]></f></s>",
            "<s>]]></s>",
            "<s><f>&#65;</f></s>",
            "<s><f>&lt</f></s>",
            "<s><f>& </f></s>",
            "<s><f>&LT;</f></s>",
            "<s><f>\u{7f}</f></s>",
            "<s><f>\u{80}</f></s>",
            "<s><f>\0</f></s>",
            "<s><f>\u{b}</f></s>",
            "<s><f>a<b</f></s>",
            "<T>",
        ],
    );
    let longest = "n".repeat(32);
    assert_eq!(version_number(&format!("<s><f><{longest}/></f></s>")), 0);
    assert_eq!(version_number(&format!("<s><f><{longest}n/></f></s>")), 5);
}

#[test]
fn paths_text_and_t() {
    all(
        7,
        version_number,
        &[
            "<t/>",
            "<s><t/></s>",
            "<s><k><w/></k></s>",
            "<s>x</s>",
            "<s> x </s>",
            "<s>&gt;</s>",
            "<T><s/></T>",
            "<s><T/></s>",
            "<s><f><a><T/></a></f></s>",
            "<s><k>1<p>1</p><q>2</q></k></s>",
            // 7 is before 8 and 9.
            "<s><k/><k/><f/><f/><T/></s>",
        ],
    );
}

#[test]
fn key_children_and_siblings() {
    let key = |p: &str| format!("<s><k><p>{p}</p><q>2</q></k></s>");
    for value in ["", " ", "a b", "a:", "&lt;", "<a/>", "1<a/>", " 1", &"1".repeat(33)] {
        assert_eq!(version_number(&key(value)), 8, "{value}");
    }
    assert_eq!(version_number(&key(&"1".repeat(32))), 0);
    all(
        8,
        version_number,
        &[
            "<s><k/></s>",
            "<s><k><q>2</q></k></s>",
            "<s><k><p>1</p></k></s>",
            "<s><k><p>1</p><q>2</q><p>1</p></k></s>",
            "<s><f/><f/><k><p/><q>1</q></k></s>",
        ],
    );
    all(
        9,
        version_number,
        &[
            "<s><f/><f/></s>",
            "<s><f>1</f><k><p>1</p><q>2</q></k><f>2</f></s>",
            "<s><k><p>1</p><q>2</q></k><k><q>2</q><p>1</p><v/></k></s>",
            "<s><k><p>1</p><q>2</q><v/><v/></k></s>",
        ],
    );
    all(0, version_number, &["<s><k><p>1</p><q>2</q></k><k><p>2</p><q>1</q></k><k><p>1</p><q>20</q></k></s>"]);
}

#[test]
fn archives() {
    all(0, archive_number, &[EMPTY, FULL]);
    all(
        10,
        archive_number,
        &[
            "",
            "<s></s>",
            r#"<T t="1"><s/></T>"#,
            r#"<T t="1"><s> </s></T>"#,
            r#"<T t="1"><s></s></T> "#,
            r#" <T t="1"><s></s></T>"#,
            r#"<T t="1"><s></s>"#,
            r#"<T t="1"></T><s></s>"#,
            r#"<T t="1"><s></T></s>"#,
            r#"<T t="1"><T t="1"><s></s></T></T>"#,
            r#"<T t="2"><s></s></T>"#,
            r#"<T t="01"><s></s></T>"#,
            r#"<T t="1-1"><s></s></T>"#,
            r#"<T t="1,2"><s></s></T>"#,
            r#"<T t="1-1000"><s></s></T>"#,
            r#"<T t="1-4294967297"><s></s></T>"#,
            r#"<T t=""><s></s></T>"#,
            r#"<T t="2-1"><s></s></T>"#,
            r#"<T t="0"><s></s></T>"#,
            r#"<T t="1"><T t="1"><s></s></T>"#,
            r#"<T t="1-2"><T t="1"><s></s></T><T t="2"><s></s></T></T>"#,
            r#"<T t="1"><s><f>></f></s></T>"#,
            r#"<T t="1"><s><f>&quot;</f></s></T>"#,
            r#"<T t="1"><s><k><p>1</p><q>1</q></k><f></f></s></T>"#,
            // A T that equals its parent's, or around a sole content.
            r#"<T t="1"><s><T t="1"><f></f></T></s></T>"#,
            r#"<T t="1"><s><f><T t="1">x</T></f></s></T>"#,
            // A second entry instead of a gap; contents not by first version, equal, missing, overlapping.
            r#"<T t="1-3"><s><T t="1"><f></f></T><T t="3"><f></f></T></s></T>"#,
            r#"<T t="1-2"><s><f><T t="2">x</T><T t="1">y</T></f></s></T>"#,
            r#"<T t="1-2"><s><f><T t="1">x</T><T t="2">x</T></f></s></T>"#,
            r#"<T t="1-2"><s><f><T t="1">x</T></f></s></T>"#,
            r#"<T t="1-2"><s><f><T t="1-2">x</T><T t="2">y</T></f></s></T>"#,
            r#"<T t="1-2"><s><f><T t="1">x</T><T t="2-3">y</T></f></s></T>"#,
            r#"<T t="1-2"><s><f>x<T t="2">y</T></f></s></T>"#,
            r#"<T t="1-2"><s><f><a><T t="1">x</T><T t="2">y</T></a></f></s></T>"#,
            // Two elements in one T; a key child that comes later.
            r#"<T t="1-2"><s><T t="1"><f></f><k><p>1</p><q>1</q></k></T></s></T>"#,
            r#"<T t="1-2"><s><k><p>1</p><T t="1"><q>1</q></T></k></s></T>"#,
            r#"<T t="1-2"><s><k><p>1</p><q><T t="1">1</T><T t="2">2</T></q></k></s></T>"#,
        ],
    );
    all(0, archive_number, &[r#"<T t="1-2"><s><f><T t="1"></T><T t="2">y</T></f></s></T>"#]);
}

#[test]
fn addresses() {
    all(0, address_number, &["/s", "/s/f", r#"/s/k[p="1" and q="2"]"#, r#"/s/k[p="1" and q="2"]/q"#, r#"/s/k[p="." and q="-"]/v"#]);
    let long = format!(r#"/s/k[p="1" and q="{}"]"#, "2".repeat(33));
    all(
        12,
        address_number,
        &[
            "",
            "/",
            "s",
            "//s",
            "/s/",
            "/t",
            "/s[]",
            "/s/k",
            "/s/f/a",
            "/s/T",
            r#"/s/f[p="1"]"#,
            r#"/s/k[p="1"]"#,
            r#"/s/k[q="2" and p="1"]"#,
            r#"/s/k[p="1" and q="2" and q="2"]"#,
            r#"/s/k[p="1"and q="2"]"#,
            r#"/s/k[p="1"  and q="2"]"#,
            r#"/s/k[p = "1" and q="2"]"#,
            r#"/s/k[p='1' and q='2']"#,
            r#"/s/k[p="1"][q="2"]"#,
            r#"/s/k[p="1" and q=""]"#,
            r#"/s/k[p="1" and q="a b"]"#,
            r#"/s/k[p="1" and q="2"] "#,
            r#"/s/k[p="1" and q="2"]/p/a"#,
            &long,
        ],
    );
}

#[test]
fn order_of_the_table() {
    let k = KEYS.as_bytes();
    let a = FULL.as_bytes();
    // A version's refusals come before the archive's, the archive's before i and the address.
    assert_eq!(add(k, b"bad", b"<s><f/><f/></s>", 0, WORK_CELLS).number, 9);
    assert_eq!(add(k, b"bad", b"<s/>", 0, WORK_CELLS).number, 10);
    assert_eq!(retrieve(k, b"bad", 0, 0, WORK_CELLS).number, 10);
    assert_eq!(retrieve(k, a, 0, 0, WORK_CELLS).number, 11);
    assert_eq!(retrieve(k, a, 3, 0, WORK_CELLS).number, 11);
    assert_eq!(retrieve(k, a, usize::MAX, 0, WORK_CELLS).number, 11);
    assert_eq!(retrieve(k, a, 2, 0, WORK_CELLS).number, 14);
    assert_eq!(back(k, b"bad", &mut [], 0, 0, WORK_CELLS).number, 10);
    assert_eq!(back(k, a, &mut [], 0, 0, WORK_CELLS).number, 17);
    assert_eq!(back(k, a, &mut [0; TABLE_BYTES], 3, 0, WORK_CELLS).number, 11);
    assert_eq!(back(k, a, &mut [0; TABLE_BYTES], 2, 0, WORK_CELLS).number, 14);
    assert_eq!(back_to_mark(k, b"bad", &mut [], b"", 0, WORK_CELLS).number, 10);
    assert_eq!(back_to_mark(k, a, &mut [], b"", 0, WORK_CELLS).number, 17);
    assert_eq!(back_to_mark(k, a, &mut [0; TABLE_BYTES], b"m", 0, WORK_CELLS).number, 15);
    assert_eq!(set_mark(k, b"bad", &mut [], b"", 0, WORK_CELLS).number, 10);
    assert_eq!(set_mark(k, a, &mut [], b"", 0, WORK_CELLS).number, 17);
    assert_eq!(set_mark(k, a, &mut [0; TABLE_BYTES], b"", 0, WORK_CELLS).number, 15);
    assert_eq!(set_mark(k, a, &mut [0; TABLE_BYTES], b"m", 0, WORK_CELLS).number, 11);
    assert_eq!(find_mark(k, b"bad", &[], b"", WORK_CELLS).0.number, 10);
    assert_eq!(find_mark(k, a, &[], b"", WORK_CELLS).0.number, 17);
    assert_eq!(history(k, b"bad", b"bad", 0, WORK_CELLS).number, 10);
    assert_eq!(history(k, a, b"bad", 0, WORK_CELLS).number, 12);
    assert_eq!(history(k, a, b"/s", 0, WORK_CELLS).number, 14);
    assert_eq!(history(k, a, br#"/s/k[p="9" and q="9"]"#, 0, WORK_CELLS).number, 0);
    assert_eq!(longest_history(0, 0, WORK_CELLS).number, 11);
    assert_eq!(longest_history(1_000, 0, WORK_CELLS).number, 11);
    assert_eq!(longest_history(1, 0, WORK_CELLS).number, 14);
}

/// 3 and 10 come before 17, whatever length the table has, and leave it as it was.
#[test]
fn the_archive_before_the_table() {
    let k = KEYS.as_bytes();
    for length in [0, 1, 18, 19, 607, 608, 609, 627] {
        let mut table = vec![9; length];
        assert_eq!(set_mark(k, b"bad", &mut table, b"", 0, WORK_CELLS).number, 10);
        assert_eq!(find_mark(k, b"bad", &table, b"", WORK_CELLS).0.number, 10);
        assert_eq!(back(k, b"bad", &mut table, 0, 0, WORK_CELLS).number, 10);
        assert_eq!(back_to_mark(k, b"bad", &mut table, b"", 0, WORK_CELLS).number, 10);
        assert_eq!(set_mark(b"", b"bad", &mut table, b"", 0, WORK_CELLS).number, 3);
        assert_eq!(table, vec![9; length]);
    }
}

/// Siblings are ordered by name and then by key values, a prefix first.
#[test]
fn order_of_siblings() {
    let keys = b"(/, (s, {}))\n(/s, (a, {z, b}))\n(/s, (a-b, {}))\n(/s, (a.b, {}))\n(/s, (a_, {}))\n(/s, (A, {}))\n(/s, (ab, {}))\n";
    let a = |z: &str, b: &str| format!("<a><z>{z}</z><b>{b}</b></a>");
    let version = format!("<s><ab/>{}{}<a_/><a.b/>{}{}<a-b/><A/></s>", a("10", "1"), a("2", "0"), a("1", "9"), a("1.", "0"));
    let written = |z: &str, b: &str| format!("<a><b>{b}</b><z>{z}</z></a>");
    let expected = format!(
        r#"<T t="1"><s><A></A>{}{}{}{}<a-b></a-b><a.b></a.b><a_></a_><ab></ab></s></T>"#,
        written("1", "9"),
        written("1.", "0"),
        written("10", "1"),
        written("2", "0")
    );
    assert_eq!(String::from_utf8(found(keys, version.as_bytes(), 4_096, WORK_CELLS).bytes).unwrap(), expected);
}
