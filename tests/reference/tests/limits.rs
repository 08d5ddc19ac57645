//! The limits: sizes, nodes, depth, versions, output.

use reference::marks::TABLE_BYTES;
use reference::shelf::Shelf;
use reference::{add, back_to_mark, check_keys, find_mark, found, history, longest_history, retrieve, set_mark, Answer, WORK_CELLS};

const KEYS: &[u8] = b"(/, (s, {}))\n(/s, (f, {}))\n(/s, (g, {}))\n";

fn founds(version: &str) -> u32 {
    found(KEYS, version.as_bytes(), 40_000, WORK_CELLS).number
}

fn f(content: &str) -> String {
    format!("<s><f>{content}</f></s>")
}

/// Stepping back with a table of unused entries.
fn back(archive: &[u8], i: usize, out_len: usize) -> Answer {
    reference::back(KEYS, archive, &mut [0; TABLE_BYTES], i, out_len, WORK_CELLS)
}

fn shelf(keys: &[u8], versions: &[String]) -> Shelf {
    let mut shelf = Shelf::found(keys, versions[0].as_bytes()).unwrap();
    versions[1..].iter().for_each(|version| shelf.add(version.as_bytes()).unwrap());
    shelf
}

#[test]
fn nodes_512_and_513() {
    // s, f, and 510 or 511 more; a run of text counts, white space in s doesn't, in f it does.
    assert_eq!(founds(&f(&"<a/>".repeat(510))), 0);
    assert_eq!(founds(&f(&"<a/>".repeat(511))), 6);
    assert_eq!(founds(&format!("<s> <f>{}</f> </s>", "<a/>x".repeat(255))), 0);
    assert_eq!(founds(&f(&format!(" {}", "<a/>x".repeat(255)))), 6);
    // Refused text and unlisted elements count, elements named T don't: 7 only if 6 doesn't apply.
    assert_eq!(founds(&format!("<s>x<f>{}</f></s>", "<a/>".repeat(509))), 7);
    assert_eq!(founds(&format!("<s>x<f>{}</f></s>", "<a/>".repeat(510))), 6);
    assert_eq!(founds(&format!("<u>{}</u>", " <a/>".repeat(255))), 7);
    assert_eq!(founds(&format!("<u>{} <T/></u>", " <a/>".repeat(255))), 7);
    assert_eq!(founds(&format!("<u>{} </u>", "<a> </a>".repeat(255))), 7);
    assert_eq!(founds(&format!("<u>{} <b/></u>", "<a> </a>".repeat(255))), 6);
    // 5 is before 6.
    assert_eq!(founds(&f(&"<a/>".repeat(511)).replace("</s>", "</t>")), 5);
}

#[test]
fn depth_16_and_17() {
    let nested = |name: &str, deep: usize| f(&format!("{}{}", format!("<{name}>").repeat(deep), format!("</{name}>").repeat(deep)));
    assert_eq!(founds(&nested("a", 14)), 0);
    assert_eq!(founds(&nested("a", 15)), 6);
    assert_eq!(founds(&nested("T", 14)), 7);
    assert_eq!(founds(&nested("T", 15)), 6);
    assert_eq!(founds(&nested("a", 2_300)), 6);
    assert_eq!(founds(&"<a>".repeat(5_000)), 5);
}

#[test]
fn version_bytes_16384_and_16385() {
    let around = f("").len();
    assert_eq!(founds(&f(&"x".repeat(16_384 - around))), 0);
    assert_eq!(founds(&f(&"x".repeat(16_385 - around))), 2);
    assert_eq!(founds(&format!("{}\n", f(&"x".repeat(16_384 - around)))), 2);
    // The written form: `>` is four bytes, `<f/>` seven.
    let greater = (16_384 - around) / 4;
    let rest = (16_384 - around) % 4;
    assert_eq!(founds(&f(&format!("{}{}", "x".repeat(rest), ">".repeat(greater)))), 0);
    assert_eq!(founds(&f(&format!("{}{}", "x".repeat(rest + 1), ">".repeat(greater)))), 6);
    assert_eq!(founds(&format!("<s><g/>{}</s>", &f(&"x".repeat(16_370 - around))[3..16_370 - 4])), 0);
    assert_eq!(founds(&format!("<s><g/>{}</s>", &f(&"x".repeat(16_378 - around))[3..16_378 - 4])), 6);
}

#[test]
fn output_exact_and_one_byte_short() {
    let version = f("x").into_bytes();
    let archive = found(KEYS, &version, 40_000, WORK_CELLS).bytes;
    let two = add(KEYS, &archive, b"<s/>", 40_000, WORK_CELLS).bytes;
    let mut table = [0; TABLE_BYTES];
    assert_eq!(set_mark(KEYS, &two, &mut table, b"one", 1, WORK_CELLS).number, 0);
    let calls: [&dyn Fn(usize) -> Answer; 7] = [
        &|out| found(KEYS, &version, out, WORK_CELLS),
        &|out| add(KEYS, &archive, b"<s/>", out, WORK_CELLS),
        &|out| retrieve(KEYS, &two, 1, out, WORK_CELLS),
        &|out| history(KEYS, &two, b"/s", out, WORK_CELLS),
        &|out| back(&two, 1, out),
        &|out| back_to_mark(KEYS, &two, &mut table.clone(), b"one", out, WORK_CELLS),
        &|out| longest_history(999, out, WORK_CELLS),
    ];
    for call in calls {
        let result = call(40_000);
        assert_eq!(result.number, 0);
        assert_eq!(call(result.bytes.len()), result);
        let short = call(result.bytes.len() - 1);
        assert_eq!((short.number, short.bytes.len()), (14, 0));
    }
}

#[test]
fn versions_999_and_1000() {
    // f comes and goes: a timestamp of 500 runs.
    let versions: Vec<String> = (1..=998).map(|i| if i % 2 == 1 { f("x") } else { "<s/>".into() }).collect();
    let mut shelf = shelf(KEYS, &versions);
    let archive = shelf.archive();
    let last = add(KEYS, &archive, f("y").as_bytes(), 40_000, WORK_CELLS);
    assert_eq!(last.number, 0);
    shelf.add(f("y").as_bytes()).unwrap();
    assert_eq!(last.bytes, shelf.archive());
    assert!(last.bytes.starts_with(b"<T t=\"1-999\"><s><T t=\"1,3,5,7,"));
    assert_eq!(add(KEYS, &last.bytes, b"<s/>", 40_000, WORK_CELLS).number, 11);
    assert_eq!(add(KEYS, &last.bytes, b"<s/>", 0, WORK_CELLS).number, 11);
    assert_eq!(retrieve(KEYS, &last.bytes, 999, 40_000, WORK_CELLS).bytes, f("y").as_bytes());
    assert_eq!(retrieve(KEYS, &last.bytes, 1_000, 40_000, WORK_CELLS).number, 11);
    assert_eq!(back(&last.bytes, 998, 40_000).bytes, archive);
    assert_eq!(history(KEYS, &last.bytes, b"/s", 40_000, WORK_CELLS).bytes, b"1-999");
    let odd: Vec<String> = (1..=999).step_by(2).map(|i| i.to_string()).collect();
    assert_eq!(history(KEYS, &last.bytes, b"/s/f", 40_000, WORK_CELLS).bytes, odd.join(",").as_bytes());
    assert_eq!(back(b"<T t=\"1-1000\"><s></s></T>", 1, 40_000).number, 10);
}

#[test]
fn marks_32_and_33_of_versions_to_999() {
    let archive = b"<T t=\"1-999\"><s></s></T>";
    let mut table = [0; TABLE_BYTES];
    let mut set = |name: String, i: usize| set_mark(KEYS, archive, &mut table, name.as_bytes(), i, WORK_CELLS).number;
    assert_eq!(set("m".into(), 1_000), 11);
    for number in 0..32 {
        assert_eq!(set(format!("m{number}"), 999 - number), 0);
    }
    assert_eq!((set("m32".into(), 1), set("m32".into(), 0)), (16, 16));
    // A name that is held, or illegal, is 15 though 32 are held.
    assert_eq!((set("m31".into(), 1), set("m 32".into(), 1)), (15, 15));
    for number in 0..32 {
        let found = find_mark(KEYS, archive, &table, format!("m{number}").as_bytes(), WORK_CELLS);
        assert_eq!((found.0.number, found.0.bytes.len(), found.1), (0, 0, 999 - number));
    }
    // Sixteen marks are of versions later than 983.
    assert_eq!(back_to_mark(KEYS, archive, &mut table, b"m16", 40_000, WORK_CELLS).bytes, b"<T t=\"1-983\"><s></s></T>");
    assert_eq!(&table[..3], b"m16");
    assert_eq!(table[16..19], [3, 215, 3]);
    assert_eq!(table[16 * 19..], [0; 16 * 19]);
}

#[test]
fn archive_nodes_1024_and_1025() {
    // s and f, and the nodes of three contents.
    let content = |name: &str, count: usize| f(&format!("<{name}/>").repeat(count));
    let two = [content("a", 510), content("b", 500)];
    let shelf_of = |third: usize| shelf(KEYS, &[two[0].clone(), two[1].clone(), content("c", third)]);
    let (fits, over) = (shelf_of(12), shelf_of(13));
    assert_eq!((fits.archive_nodes(), over.archive_nodes()), (1_024, 1_025));
    let archive = shelf(KEYS, &two).archive();
    assert_eq!(add(KEYS, &archive, content("c", 12).as_bytes(), 40_000, WORK_CELLS).bytes, fits.archive());
    assert_eq!(add(KEYS, &archive, content("c", 13).as_bytes(), 40_000, WORK_CELLS).number, 13);
    assert_eq!(add(KEYS, &archive, content("c", 13).as_bytes(), 0, WORK_CELLS).number, 13);
    assert_eq!(retrieve(KEYS, &fits.archive(), 3, 40_000, WORK_CELLS).number, 0);
    assert_eq!(retrieve(KEYS, &over.archive(), 3, 40_000, WORK_CELLS).number, 10);
    // A version of an archive keeps to a version's own limits.
    let one = |count: usize| format!("<T t=\"1\"><s><f>{}</f></s></T>", "<a></a>".repeat(count));
    assert_eq!(retrieve(KEYS, one(510).as_bytes(), 1, 40_000, WORK_CELLS).number, 0);
    assert_eq!(retrieve(KEYS, one(511).as_bytes(), 1, 40_000, WORK_CELLS).number, 10);
    let long = |count: usize| format!("<T t=\"1\"><s><f>{}</f></s></T>", "x".repeat(count - f("").len()));
    assert_eq!(retrieve(KEYS, long(16_384).as_bytes(), 1, 40_000, WORK_CELLS).number, 0);
    assert_eq!(retrieve(KEYS, long(16_385).as_bytes(), 1, 40_000, WORK_CELLS).number, 10);
}

#[test]
fn archive_bytes_32768_and_32769() {
    let three = |third: usize| vec![f(&"x".repeat(16_000)), f(&"y".repeat(16_000)), f(&"z".repeat(third))];
    let around = shelf(KEYS, &three(1)).archive().len() - 1;
    let exact = 32_768 - around;
    let archive = shelf(KEYS, &three(1)[..2]).archive();
    let fits = add(KEYS, &archive, three(exact)[2].as_bytes(), 32_768, WORK_CELLS);
    assert_eq!((fits.number, fits.bytes.len()), (0, 32_768));
    assert_eq!(add(KEYS, &archive, three(exact)[2].as_bytes(), 32_767, WORK_CELLS).number, 14);
    assert_eq!(add(KEYS, &archive, three(exact + 1)[2].as_bytes(), 40_000, WORK_CELLS).number, 13);
    assert_eq!(back(&fits.bytes, 3, 32_768), fits);
    assert_eq!(back(&shelf(KEYS, &three(exact + 1)).archive(), 3, 40_000).number, 2);
}

#[test]
fn key_list_limits() {
    let number = |keys: &str| check_keys(keys.as_bytes(), WORK_CELLS).number;
    let root = "(/, (s, {}))\n";
    let lines = |count: usize, keys: &str| (0..count).map(|i| format!("(/s, (n{i}, {{{keys}}}))\n")).collect::<String>();
    assert_eq!(number(&(root.to_string() + &lines(63, ""))), 0);
    assert_eq!(number(&(root.to_string() + &lines(64, ""))), 4);
    // 1 + 25 * 5 = 126 paths, then 128 and 129.
    let paths = root.to_string() + &lines(25, "a, b, c, d");
    assert_eq!(number(&(paths.clone() + "(/s, (x, {a}))\n")), 0);
    assert_eq!(number(&(paths.clone() + "(/s, (x, {a, b}))\n")), 4);
    let chain = |names: usize| (1..names).fold((root.to_string(), "/s".to_string()), |(keys, path), _| (format!("{keys}({path}, (c, {{}}))\n"), path + "/c")).0;
    assert_eq!(number(&chain(8)), 0);
    assert_eq!(number(&chain(9)), 4);
    assert_eq!(number(&chain(8).replace("(/s/c/c/c/c/c/c, (c, {}))", "(/s/c/c/c/c/c/c, (c, {k}))")), 4);
    assert_eq!(number(&format!("(/, ({}, {{}}))\n", "n".repeat(32))), 0);
    assert_eq!(number(&format!("(/, ({}, {{}}))\n", "n".repeat(33))), 3);
    // 4,096 bytes exactly, and one more: 23 lines of four keys after the root's.
    let sized = |size: usize| {
        let mut keys = root.to_string();
        for i in 0..23 {
            let bytes = if i < 22 { 178 } else { size - keys.len() };
            let last = "e".repeat(bytes - 51 - 96);
            keys += &format!("(/s, ({}{i:02}, {{{}, {}, {}, {last}}}))\n", "n".repeat(30), "b".repeat(32), "c".repeat(32), "d".repeat(32));
        }
        assert_eq!(keys.len(), size);
        keys
    };
    assert_eq!(number(&sized(4_096)), 0);
    assert_eq!(number(&sized(4_097)), 2);
    assert_eq!(number(&sized(4_096).replace("(/s", "(s/")), 3);
    assert_eq!(number(&sized(4_097).replace("(/s", "(s/")), 2);
}

#[test]
fn address_limits() {
    let name = |letter: &str| letter.repeat(32);
    let value = "v".repeat(32);
    let keys = format!("(/, (r, {{}}))\n(/r, ({}, {{{}, {}, {}, {}}}))\n", name("a"), name("b"), name("c"), name("d"), name("e"));
    let condition = |key: &str| format!("{}=\"{value}\"", name(key));
    let step = format!("{}[{} and {} and {} and {}]", name("a"), condition("b"), condition("c"), condition("d"), condition("e"));
    let archive = b"<T t=\"1\"><r></r></T>";
    assert_eq!(history(keys.as_bytes(), archive, format!("/r/{step}").as_bytes(), 0, WORK_CELLS).number, 0);
    assert_eq!(history(keys.as_bytes(), archive, &[b'/'; 2_560], 0, WORK_CELLS).number, 12);
    assert_eq!(history(keys.as_bytes(), archive, &[b'/'; 2_561], 0, WORK_CELLS).number, 2);
}
