//! The limits, the worked record and each refusal: the same cases in every run, before the rounds.

use crate::bytes;
use crate::comparison::Comparison;
use crate::line_ends;
use crate::marks::{name_of, table, UNUSED};
use crate::station::Call;
use reference::marks::{Mark, ENTRY_BYTES, NAME_BYTES, TABLE_BYTES};
use reference::shelf::Shelf;
use reference::timestamp::{longest, text};

const STATION: &str = "(/, (station, {}))\n(/station, (light, {}))\n(/station, (lamp, {pos}))\n(/station/lamp, (type, {}))\n(/station/lamp, (hours, {}))\n";
pub(crate) const KEYS: &str = "(/, (s, {}))\n(/s, (f, {}))\n(/s, (g, {}))\n(/s, (k, {p}))\n(/s/k, (v, {}))\n";

pub fn run(c: &mut Comparison) {
    c.place = "limits".into();
    record(c);
    key_lists(c);
    spellings(c);
    bytes::run(c);
    versions(c);
    numbers_of_versions(c);
    sizes_of_archives(c);
    archives(c);
    addresses(c);
    marks(c);
    tables(c);
    vacancies(c);
    longest_histories(c);
    line_ends::run(c);
}

pub(crate) fn f(content: &str) -> String {
    format!("<s><f>{content}</f></s>")
}

fn found(c: &mut Comparison, keys: &str, version: &str) -> Vec<u8> {
    c.ask_each_output(keys.as_bytes(), Call::Found { version: version.as_bytes() }).bytes
}

fn add(c: &mut Comparison, keys: &str, archive: &[u8], version: &str) -> Vec<u8> {
    c.ask_each_output(keys.as_bytes(), Call::Add { archive, version: version.as_bytes() }).bytes
}

/// Each reading call on an archive, with numbers in and out of 1 to n.
pub(crate) fn read_all(c: &mut Comparison, keys: &str, archive: &[u8], numbers: &[usize], addresses: &[&str]) {
    for &i in numbers {
        c.ask_each_output(keys.as_bytes(), Call::Retrieve { archive, i });
        c.ask_each_output(keys.as_bytes(), Call::Back { archive, table: &UNUSED, i });
    }
    for address in addresses {
        c.ask_each_output(keys.as_bytes(), Call::History { archive, address: address.as_bytes() });
    }
}

fn record(c: &mut Comparison) {
    let v1 = "<station><light>Fl 5s</light><lamp><pos>2</pos><type>A</type><hours>40</hours></lamp></station>";
    let v2 = "<station><light>Fl 5s</light><lamp><pos>2</pos><type>A</type><hours>90</hours></lamp><lamp><pos>1</pos><type>B</type></lamp></station>";
    let v3 = "<station><light>Fl 5s</light><lamp><pos>1</pos><type>B</type></lamp></station>";
    c.ask_each_output(STATION.as_bytes(), Call::CheckKeys);
    let mut archive = found(c, STATION, v1);
    for version in [v2, v3] {
        archive = add(c, STATION, &archive, version);
    }
    let addresses = ["/station/lamp[pos=\"1\"]", "/station/lamp[pos=\"2\"]/hours", "/station/lamp[pos=\"7\"]", "/station", "/station/lamp[pos=\"2\"]/pos", "/station/lamp"];
    read_all(c, STATION, &archive, &[0, 1, 2, 3, 4, usize::MAX], &addresses);
    for version in ["", "<station><lamp><pos>2</pos></lamp><lamp><pos>2</pos></lamp></station>", "<station><lamp><type>A</type></lamp></station>"] {
        found(c, STATION, version);
        add(c, STATION, &archive, version);
    }
    // An empty text in each place.
    read_all(c, STATION, b"", &[0, 1], &[""]);
    read_all(c, "", &archive, &[0, 1], &[""]);
    read_all(c, STATION, &archive, &[], &[""]);
}

fn key_lists(c: &mut Comparison) {
    let check = |c: &mut Comparison, keys: &str| {
        c.ask_each_output(keys.as_bytes(), Call::CheckKeys);
        found(c, keys, "<s></s>");
    };
    let root = "(/, (s, {}))\n";
    let alone = [
        "", "\n", " ", "(/, (s, {}))", "(/, (s, {}))\r\n", "(/, (s, {}))\n\n", "\n(/, (s, {}))\n", "(/, (s, {}))\n ", "(/,(s, {}))\n", "(/, (s,{}))\n", "(/, (s, {} ))\n", "(/, (s, { }))\n", " (/, (s, {}))\n", "(/ , (s, {}))\n",
        "(/s, (s, {}))\n", "(, (s, {}))\n", "(//, (s, {}))\n", "(/, (1, {}))\n", "(/, (, {}))\n", "(/, (_, {}))\n", "(/, (s.-_9Z, {}))\n", "(/, (s, {a}))\n", "(/, (s, {T}))\n", "(/, (T, {}))\n", "(/, (t, {}))\n", "(/, (TT, {}))\n",
        "(/, (s, {}))\n(/, (s, {}))\n", "(/, (T, {}))\n(/, (t, {}))\n", "(/, (s, {}\n", "(/, (s, {})\n", "(/, (s, {})))\n", "(/, (s))\n", "(/, s, {}))\n", "(/, (s, {a, }))\n", "(/, (s, {, a}))\n", "(/, (s:t, {}))\n",
    ];
    alone.iter().for_each(|keys| check(c, keys));
    let after_root = [
        "(/, (t, {}))\n", "(/s/, (t, {}))\n", "(//s, (t, {}))\n", "(s, (t, {}))\n", "(/s, (t, {a,b}))\n", "(/s, (t, {a,  b}))\n", "(/s, (t, {a, a}))\n", "(/s, (t, {T}))\n", "(/s, (T, {}))\n", "(/s/T, (t, {}))\n", "(/T, (t, {}))\n", "(/t, (t, {}))\n",
        "(/s, (s, {s}))\n", "(/s, (t, {t}))\n", "(/s, (t, {}))\n(/s, (t, {}))\n", "(/s, (t, {a}))\n(/s, (t, {}))\n", "(/s, (t, {a}))\n(/s/t, (a, {}))\n", "(/s, (t, {a}))\n(/s/t/a, (b, {}))\n", "(/s, (t, {a}))\n(/s/t, (b, {}))\n",
        "(/s, (t, {}))\n(/s/t, (b, {}))\n", "(/s/t, (b, {}))\n(/s, (t, {}))\n", "(/s, (t, {b, a}))\n(/s/t, (b.a, {a, b}))\n", "(/s, (t, {a})) \n", "(/s, (t, {a}))\n(/s/t/a, (b, {}))\n(/s/t, (a, {}))\n", "(/s/1, (t, {}))\n", "(/s, (t, {1}))\n",
    ];
    after_root.iter().for_each(|keys| check(c, &format!("{root}{keys}")));
    let lines = |count: usize, keys: &str| (0..count).map(|i| format!("(/s, (n{i}, {{{keys}}}))\n")).collect::<String>();
    for count in [62, 63, 64, 65] {
        check(c, &(root.to_string() + &lines(count, "")));
    }
    for last in ["", "(/s, (x, {}))\n", "(/s, (x, {a}))\n", "(/s, (x, {a, b}))\n", "(/s, (x, {}))\n(/s, (y, {}))\n(/s, (z, {}))\n"] {
        check(c, &(root.to_string() + &lines(25, "a, b, c, d") + last));
    }
    for names in [7, 8, 9] {
        for key in ["", "k"] {
            let (mut keys, mut path) = (root.to_string(), "/s".to_string());
            for number in 2..=names {
                keys += &format!("({path}, (c, {{{}}}))\n", if number == names { key } else { "" });
                path += "/c";
            }
            check(c, &keys);
            // A context that is too long, under the rules and not the notation.
            check(c, &(keys.clone() + &format!("({path}/c/c, (c, {{}}))\n")));
        }
    }
    for length in [31, 32, 33] {
        let name = "n".repeat(length);
        check(c, &format!("(/, ({name}, {{}}))\n"));
        check(c, &format!("{root}(/s, ({name}, {{}}))\n"));
        check(c, &format!("{root}(/s, (x, {{{name}}}))\n"));
        check(c, &format!("{root}(/{name}, (x, {{}}))\n"));
    }
    for keys in ["a, b, c, d", "a, b, c, d, e", "a, b, c, a", "a, a"] {
        check(c, &format!("{root}(/s, (x, {{{keys}}}))\n"));
    }
    for size in [4_095, 4_096, 4_097] {
        let keys = keys_of_size(size);
        check(c, &keys);
        // Not in the notation, and too long or not.
        check(c, &keys.replace("(/s", "(s/"));
    }
}

/// A legal key list of so many bytes, but for its size: 23 lines after the root's.
fn keys_of_size(size: usize) -> String {
    let mut keys = "(/, (s, {}))\n".to_string();
    for number in 0..23 {
        let left = size - keys.len();
        let bytes = if number < 22 { 178 } else { left };
        let last = "e".repeat(bytes - 51 - 96);
        keys += &format!("(/s, ({}{number:02}, {{{}, {}, {}, {last}}}))\n", "n".repeat(30), "b".repeat(32), "c".repeat(32), "d".repeat(32));
    }
    keys
}

/// Markup, text and entities, legal and not, in a frontier, above one, and around the root.
fn spellings(c: &mut Comparison) {
    let spellings = [
        "", " ", "\t\r\n", "x", " x ", "a>b", ">", "]", "]]", "]]>", "]]]>", "]]&gt;", "] ]>", "]]<a/>>", "]<a/>]>", "]]<a></a>>", "\"'", "&lt;", "&gt;", "&amp;", "&quot;", "&apos;",
        "&lt;&gt;&amp;&quot;&apos;", "&amp;lt;", "&", "& ", "&;", "&lt", "&LT;", "&#65;", "&#x41;", "&nbsp;", "&amp", "&am;", "<", "< ", "<>", "</>", "<a", "<a>", "</a>", "<a/>", "<a></a>", "<a/ >", "<a />", "<a ></a>",
        "<a></a >", "< a/>", "<a//>", "</a/>", "</ a>", "<a></b>", "<a><b></a></b>", "<a b=\"c\"/>", "<a\n/>", "<1/>", "<-/>", "<./>", "<_/>", "<a.-_1/>", "<a:b/>", "<!-- c -->", "<!a>", "<?p?>", "<![CDATA[x]]>", "<T/>",
        "<T></T>", "<T>x</T>", "<T t=\"1\">x</T>", "<T t=\"1\"/>", "<t/>", "<TT/>", "<a><T/></a>", "<s><f/></s>", "<f/>", "<f> </f><f> </f>", "<g/>", "<g/><g/>", "<g>x<g/>y</g>", "<k/>", "<k><p>1</p></k>",
        "<k> <p>1</p>\n</k>", "<k><p>1</p></k><k><p>2</p></k>", "<k><p>1</p></k><k><p>1</p></k>", "<k><p>1</p><p>1</p></k>", "<k><p>1</p><v/><v/></k>", "<k><p>1</p>x</k>", "<k><p/></k>", "<k><p> 1</p></k>", "<k><p>&lt;</p></k>",
        "<k><p>1<a/></p></k>", "<k><p><a/></p></k>", "<k><p>1</p><q/></k>", "<k><v/></k>", "<k><v/><v/></k>", "<k/><k/><g/><g/>", "<k/><k/><u/>", "<g/><g/><T/>", "<u/>", "\x0b", "\x00", "\x1f", "\x7f", "~",
    ];
    for spelling in spellings {
        for text in [spelling.to_string(), f(spelling), format!("<s>{spelling}</s>"), format!("{spelling}<s/>"), format!("<s/>{spelling}"), f(&format!("<a>{spelling}</a>"))] {
            let archive = found(c, KEYS, &text);
            if !archive.is_empty() {
                read_all(c, KEYS, &archive, &[1], &["/s/f", "/s/k[p=\"1\"]"]);
            }
            // The same as an archive's text.
            read_all(c, KEYS, format!("<T t=\"1\">{text}</T>").as_bytes(), &[1], &[]);
        }
    }
}

fn versions(c: &mut Comparison) {
    let small = found(c, KEYS, "<s/>");
    let mut texts: Vec<String> = vec![];
    for count in [509, 510, 511] {
        for name in ["a", "T"] {
            texts.push(f(&format!("<{name}/>").repeat(count)));
            texts.push(format!("<s>x<f>{}</f></s>", format!("<{name}/>").repeat(count)));
            texts.push(format!("<s> <f>{}</f>\n</s> ", format!("<{name}/>").repeat(count)));
            texts.push(format!("<s><g/><f>{}</f></t>", format!("<{name}/>").repeat(count)));
        }
    }
    for count in [254, 255, 256] {
        texts.push(f(&"<a/>x".repeat(count)));
        texts.push(f(&"<a> </a>".repeat(count)));
        texts.push(f(&format!(" {}", "<a/> ".repeat(count))));
        texts.push(format!("<u>{}</u>", " <a/>".repeat(count)));
        texts.push(format!("<u>{} </u>", " <a/>".repeat(count)));
        texts.push(format!("<s>{}</s>", " <g/>".repeat(count)));
        texts.push(format!("<s>{}</s>", "<k> <p>1</p> </k>".repeat(count)));
    }
    for deep in [13, 14, 15, 16, 100, 2_000] {
        for name in ["a", "T", "s"] {
            let nested = format!("<{name}>").repeat(deep) + &format!("</{name}>").repeat(deep);
            texts.push(f(&nested));
            texts.push(nested);
            texts.push(f(&(format!("<{name}>").repeat(deep) + "<b/>" + &format!("</{name}>").repeat(deep))));
        }
        texts.push("<a>".repeat(deep));
        texts.push("</a>".repeat(deep));
    }
    texts.push("<a>".repeat(5_461));
    texts.push("<".repeat(16_384));
    texts.push("&".repeat(16_384));
    let around = f("").len();
    for size in [16_383, 16_384, 16_385] {
        texts.push(f(&"x".repeat(size - around)));
        texts.push(f(&(" ".repeat(size - around - 1) + "<")));
        texts.push(" ".repeat(size - 4) + "<s/>");
        texts.push(" ".repeat(size));
        texts.push(format!("<s>{}</s>", " ".repeat(size - 7)));
        // The written form of this size: four bytes for each `>`.
        let more = size - around;
        for greater in [">", "&gt;", "&lt;"] {
            texts.push(f(&("x".repeat(more % 4) + &greater.repeat(more / 4))));
        }
        texts.push(f(&("x".repeat(more % 5) + &"&amp;".repeat(more / 5))));
        texts.push(format!("<s/{}>", "x".repeat(size - 5)));
        // `<g/>` is written with three bytes more; refused text and unlisted elements count.
        texts.push(format!("<s><g/><f>{}</f></s>", "x".repeat(more - 7)));
        texts.push(format!("<s><f>{}</f>></s>", "x".repeat(more - 4)));
        texts.push(format!("<u><f>{}</f> </u>", "x".repeat(more - 1)));
        texts.push(format!("<s><T/><f>{}</f></s>", "x".repeat(more - 7)));
    }
    for length in [31, 32, 33] {
        let name = "n".repeat(length);
        texts.push(f(&format!("<{name}></{name}>")));
        texts.push(f(&format!("<{name}/>")));
        texts.push(format!("<s><k><p>{name}</p></k></s>"));
    }
    for text in &texts {
        let archive = found(c, KEYS, text);
        add(c, KEYS, &small, text);
        if !archive.is_empty() {
            read_all(c, KEYS, &archive, &[0, 1, 2], &["/s/f"]);
        }
        // The same text as an archive's: a version's limits hold there too.
        let as_archive = format!("<T t=\"1\">{text}</T>").replace("<a/>", "<a></a>").replace("<g/>", "<g></g>");
        read_all(c, KEYS, as_archive.as_bytes(), &[1], &["/s"]);
    }
}

fn numbers_of_versions(c: &mut Comparison) {
    let version = |number: usize| match number % 7 {
        0 => "<s/>".to_string(),
        1 | 2 => f(&(number % 5).to_string()),
        3 => format!("<s><k><p>{}</p></k><f/></s>", number % 3),
        _ => format!("<s><k><p>1</p><v>{}</v></k></s>", number % 2),
    };
    up_to_1000(c, &version);
    // The same, two of each three versions vacant, the first and version 999 too; all of them vacant.
    up_to_1000(c, &|number| if number % 3 < 2 { " ".into() } else { version(number) });
    up_to_1000(c, &|_| String::new());
    for set in ["1-998", "1-999", "1-1000", "1-9999", "1-4294967297", "1-18446744073709551617", "999", "0-1", "1", "1-2", "2"] {
        for root in ["<s></s>", ""] {
            let archive = format!("<T t=\"{set}\">{root}</T>");
            read_all(c, KEYS, archive.as_bytes(), &[0, 1, 2, 998, 999, 1_000], &["/s", "/s/f"]);
            add(c, KEYS, archive.as_bytes(), "<s/>");
            add(c, KEYS, archive.as_bytes(), &f(""));
            add(c, KEYS, archive.as_bytes(), "");
        }
    }
}

/// Versions 1 to 1,000 of a list.
fn up_to_1000(c: &mut Comparison, version: &dyn Fn(usize) -> String) {
    let addresses = ["/s", "/s/f", "/s/k[p=\"1\"]/v", "/s/k[p=\"0\"]"];
    let mut shelf = Shelf::found(KEYS.as_bytes(), version(1).as_bytes()).expect("a legal version");
    for number in 2..=1_000 {
        let text = version(number);
        // Each version is put on the shelf; some are added to the shelf's archive, the last refused.
        if [2, 3, 10, 63, 64, 65, 66, 100, 128, 129, 500, 998, 999, 1_000].contains(&number) {
            let archive = shelf.archive();
            let call = Call::Add { archive: &archive, version: text.as_bytes() };
            let added = c.ask_each_output(KEYS.as_bytes(), call);
            shelf.add(text.as_bytes()).expect("a legal version");
            if added.number == 0 {
                c.shelf_gives(KEYS.as_bytes(), call, &added.bytes, &shelf.archive());
                read_all(c, KEYS, &added.bytes, &[1, number - 1, number], &addresses);
            }
            if number == 999 {
                read_all(c, KEYS, &added.bytes, &[62, 63, 64, 65, 127, 128, 129, 512, 1_000, 1 << 32], &[]);
                many_versions_marked(c, &added.bytes);
            }
        } else {
            shelf.add(text.as_bytes()).expect("a legal version");
        }
    }
}

pub(crate) fn shelf_of(versions: &[String]) -> Vec<u8> {
    let mut shelf = Shelf::found(KEYS.as_bytes(), versions[0].as_bytes()).expect("a legal version");
    versions[1..].iter().for_each(|version| shelf.add(version.as_bytes()).expect("a legal version"));
    shelf.archive()
}

fn sizes_of_archives(c: &mut Comparison) {
    let content = |name: &str, count: usize| f(&format!("<{name}/>").repeat(count));
    let two = [content("a", 510), content("b", 500)];
    let archive = shelf_of(&two);
    for third in [11, 12, 13] {
        let version = content("c", third);
        add(c, KEYS, &archive, &version);
        let three = shelf_of(&[two[0].clone(), two[1].clone(), version]);
        read_all(c, KEYS, &three, &[0, 1, 2, 3, 4], &["/s/f", "/s/g"]);
        add(c, KEYS, &three, &two[0]);
        add(c, KEYS, &three, "<s/>");
        add(c, KEYS, &three, "<s><g/></s>");
        add(c, KEYS, &three, &f(""));
        add(c, KEYS, &three, &f("x"));
    }
    // Versions that are over a version's limits, in an archive that is within its own.
    for count in [509, 510, 511, 1_021, 1_022, 1_023] {
        let one = format!("<T t=\"1\"><s><f>{}</f></s></T>", "<a></a>".repeat(count));
        let bare = format!("<T t=\"1-2\"><s><f>{}</f><T t=\"2\"><g></g></T></s></T>", "<a></a>".repeat(count));
        read_all(c, KEYS, one.as_bytes(), &[1], &["/s"]);
        read_all(c, KEYS, bare.as_bytes(), &[1, 2], &["/s"]);
    }
    for size in [16_383, 16_384, 16_385] {
        let content = "x".repeat(size - f("").len());
        let one = format!("<T t=\"1\"><s><f>{content}</f></s></T>");
        let two = format!("<T t=\"1-2\"><s><f><T t=\"1\"></T><T t=\"2\">{content}</T></f></s></T>");
        let other = format!("<T t=\"1-2\"><s><f>{}</f><T t=\"2\"><g></g></T></s></T>", &content[7..]);
        for archive in [one, two, other] {
            read_all(c, KEYS, archive.as_bytes(), &[1, 2], &["/s"]);
            add(c, KEYS, archive.as_bytes(), "<s/>");
        }
    }
    let three = |third: usize| vec![f(&"x".repeat(16_000)), f(&"y".repeat(16_000)), f(&"z".repeat(third))];
    let exact = 32_768 - (shelf_of(&three(1)).len() - 1);
    let archive = shelf_of(&three(1)[..2]);
    for third in [exact - 1, exact, exact + 1] {
        add(c, KEYS, &archive, &three(third)[2]);
        let full = shelf_of(&three(third));
        read_all(c, KEYS, &full, &[0, 1, 2, 3, 4], &["/s/f", "/s/g", "bad"]);
        add(c, KEYS, &full, "<s/>");
        add(c, KEYS, &full, &three(third)[2]);
        read_all(c, "bad", &full, &[1], &["/s"]);
    }
    for size in [32_767, 32_768, 32_769] {
        read_all(c, KEYS, &vec![b' '; size], &[1], &["/s"]);
        read_all(c, KEYS, &b"<T t=\"1\">".repeat(size / 9 + 1)[..size], &[1], &["/s"]);
        read_all(c, KEYS, &b"<s>".repeat(size / 3 + 1)[..size], &[1], &["/s"]);
        read_all(c, KEYS, &[b"<T t=\"".to_vec(), b"1,".repeat(size / 2)].concat()[..size], &[1], &["/s"]);
    }
}

/// Archives of one or two versions, legal and near it.
fn archives(c: &mut Comparison) {
    let outermost = ["1", "2", "1-2", "01", "1-1", "1,2", "2-1", "0", "0-1", "1-3", "", "1 ", " 1", "1-", "-1", "1--2", "1,", "1-2,", "1-02", "a", "1-2-3"];
    for set in outermost {
        for inside in ["<s></s>", "<s/>", "<s> </s>", "", "<s></s><s></s>", "<T t=\"1\"><s></s></T>", "<s><T t=\"2\"><f></f></T></s>", "<t></t>"] {
            read_all(c, KEYS, format!("<T t=\"{set}\">{inside}</T>").as_bytes(), &[1, 2], &["/s"]);
        }
    }
    for text in ["<T t='1'><s></s></T>", "<T  t=\"1\"><s></s></T>", "<T t=\"1\" ><s></s></T>", "<T t = \"1\"><s></s></T>", "<T><s></s></T>", "<T t=\"1\"><s></s></T >", "<T t=\"1\"><s></T></s>", "<T t=\"1\"><s></s></T></T>", "<T t=\"1\"><s></s>", "<T t=\"1\"", "<T t=\"", "<s></s>", "<T t=\"1\"><s></s></T>\n", "\n<T t=\"1\"><s></s></T>", "<T t=\"1\"><s></s></T><s></s>", "<T t=\"1\"></T><s></s>", "<T t=\"1\"/>"] {
        read_all(c, KEYS, text.as_bytes(), &[1, 2], &["/s"]);
    }
    let insides = [
        "<f></f>", "<f>x</f>", "<f><T t=\"1\">x</T><T t=\"2\">y</T></f>", "<f><T t=\"1\"></T><T t=\"2\">y</T></f>", "<f><T t=\"1\">x</T><T t=\"2\"></T></f>", "<f><T t=\"2\">x</T><T t=\"1\">y</T></f>", "<f><T t=\"1\">x</T><T t=\"2\">x</T></f>",
        "<f><T t=\"1-2\">x</T></f>", "<f><T t=\"1\">x</T></f>", "<f><T t=\"1-2\">x</T><T t=\"2\">y</T></f>", "<f><T t=\"1\">x</T><T t=\"2-3\">y</T></f>", "<f>x<T t=\"2\">y</T></f>", "<f><T t=\"1\">x</T>y</f>", "<f><a><T t=\"1\">x</T><T t=\"2\">y</T></a></f>",
        "<f><T t=\"1\"><a></a></T><T t=\"2\"><a></a>x</T></f>", "<f><T t=\"1\"><a/></T><T t=\"2\">x</T></f>", "<f><T t=\"1\"> </T><T t=\"2\"></T></f>", "<f> <T t=\"1\">x</T><T t=\"2\">y</T></f>", "<f><T t=\"1\"><T t=\"1\">x</T></T><T t=\"2\">y</T></f>",
        "<T t=\"1\"><f></f></T>", "<T t=\"2\"><f></f></T>", "<T t=\"1-2\"><f></f></T>", "<T t=\"1,2\"><f></f></T>", "<T t=\"3\"><f></f></T>", "<T t=\"\"><f></f></T>", "<T t=\"2\"></T>", "<T t=\"2\">x</T>", "<T t=\"1\"><f></f></T><T t=\"2\"><f></f></T>",
        "<T t=\"1\"><f>x</f></T><T t=\"2\"><f>y</f></T>", "<f></f><T t=\"2\"><f></f></T>", "<T t=\"2\"><f></f><g></g></T>", "<T t=\"2\"><f></f></T><T t=\"2\"><g></g></T>", "<T t=\"2\"><g></g></T><f></f>", "<T t=\"2\"><T t=\"2\"><f></f></T></T>", "<T t=\"2\"><f><T t=\"2\">x</T></f></T>",
        "<g></g><f></f>", "<f></f><g></g>", "<f></f><f></f>", "<u></u>", "<f>></f>", "<f>&gt;</f>", "<f>&quot;</f>", "<f>\"</f>", "<f>]]&gt;</f>", "<f>]]></f>", "<f>&amp;lt;</f>", "<f>&</f>", "<f>\n</f>", "<f>\x7f</f>", "<f><T></T></f>", "<f></f> ", "x",
        "<k><p>1</p></k>", "<k><p>1</p></k><k><p>2</p></k>", "<k><p>2</p></k><k><p>1</p></k>", "<k><p>10</p></k><k><p>2</p></k>", "<k><p>1</p></k><k><p>1</p></k>", "<k></k>", "<k><p></p></k>", "<k><p>1</p><p>1</p></k>", "<k><v></v><p>1</p></k>", "<k><p>1</p><v></v></k>",
        "<k><p><T t=\"1\">1</T><T t=\"2\">2</T></p></k>", "<k><T t=\"1\"><p>1</p></T></k>", "<k><p>1</p><T t=\"1\"><v></v></T></k>", "<T t=\"2\"><k><p>1</p><v></v></k></T>", "<T t=\"2\"><k><p>1</p><T t=\"2\"><v></v></T></k></T>", "<T t=\"1\"><k><p>1</p></k></T><T t=\"2\"><k><p>1</p></k></T>",
        "<T t=\"1\"><k><p>1</p></k></T><T t=\"2\"><k><p>2</p></k></T>", "<T t=\"2\"><k><p>1</p></k></T><T t=\"1\"><k><p>2</p></k></T>", "<T t=\"2\"><k><p>1</p><T t=\"1\"><v></v></T></k></T>", "<T t=\"1\"><k><p>1</p></k><k><p>2</p></k></T>",
    ];
    for inside in insides {
        for set in ["1", "1-2", "1-3"] {
            let archive = format!("<T t=\"{set}\"><s>{inside}</s></T>");
            read_all(c, KEYS, archive.as_bytes(), &[1, 2], &["/s/f", "/s/k[p=\"1\"]", "/s/k[p=\"1\"]/v"]);
            add(c, KEYS, archive.as_bytes(), "<s><k><p>1</p><v>x</v></k></s>");
        }
    }
}

fn addresses(c: &mut Comparison) {
    let keys = "(/, (s, {}))\n(/s, (f, {}))\n(/s, (k, {q, p}))\n(/s/k, (v, {}))\n";
    let archive = found(c, keys, "<s><f><a/></f><k><p>2</p><q>1</q><v/></k></s>");
    let addresses = [
        "", "/", "s", "//s", "/s", "/s/", "/s ", " /s", "/S", "/t", "/T", "/s[]", "/s/f", "/s/f/", "/s/f/a", "/s/f[q=\"1\"]", "/s/s", "/f", "/s/k", "/s/k[]", "/s/k[q=\"1\" and p=\"2\"]", "/s/k[q=\"2\" and p=\"1\"]", "/s/k[p=\"2\" and q=\"1\"]", "/s/k[q=\"1\"]",
        "/s/k[p=\"2\"]", "/s/k[q=\"1\" and q=\"1\"]", "/s/k[q=\"1\" and p=\"2\" and p=\"2\"]", "/s/k[q=\"1\"and p=\"2\"]", "/s/k[q=\"1\"  and p=\"2\"]", "/s/k[q=\"1\" AND p=\"2\"]", "/s/k[q = \"1\" and p=\"2\"]", "/s/k[q='1' and p='2']", "/s/k[q=\"1\"][p=\"2\"]",
        "/s/k[q=\"\" and p=\"2\"]", "/s/k[q=\"a b\" and p=\"2\"]", "/s/k[q=\"&lt;\" and p=\"2\"]", "/s/k[q=\"1\" and p=\"2\"] ", "/s/k[q=\"1\" and p=\"2\"", "/s/k[q=\"1\" and p=\"2]", "/s/k[q=\"1\" and p=\"2\"]/v", "/s/k[q=\"1\" and p=\"2\"]/p", "/s/k[q=\"1\" and p=\"2\"]/q",
        "/s/k[q=\"1\" and p=\"2\"]/w", "/s/k[q=\"1\" and p=\"2\"]/p/a", "/s/k[q=\"1\" and p=\"3\"]/v", "/s/k[q=\"-\" and p=\"._\"]", "/s/k/v", "s/f", "/s\\f", "/s/f\n", "/s/k[q=\"1/2\" and p=\"2\"]", "/s/k[q=\"1]\" and p=\"2\"]", "/s/k[\"1\" and p=\"2\"]", "/s/k[q=1 and p=2]",
    ];
    read_all(c, keys, &archive, &[], &addresses);
    read_all(c, keys, b"<T t=\"1-2\"><s></s></T>", &[], &addresses);
    // Eight steps of which seven have four key names would not fit into a key list; two do.
    let name = |letter: &str, length: usize| letter.repeat(length);
    let keys_of = |length: usize| format!("{}, {}, {}, {}", name("b", length), name("c", length), name("d", length), name("e", length));
    let a = name("a", 32);
    let keys = format!("(/, (r, {{}}))\n(/r, ({a}, {{{}}}))\n(/r/{a}, ({a}, {{{}}}))\n(/r/{a}/{a}, (x, {{}}))\n", keys_of(32), keys_of(32));
    let element = |value: &str, inside: &str| {
        let key = |letter: &str| format!("<{0}>{value}</{0}>", name(letter, 32));
        format!("<{a}>{}{}{}{}{inside}</{a}>", key("b"), key("c"), key("d"), key("e"))
    };
    for length in [1, 31, 32, 33] {
        let value = "v".repeat(length);
        let held = "v".repeat(length.min(32));
        let archive = found(c, &keys, &format!("<r>{}</r>", element(&held, &element(&held, "<x/>"))));
        let condition = |letter: &str| format!("{}=\"{value}\"", name(letter, 32));
        let step = format!("{a}[{} and {} and {} and {}]", condition("b"), condition("c"), condition("d"), condition("e"));
        for address in [format!("/r/{step}"), format!("/r/{step}/{step}"), format!("/r/{step}/{step}/x"), format!("/r/{step}/{step}/{}", name("b", 32)), format!("/r/{step}/{step}/{step}")] {
            read_all(c, &keys, &archive, &[], &[&address, &address[1..], &address[..address.len() - 1]]);
        }
    }
    // Eight steps and nine.
    let (mut keys, mut path) = ("(/, (s, {}))\n".to_string(), "/s".to_string());
    for _ in 2..=8 {
        keys += &format!("({path}, (c, {{}}))\n");
        path += "/c";
    }
    let archive = found(c, &keys, "<s><c><c><c><c><c><c><c>x</c></c></c></c></c></c></c></s>");
    read_all(c, &keys, &archive, &[1], &[&path, &path[..path.len() - 2], &(path.clone() + "/c"), &path.replace("/s", "/c")]);
    for size in [2_559, 2_560, 2_561] {
        for byte in ["/", "a", " ", "\"", "["] {
            let address = byte.repeat(size);
            let slashed = "/s".to_string() + &address[2..];
            read_all(c, &keys, &archive, &[], &[&address, &slashed]);
            read_all(c, &keys, b"bad", &[], &[&address]);
        }
    }
}

fn mark(name: &[u8], version: usize) -> Mark {
    Mark { name: name.to_vec(), version }
}

/// So many marks, of versions 1 to n by turns.
fn some_marks(count: usize, n: usize) -> Vec<Mark> {
    (0..count).map(|number| mark(format!("m{number}").as_bytes(), 1 + number % n)).collect()
}

/// Each call over a table, with a number or a name.
pub(crate) fn mark_all(c: &mut Comparison, archive: &[u8], table: &[u8], names: &[&[u8]], numbers: &[usize]) {
    for &name in names {
        c.ask_each_output(KEYS.as_bytes(), Call::FindMark { archive, table, name });
        c.ask_each_output(KEYS.as_bytes(), Call::BackToMark { archive, table, name });
        for &i in numbers {
            c.ask_each_output(KEYS.as_bytes(), Call::SetMark { archive, table, name, i });
        }
    }
    for &i in numbers {
        c.ask_each_output(KEYS.as_bytes(), Call::Back { archive, table, i });
    }
}

/// Versions of two bytes, in the archive of 999.
fn many_versions_marked(c: &mut Comparison, archive: &[u8]) {
    let held: Vec<Mark> = [999, 1, 255, 256, 257, 511, 512, 768, 998].iter().map(|&version| mark(format!("v{version}").as_bytes(), version)).collect();
    mark_all(c, archive, &table(&held), &[b"v255", b"v256", b"v999", b"v1", b"v2"], &[0, 255, 256, 512, 998, 999, 1_000, 65_537, usize::MAX]);
    for version in [1_000, 1_023, 1_024, 65_535] {
        mark_all(c, archive, &table(&[mark(b"a", version)]), &[b"a"], &[1]);
    }
}

/// Numbers of marks, names, and the order of the refusals, with an archive of three versions.
fn marks(c: &mut Comparison) {
    let archive = &shelf_of(&[f("x"), f("y"), "<s/>".into()]);
    let numbers = [0, 1, 2, 3, 4, 256, 257, 65_536, 65_537, 1 << 32, (1 << 32) + 1, usize::MAX];
    for count in [0, 1, 2, 30, 31, 32] {
        let table = table(&some_marks(count, 3));
        mark_all(c, archive, &table, &[b"m0", b"m1", b"m30", b"m31", b"m32", b"", b"m 1", b"m"], &numbers);
        // 17 goes before 11 and 15 where a mark's version is past n; 10 before 17, 3 and 4 before 10.
        mark_all(c, &shelf_of(&[f("x")]), &table, &[b"m0", b""], &[0, 1]);
        mark_all(c, b"", &table, &[b"m0", b""], &[0, 1]);
        for keys in ["", "(/, (T, {}))\n"] {
            c.ask_each_output(keys.as_bytes(), Call::SetMark { archive: b"", table: &table, name: b"", i: 0 });
            c.ask_each_output(keys.as_bytes(), Call::FindMark { archive: b"", table: &table, name: b"" });
            c.ask_each_output(keys.as_bytes(), Call::BackToMark { archive: b"", table: &[], name: b"" });
        }
    }
    for size in [32_768, 32_769] {
        mark_all(c, &vec![b' '; size], &UNUSED, &[b"a"], &[1]);
    }
    for length in (0..20).chain([31, 32, 33, 255, 256, 257, 272, 512, 4_097, 65_536, 65_537]) {
        let name = name_of(length);
        mark_all(c, archive, &UNUSED, &[&name], &[1]);
        let held = [mark(b"first", 1), mark(&name[..length.min(NAME_BYTES)], 2)];
        if length > 0 {
            mark_all(c, archive, &table(&held), &[&name, &name[..length - 1]], &[1, 3]);
        }
    }
    for byte in 0..=255u8 {
        let held = table(&[mark(b"a", 1), mark(&[b'a', byte], 2), mark(&[byte], 3)]);
        mark_all(c, archive, &UNUSED, &[&[byte], &[b'a', byte], &[byte; 16]], &[2]);
        mark_all(c, archive, &held, &[&[byte], &[b'a', byte]], &[2]);
    }
}

/// Tables that break a rule, clause by clause and byte by byte.
fn tables(c: &mut Comparison) {
    let archive = &shelf_of(&[f("x"), f("y")]);
    let ask = |c: &mut Comparison, table: &[u8]| mark_all(c, archive, table, &[b"m0", b"new"], &[1]);
    let full = table(&some_marks(32, 2));
    for length in [0, 1, 18, 19, 20, 303, 304, 588, 589, 590, 606, 607, 608, 609, 610, 627, 1_216, 4_864] {
        for table in [&UNUSED[..], &full] {
            ask(c, &table.iter().copied().cycle().take(length).collect::<Vec<u8>>());
            ask(c, &table.iter().copied().chain(std::iter::repeat(0)).take(length).collect::<Vec<u8>>());
        }
    }
    // One byte of a table, of no mark, of two and of 32, changed.
    for marks in [0, 2, 32] {
        let legal = table(&some_marks(marks, 2));
        for at in 0..TABLE_BYTES {
            for by in [1, 32, 255] {
                let mut table = legal.clone();
                table[at] = table[at].wrapping_add(by);
                c.ask_each_output(KEYS.as_bytes(), Call::FindMark { archive, table: &table, name: b"m1" });
                c.ask_each_output(KEYS.as_bytes(), Call::Back { archive, table: &table, i: 1 });
            }
        }
    }
    // A name twice: each pair of entries; a gap at each.
    for second in 1..32 {
        for first in [0, second / 2, second - 1] {
            let mut marks = some_marks(32, 2);
            marks[second].name = marks[first].name.clone();
            ask(c, &table(&marks));
        }
        let mut gap = full.clone();
        gap[(second - 1) * ENTRY_BYTES..second * ENTRY_BYTES].fill(0);
        ask(c, &gap);
        gap[second * ENTRY_BYTES..].fill(0);
        ask(c, &gap);
    }
    for version in [0, 1, 2, 3, 255, 256, 257, 258, 512, 999, 65_535] {
        ask(c, &table(&[mark(b"m0", 1), mark(b"m1", version)]));
        ask(c, &table(&[mark(b"m0", version)]));
    }
    // The lengths beside names of 1, 2 and 16 bytes; bytes past a name.
    for name in [&b"a"[..], b"ab", b"abcdefghijklmnop", b"a\0", b"\0a", b"a\0b", b"\0"] {
        for length in [0, 1, 2, 3, 15, 16, 17, 255] {
            let mut one = table(&[mark(name, 1)]);
            one[NAME_BYTES] = length;
            ask(c, &one);
        }
    }
    // All marks dropped, or none, whatever their order.
    for versions in [[1, 1, 1], [2, 2, 2], [1, 2, 1], [2, 1, 2], [2, 2, 1], [1, 1, 2]] {
        let marks: Vec<Mark> = (0..32).map(|number| mark(format!("m{number}").as_bytes(), versions[number % 3])).collect();
        mark_all(c, archive, &table(&marks), &[b"m0", b"m1", b"m2", b"m31"], &[1, 2]);
        mark_all(c, archive, &table(&marks[..3]), &[b"m0", b"m1", b"m2", b"m3"], &[1, 2]);
    }
}

/// Vacant versions: their texts, lists with them, the archives of these and others near them.
fn vacancies(c: &mut Comparison) {
    texts_of_white_space(c);
    lists_with_vacancies(c);
    archives_with_vacancies(c);
    struck_off_at_the_limit(c);
}

/// White space alone, and with one other byte, of few bytes and about as many as a version may have.
fn texts_of_white_space(c: &mut Comparison) {
    let ask = |c: &mut Comparison, version: &[u8]| {
        c.ask_each_output(KEYS.as_bytes(), Call::Found { version });
        for archive in [&b"<T t=\"1\"></T>"[..], b"<T t=\"1\"><s></s></T>", b"bad"] {
            c.ask_each_output(KEYS.as_bytes(), Call::Add { archive, version });
        }
    };
    for byte in 0..=255u8 {
        for text in [&[byte][..], &[b' ', byte], &[byte, b'\n'], &[b'\r', byte, b'\t'], &[byte; 16]] {
            ask(c, text);
        }
    }
    for size in [16_383, 16_384, 16_385] {
        for byte in b" \t\r\nx" {
            let text = vec![*byte; size];
            ask(c, &text);
            c.ask_each_output(b"bad", Call::Found { version: &text });
            for (at, other) in [(0, b'x'), (size / 2, b'\0'), (size - 1, b'<'), (size - 1, b'\x0b')] {
                let mut text = text.clone();
                text[at] = other;
                ask(c, &text);
            }
        }
    }
}

/// Every list of one to four versions, each vacant, empty or with something in it.
fn lists_with_vacancies(c: &mut Comparison) {
    let versions = ["", "<s/>", "<s><f>x</f><k><p>1</p></k></s>"];
    let mut lists: Vec<Vec<String>> = versions.iter().map(|version| vec![version.to_string()]).collect();
    for number in 0..120 {
        let list = lists[number].clone();
        let archive = &shelf_of(&list);
        read_all(c, KEYS, archive, &[0, 1, 2, 3, 4, 5], &["/s", "/s/f", "/s/k[p=\"1\"]", "/s/k[p=\"1\"]/v", "/t", ""]);
        mark_all(c, archive, &table(&some_marks(4, list.len())), &[b"m0", b"m1", b"m2", b"m3", b"new"], &[0, 1, list.len(), list.len() + 1]);
        for version in versions {
            let next = [&list[..], &[version.to_string()]].concat();
            let call = Call::Add { archive, version: version.as_bytes() };
            let added = c.ask_each_output(KEYS.as_bytes(), call);
            c.shelf_gives(KEYS.as_bytes(), call, &added.bytes, &shelf_of(&next));
            lists.push(next);
        }
    }
}

/// Archives of one to three versions around a root, its own `T` and nothing, legal and near it.
fn archives_with_vacancies(c: &mut Comparison) {
    let mut insides: Vec<String> = ["", " ", "\n", "x", "<s></s>", " <s></s>", "<s></s><s></s>", "<T t=\"1\"></T>", "<T t=\"\"></T>", "<T t=\"1\"> </T>"].map(String::from).to_vec();
    for own in ["", "0", "1", "2", "3", "1-2", "2-3", "1,3", "1,2", "1-3", "1-4", "4", "1-"] {
        for root in ["<s></s>", "<s/>", "<t></t>", "<s></s><s></s>", " <s></s>", "<s></s>\n", "<T t=\"1\"><s></s></T>", "<s><T t=\"1\"><f></f></T></s>", "<s><T t=\"1,3\"><f></f></T></s>", "<s><T t=\"2\"><f></f></T></s>", "<s><f><T t=\"1\">x</T><T t=\"3\">y</T></f></s>", "<s><f><T t=\"1\">x</T><T t=\"2-3\">y</T></f></s>"] {
            insides.push(format!("<T t=\"{own}\">{root}</T>"));
        }
        for beside in ["<s></s>", "<T t=\"1\"><s></s></T>", "<T t=\"3\"><s></s></T>", "<T t=\"2\"><s><f></f></s></T>", " "] {
            insides.push(format!("<T t=\"{own}\"><s></s></T>{beside}"));
            insides.push(format!("{beside}<T t=\"{own}\"><s></s></T>"));
        }
    }
    for all in ["1", "1-2", "1-3", "1,3", "2-3", ""] {
        for inside in &insides {
            let archive = format!("<T t=\"{all}\">{inside}</T>");
            for i in [1, 2, 3] {
                c.ask_each_output(KEYS.as_bytes(), Call::Retrieve { archive: archive.as_bytes(), i });
                c.ask_each_output(KEYS.as_bytes(), Call::Back { archive: archive.as_bytes(), table: &UNUSED, i });
            }
            read_all(c, KEYS, archive.as_bytes(), &[], &["/s", "/s/f"]);
            ["", "<s/>", "<s><f>y</f></s>"].iter().for_each(|version| {
                add(c, KEYS, archive.as_bytes(), version);
            });
        }
    }
}

/// Full archives that a vacant version is added to, which puts the root in a `T` of its own: 15 bytes;
/// versions about as large as one may be, in an archive with a vacant one.
fn struck_off_at_the_limit(c: &mut Comparison) {
    let three = |third: usize| [f(&"x".repeat(16_000)), f(&"y".repeat(16_000)), f(&"z".repeat(third))];
    let exact = 32_768 - (shelf_of(&three(1)).len() - 1);
    for third in [exact - 16, exact - 15, exact - 14, exact] {
        let archive = add(c, KEYS, &shelf_of(&three(third)), "\n");
        if !archive.is_empty() {
            read_all(c, KEYS, &archive, &[3, 4], &["/s"]);
            add(c, KEYS, &archive, "");
            add(c, KEYS, &archive, &three(third)[0]);
        }
    }
    let content = |name: &str, count: usize| f(&format!("<{name}/>").repeat(count));
    for third in [12, 13] {
        let full = shelf_of(&[content("a", 510), content("b", 500), content("c", third)]);
        add(c, KEYS, &full, "");
    }
    for content in [509, 510, 511].map(|count| "<a></a>".repeat(count)).into_iter().chain([16_383, 16_384, 16_385].map(|size| "x".repeat(size - f("").len()))) {
        for archive in [format!("<T t=\"1-2\"><T t=\"1\">{}</T></T>", f(&content)), format!("<T t=\"1-3\"><T t=\"1,3\"><s><f><T t=\"1\"></T><T t=\"3\">{content}</T></f></s></T></T>")] {
            read_all(c, KEYS, archive.as_bytes(), &[1, 2, 3], &["/s"]);
            add(c, KEYS, archive.as_bytes(), "");
        }
    }
}

/// The longest history of each number of versions, and of numbers that are none.
fn longest_histories(c: &mut Comparison) {
    for n in 0..=1_001 {
        c.ask_each_output(b"", Call::LongestHistory { n });
    }
    // Other numbers, with legal low bits too, or the last of all and so many before it.
    for high in [1_024, 1 << 16, 1 << 31, 1 << 32, 1 << 63, usize::MAX - 999] {
        for low in [0, 1, 5, 998, 999] {
            c.ask_each_output(KEYS.as_bytes(), Call::LongestHistory { n: high + low });
        }
    }
    archive_with_the_longest(c);
}

/// An archive of 999 versions whose root stands in those of the longest history; the others are vacant.
fn archive_with_the_longest(c: &mut Comparison) {
    let keys = "(/, (s, {}))\n";
    let set = longest(999);
    let version = |number: usize| if set.contains(&number) { &b"<s></s>"[..] } else { b"" };
    let mut shelf = Shelf::found(keys.as_bytes(), version(1)).expect("a legal version");
    (2..=999).for_each(|number| shelf.add(version(number)).expect("a legal version"));
    let archive = &shelf.archive();
    // Of 2,591 bytes, with an output of so many and of one less.
    let call = Call::History { archive, address: b"/s" };
    let history = c.ask_each_output(keys.as_bytes(), call);
    c.shelf_gives(keys.as_bytes(), call, &history.bytes, &text(&set));
    read_all(c, keys, archive, &[1, 2, 3, 998, 999, 1_000], &[]);
}
