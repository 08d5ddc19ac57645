//! Each of the 256 bytes at each kind of place where a byte's class decides: the same cases in every
//! run. "Each byte has one class" (document 01), whether it is found in a table or by comparisons
//! against ranges (document 02, Q-3).
//!
//! A place is a template: a text in which `@` stands for the byte. In a long run of text, a name, a
//! value or a timestamp's text the byte goes to several places, because a fast scanner may read the
//! first bytes of a run one by one, then blocks of sixteen, and then the last ones one by one again.

use crate::comparison::Comparison;
use crate::limits::KEYS;
use crate::marks::UNUSED;
use crate::station::Call;
use reference::shelf::Shelf;
use reference::timestamp::{longest, text};

/// A run of text of 70 bytes.
pub(crate) const RUN: &str = "Fl 5s white; lamp 2 of 4 was lit at dusk, the lens is clean (see log).";
/// A name of 32 bytes, which is a key value too. It has no `a`, `z`, `A`, `Z`, `0` or `9`, as the other
/// names here have none, so that a wrong range shows by the byte that is put in.
const LONG: &str = "bcdefghijklmnopqrstuvwxybcdefghi";
const ROOT: &str = "(/, (s, {}))\n";

/// Templates, by the calls that they are asked with.
#[derive(Default)]
pub struct Places {
    /// Versions, which are asked as an archive's text too.
    versions: Vec<String>,
    /// A key list and a version under it.
    key_lists: Vec<(String, String)>,
    /// A key list, an archive and an address.
    addresses: Vec<(String, String, String)>,
    /// An archive and its number of versions.
    archives: Vec<(String, usize)>,
}

/// Each kind of place.
pub fn kinds() -> [Places; 8] {
    [texts(), white_space(), names(), values(), key_lists(), addresses(), timestamps(), tags()]
}

pub fn run(c: &mut Comparison) {
    let kinds = kinds();
    let place = c.place.clone();
    for byte in 0..=255 {
        c.place = format!("{place}, byte {byte:02x}");
        kinds.iter().for_each(|places| places.ask(c, byte));
    }
    c.place = place;
}

impl Places {
    /// Asks with the byte in each of the places.
    pub fn ask(&self, c: &mut Comparison, byte: u8) {
        for version in &self.versions {
            let version = &with(version, byte);
            let archive = &[b"<T t=\"1\">", &version[..], b"</T>"].concat();
            c.ask_short_and_exact(KEYS.as_bytes(), Call::Found { version });
            c.ask_short_and_exact(KEYS.as_bytes(), Call::Retrieve { archive, i: 1 });
        }
        for (keys, version) in &self.key_lists {
            let (keys, version) = (&with(keys, byte), &with(version, byte));
            c.ask_short_and_exact(keys, Call::CheckKeys);
            c.ask_short_and_exact(keys, Call::Found { version });
        }
        for (keys, archive, address) in &self.addresses {
            let (keys, archive, address) = (&with(keys, byte), &with(archive, byte), &with(address, byte));
            c.ask_short_and_exact(keys, Call::History { archive, address });
        }
        for (archive, n) in &self.archives {
            let archive = &with(archive, byte);
            c.ask_short_and_exact(KEYS.as_bytes(), Call::Retrieve { archive, i: *n });
            c.ask_short_and_exact(KEYS.as_bytes(), Call::History { archive, address: b"/s/f" });
            c.ask_short_and_exact(KEYS.as_bytes(), Call::Back { archive, table: &UNUSED, i: n - 1 });
        }
    }

    fn of_versions(versions: impl IntoIterator<Item = String>) -> Places {
        Places { versions: versions.into_iter().collect(), ..Places::default() }
    }
}

/// The template with the byte in it.
fn with(template: &str, byte: u8) -> Vec<u8> {
    template.bytes().map(|other| if other == b'@' { byte } else { other }).collect()
}

/// A template: the byte in place of the one that stands there.
fn over(text: &str, at: usize) -> String {
    format!("{}@{}", &text[..at], &text[at + 1..])
}

/// A template: the byte put in before the one that stands there.
fn before(text: &str, at: usize) -> String {
    format!("{}@{}", &text[..at], &text[at..])
}

fn in_frontier(content: &str) -> String {
    format!("<s><f>{content}</f></s>")
}

/// A name's or value's first byte, second, last and others of 32; a 33rd too.
fn in_32_bytes() -> Vec<String> {
    let mut templates: Vec<String> = [0, 1, 7, 8, 15, 16, 17, 30, 31].map(|at| over(LONG, at)).to_vec();
    templates.push(before(LONG, 32));
    templates
}

/// Text in a frontier: alone, beside other bytes, in entities, and in each place of long runs.
fn texts() -> Places {
    let short = [
        "@", "x@", "@x", "x@x", "]]@", "x]]@x", "]@>", "@]>", "]]]@", "&@", "&@;", "&@t;", "&l@;", "&lt@", "&@lt;", "&l@t;", "&lt@;", "&@mp;", "&am@;", "&quo@;", "&lt;@", "@&lt;", "<n></n>@", "@<n></n>", "<n>@</n>",
    ];
    let mut contents: Vec<String> = short.map(String::from).to_vec();
    for length in [40, 48, 70] {
        contents.extend((0..length).map(|at| over(&RUN[..length], at)));
    }
    Places::of_versions(contents.iter().map(|content| in_frontier(content)))
}

/// White space above the frontiers, and before and after the root.
fn white_space() -> Places {
    let short = [
        "@<s></s>", "<s></s>@", " @<s></s>", "@\n<s></s>", "\r@\t<s></s>", "<s></s>\t@", "<s></s>@\r", "<s></s>\n@ ", "<s>@</s>", "<s>\t@</s>", "<s>@\r</s>", "<s>\n@ </s>", "<s>@<f></f></s>", "<s><f></f>@</s>", "<s><f></f>@<g></g></s>", "<s><f></f> @<g></g></s>",
        "<s><k>@<p>1</p></k></s>", "<s><k><p>1</p>@</k></s>", "<s><k><p>1</p>@\n<v></v></k></s>",
    ];
    let mut versions: Vec<String> = short.map(String::from).to_vec();
    let run = " \t\r\n".repeat(10);
    for at in [0, 7, 8, 15, 16, 17, 24, 31, 32, 39] {
        let run = over(&run, at);
        versions.extend([format!("{run}<s></s>"), format!("<s></s>{run}"), format!("<s>{run}</s>")]);
    }
    Places::of_versions(versions)
}

/// Names of elements in a frontier and above: in both tags, in the end tag alone, and the byte after them.
fn names() -> Places {
    let short = ["@", "@m", "n@", "n@m"].map(String::from);
    let mut contents: Vec<String> = vec![];
    for name in short.into_iter().chain(in_32_bytes()) {
        contents.extend([format!("<{name}></{name}>"), format!("<{name}/>")]);
    }
    contents.extend([0, 1, 15, 16, 31].map(|at| format!("<{LONG}></{}>", over(LONG, at))));
    let one_tag = ["<n></@>", "<n></@n>", "<n></n@>", "<nm></@m>", "<nm></n@>", "<n@></n>", "<n/@>", "<n/@", "<n@", "<@", "</@", "<n></@"];
    contents.extend(one_tag.map(String::from));
    let above = ["<@></@>", "<@/>", "<s@></s@>", "<s@/>", "<s></s@>", "<s></@>", "<s@", "<s><@></@></s>", "<s><f@></f@></s>", "<s><f></f@></s>", "<s><k><@>1</@></k></s>"];
    Places::of_versions(contents.iter().map(|content| in_frontier(content)).chain(above.map(String::from)))
}

/// Key values, of one element and beside another.
fn values() -> Places {
    let short = ["@", "@1", "1@", "1@2", "@<n></n>"].map(String::from);
    let values: Vec<String> = short.into_iter().chain(in_32_bytes()).collect();
    let one = values.iter().map(|value| format!("<s><k><p>{value}</p></k></s>"));
    let two = ["<s><k><p>5</p></k><k><p>@</p></k></s>", "<s><k><p>n</p></k><k><p>n@</p></k></s>"];
    Places::of_versions(one.chain(two.map(String::from)))
}

/// Key lists: a step's name, the root's too, and a key name, and the byte after them.
fn key_lists() -> Places {
    let mut lists: Vec<(String, String)> = vec![];
    let short = ["@", "@m", "n@", "n@m"].map(String::from);
    for name in short.into_iter().chain([0, 1, 15, 16, 31].map(|at| over(LONG, at))) {
        lists.push((format!("(/, ({name}, {{}}))\n"), format!("<{name}></{name}>")));
        lists.push((format!("(/, ({name}, {{}}))\n(/{name}, (t, {{}}))\n"), format!("<{name}><t></t></{name}>")));
        lists.push((format!("{ROOT}(/s, ({name}, {{}}))\n"), format!("<s><{name}></{name}></s>")));
        lists.push((format!("{ROOT}(/s, (k, {{{name}}}))\n"), format!("<s><k><{name}>1</{name}></k></s>")));
        lists.push((format!("{ROOT}(/s, (k, {{p, {name}}}))\n"), format!("<s><k><p>1</p><{name}>1</{name}></k></s>")));
        // In a context that no line has, unless the name is the root's.
        lists.push((format!("{ROOT}(/{name}, (t, {{}}))\n"), "<s></s>".into()));
    }
    for line in ["(/s@ (t, {}))\n", "(/s@, (t, {}))\n", "(/s, (t@ {}))\n", "(/s, (k, {p@))\n", "(/s, (k, {p@ q}))\n", "(/s, (k, {p,@q}))\n", "(/@s, (t, {}))\n"] {
        lists.push((format!("{ROOT}{line}"), "<s></s>".into()));
    }
    Places { key_lists: lists, ..Places::default() }
}

/// Addresses: names, under key lists that have them, and values, and the byte after them.
fn addresses() -> Places {
    let archive = "<T t=\"1\"><s><f></f><k><p>1</p><v></v></k></s></T>";
    let short = [
        "/@", "/@s", "/s@", "@/s", "/s@/f", "/s@f", "/s/@", "/s/@f", "/s/f@", "/s/k@p=\"1\"]", "/s/k[@=\"1\"]", "/s/k[p@=\"1\"]", "/s/k[p@\"1\"]", "/s/k[p=@1\"]", "/s/k[p=\"1@]", "/s/k[p=\"1\"@", "/s/k[p=\"1\"]@", "/s/k[p=\"1\"]@v",
    ];
    let mut of_keys: Vec<String> = short.map(String::from).to_vec();
    for value in ["@", "@1", "1@", "1@2"].map(String::from).into_iter().chain(in_32_bytes()) {
        of_keys.extend([format!("/s/k[p=\"{value}\"]"), format!("/s/k[p=\"{value}\"]/v")]);
    }
    let mut addresses: Vec<_> = of_keys.into_iter().map(|address| (KEYS.into(), archive.into(), address)).collect();
    let t = |root: String| format!("<T t=\"1\">{root}</T>");
    for name in ["@", "n@"].map(String::from).into_iter().chain([1, 15, 16, 31].map(|at| over(LONG, at))) {
        addresses.push((format!("(/, ({name}, {{}}))\n"), t(format!("<{name}></{name}>")), format!("/{name}")));
        let key = format!("<{name}>1</{name}>");
        addresses.push((format!("{ROOT}(/s, ({name}, {{{name}}}))\n"), t(format!("<s><{name}>{key}</{name}></s>")), format!("/s/{name}[{name}=\"1\"]")));
    }
    Places { addresses, ..Places::default() }
}

/// The archive of n versions, of which those of the one set have `f` and those of the other have `g`.
fn archive_of(n: usize, f: &[usize], g: &[usize]) -> String {
    let element = |set: &[usize], number: usize, element: &'static str| if set.contains(&number) { element } else { "" };
    let version = |number: usize| format!("<s>{}{}</s>", element(f, number, "<f/>"), element(g, number, "<g/>"));
    let mut shelf = Shelf::found(KEYS.as_bytes(), version(1).as_bytes()).expect("a legal version");
    (2..=n).for_each(|number| shelf.add(version(number).as_bytes()).expect("a legal version"));
    String::from_utf8(shelf.archive()).expect("bytes up to 7E")
}

/// The byte at these places of the text of a set: put in, and in place of another.
fn in_set(archive: &str, n: usize, set: &str, places: impl IntoIterator<Item = usize>) -> Vec<(String, usize)> {
    let start = 1 + archive.find(&format!("\"{set}\"")).expect("an archive with the set");
    places.into_iter().flat_map(|at| [(before(archive, start + at), n), (over(archive, start + at), n)]).collect()
}

/// The text of a timestamp: of one to four bytes, and of 57 and 77.
fn timestamps() -> Places {
    let mut archives = vec![];
    let short = archive_of(12, &[2, 10], &[9]);
    for set in ["1-12", "2,10", "9"] {
        archives.extend(in_set(&short, 12, set, 0..=set.len()));
    }
    // Numbers far from each other, so that many digits are right in the place of another.
    let far: Vec<usize> = (1..=96).step_by(5).collect();
    let runs = longest(41);
    let places = [0, 1, 5, 8, 15, 16, 17, 20, 31, 32, 44, 47, 48, 50, 53, 56];
    for (n, set) in [(97, far), (41, runs)] {
        let text = String::from_utf8(text(&set)).expect("digits");
        archives.extend(in_set(&archive_of(n, &set, &[]), n, &text, places.into_iter().chain([text.len()])));
    }
    Places { archives, ..Places::default() }
}

/// The tags of an archive's outermost `T`, and before and after them.
fn tags() -> Places {
    let archive = "<T t=\"1-2\"><s></s></T>";
    let (start, end) = ("<T t=\"1-2\">".len(), archive.len() - "</T>".len());
    let put_in = (0..=start).chain(end..=archive.len()).map(|at| (before(archive, at), 2));
    let instead = (0..start).chain(end..archive.len()).map(|at| (over(archive, at), 2));
    Places { archives: put_in.chain(instead).collect(), ..Places::default() }
}
