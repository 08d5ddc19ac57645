//! Line ends (document 02, Q-4): the same cases in every run, a part of the limits. In a version CR LF and a lone CR are
//! read as LF before all but the length test of 2; an archive holding CR is not legal.
//!
//! A fast scanner may read the first bytes of a run one by one, then blocks of sixteen, and then the last ones one by one
//! again, and look for line ends by other means in each. So they go to every place of runs of up to 70 bytes, and of some
//! longer ones, and CR and LF stand on both sides of every border.

use crate::bytes::RUN;
use crate::comparison::Comparison;
use crate::limits::{f, mark_all, read_all, shelf_of, KEYS};
use crate::marks::{table, UNUSED};
use crate::station::{answer, Call};
use reference::marks::Mark;

/// One line end, two and three, by their bytes.
const ENDS: [&str; 9] = ["\n", "\r\n", "\r", "\r\r", "\n\r", "\r\r\n", "\r\n\r", "\n\r\n", "\r\n\r\n"];

/// The cases of each kind.
pub fn kinds() -> [(&'static str, fn(&mut Comparison)); 10] {
    [
        ("places of runs", places_of_runs),
        ("pairs in runs", pairs_in_runs),
        ("long runs", long_runs),
        ("spellings", spellings),
        ("white space", white_space),
        ("contents", contents),
        ("tablets", tablets),
        ("sizes", sizes),
        ("archives", archives),
        ("other texts", other_texts),
    ]
}

pub fn run(c: &mut Comparison) {
    let place = c.place.clone();
    for (name, kind) in kinds() {
        c.place = format!("{place}, line ends, {name}");
        kind(c);
    }
    c.place = place;
}

fn found(c: &mut Comparison, version: &str) {
    c.ask_short_and_exact(KEYS.as_bytes(), Call::Found { version: version.as_bytes() });
}

fn add(c: &mut Comparison, archive: &[u8], version: &str) {
    c.ask_short_and_exact(KEYS.as_bytes(), Call::Add { archive, version: version.as_bytes() });
}

/// Directly in a frontier, and in elements beneath it, one and thirteen deep.
fn in_frontier(content: &str) -> [String; 3] {
    [f(content), f(&format!("<n>{content}</n>")), f(&format!("{}{content}{}", "<n>".repeat(13), "</n>".repeat(13)))]
}

/// So many bytes of text with no line end.
fn words(length: usize) -> String {
    RUN.chars().cycle().take(length).collect()
}

/// A line end, or several, at each place of runs of up to 20 bytes and of some longer ones.
fn places_of_runs(c: &mut Comparison) {
    for length in (0..=20).chain([31, 32, 33, 47, 48, 49, 63, 64, 65, 70]) {
        for at in 0..=length {
            for end in ENDS {
                let content = format!("{}{end}{}", &RUN[..at], &RUN[at..length]);
                let texts = in_frontier(&content);
                // All depths in short runs; in long ones two.
                texts[..if length > 20 { 2 } else { 3 }].iter().for_each(|text| found(c, text));
            }
        }
    }
}

/// CR and LF, LF and CR, CR and CR in any two places of a run of 70 bytes.
fn pairs_in_runs(c: &mut Comparison) {
    for second in 1..RUN.len() {
        for first in 0..second {
            for [one, other] in [["\r", "\n"], ["\n", "\r"], ["\r", "\r"]] {
                let content = format!("{}{one}{}{other}{}", &RUN[..first], &RUN[first + 1..second], &RUN[second + 1..]);
                found(c, &f(&content));
            }
        }
    }
}

/// A line end at each place of runs of about 128 and 256 bytes; lines of one length, one after the other.
fn long_runs(c: &mut Comparison) {
    for length in [127, 128, 129, 256, 270] {
        let run = words(length);
        for at in 0..=length {
            for end in ["\r\n", "\r", "\r\r\n"] {
                found(c, &f(&format!("{}{end}{}", &run[..at], &run[at..])));
            }
        }
    }
    for length in 0..=40 {
        for end in ENDS {
            let lines = format!("{}{end}", words(length)).repeat(300 / (length + 1));
            in_frontier(&lines).iter().for_each(|text| found(c, text));
            // With a line of another length before them, so that they stand otherwise in blocks.
            found(c, &f(&format!("{}{end}{lines}", words(7))));
        }
    }
}

/// Line ends beside entities, tags and `]]>`, in them, and beside bytes that are not legal: `@` stands for the line end.
fn spellings(c: &mut Comparison) {
    let spellings = [
        "@", "@x", "x@", "x@x", " @", "@ ", "\t@\t", "@@", "@x@", "@&lt;", "&lt;@", "@&amp;@", "x@&gt;", "&quot;@&apos;", "@>", ">@", "x@>@", "\"@'", "]]@>", "]@]>", "]@]@>", "@]]>", "]]>@", "]]@&gt;", "]]&gt;@", "]]@]>", "@<n/>", "<n/>@",
        "@<n/>@", "<n>@</n>", "x@<n>@</n>@x", "<n><n>@</n>@</n>@", "<n/>@<n/>", "&@", "&@lt;", "&l@t;", "&lt@;", "&lt@", "&@;", "@&", "&#13;", "&#13;@", "@&#13;", "&#xD;", "&#xD;@", "&#10;@", "<n@/>", "<n/@>", "<@n/>", "<n@></n>", "<n></n@>",
        "<n></@n>", "<n><@/n>", "<n@", "<@", "@<", "<n>@", "@</n>", "<@>", "</@>", "<n@a=\"b\"/>", "<!--@-->", "<![CDATA[@]]>", "<?p@?>", "<T>@</T>", "<T t=\"1\">@</T>", "\x0b@", "@\x0c", "@\x0e", "\x00@", "@\x7f", "@\u{85}", "<u>@</u>", "<g>@</g>",
        "<k>@<p>1</p>@</k>", "<k><p>@1</p></k>", "<k><p>1@</p></k>", "<k><p>1@2</p></k>", "<k><p>@</p></k>", "<k><p>1</p>@<v>@</v>@</k>", "<k><p>1</p>@x</k>",
    ];
    let small = shelf_of(&["<s/>".into()]);
    for spelling in spellings {
        for end in ENDS {
            let spelling = spelling.replace('@', end);
            let above = [spelling.clone(), format!("<s>{spelling}</s>"), format!("{spelling}<s/>"), format!("<s/>{spelling}")];
            for text in in_frontier(&spelling).iter().chain(&above) {
                found(c, text);
                add(c, &small, text);
                let archive = format!("<T t=\"1\">{text}</T>");
                c.ask_short_and_exact(KEYS.as_bytes(), Call::Retrieve { archive: archive.as_bytes(), i: 1 });
            }
        }
    }
}

/// Line ends where white space is dropped, around the root, and alone, which is a vacant version; up to 40 times.
fn white_space(c: &mut Comparison) {
    let places = ["@", "@<s></s>", "<s></s>@", "<s>@</s>", "<s>@<f></f></s>", "<s><f></f>@</s>", "<s><f></f>@<g></g></s>", "<s><k>@<p>1</p></k></s>", "<s><k><p>1</p>@</k></s>", "@x", "@<s>x</s>", "<s>@x</s>", "<s>x@</s>", "<s></s>@x", "x@<s></s>"];
    let small = shelf_of(&["<s/>".into()]);
    for end in ENDS.into_iter().chain([" \r", "\r ", "\t\r\n", "\r\t"]) {
        for times in 1..=40 {
            for place in places {
                let text = place.replace('@', &end.repeat(times));
                found(c, &text);
                if times < 4 {
                    add(c, &small, &text);
                    add(c, b"<T t=\"1\"></T>", &text);
                }
            }
        }
    }
}

/// A content, another one, and the first one again with other line ends.
fn compared(c: &mut Comparison, one: &str, other: &str) {
    let again = one.replace("\r\n", "\n").replace(['\r', '\n'], "\r\n");
    let versions = [one, other, &again].map(f);
    for text in [&versions[1], &versions[2]] {
        add(c, &shelf_of(&versions[..1]), text);
    }
    add(c, &shelf_of(&versions[1..2]), &versions[0]);
    let call = Call::Add { archive: &shelf_of(&versions[..2]), version: versions[2].as_bytes() };
    c.ask_short_and_exact(KEYS.as_bytes(), call);
    c.shelf_gives(KEYS.as_bytes(), call, &answer(KEYS.as_bytes(), call, usize::MAX).bytes, &shelf_of(&versions));
}

/// Pairs of contents that are one, or that differ in a byte at or beside a line end, near the end or near the beginning,
/// after and before texts of any length, in which lines end alike in both or not.
fn contents(c: &mut Comparison) {
    let pairs = [
        // One content each.
        ("\r", "\n"), ("\r\n", "\n"), ("\r\n", "\r"), ("\r\r\n", "\n\n"), ("\n\r", "\r\r"), ("\r\n\n", "\n\r\n"), ("x\r", "x\n"), ("\r\nx", "\rx"), ("&gt;\r", ">\r\n"),
        // Two.
        ("\r", ";"), ("\r", "\t"), ("\r", " "), ("\r", "M"), ("\r", "-"), ("\r", "J"), ("\r", "*"), ("\r", "&gt;"), ("\r", ""), ("\n", ";"), ("\n", "\t"), ("\r\n", ";"), ("\r\n", "\n\n"), ("\r\r", "\n"), ("\n\r", "\r\n"), ("\r\r\n", "\r\n"),
        ("\r;", "\r:"), ("\r\n;", "\n:"), (";\r", ":\n"), (";\r\n", ":\r"), ("\rx", "\r\n\n"), ("x\r", "\r\r"), ("\r", "<n/>"), ("\r<n/>", "<n/>\n"),
    ];
    for length in (0..=34).chain([47, 48, 49, 63, 64, 65, 127, 128, 129]) {
        let plain = words(length);
        // The same text with another line end in each of them; a byte that is none before the pair.
        let lines = |end: &str| words(length).replace("; ", end) + ".";
        for (one, other) in pairs {
            compared(c, &format!("{plain}{one}"), &format!("{plain}{other}"));
            compared(c, &format!("{one}{plain}"), &format!("{other}{plain}"));
            compared(c, &format!("{}{one}", lines("\n")), &format!("{}{other}", lines("\r\n")));
            compared(c, &format!("{one}.{}", lines("\r")), &format!("{other}.{}", lines("\r\n")));
        }
    }
}

/// A note with line ends of one kind.
fn note(end: &str, light: &str) -> String {
    "@<s>@ <f>L.@@<by>keeper@W</by>&gt;@</f>@<k>@<p>1</p><v>@</v></k></s>@".replace('L', light).replace('@', end)
}

/// A note of each tablet, another one, and the first again, each of any tablet: lists, and what they give.
fn tablets(c: &mut Comparison) {
    for first in ["\n", "\r\n", "\r"] {
        for second in ENDS {
            for light in ["Fl 5s", "Oc 4s"] {
                let versions = [note(first, "Fl 5s"), note(second, light), note(second, "Fl 5s"), note(first, light)];
                for n in 1..versions.len() {
                    let archive = &shelf_of(&versions[..n]);
                    let call = Call::Add { archive, version: versions[n].as_bytes() };
                    let added = c.ask_each_output(KEYS.as_bytes(), call);
                    c.shelf_gives(KEYS.as_bytes(), call, &added.bytes, &shelf_of(&versions[..=n]));
                }
                found(c, &versions[0]);
                read_all(c, KEYS, &shelf_of(&versions), &[1, 2, 3, 4], &["/s/f", "/s/k[p=\"1\"]/v", "/s/g"]);
            }
        }
    }
}

/// Versions of about 16,384 bytes as they are lent (2), and as they are written (6), and of about 512 nodes.
fn sizes(c: &mut Comparison) {
    let mut texts: Vec<String> = vec![];
    let around = f("").len();
    for end in ["\r\n", "\r", "\n", "\r\r\n", "\n\r"] {
        // So many bytes of line ends, and perhaps one of another.
        let filled = |bytes: usize| end.repeat(bytes / end.len()) + &"xx"[..bytes % end.len()];
        let blank = |bytes: usize| filled(bytes).replace('x', " ");
        for size in 16_383..=16_386 {
            texts.extend([f(&filled(size - around)), blank(size), blank(size - 7) + "<s></s>", format!("<s></s>{}", blank(size - 7)), format!("<s>{}</s>", blank(size - 7)), filled(size)]);
            texts.push(f(&format!("<n>{}</n>", filled(size - around - 7))));
            // The written form of this size: `>` is four bytes of it, a line end one.
            let more = size - around;
            for greater in [">", "&gt;"] {
                let written = 4 + reference::xml::line_ends(end.as_bytes()).len();
                let lines = format!("{}{}", "x".repeat(more % written), format!("{greater}{end}").repeat(more / written));
                texts.extend([f(&lines), f(&(lines.clone() + end)), format!("{end}{}{end}", f(&lines)), format!("<u><f>{lines}</f></u>"), format!("<s><f>{}</f>{end}></s>", &lines[more % written..])]);
            }
            // What is dropped counts for 2 alone.
            texts.push(format!("<s>{}<f>{}</f></s>", end.repeat(100), "x".repeat(more - 100)));
            texts.push(format!("<s>{}<f>{}</f></s>", end.repeat(100), ">".repeat(more / 4)));
        }
        for count in [254, 255, 256] {
            texts.push(f(&format!("<a/>{end}").repeat(count)));
            texts.push(f(&format!("{end}{}", format!("<a/>{end}").repeat(count))));
            texts.push(f(&format!("<a>{end}</a>").repeat(count)));
            texts.push(format!("<s>{end}<f>{}</f>{end}</s>", format!("<a/>{end}").repeat(count)));
        }
    }
    for text in &texts {
        found(c, text);
        add(c, b"<T t=\"1\"><s></s></T>", text);
        c.ask_short_and_exact(b"bad", Call::Found { version: text.as_bytes() });
    }
    full_archives(c);
}

/// Archives of about 32,768 bytes, to which contents with CR LF are added.
fn full_archives(c: &mut Comparison) {
    let three = |third: usize| [f(&"x".repeat(16_000)), f(&"y".repeat(16_000)), f(&"z\r\n".repeat(third))];
    let two = shelf_of(&three(0)[..2]);
    let rest = 32_768 - (shelf_of(&three(1)).len() - 2);
    for third in [rest / 2 - 1, rest / 2, rest / 2 + 1] {
        for more in ["", "\r", "\r\n", "x"] {
            add(c, &two, &three(third)[2].replace("</f>", &format!("{more}</f>")));
        }
    }
    for size in [32_767, 32_768, 32_769] {
        read_all(c, KEYS, &vec![b'\r'; size], &[1], &["/s"]);
        read_all(c, KEYS, &[&b"<T t=\"1\"><s></s></T>"[..], &vec![b'\r'; size - 20]].concat(), &[1], &["/s"]);
    }
}

/// Each call that takes the archive, with one answer to compare of each.
fn ask_all(c: &mut Comparison, archive: &[u8]) {
    let table = &table(&[Mark { name: b"m".to_vec(), version: 1 }]);
    for call in [
        Call::Retrieve { archive, i: 1 },
        Call::History { archive, address: b"/s/f" },
        Call::Add { archive, version: b"<s><f>a\r\nb</f></s>" },
        Call::Back { archive, table: &UNUSED, i: 1 },
        Call::BackToMark { archive, table, name: b"m" },
        Call::SetMark { archive, table, name: b"n", i: 1 },
        Call::FindMark { archive, table, name: b"m" },
    ] {
        c.ask_short_and_exact(KEYS.as_bytes(), call);
    }
}

/// Archives holding CR: before each byte, in place of it, in place of each LF, of all, and at each place of long runs.
fn archives(c: &mut Comparison) {
    let several = shelf_of(&[f("a\nb\n<n>\n</n>"), f("\nc"), String::new(), f("a\nb\n<n>\n</n>") + "\n"]);
    let keyed = shelf_of(&[note("\n", "Fl 5s"), note("\r\n", "Oc 4s")]);
    for archive in [&several[..], &keyed, b"<T t=\"1\"></T>", b"<T t=\"1\"><s><f>\n</f></s></T>"] {
        ask_all(c, archive);
        for at in 0..=archive.len() {
            for end in ["\r", "\r\n", "\n\r"] {
                ask_all(c, &[&archive[..at], end.as_bytes(), &archive[at..]].concat());
                if at < archive.len() {
                    ask_all(c, &[&archive[..at], end.as_bytes(), &archive[at + 1..]].concat());
                }
            }
        }
        let text = String::from_utf8_lossy(archive);
        for end in ENDS {
            ask_all(c, text.replace('\n', end).as_bytes());
            ask_all(c, text.replace('>', &format!(">{end}")).as_bytes());
        }
    }
    for length in [5, 16, 20, 40, 70, 130] {
        let run = words(length);
        for at in 0..=length {
            for end in ["\n", "\r\n", "\r", "\n\r"] {
                let content = format!("{}{end}{}", &run[..at], &run[at..]);
                let one = format!("<T t=\"1\"><s><f>{content}</f></s></T>");
                let two = format!("<T t=\"1-2\"><s><f><T t=\"1\">{content}</T><T t=\"2\">{run}</T></f></s></T>");
                let deep = format!("<T t=\"1\"><s><f><n>{content}</n></f></s></T>");
                for archive in [one, two, deep] {
                    c.ask_short_and_exact(KEYS.as_bytes(), Call::Retrieve { archive: archive.as_bytes(), i: 1 });
                    c.ask_short_and_exact(KEYS.as_bytes(), Call::History { archive: archive.as_bytes(), address: b"/s/f" });
                    add(c, archive.as_bytes(), &f(&content));
                }
            }
        }
    }
}

/// The step is of versions alone: key lists, addresses, names of marks and tables with CR.
fn other_texts(c: &mut Comparison) {
    let archive = &shelf_of(&[note("\r", "Fl 5s")]);
    for end in ENDS {
        for keys in [KEYS.replace('\n', end), KEYS.replacen('\n', end, 1), format!("{KEYS}{end}"), format!("{end}{KEYS}")] {
            c.ask_short_and_exact(keys.as_bytes(), Call::CheckKeys);
            c.ask_short_and_exact(keys.as_bytes(), Call::Found { version: b"<s/>\r" });
            c.ask_short_and_exact(keys.as_bytes(), Call::Retrieve { archive, i: 1 });
        }
        let address = "/s/k[p=\"1\"]/v";
        for at in 0..=address.len() {
            let address = format!("{}{end}{}", &address[..at], &address[at..]);
            c.ask_short_and_exact(KEYS.as_bytes(), Call::History { archive, address: address.as_bytes() });
        }
        for name in [end.into(), format!("m{end}"), format!("{end}m"), format!("m{end}n")] {
            mark_all(c, archive, &UNUSED, &[name.as_bytes()], &[1]);
            mark_all(c, archive, &table(&[Mark { name: name.into_bytes(), version: 1 }]), &[b"m"], &[1]);
        }
    }
}
