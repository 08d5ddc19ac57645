//! What is measured: key lists, archives, versions, addresses. All are legal; the archives are
//! made with the plain implementation.

use crate::plain;
use compare::marks::UNUSED;
use compare::random::Random;
use compare::station::Call;

pub struct Workload {
    pub name: &'static str,
    pub keys: Vec<u8>,
    /// How many versions `archive` has.
    pub n: usize,
    /// The archive of all versions but the last.
    pub before: Vec<u8>,
    /// The last version.
    pub version: Vec<u8>,
    pub archive: Vec<u8>,
    pub address: Vec<u8>,
    /// The table that is lent to a step back by number: of unused entries, or full of marks.
    pub table: Vec<u8>,
    /// The one that a mark is set in, with room for it.
    pub room: Vec<u8>,
    /// The one whose last mark, of version n - 1, is found and stepped back to.
    pub marked: Vec<u8>,
}

/// The name of the last mark of `marked`, and of the mark that is set.
const LAST: &[u8] = b"as-commissioned";
const NEW: &[u8] = b"new_lens";

impl Workload {
    /// The calls: the last version founds, and is added; it is retrieved; one step back, by number
    /// and by name; a mark of version n is set, the last one is found; the longest history over n versions.
    pub fn calls(&self) -> [Call<'_>; 10] {
        let archive = &self.archive;
        [
            Call::CheckKeys,
            Call::Found { version: &self.version },
            Call::Add { archive: &self.before, version: &self.version },
            Call::Retrieve { archive, i: self.n },
            Call::History { archive, address: &self.address },
            Call::Back { archive, table: &self.table, i: self.n - 1 },
            Call::BackToMark { archive, table: &self.marked, name: LAST },
            Call::SetMark { archive, table: &self.room, name: NEW, i: self.n },
            Call::FindMark { archive, table: &self.marked, name: LAST },
            Call::LongestHistory { n: self.n },
        ]
    }

    /// With tables that are full of marks, or for one more.
    fn full_of_marks(self) -> Workload {
        let room = (0..31).fold(UNUSED.to_vec(), |table, number| self.with_mark(table, format!("mark-{number}").as_bytes(), 1 + number * 7 % self.n));
        let marked = self.with_mark(room.clone(), LAST, self.n - 1);
        Workload { table: marked.clone(), room, marked, ..self }
    }

    fn with_mark(&self, mut table: Vec<u8>, name: &[u8], version: usize) -> Vec<u8> {
        assert_eq!(plain::set_mark(&self.keys, &self.archive, &mut table, name, version), (0, 0));
        table
    }

    /// The nodes of the archive: elements but the `T`s, and runs of text.
    pub fn nodes(&self) -> usize {
        let elements = self.archive.windows(2).filter(|two| two[0] == b'<' && two[1] != b'/').count();
        let ts = self.archive.windows(3).filter(|three| three == b"<T ").count();
        let runs = self.archive.windows(2).filter(|two| two[0] == b'>' && two[1] != b'<').count();
        elements - ts + runs
    }
}

pub fn all() -> Vec<Workload> {
    vec![record(), typical(50), full(), counter(999), gaps(999), lamps(999), deep(), notes(12)]
}

/// An archive as it grows.
struct Growing {
    keys: Vec<u8>,
    n: usize,
    before: Vec<u8>,
    version: Vec<u8>,
    archive: Vec<u8>,
}

impl Growing {
    fn new(keys: &str) -> Growing {
        Growing { keys: keys.into(), n: 0, before: vec![], version: vec![], archive: vec![] }
    }

    /// The archive with a version more, or the refusal.
    fn with(&self, version: &str) -> Result<Vec<u8>, u32> {
        let mut out = vec![0; 32_768];
        let (number, length) = match self.n {
            0 => plain::found(&self.keys, version.as_bytes(), &mut out),
            _ => plain::add(&self.keys, &self.archive, version.as_bytes(), &mut out),
        };
        out.truncate(length);
        if number == 0 {
            Ok(out)
        } else {
            Err(number)
        }
    }

    fn add(&mut self, version: &str) {
        let archive = self.with(version).expect("a legal version that fits");
        self.before = std::mem::replace(&mut self.archive, archive);
        self.version = version.into();
        self.n += 1;
    }

    fn done(self, name: &'static str, address: &str) -> Workload {
        let Growing { keys, n, before, version, archive } = self;
        let unused = UNUSED.to_vec();
        let workload = Workload { name, keys, n, before, version, archive, address: address.into(), table: unused.clone(), room: unused.clone(), marked: vec![] };
        Workload { marked: workload.with_mark(unused, LAST, n - 1), ..workload }
    }
}

const RECORD: &str = "(/, (station, {}))\n(/station, (light, {}))\n(/station, (lamp, {pos}))\n(/station/lamp, (type, {}))\n(/station/lamp, (hours, {}))\n";

/// Document 01's record of one station.
pub fn record() -> Workload {
    let mut archive = Growing::new(RECORD);
    archive.add("<station><light>Fl 5s</light><lamp><pos>2</pos><type>A</type><hours>40</hours></lamp></station>");
    archive.add("<station><light>Fl 5s</light><lamp><pos>2</pos><type>A</type><hours>90</hours></lamp><lamp><pos>1</pos><type>B</type></lamp></station>");
    archive.add("<station><light>Fl 5s</light><lamp><pos>1</pos><type>B</type></lamp></station>");
    archive.done("record", "/station/lamp[pos=\"2\"]/hours")
}

const STATION: &str = "(/, (station, {}))\n(/station, (name, {}))\n(/station, (light, {}))\n(/station, (note, {}))\n(/station, (lamp, {pos}))\n(/station/lamp, (type, {}))\n(/station/lamp, (hours, {}))\n(/station/lamp, (state, {}))\n";

/// A station's lamps over time: hours counters that move, lamps that come and go.
struct Lamps {
    r: Random,
    hours: Vec<usize>,
    here: Vec<bool>,
    burning: Vec<bool>,
}

impl Lamps {
    fn new(count: usize) -> Lamps {
        let mut r = Random::new(7);
        let hours = (0..count).map(|_| 10 * r.below(900)).collect();
        Lamps { r, hours, here: vec![true; count], burning: vec![true; count] }
    }

    /// Some counters move; now and then a lamp fails, is taken away, or put back.
    fn pass(&mut self, moving: usize) {
        let count = self.hours.len();
        for _ in 0..moving {
            let lamp = self.r.below(count);
            self.hours[lamp] += 10 * (1 + self.r.below(30));
        }
        for changed in [&mut self.here, &mut self.burning] {
            if self.r.chance(40) {
                let lamp = self.r.below(count);
                changed[lamp] = !changed[lamp];
            }
        }
    }

    /// As a monitor would send it: a line for each lamp, in the order of mounting.
    fn version(&self, note: &str) -> String {
        let lamp = |lamp: usize| {
            let kind = ["LED 7W", "halogen", "A & B"][lamp % 3].replace('&', "&amp;");
            let state = if self.burning[lamp] { "on" } else { "failed" };
            format!("  <lamp><pos>{}</pos><type>{kind}</type><hours>{}</hours><state>{state}</state></lamp>\n", lamp + 1, self.hours[lamp])
        };
        let lamps: String = (0..self.hours.len()).filter(|&lamp| self.here[lamp]).map(lamp).collect();
        let note = if note.is_empty() { String::new() } else { format!("  <note>{note}</note>\n") };
        format!("<station>\n  <name>Outer bank north</name>\n  <light>Fl(3) W 15s</light>\n{note}{lamps}</station>\n")
    }
}

/// A station with 40 lamps, and with 32 marks.
pub fn typical(versions: usize) -> Workload {
    let mut lamps = Lamps::new(40);
    let mut archive = Growing::new(STATION);
    for _ in 0..versions {
        archive.add(&lamps.version(""));
        lamps.pass(6);
    }
    archive.done("typical", "/station/lamp[pos=\"17\"]/hours").full_of_marks()
}

/// As full as an archive can be: 1,024 nodes and 32,768 bytes. The last versions have a note
/// that fills what the counters have left.
pub fn full() -> Workload {
    let mut lamps = Lamps::new(40);
    let mut archive = Growing::new(STATION);
    loop {
        archive.add(&lamps.version(""));
        lamps.pass(12);
        if archive.with(&lamps.version(&note(120, 1))).is_err() {
            break;
        }
    }
    // Room for the notes.
    let mut archive = stepped_back(archive, 3);
    let text = |nodes: usize, bytes: usize| lamps.version(&note(nodes, bytes));
    while 32_768 - archive.archive.len() > 12_000 {
        let bytes = (32_768 - archive.archive.len() - 6_000).min(9_000);
        archive.add(&text(0, bytes));
    }
    let nodes = (0..).take_while(|&nodes| archive.with(&text(nodes, 1)).is_ok()).count() - 1;
    let left = 32_768 - archive.with(&text(nodes, 1)).map_or(0, |archive| archive.len());
    archive.add(&text(nodes, 1 + left));
    archive.done("full", "/station/lamp[pos=\"40\"]/state")
}

/// A note of so many elements and a run of text.
fn note(elements: usize, bytes: usize) -> String {
    "<p></p>".repeat(elements) + &"the lens was cleaned; ".repeat(bytes / 22 + 1)[..bytes]
}

fn stepped_back(archive: Growing, steps: usize) -> Growing {
    let mut out = vec![0; 32_768];
    let n = archive.n - steps;
    let (number, length) = plain::back(&archive.keys, &archive.archive, &mut UNUSED.to_vec(), n, &mut out);
    assert_eq!(number, 0);
    out.truncate(length);
    Growing { n, archive: out, ..archive }
}

/// One frontier with another content in each version; they differ in their last bytes only.
pub fn counter(versions: usize) -> Workload {
    let mut archive = Growing::new("(/, (station, {}))\n(/station, (hours, {}))\n");
    for number in 1..=versions {
        archive.add(&format!("<station><hours>{:017}</hours></station>", 400_000 + number));
    }
    archive.done("counter", "/station/hours")
}

/// Twenty-four lamps, each with some two hundred gaps.
pub fn gaps(versions: usize) -> Workload {
    let mut r = Random::new(3);
    let mut here = [true; 24];
    let mut archive = Growing::new(RECORD);
    for _ in 0..versions {
        let lamp = |lamp: &usize| format!("<lamp><pos>{lamp}</pos><type>A</type></lamp>");
        let lamps: String = (0..24).filter(|&lamp| here[lamp]).map(|number| lamp(&number)).collect();
        archive.add(&format!("<station><light>Fl 5s</light>{lamps}</station>"));
        here.iter_mut().for_each(|here| *here ^= r.chance(40));
    }
    archive.done("gaps", "/station/lamp[pos=\"9\"]/type")
}

/// Three hundred and forty lamps, each in thirteen versions or so.
pub fn lamps(versions: usize) -> Workload {
    let mut r = Random::new(5);
    let mut archive = Growing::new(RECORD);
    for _ in 0..versions {
        let mut numbers: Vec<usize> = (0..r.below(10)).map(|_| r.below(340)).collect();
        numbers.sort_unstable();
        numbers.dedup();
        let lamps: String = numbers.iter().map(|lamp| format!("<lamp><pos>{lamp}</pos></lamp>")).collect();
        archive.add(&format!("<station>{lamps}</station>"));
    }
    archive.done("lamps", "/station/lamp[pos=\"77\"]")
}

/// Ten notes of twelve lines that end in CR LF, as the new tablets save them; in each version one of them is another.
pub fn notes(versions: usize) -> Workload {
    let mut archive = Growing::new("(/, (station, {}))\n(/station, (note, {day}))\n(/station/note, (text, {}))\n");
    for number in 1..=versions {
        let saved = |day: usize| (number + 9 - day) / 10;
        let line = |day: usize, line: usize| format!("{line:02}00 light burning, wind south-west {}, sea moderate\r\n", 3 + (saved(day) + line) % 5);
        let note = |day: usize| format!("  <note><day>{day}</day><text>{}</text></note>\r\n", (1..=12).map(|hour| line(day, hour)).collect::<String>());
        archive.add(&format!("<station>\r\n{}</station>\r\n", (0..10).map(note).collect::<String>()));
    }
    archive.done("notes", "/station/note[day=\"7\"]/text")
}

/// Eight levels of key paths, the last with two siblings, and sixteen of elements, each level in a
/// `T` of its own: what takes the most stack. Names are long, so that the texts are not short ones.
pub fn deep() -> Workload {
    let name = |level: usize| "abcdefghijklmnopq"[level..=level].repeat(32);
    let path = |levels: usize| (0..levels).map(|level| format!("/{}", name(level))).collect::<String>();
    let line = |levels: usize, last: usize| format!("({}, ({}, {{}}))\n", if levels == 0 { "/".into() } else { path(levels) }, name(last));
    let nested = |levels: std::ops::Range<usize>, inside: &str| {
        let open: String = levels.clone().map(|level| format!("<{}>", name(level))).collect();
        let close: String = levels.rev().map(|level| format!("</{}>", name(level))).collect();
        format!("{open}{inside}{close}")
    };
    let whole = |inside: &str| nested(0..7, &(nested(16..17, inside) + &nested(7..16, inside)));
    let mut archive = Growing::new(&((0..8).map(|level| line(level, level)).collect::<String>() + &line(7, 16)));
    archive.add(&whole("before"));
    (1..8).rev().for_each(|levels| archive.add(&nested(0..levels, "")));
    archive.add(&whole("after"));
    archive.done("deep", &path(8))
}
