//! Asks the reference and the station, compares, and keeps count.

use crate::random::Random;
use crate::station::{answer, Call, Expected, Returned, Station, CALLS};
use std::collections::BTreeMap;
use std::fmt::Write;

/// Bytes on both sides of the output, and of the table, that nobody may touch.
const GUARD: usize = 64;
/// 0, and the rows of the table up to 17.
const NUMBERS: usize = 18;

/// Differences of one kind: how many, and the shortest in full.
pub struct Difference {
    pub count: u64,
    pub size: usize,
    pub text: String,
}

pub struct Comparison<'a> {
    station: &'a dyn Station,
    /// Calls compared, by call and by the number expected.
    pub counts: [[u64; NUMBERS]; CALLS.len()],
    /// Demand 3: results measured against a shelf.
    pub shelf_checks: u64,
    /// By call, expected number and returned number.
    pub differences: BTreeMap<(usize, u32, u32), Difference>,
    /// What is being run, told with a difference.
    pub place: String,
    /// A file that is given each case before the station is asked, so that it has the last one
    /// if the station never returns.
    last_case: Option<String>,
    output: Guarded,
    table: Guarded,
}

/// What a call may write to, between guards, and what should be there when it returns.
#[derive(Default)]
struct Guarded {
    buffer: Vec<u8>,
    expected: Vec<u8>,
}

impl Guarded {
    /// Lends so many bytes with a pattern in them.
    fn fill(&mut self, length: usize) {
        self.expected.clear();
        self.expected.extend((0..length + 2 * GUARD).map(|at| (at as u8).wrapping_mul(37) ^ 0xA5));
        self.buffer.clone_from(&self.expected);
    }

    /// Puts bytes at the front of what is lent.
    fn lend(&mut self, bytes: &[u8]) {
        self.buffer[GUARD..GUARD + bytes.len()].copy_from_slice(bytes);
    }

    /// Expects bytes at the front of what is lent.
    fn expect(&mut self, bytes: &[u8]) {
        self.expected[GUARD..GUARD + bytes.len()].copy_from_slice(bytes);
    }

    fn lent(&mut self) -> &mut [u8] {
        let end = self.buffer.len() - GUARD;
        &mut self.buffer[GUARD..end]
    }

    /// The first byte that is not as expected, if there is one.
    fn told(&self, what: &str) -> Option<String> {
        if self.buffer == self.expected {
            return None;
        }
        let at = (0..self.buffer.len()).find(|&at| self.buffer[at] != self.expected[at])?;
        let place = at as isize - GUARD as isize;
        Some(format!("  the {what} differs at byte {place}: {:02x} expected, {:02x} there\n", self.expected[at], self.buffer[at]))
    }
}

impl<'a> Comparison<'a> {
    pub fn new(station: &'a dyn Station) -> Comparison<'a> {
        Comparison {
            station,
            counts: [[0; NUMBERS]; CALLS.len()],
            shelf_checks: 0,
            differences: BTreeMap::new(),
            place: String::new(),
            last_case: std::env::var("COMPARE_LAST_CASE").ok(),
            output: Guarded::default(),
            table: Guarded::default(),
        }
    }

    /// Compares a call, lent one output or several: enough, exact, one byte short, none.
    /// Gives the reference's answer for an output that is long enough.
    pub fn ask(&mut self, r: &mut Random, keys: &[u8], call: Call) -> Expected {
        let full = answer(keys, call, usize::MAX);
        let length = full.bytes.len();
        if !call.has_output() {
            self.compare(keys, call, &full, 0);
        } else if full.number != 0 {
            let out_len = r.choose(&[0, 1, 100, 5_000, 32_768]);
            self.compare(keys, call, &full, out_len);
        } else {
            match r.below(4) {
                0 => self.compare(keys, call, &full, length + 1 + r.below(300)),
                1 => self.compare(keys, call, &full, 32_768),
                _ => self.compare(keys, call, &full, length),
            }
            match r.below(6) {
                0 if length > 0 => self.compare(keys, call, &full, length - 1),
                1 => self.compare(keys, call, &full, 0),
                2 if length > 0 => {
                    let out_len = r.below(length);
                    self.compare(keys, call, &full, out_len);
                }
                _ => (),
            }
        }
        full
    }

    /// Compares a call with each output length of interest.
    pub fn ask_each_output(&mut self, keys: &[u8], call: Call) -> Expected {
        let full = answer(keys, call, usize::MAX);
        let length = full.bytes.len();
        self.compare(keys, call, &full, length);
        if call.has_output() {
            self.compare(keys, call, &full, length + 1);
            self.compare(keys, call, &full, 32_768);
            if length > 0 {
                self.compare(keys, call, &full, length - 1);
                self.compare(keys, call, &full, 0);
            }
        }
        full
    }

    /// Compares a call with an output that is just long enough, and with one that is a byte short:
    /// cheaper than each output length of interest, where there are many cases.
    pub fn ask_short_and_exact(&mut self, keys: &[u8], call: Call) {
        let full = answer(keys, call, usize::MAX);
        let length = full.bytes.len();
        self.compare(keys, call, &full, length);
        if length > 0 {
            self.compare(keys, call, &full, length - 1);
        }
    }

    /// Compares one call of the station with the answer for a long enough output: number, length,
    /// version found, and all of the output and of the table, with guards around them.
    fn compare(&mut self, keys: &[u8], call: Call, full: &Expected, out_len: usize) {
        let short = full.number == 0 && out_len < full.bytes.len();
        let (number, result, table): (u32, &[u8], &[u8]) = if short { (14, &[], call.table()) } else { (full.number, &full.bytes, &full.table) };
        let expected = Returned { number, length: result.len(), version: full.version };
        self.counts[call.index()][number as usize] += 1;

        self.output.fill(out_len);
        self.output.expect(result);
        self.table.fill(table.len());
        self.table.lend(call.table());
        self.table.expect(table);
        let title = || format!("{} ({}), output of {out_len} bytes\n{}", CALLS[call.index()], self.place, arguments(keys, call));
        if let Some(file) = &self.last_case {
            std::fs::write(file, title()).expect("the file COMPARE_LAST_CASE names");
        }
        let got = self.station.call(keys, call, self.table.lent(), self.output.lent());
        let differences = [self.output.told("output"), self.table.told("table")];
        if got != expected || differences.iter().any(Option::is_some) {
            let mut told = title();
            let _ = writeln!(told, "  expected: {}, {}", returned(expected), shown(result));
            let _ = write!(told, "  returned: {}", returned(got));
            if got.number == 0 && got.length <= out_len {
                let _ = write!(told, ", {}", shown(&self.output.lent()[..got.length]));
            }
            told.push('\n');
            differences.into_iter().flatten().for_each(|difference| told += &difference);
            self.note(call.index(), number, got.number, size(keys, call) + out_len, told);
        }
    }

    /// Demand 3: a result, or a table, is what the shelf gives.
    pub fn shelf_gives(&mut self, keys: &[u8], call: Call, result: &[u8], shelfs: &[u8]) {
        self.shelf_checks += 1;
        if result != shelfs {
            let told = format!(
                "{} ({}), demand 3\n{}  the shelf's: {}\n  the result:  {}\n",
                CALLS[call.index()],
                self.place,
                arguments(keys, call),
                shown(shelfs),
                shown(result)
            );
            self.note(call.index(), 0, 0, size(keys, call), told);
        }
    }

    fn note(&mut self, call: usize, expected: u32, returned: u32, size: usize, text: String) {
        let entry = self.differences.entry((call, expected, returned));
        let difference = entry.or_insert(Difference { count: 0, size: usize::MAX, text: String::new() });
        difference.count += 1;
        if size < difference.size {
            (difference.size, difference.text) = (size, text);
        }
    }

    pub fn cases(&self) -> u64 {
        self.counts.iter().flatten().sum()
    }

    /// Cases by call and by number, and the differences.
    pub fn summary(&self) -> String {
        let mut told = String::from("number     ");
        CALLS.iter().for_each(|call| told += &format!("{call:>16}"));
        told += &format!("{:>16}\n", "all");
        for number in 0..NUMBERS {
            let row: Vec<u64> = self.counts.iter().map(|counts| counts[number]).collect();
            told += &format!("{number:>6}     ");
            row.iter().for_each(|count| told += &format!("{count:>16}"));
            told += &format!("{:>16}\n", row.iter().sum::<u64>());
        }
        told += "   all     ";
        self.counts.iter().for_each(|counts| told += &format!("{:>16}", counts.iter().sum::<u64>()));
        told += &format!("{:>16}\n", self.cases());
        told += &format!("results measured against a shelf (demand 3): {}\n", self.shelf_checks);
        if self.differences.is_empty() {
            told += "no difference\n";
        } else {
            let all: u64 = self.differences.values().map(|difference| difference.count).sum();
            told += &format!("DIFFERENCES: {all}, of {} kinds; the shortest of each:\n", self.differences.len());
            for ((call, expected, returned), difference) in self.differences.iter().take(12) {
                told += &format!("\n{} expected {expected} returned {returned}: {} times\n", CALLS[*call], difference.count);
                told += &difference.text;
            }
        }
        told
    }
}

fn size(keys: &[u8], call: Call) -> usize {
    keys.len()
        + match call {
            Call::CheckKeys | Call::LongestHistory { .. } => 0,
            Call::Found { version } => version.len(),
            Call::Add { archive, version } => archive.len() + version.len(),
            Call::Retrieve { archive, .. } => archive.len(),
            Call::History { archive, address } => archive.len() + address.len(),
            Call::Back { archive, table, .. } => archive.len() + weight(table),
            Call::BackToMark { archive, table, name } | Call::SetMark { archive, table, name, .. } | Call::FindMark { archive, table, name } => {
                archive.len() + weight(table) + name.len()
            }
        }
}

/// The bytes that are not zero: a table of few marks is a short one.
fn weight(table: &[u8]) -> usize {
    table.iter().filter(|&&byte| byte != 0).count()
}

fn arguments(keys: &[u8], call: Call) -> String {
    let line = |what: &str, bytes: &[u8]| format!("  {:<10}{}\n", format!("{what}:"), shown(bytes));
    let number = |i: usize| format!("  i:        {i}\n");
    let keys = line("keys", keys);
    keys + &match call {
        Call::CheckKeys => String::new(),
        Call::Found { version } => line("version", version),
        Call::Add { archive, version } => line("archive", archive) + &line("version", version),
        Call::Retrieve { archive, i } => line("archive", archive) + &number(i),
        Call::History { archive, address } => line("archive", archive) + &line("address", address),
        Call::Back { archive, table, i } => line("archive", archive) + &table_line(table) + &number(i),
        Call::BackToMark { archive, table, name } | Call::FindMark { archive, table, name } => {
            line("archive", archive) + &table_line(table) + &line("name", name)
        }
        Call::SetMark { archive, table, name, i } => line("archive", archive) + &table_line(table) + &line("name", name) + &number(i),
        // It takes no key list.
        Call::LongestHistory { n } => return format!("  n:        {n}\n"),
    }
}

/// A table with its length, without the zero bytes at its end.
fn table_line(table: &[u8]) -> String {
    let end = table.iter().rposition(|&byte| byte != 0).map_or(0, |last| last + 1);
    format!("  table:    {} bytes, {} and zero bytes\n", table.len(), shown(&table[..end]))
}

fn returned(Returned { number, length, version }: Returned) -> String {
    format!("number {number}, length {length}, version {version}")
}

fn shown(bytes: &[u8]) -> String {
    format!("b\"{}\"", bytes.escape_ascii())
}
