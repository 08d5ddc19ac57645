//! `bench [SECONDS]`: times of the calls on each workload, of the library behind its C entries
//! (feature `library`), the plain implementation and libxml2 (feature `libxml2`), and the stack
//! that the calls use. Prints Markdown. Exit status 1 if library and plain give different results.

#[cfg(feature = "libxml2")]
mod libxml2;
mod stack;
mod timing;

use bench::station::Plain;
use bench::workloads::{self, Workload};
use compare::station::{Call, Station, CALLS};
use std::hint::black_box;
use std::time::Duration;
use timing::Times;

#[cfg(feature = "library")]
const LIBRARY: &dyn Station = &compare::station::library::Library;
/// Plain stands in for the library, so that the program can be tried without it.
#[cfg(not(feature = "library"))]
const LIBRARY: &dyn Station = &Plain;

const OUTPUT: usize = 32_768;

/// What was measured of a call on a workload. No libxml2 times if it reads nothing.
struct Row<'a> {
    workload: &'a str,
    call: &'static str,
    library: Times,
    plain: Times,
    libxml2: Option<Times>,
    stack: [Option<usize>; 2],
}

fn main() {
    let seconds = std::env::args().nth(1).map_or(Some(30.0), |text| text.parse::<f64>().ok());
    let Some(seconds) = seconds else {
        eprintln!("usage: bench [SECONDS]");
        std::process::exit(2);
    };
    let workloads = workloads::all();
    agree(&workloads);
    let time = Duration::from_secs_f64(seconds / (workloads.len() * CALLS.len()) as f64);
    let rows: Vec<Row> = workloads.iter().flat_map(|workload| workload.calls().map(|call| row(workload, call, time))).collect();
    let name = if cfg!(feature = "library") { "the library libfirmware.a" } else { "plain Rust itself, in place of the library" };
    println!("Library: {name}. Times in microseconds.\n");
    print_workloads(&workloads);
    print_medians(&rows);
    print_worst(&rows);
    print_stack(&rows);
}

/// Both give the same results, and refuse none of the calls.
fn agree(workloads: &[Workload]) {
    for workload in workloads {
        for call in workload.calls() {
            let results = [LIBRARY, &Plain].map(|station| {
                let (mut table, mut out) = (call.table().to_vec(), vec![0xA5; OUTPUT]);
                (station.call(&workload.keys, call, &mut table, &mut out), table, out)
            });
            let [(library, ..), (plain, ..)] = &results;
            if results[0] != results[1] || plain.number != 0 {
                eprintln!("{} of {}: the library returned {library:?}, plain {plain:?}, or the outputs or tables differ", CALLS[call.index()], workload.name);
                std::process::exit(1);
            }
        }
    }
}

fn row<'a>(workload: &'a Workload, call: Call<'a>, time: Duration) -> Row<'a> {
    let mut contenders = vec![caller(LIBRARY, workload, call), caller(&Plain, workload, call)];
    contenders.extend(libxml2_reader(call));
    let mut times = timing::measure(&mut contenders, time).into_iter();
    let stack = [LIBRARY, &Plain].map(|station| stack::used(&mut *caller(station, workload, call)));
    let (Some(library), Some(plain)) = (times.next(), times.next()) else { unreachable!("two are measured") };
    Row { workload: workload.name, call: CALLS[call.index()], library, plain, libxml2: times.next(), stack }
}

/// What a call is lent to write to, and the bytes that its table has each time. Each lies at one place of a page, whatever was
/// allocated before: a copy between places whose distance is nearly a multiple of 4,096 bytes takes longer.
#[repr(C, align(4096))]
struct Lent {
    fresh: [u8; 1_024],
    table: [u8; 1_024],
    out: [u8; OUTPUT],
}

fn caller<'a>(station: &'static dyn Station, workload: &'a Workload, call: Call<'a>) -> Box<dyn FnMut() + 'a> {
    let length = call.table().len();
    let mut lent = Box::new(Lent { fresh: [0; 1_024], table: [0; 1_024], out: [0; OUTPUT] });
    lent.fresh[..length].copy_from_slice(call.table());
    Box::new(move || {
        let Lent { fresh, table, out } = &mut *lent;
        // A call may change the table: each is lent the same one.
        table[..length].copy_from_slice(&fresh[..length]);
        black_box(station.call(black_box(&workload.keys), black_box(call), black_box(&mut table[..length]), black_box(out)));
    })
}

/// libxml2 reading the XML texts that a call takes.
#[cfg(feature = "libxml2")]
fn libxml2_reader<'a>(call: Call<'a>) -> Option<Box<dyn FnMut() + 'a>> {
    let texts: Vec<&[u8]> = match call {
        Call::CheckKeys | Call::LongestHistory { .. } => return None,
        Call::Found { version } => vec![version],
        Call::Add { archive, version } => vec![archive, version],
        Call::Retrieve { archive, .. } | Call::History { archive, .. } | Call::Back { archive, .. } => vec![archive],
        Call::BackToMark { archive, .. } | Call::SetMark { archive, .. } | Call::FindMark { archive, .. } => vec![archive],
    };
    assert!(texts.iter().all(|text| libxml2::read(text)), "libxml2 reads the texts");
    Some(Box::new(move || {
        texts.iter().for_each(|text| {
            black_box(libxml2::read(black_box(text)));
        })
    }))
}

#[cfg(not(feature = "libxml2"))]
fn libxml2_reader<'a>(_: Call<'a>) -> Option<Box<dyn FnMut() + 'a>> {
    None
}

fn print_workloads(workloads: &[Workload]) {
    println!("| workload | versions | key list bytes | archive bytes | archive nodes | last version bytes |\n|---|--:|--:|--:|--:|--:|");
    for workload in workloads {
        let (keys, archive, version) = (workload.keys.len(), workload.archive.len(), workload.version.len());
        println!("| {} | {} | {keys} | {archive} | {} | {version} |", workload.name, workload.n, workload.nodes());
    }
    println!();
}

fn print_medians(rows: &[Row]) {
    println!("| workload | call | library, median | plain, median | libxml2, median | library / plain | library / libxml2 | plain / libxml2 |\n|---|---|--:|--:|--:|--:|--:|--:|");
    for Row { workload, call, library, plain, libxml2, .. } in rows {
        let by = |over: f64, under: Option<f64>| under.map_or("".into(), |under| figures(over / under));
        let read = libxml2.as_ref().map(|times| times.median);
        println!(
            "| {workload} | {call} | {} | {} | {} | {} | {} | {} |",
            microseconds(library.median),
            microseconds(plain.median),
            read.map_or("".into(), microseconds),
            by(library.median, Some(plain.median)),
            by(library.median, read),
            by(plain.median, read)
        );
    }
    println!();
}

fn print_worst(rows: &[Row]) {
    println!("| workload | call | library, 99 % within | library, worst | plain, 99 % within | plain, worst |\n|---|---|--:|--:|--:|--:|");
    for Row { workload, call, library, plain, .. } in rows {
        let [a, b, c, d] = [library.most, library.worst, plain.most, plain.worst].map(microseconds);
        println!("| {workload} | {call} | {a} | {b} | {c} | {d} |");
    }
    println!();
}

fn print_stack(rows: &[Row]) {
    println!("| workload | call | library, bytes of stack | plain, bytes of stack |\n|---|---|--:|--:|");
    for Row { workload, call, stack, .. } in rows {
        let [library, plain] = stack.map(|bytes| bytes.map_or(format!("under {}", stack::MARGIN), |bytes| bytes.to_string()));
        println!("| {workload} | {call} | {library} | {plain} |");
    }
}

fn microseconds(nanoseconds: f64) -> String {
    figures(nanoseconds / 1_000.0)
}

/// With three figures or so.
fn figures(value: f64) -> String {
    match value {
        _ if value < 10.0 => format!("{value:.2}"),
        _ if value < 100.0 => format!("{value:.1}"),
        _ => format!("{value:.0}"),
    }
}
