//! Plain gives what the reference gives, and what document 01 says of the record.

use bench::plain;
use bench::rounds::{damaged_workload, large_versions};
use bench::station::Plain;
use bench::workloads;
use compare::comparison::Comparison;
use compare::limits;
use compare::marks::UNUSED;
use reference::marks::{entries, read};

fn no_difference(c: &Comparison) {
    assert!(c.differences.is_empty(), "{}", c.summary());
}

#[test]
fn the_limits() {
    let mut c = Comparison::new(&Plain);
    limits::run(&mut c);
    no_difference(&c);
}

#[test]
fn some_rounds() {
    let mut c = Comparison::new(&Plain);
    for number in 0..40 {
        compare::round(&mut c, 5, number);
        damaged_workload(&mut c, 5, number);
        large_versions(&mut c, 5, number);
    }
    no_difference(&c);
}

/// The archives of document 01's record, P1 to P7, and P8 as document 02 has it (Q-6).
#[test]
fn the_record() {
    let record = workloads::record();
    let (keys, archive) = (&record.keys, &record.archive);
    let last = r#"<T t="1-3"><station><T t="2-3"><lamp><pos>1</pos><type>B</type></lamp></T><T t="1-2"><lamp><hours><T t="1">40</T><T t="2">90</T></hours><pos>2</pos><type>A</type></lamp></T><light>Fl 5s</light></station></T>"#;
    assert_eq!(archive, last.as_bytes());
    let mut out = [0; 1_000];
    for (address, history) in [("/station/lamp[pos=\"1\"]", "2-3"), ("/station/lamp[pos=\"2\"]/hours", "1-2"), ("/station/lamp[pos=\"7\"]", "")] {
        assert_eq!(plain::history(keys, archive, address.as_bytes(), &mut out), (0, history.len()));
        assert_eq!(&out[..history.len()], history.as_bytes());
    }
    let mut unused = UNUSED;
    assert_eq!(plain::back(keys, archive, &mut unused, 2, &mut out), (0, record.before.len()));
    assert_eq!(out[..record.before.len()], record.before);
    assert_eq!(plain::back(keys, archive, &mut unused, 0, &mut out), (11, 0));
    assert_eq!(unused, UNUSED);
    assert_eq!(plain::retrieve(keys, archive, 4, &mut out), (11, 0));
    assert_eq!(plain::found(keys, b"", &mut out), (0, 13));
    assert_eq!(&out[..13], br#"<T t="1"></T>"#);
}

/// The longest history of few versions and of the most, and no more than it is written.
#[test]
fn the_longest_histories() {
    for (n, text) in [(1, "1"), (2, "1-2"), (3, "2-3"), (6, "2-3,5-6"), (7, "1,3-4,6-7"), (8, "1-2,4-5,7-8"), (10, "1,3-4,6-7,9-10")] {
        let mut out = [b'x'; 20];
        assert_eq!(plain::longest_history(n, &mut out), (0, text.len()));
        assert_eq!(out[..text.len()], *text.as_bytes());
        assert_eq!(out[text.len()..], [b'x'; 20][text.len()..]);
        assert_eq!(plain::longest_history(n, &mut out[..text.len() - 1]), (14, 0));
    }
    assert_eq!(plain::longest_history(999, &mut [0; 2_591]), (0, 2_591));
    assert_eq!(plain::longest_history(999, &mut [0; 2_590]), (14, 0));
    for n in [0, 1_000, 65_537, (1 << 32) + 5, usize::MAX] {
        assert_eq!(plain::longest_history(n, &mut [0; 3_000]), (11, 0), "{n}");
    }
}

/// The workloads are what they are said to be, and legal for the reference too.
#[test]
fn the_workloads() {
    for workload in workloads::all() {
        let reference = reference::retrieve(&workload.keys, &workload.archive, 1, usize::MAX, reference::WORK_CELLS);
        assert_eq!(reference.number, 0, "{}", workload.name);
    }
    let typical = workloads::typical(50);
    let marks = |table: &[u8]| read(&entries(table).unwrap(), typical.n).map(|marks| marks.len());
    assert_eq!((marks(&typical.table), marks(&typical.room), marks(&typical.marked)), (Ok(32), Ok(31), Ok(32)));
    let full = workloads::full();
    assert_eq!((full.nodes(), full.archive.len()), (1_024, 32_768));
    assert_eq!(workloads::counter(999).n, 999);
}
