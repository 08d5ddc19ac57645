//! The record of one station: the three archives, P1 to P10, and the station struck off and relit.

use reference::marks::TABLE_BYTES;
use reference::{add, back, check_keys, found, history, retrieve, Answer, WORK_CELLS};

const KEYS: &str = "(/, (station, {}))\n(/station, (light, {}))\n(/station, (lamp, {pos}))\n(/station/lamp, (type, {}))\n(/station/lamp, (hours, {}))\n";
const V1: &str = "<station><light>Fl 5s</light><lamp><pos>2</pos><type>A</type><hours>40</hours></lamp></station>";
const V2: &str = "<station>\n  <light>Fl 5s</light>\n  <lamp><pos>2</pos><type>A</type><hours>90</hours></lamp>\n  <lamp><pos>1</pos><type>B</type></lamp>\n</station>\n";
const V3: &str = "<station><light>Fl 5s</light><lamp><pos>1</pos><type>B</type></lamp></station>";
const LINE1: &str = r#"<T t="1"><station><lamp><hours>40</hours><pos>2</pos><type>A</type></lamp><light>Fl 5s</light></station></T>"#;
const LINE2: &str = r#"<T t="1-2"><station><T t="2"><lamp><pos>1</pos><type>B</type></lamp></T><lamp><hours><T t="1">40</T><T t="2">90</T></hours><pos>2</pos><type>A</type></lamp><light>Fl 5s</light></station></T>"#;
const LINE3: &str = r#"<T t="1-3"><station><T t="2-3"><lamp><pos>1</pos><type>B</type></lamp></T><T t="1-2"><lamp><hours><T t="1">40</T><T t="2">90</T></hours><pos>2</pos><type>A</type></lamp></T><light>Fl 5s</light></station></T>"#;

fn gives(text: &str) -> Answer {
    Answer { number: 0, bytes: text.as_bytes().to_vec() }
}

fn refused(number: u32) -> Answer {
    Answer { number, bytes: vec![] }
}

#[test]
fn keys_and_three_archives() {
    let keys = KEYS.as_bytes();
    assert_eq!(check_keys(keys, WORK_CELLS), gives(""));
    assert_eq!(found(keys, V1.as_bytes(), LINE1.len(), WORK_CELLS), gives(LINE1));
    assert_eq!(add(keys, LINE1.as_bytes(), V2.as_bytes(), LINE2.len(), WORK_CELLS), gives(LINE2));
    assert_eq!(add(keys, LINE2.as_bytes(), V3.as_bytes(), LINE3.len(), WORK_CELLS), gives(LINE3));
}

#[test]
fn p1_to_p10() {
    let (keys, archive) = (KEYS.as_bytes(), LINE3.as_bytes());
    let history = |address: &str| history(keys, archive, address.as_bytes(), 4_096, WORK_CELLS);
    let back = |i| back(keys, archive, &mut [0; TABLE_BYTES], i, 4_096, WORK_CELLS);
    let found = |version: &str| found(keys, version.as_bytes(), 4_096, WORK_CELLS);
    assert_eq!(history(r#"/station/lamp[pos="1"]"#), gives("2-3"), "P1");
    assert_eq!(history(r#"/station/lamp[pos="2"]/hours"#), gives("1-2"), "P2");
    assert_eq!(history(r#"/station/lamp[pos="7"]"#), gives(""), "P3");
    assert_eq!(back(2), gives(LINE2), "P4");
    assert_eq!(back(1), gives(LINE1), "P5");
    assert_eq!(back(0), refused(11), "P6");
    assert_eq!(retrieve(keys, archive, 4, 4_096, WORK_CELLS), refused(11), "P7");
    // Q-6: "A version that is empty or white space alone is now legal, replacing case P8."
    assert_eq!(found(""), gives(r#"<T t="1"></T>"#), "P8");
    assert_eq!(found("<station><lamp><pos>2</pos></lamp><lamp><pos>2</pos></lamp></station>"), refused(9), "P9");
    assert_eq!(found("<station><lamp><type>A</type></lamp></station>"), refused(8), "P10");
}

#[test]
fn versions_read_back() {
    let (keys, archive) = (KEYS.as_bytes(), LINE3.as_bytes());
    let retrieve = |i| retrieve(keys, archive, i, 4_096, WORK_CELLS);
    assert_eq!(retrieve(1), gives("<station><lamp><hours>40</hours><pos>2</pos><type>A</type></lamp><light>Fl 5s</light></station>"));
    assert_eq!(retrieve(2), gives("<station><lamp><pos>1</pos><type>B</type></lamp><lamp><hours>90</hours><pos>2</pos><type>A</type></lamp><light>Fl 5s</light></station>"));
    assert_eq!(retrieve(3), gives("<station><lamp><pos>1</pos><type>B</type></lamp><light>Fl 5s</light></station>"));
}

/// The station is struck off after version 3, and relit as it was then.
#[test]
fn struck_off_and_relit() {
    let line4 = r#"<T t="1-4"><T t="1-3"><station><T t="2-3"><lamp><pos>1</pos><type>B</type></lamp></T><T t="1-2"><lamp><hours><T t="1">40</T><T t="2">90</T></hours><pos>2</pos><type>A</type></lamp></T><light>Fl 5s</light></station></T></T>"#;
    let line5 = r#"<T t="1-5"><T t="1-3,5"><station><T t="2-3,5"><lamp><pos>1</pos><type>B</type></lamp></T><T t="1-2"><lamp><hours><T t="1">40</T><T t="2">90</T></hours><pos>2</pos><type>A</type></lamp></T><light>Fl 5s</light></station></T></T>"#;
    let (keys, archive) = (KEYS.as_bytes(), line5.as_bytes());
    assert_eq!(add(keys, LINE3.as_bytes(), b"", line4.len(), WORK_CELLS), gives(line4));
    assert_eq!(add(keys, line4.as_bytes(), V3.as_bytes(), line5.len(), WORK_CELLS), gives(line5));
    assert_eq!(add(keys, line4.as_bytes(), V3.as_bytes(), line5.len() - 1, WORK_CELLS), refused(14));
    let history = |address: &str| history(keys, archive, address.as_bytes(), 4_096, WORK_CELLS);
    assert_eq!(history("/station"), gives("1-3,5"));
    assert_eq!(history("/station/light"), gives("1-3,5"));
    assert_eq!(history(r#"/station/lamp[pos="1"]"#), gives("2-3,5"));
    assert_eq!(retrieve(keys, archive, 4, 0, WORK_CELLS), gives(""));
    let lit = "<station><lamp><pos>1</pos><type>B</type></lamp><light>Fl 5s</light></station>";
    assert_eq!(retrieve(keys, archive, 5, lit.len(), WORK_CELLS), gives(lit));
    let back = |i| back(keys, archive, &mut [0; TABLE_BYTES], i, 4_096, WORK_CELLS);
    assert_eq!((back(5), back(4), back(3), back(2)), (gives(line5), gives(line4), gives(LINE3), gives(LINE2)));
}

/// The shelving mistakes.
#[test]
fn gap_in_one_set_and_empty_content() {
    let keys = KEYS.as_bytes();
    let lamp = "<station><lamp><pos>1</pos><hours/></lamp></station>";
    let none = "<station> </station>";
    let mut archive = found(keys, lamp.as_bytes(), 4_096, WORK_CELLS).bytes;
    for version in [none, lamp] {
        archive = add(keys, &archive, version.as_bytes(), 4_096, WORK_CELLS).bytes;
    }
    let gap = r#"<T t="1-3"><station><T t="1,3"><lamp><hours></hours><pos>1</pos></lamp></T></station></T>"#;
    assert_eq!(archive, gap.as_bytes());
    let filled = "<station><lamp><pos>1</pos><hours>5</hours></lamp></station>";
    let archive = add(keys, &archive, filled.as_bytes(), 4_096, WORK_CELLS).bytes;
    let two = r#"<T t="1-4"><station><T t="1,3-4"><lamp><hours><T t="1,3"></T><T t="4">5</T></hours><pos>1</pos></lamp></T></station></T>"#;
    assert_eq!(archive, two.as_bytes());
    assert_eq!(back(keys, &archive, &mut [0; TABLE_BYTES], 3, 4_096, WORK_CELLS), gives(gap));
    assert_eq!(history(keys, &archive, br#"/station/lamp[pos="1"]/hours"#, 10, WORK_CELLS), gives("1,3-4"));
}
