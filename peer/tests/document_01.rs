//! Document 01 with change requests K1, K5 and K7, told by examples.
use peer::gen::{same, trace, Script, Tape, KINDS};
use peer::rig::*;
use peer::rules::{faults, unseen, Rules};
use peer::trace::{replay, replay_bytes, HEADER, OUT_HEADER};
use peer::vectors::{session_s, vectors};
use std::io::Read;
use std::path::Path;

const AT_REST: u32 = HANDLE | GEAR_EXTENDED | DOOR_CLOSED;

fn out(input: &[u8]) -> String {
    String::from_utf8(replay_bytes(&Rules::default(), input).0).unwrap()
}

fn after_header(input: &[u8]) -> String {
    out(input).strip_prefix(std::str::from_utf8(OUT_HEADER).unwrap()).unwrap().to_string()
}

#[test]
fn session_s_with_the_lamps_of_k1() {
    let wanted = "step,code,general_EV,close_EV,open_EV,retract_EV,extend_EV,doors,gears,green,orange,red
0,0,0,0,0,0,0,CLOSED,EXTENDED,1,0,0
1,0,0,0,0,0,0,CLOSED,EXTENDED,1,0,0
2,0,1,0,0,0,0,OPENING,EXTENDED,1,0,0
3,0,1,0,0,0,0,OPENING,EXTENDED,1,0,0
4,0,1,0,1,0,0,OPENING,EXTENDED,1,0,0
5,3,1,0,1,0,0,OPENING,EXTENDED,1,0,0
6,0,1,0,0,0,0,OPEN,EXTENDED,1,1,0
7,0,1,0,0,1,0,OPEN,RETRACTING,1,1,0
8,4,1,0,0,1,0,OPEN,RETRACTING,1,1,0
9,0,1,0,0,0,0,OPEN,EXTENDING,0,1,0
10,0,1,0,0,0,0,OPEN,EXTENDING,0,1,0
11,0,1,0,0,0,1,OPEN,EXTENDING,0,1,0
";
    let text = session_s();
    let row_0 = "0,1000,111,000,111,111,111,000,000,000,000,000,000,111,111,111,000,000,000,000";
    assert_eq!(text.split(|&b| b == b'\n').nth(1).unwrap(), [row_0, "\r"].concat().as_bytes());
    assert_eq!(out(&text), wanted.replace('\n', "\r\n"));
}

/// Every file that is stored for the crate `cases` has a line in its INDEX and is what the peer writes, and none is
/// missing.
#[test]
fn what_is_stored_is_the_peers() {
    let cases = Path::new("../crates/cases");
    assert_eq!(peer::stored::check(cases).unwrap(), Vec::<String>::new());
}

#[test]
fn stamps_p4_p5() {
    let mut tape = Tape::new(4_294_967_290, same(AT_REST));
    assert_eq!(tape.at(4, same(AT_REST)), 0);
    assert_eq!(tape.at(105, same(AT_REST)), 4);
    assert_eq!(tape.at(104, same(AT_REST)), 0);
    assert_eq!(tape.at(104, same(AT_REST)), 3);
    assert_eq!(tape.at(103, same(AT_REST)), 4);
}

#[test]
fn ages_start_at_the_cap_and_stay() {
    let mut s = Script::new(0);
    assert_eq!([0, 1, 2, 3, 4, 5].map(|clock| s.age(clock)), [60_000; 6]);
    s.step(100);
    assert_eq!([0, 1, 2, 3, 4, 5].map(|clock| s.age(clock)), [60_000; 6]);
    s.handle(false, 1);
    assert_eq!((s.age(HANDLE_CLOCK), s.age(GENERAL), s.age(OPEN)), (0, 0, 60_000));
}

#[test]
fn rows_and_their_ends() {
    let head = [HEADER, b"\r\n"].concat();
    let row = b"0,5,111,000,111,111,111,000,000,000,000,000,000,111,111,111,000,000,000,000";
    let shown = "0,0,0,0,0,0,0,CLOSED,EXTENDED,1,0,0\r\n";
    let refused = |line: u32, refusal: u32| format!("{line},{refusal},,,,,,,,,,\r\n");
    let with = |tail: &[u8]| [&head[..], tail].concat();
    assert_eq!(after_header(b""), refused(1, 5));
    assert_eq!(after_header(HEADER), "");
    assert_eq!(after_header(&head), "");
    assert_eq!(after_header(&with(row)), shown);
    assert_eq!(after_header(&with(&[row, &b"\r\n"[..]].concat())), shown);
    assert_eq!(after_header(&with(&[row, &b"\r\n\r\n"[..]].concat())), shown.to_string() + &refused(3, 5));
    assert_eq!(after_header(&with(&[row, &b"\r"[..]].concat())), refused(2, 5));
    assert_eq!(after_header(&with(&[row, &b"\r\r\n"[..]].concat())), refused(2, 5));
    assert_eq!(after_header(&with(&[b"1", &row[1..]].concat())), refused(2, 7));
    assert_eq!(after_header(&with(&[b"4294967296", &row[1..]].concat())), refused(2, 5));
    assert_eq!(after_header(&with(&[b'x'; 512])), refused(2, 5));
    assert_eq!(after_header(&with(&[b'x'; 513])), refused(2, 6));
    assert_eq!(after_header(&with(&[&[b'x'; 512], &b"\r\n"[..]].concat())), refused(2, 5));
    assert_eq!(after_header(&with(&[&[b'x'; 512], &b"\r"[..]].concat())), refused(2, 6));
    assert_eq!(after_header(&with(&[&[b'x'; 511], &b"\r"[..]].concat())), refused(2, 5));
    assert_eq!(after_header(&[b'x'; 513]), refused(1, 6));
    assert_eq!(after_header(&[b'x'; 512]), refused(1, 5));
}

/// Pieces of any size give the same output as the whole.
#[test]
fn read_in_pieces() {
    struct Pieces<'a>(&'a [u8], usize);
    impl Read for Pieces<'_> {
        fn read(&mut self, buf: &mut [u8]) -> std::io::Result<usize> {
            let n = self.1.min(buf.len()).min(self.0.len());
            buf[..n].copy_from_slice(&self.0[..n]);
            self.0 = &self.0[n..];
            Ok(n)
        }
    }
    for seed in 0..240 {
        let input = trace(seed, KINDS[seed as usize % KINDS.len()], None).unwrap();
        let whole = replay_bytes(&Rules::default(), &input).0;
        for size in [1, 2, 7, 513] {
            let mut text = Vec::new();
            let _ = replay(&Rules::default(), Pieces(&input, size), &mut text);
            assert!(text == whole, "seed {seed}, pieces of {size}");
        }
    }
}

#[test]
fn laws_over_random_traces() {
    for seed in 0..600 {
        let kind = KINDS[seed as usize % KINDS.len()];
        let text = out(&trace(seed, kind, None).unwrap());
        for row in text.lines().skip(1) {
            let f: Vec<&str> = row.split(',').collect();
            if f[2].is_empty() {
                continue;
            }
            let on: Vec<bool> = f[2..7].iter().map(|o| *o == "1").collect();
            assert!(!(on[CLOSE] && on[OPEN] || on[RETRACT] && on[EXTEND]), "{kind} {seed}: {row}");
            assert!(on[GENERAL] || !on.contains(&true), "{kind} {seed}: {row}");
            assert!(!(on[RETRACT] || on[EXTEND]) || f[7] == "OPEN", "{kind} {seed}: {row}");
            assert!(
                !(on[CLOSE] || on[OPEN]) || f[8] == "EXTENDED" || f[8] == "RETRACTED",
                "{kind} {seed}: {row}"
            );
        }
    }
}

/// The lamp columns of a stored vector, row by row.
fn lamps(name: &str) -> Vec<String> {
    let (_, text) = vectors().into_iter().find(|v| v.0 == name).unwrap();
    out(&text).lines().skip(1).map(|row| row[row.len() - 5..].replace(',', "")).collect()
}

#[test]
fn a_fresh_start_shows_green_only() {
    let rules = Rules::default();
    let rig = Rig::fresh(&rules, 0);
    assert_eq!((rig.held, rig.lights(&rules)), (AT_REST, [true, false, false]));
    // Row 0, its sample not used; then refused samples.
    let mut tape = Tape::new(5, same(0));
    assert_eq!((tape.at(5, same(0)), tape.at(106, same(0))), (3, 4));
    for row in after_header(&tape.text).lines() {
        assert!(row.ends_with(",CLOSED,EXTENDED,1,0,0"), "{row}");
    }
}

/// Every value of the sensors that lamps read, and door_open, which they do not.
#[test]
fn lamps_by_the_voted_sensors() {
    let rules = Rules::default();
    for seen in 0..1u32 << 12 {
        let [extended, retracted, closed, open] = [0, 3, 6, 9].map(|at| seen >> at & 7);
        let sample = HANDLE | extended << 2 | retracted << 5 | closed << 11 | open << 14;
        let mut rig = Rig::fresh(&rules, 0);
        assert_eq!(rig.step(&rules, 1, same(sample)), 0);
        let at = |three: u32, unit: u32| three & 1 << unit != 0;
        let green = (0..3).all(|gear| at(extended, gear));
        let orange = (0..3).any(|unit| !at(closed, unit) || !at(extended, unit) && !at(retracted, unit));
        assert_eq!(rig.lights(&rules), [green, orange, false], "{seen:b}");
        // An anomaly, here the switch, adds red and takes nothing away.
        assert_eq!(rig.step(&rules, 2, same(AT_REST | SWITCH)), 0);
        assert_eq!(rig.lights(&rules), [true, false, true]);
        assert_eq!(rig.step(&rules, 3, same(sample)), 0);
        assert_eq!(rig.lights(&rules), [green, orange, true], "{seen:b}");
    }
}

#[test]
fn lamps_keep_the_value_of_an_invalid_sensor() {
    assert_eq!(
        lamps("lamps_invalid_sensor_three"),
        ["100", "100", "100", "100", "100", "100", "101", "101", "101", "011", "001", "101"]
    );
    assert_eq!(
        lamps("lamps_with_anomaly_three"),
        [
            "100", "100", "111", "101", "001", "011", "101", // sound sensors
            "101", "101", "101", "101", "101", "101", "101",
            "101", // the left gear's extended kept at 1
            "111", "111", "111", "111", "111", "111", "111", "111", "011",
            "111", // the front door's closed kept at 0
        ]
    );
}

/// The same samples once each: no sensor is invalid, and the lamps go by the majority.
#[test]
fn lamps_follow_where_channels_bounce() {
    assert_eq!(lamps("lamps_invalid_sensor"), ["100", "100", "010", "010", "010", "010", "010", "100"]);
    assert_eq!(
        lamps("lamps_with_anomaly"),
        [
            "100", "100", "111", "101", "001", "011", "101", // sound sensors
            "101", "011", "011", "011", // the left gear's extended
            "111", "101", "101", "101", "001", "101", // the front door's closed
        ]
    );
}

#[test]
fn lamps_together_and_neither() {
    let both = ["100", "100", "100", "100", "100", "110", "110", "110", "110", "110", "010"];
    assert_eq!(lamps("lamps_green_and_orange"), both);
    let neither = ["100", "100", "000", "000", "000", "000", "000", "000", "000", "100"];
    assert_eq!(lamps("lamps_neither"), neither);
}

#[test]
fn the_lesson_has_no_red() {
    let (_, text) = vectors().into_iter().find(|v| v.0 == "lesson").unwrap();
    let text = out(&text);
    let rows: Vec<&str> = text.lines().skip(1).collect();
    assert!((3_000..=4_000).contains(&rows.len()));
    assert!(rows.iter().all(|row| row.ends_with(",0") && row.contains(",0,")));
    assert!(rows.iter().any(|row| row.ends_with("CLOSED,RETRACTED,0,0,0")));
    assert!(rows.last().unwrap().ends_with(",0,0,0,0,0,0,CLOSED,EXTENDED,1,0,0"));
}

#[test]
fn every_fault_is_in_some_vector() {
    let rules = Rules::default();
    let stored: Vec<_> = vectors().into_iter().map(|v| (replay_bytes(&rules, &v.1).0, v.1)).collect();
    let size: usize = stored.iter().map(|v| v.0.len() + v.1.len()).sum();
    assert!(stored.len() <= 100 && size < 1_500_000);
    let seen = |rules: &Rules| stored.iter().any(|v| replay_bytes(rules, &v.1).0 != v.0);
    for (name, rules) in faults() {
        assert!(seen(&rules), "{name}");
    }
    for (name, rules) in unseen() {
        assert!(!seen(&rules), "{name}");
    }
}
