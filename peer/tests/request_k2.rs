//! Request K2 told by examples, and by what must hold of any dump.
use peer::damage::{dump, moments as drawn, DUMP_KINDS};
use peer::dump::*;
use peer::dump_vectors::dumps;
use peer::gen::{trace, Rng, KINDS};
use peer::rig::Rig;
use peer::rules::{sheet_faults, wave_faults, Rules};
use peer::stored;
use peer::trace::{row, HEADER};
use peer::vectors::{session_s, vectors};
use std::io::Read;
use std::path::Path;

const SESSION_S: &[u8] = include_bytes!("../../crates/cases/data/traces/session_s.vcd");

fn waves_of(trace: &[u8]) -> Vec<u8> {
    waves_bytes(&Rules::default(), trace).0
}

fn read(dump: &[u8]) -> Option<Vec<Moment>> {
    moments(&Rules::default(), dump).ok()
}

fn written(list: &[Moment]) -> Vec<u8> {
    write(&Rules::default(), list)
}

/// The sheet without its header, and whether the dump got 9.
fn sheet_of(dump: &[u8]) -> (String, bool) {
    let (text, refused) = sheet_bytes(&Rules::default(), dump);
    let text = String::from_utf8(text).unwrap();
    let header = format!("time,{}\r\n", WIRES.join(","));
    (text.strip_prefix(&header).unwrap().to_string(), refused.is_some())
}

/// The times of the sheet.
fn times(dump: &[u8]) -> Vec<u64> {
    let text = sheet_of(dump).0;
    assert!(text.is_empty() || text.ends_with("\r\n"));
    text.split_terminator("\r\n").map(|row| row.split(',').next().unwrap().parse().unwrap()).collect()
}

fn vector(name: &str) -> Vec<u8> {
    vectors().into_iter().find(|v| v.0 == name).unwrap().1
}

#[test]
fn session_s_is_the_stored_dump() {
    assert_eq!(waves_of(&session_s()).escape_ascii().to_string(), SESSION_S.escape_ascii().to_string());
}

/// The values that a trace has at every time, by the controller itself: from row 0, and from each
/// accepted row on. Nothing is left out where nothing changes.
fn run(trace: &[u8]) -> Vec<Moment> {
    let rules = Rules::default();
    let text = trace.strip_prefix(HEADER).unwrap().strip_prefix(b"\r\n").unwrap();
    let rows: Vec<_> = text
        .strip_suffix(b"\r\n")
        .unwrap()
        .split(|&b| b == b'\n')
        .map(|line| row(&rules, line.strip_suffix(b"\r").unwrap_or(line)).unwrap())
        .collect();
    let mut rig = Rig::fresh(&rules, rows[0].stamp);
    let mut list = Vec::new();
    let mut time = 0;
    for (n, row) in rows.iter().enumerate() {
        let last = rig.stamp;
        if n > 0 && rig.step(&rules, row.stamp, row.sample) != 0 {
            continue;
        }
        time += (u64::from(rig.stamp) + (1 << 32) - u64::from(last)) % (1 << 32);
        let mut values = u32::from(rig.on);
        for (n, lit) in rig.lights(&rules).into_iter().enumerate() {
            values |= u32::from(lit) << (5 + n);
        }
        list.push((time, values | rig.held << 8));
    }
    list
}

/// What a list of moments says at a time.
fn at(list: &[Moment], time: u64) -> u32 {
    list.iter().rev().find(|m| m.0 <= time).unwrap().1
}

#[test]
fn session_s_read_back_has_the_values_of_the_run_at_every_time() {
    let (run, back) = (run(&session_s()), read(SESSION_S).unwrap());
    assert_eq!(back.iter().map(|m| m.0).collect::<Vec<_>>(), [0, 150, 350, 400, 450, 550, 650]);
    for time in 0..=650 {
        assert_eq!(at(&back, time), at(&run, time), "at {time}");
    }
    let shown = "650,1,0,0,0,1,0,1,0,1,0,0,0,0,0,0,0,0,0,0,0,0,0,1,1,1,0\r\n";
    assert!(sheet_of(SESSION_S).0.ends_with(shown));
}

/// Traces in form: the dump is what is written for the values of the run, and reads back as them.
#[test]
fn dumps_of_random_runs() {
    for seed in 0..300 {
        let kind = KINDS[seed as usize % (KINDS.len() - 1)];
        let text = trace(seed, kind, None).unwrap();
        let (run, dump) = (run(&text), waves_of(&text));
        assert!(dump == written(&run), "{kind} {seed}");
        let back = read(&dump).unwrap();
        let mut shown = back.iter();
        let mut now = 0;
        for (time, values) in run {
            if values != now || time == 0 {
                assert_eq!(shown.next(), Some(&(time, values)), "{kind} {seed}");
            }
            now = values;
        }
        assert_eq!(shown.next(), None);
    }
}

#[test]
fn a_dump_ends_where_the_reading_ends() {
    for name in ["bad_empty", "header_only", "bad_header_case", "bad_header_513", "bad_lone_lf"] {
        assert!(waves_of(&vector(name)).is_empty(), "{name}");
    }
    for name in ["bad_triple_digit", "bad_row_513", "bad_label_next"] {
        let (dump, ended) = waves_bytes(&Rules::default(), &vector(name));
        assert_eq!((dump.len(), ended.is_some()), (head_length(), true), "{name}");
    }
    // Session S but for what its last rows add.
    let until_650 = &SESSION_S[..SESSION_S.len() - b"#650\n1%\n".len()];
    for (name, refusal) in [("bad_row_513_late", 6), ("bad_label_late", 7)] {
        let (dump, ended) = waves_bytes(&Rules::default(), &vector(name));
        assert!(dump == until_650 && ended.unwrap().refusal == refusal, "{name}");
    }
}

#[test]
fn refused_rows_add_no_time_and_the_stamp_goes_round() {
    let dump = waves_of(&vector("lamps_refused_sample"));
    assert_eq!(times(&dump), [0, 100, 200]);
    // From 4,294,967,290: 10, 90 and 100 ms; the first changes nothing.
    assert_eq!(times(&waves_of(&vector("stamp_round"))), [0, 100, 200]);
    assert_eq!(times(&waves_of(&vector("idle_61000"))), [0]);
    assert!(times(&waves_of(&vector("lesson"))).windows(2).all(|t| t[0] < t[1] && t[1] < 60_000));
}

/// Session S with a text in it replaced.
fn with(old: &str, new: &str) -> Vec<u8> {
    let text = std::str::from_utf8(SESSION_S).unwrap();
    assert_eq!(text.matches(old).count(), 1, "{old:?}");
    text.replace(old, new).into_bytes()
}

/// Each way of being wrong: 9, and the rows of what was complete before.
#[test]
fn each_way_of_damage_is_9() {
    let s = SESSION_S;
    let plus = |tail: &[u8]| [s, tail].concat();
    let cases: Vec<(&str, Vec<u8>, &[u64])> = vec![
        ("an empty input", vec![], &[]),
        ("a head cut short", s[..200].to_vec(), &[]),
        ("a head without values", s[..head_length() - 83].to_vec(), &[]),
        ("no LF after the last `$end`", s[..head_length() - 1].to_vec(), &[]),
        ("a time with no change, then a time", with("#400\n", "#399\n#400\n"), &[0, 150, 350]),
        ("a time with no change, then the end", plus(b"#700\n"), &[0, 150, 350, 400, 450, 550, 650]),
        ("a wire out of order", with("0#\n1'\n", "1'\n0#\n"), &[0, 150, 350]),
        ("a wire twice", with("0#\n1'\n", "0#\n1#\n1'\n"), &[0, 150, 350]),
        ("a wire that does not change", with("0#\n1'\n", "0#\n1&\n1'\n"), &[0, 150, 350]),
        ("a missing last LF", s[..s.len() - 1].to_vec(), &[0, 150, 350, 400, 450, 550]),
        ("a leading zero", with("#400\n", "#0400\n"), &[0, 150, 350]),
        ("2^64", with("#650\n", "#18446744073709551616\n"), &[0, 150, 350, 400, 450, 550]),
        ("2^64 and some", with("#650\n", "#18446744073709552616\n"), &[0, 150, 350, 400, 450, 550]),
        ("`#0` later", with("#400\n", "#0\n"), &[0, 150, 350]),
        ("an equal time", with("#400\n", "#350\n"), &[0, 150, 350]),
        ("a falling time", with("#400\n", "#349\n"), &[0, 150, 350]),
        ("no time", with("#400\n", "#\n"), &[0, 150, 350]),
        ("a byte more", plus(b"\0"), &[0, 150, 350, 400, 450, 550]),
        ("an LF more", plus(b"\n"), &[0, 150, 350, 400, 450, 550]),
        ("a `#` more", plus(b"#"), &[0, 150, 350, 400, 450, 550, 650]),
        ("a value x", with("#350\n1#\n", "#350\nx#\n"), &[0, 150]),
        ("a code past the last", with("#350\n1#\n", "#350\n1;\n"), &[0, 150]),
        ("CRLF", with("#350\n1#\n", "#350\n1#\r\n"), &[0, 150]),
        ("a change below the first values", with("$end\n#150", "$end\n1!\n#150"), &[]),
        ("a space after `$end`", with("$upscope $end\n", "$upscope $end \n"), &[]),
    ];
    for (what, dump, rows) in cases {
        assert_eq!(read(&dump), None, "{what}");
        assert_eq!((sheet_of(&dump).1, &times(&dump)[..]), (true, rows), "{what}");
    }
    // 2^64 - 1 is a time, and the last one there is.
    let last = with("#650\n", "#18446744073709551615\n");
    assert_eq!(times(&last), [0, 150, 350, 400, 450, 550, u64::MAX]);
    assert!(!sheet_of(&last).1);
}

/// A cut is good after a whole line that is not a time; the rows are those of the complete blocks.
#[test]
fn every_cut_of_a_dump() {
    let text = SESSION_S;
    // Where a block is complete: at the `#` of the next time.
    let starts: Vec<usize> =
        (head_length()..text.len()).filter(|&n| text[n] == b'#' && text[n - 1] == b'\n').collect();
    for length in 0..=text.len() {
        let cut = &text[..length];
        let last = cut.split_inclusive(|&b| b == b'\n').next_back().unwrap_or(b"");
        let good = length >= head_length() && last.ends_with(b"\n") && !last.starts_with(b"#");
        let complete = starts.iter().filter(|&&n| n < length).count();
        assert_eq!(read(cut).is_some(), good, "{length}");
        assert_eq!(times(cut).len(), complete + usize::from(good), "{length}");
    }
}

/// The reader by its definition: whatever a line could say is taken, the list that results is written,
/// and the dump is good exactly if that gives its bytes.
fn by_definition(dump: &[u8]) -> Option<Vec<Moment>> {
    let text = dump.iter().map(|&b| b as char).collect::<String>();
    let mut list: Vec<Moment> = Vec::new();
    let mut values = 0u32;
    for line in text.split('\n').skip(28) {
        if let Some(time) = line.strip_prefix('#') {
            list.push((time.parse().ok()?, values));
        } else if let (2, Some(value)) = (line.len(), line.chars().next().and_then(|c| c.to_digit(2))) {
            let wire = u32::from(line.as_bytes()[1]).checked_sub(33).filter(|w| *w < 26)?;
            values = values & !(1 << wire) | value << wire;
            list.last_mut()?.1 = values;
        }
    }
    let rising = list.first()?.0 == 0 && list.windows(2).all(|m| m[0].0 < m[1].0);
    (rising && written(&list) == dump).then_some(list)
}

#[test]
fn damaged_dumps_are_taken_exactly_if_they_are_written_for_some_list() {
    let (mut taken, mut refused) = (0, 0);
    for seed in 0..6_000 {
        let kind = DUMP_KINDS[seed as usize % DUMP_KINDS.len()];
        let dump = dump(seed, kind).unwrap();
        let list = read(&dump);
        assert_eq!(list, by_definition(&dump), "{kind} {seed}");
        match list {
            Some(list) => {
                taken += 1;
                assert!(written(&list) == dump, "{kind} {seed}");
            }
            None => refused += 1,
        }
    }
    assert!(taken > 1_000 && refused > 3_000, "{taken} taken, {refused} refused");
}

#[test]
fn any_list_written_is_read_back() {
    for seed in 0..3_000 {
        let list = drawn(&mut Rng::new(seed));
        assert!(list[0].0 == 0 && list.windows(2).all(|m| m[0].0 < m[1].0));
        let back = read(&written(&list)).unwrap();
        let mut changing = list.clone();
        changing.dedup_by_key(|m| m.1);
        assert_eq!(back, changing, "{seed}");
        for &(time, values) in &list {
            assert_eq!(at(&back, time), values);
            assert_eq!(at(&back, time.saturating_sub(1)), at(&list, time.saturating_sub(1)));
        }
        assert!(changing.len() < 2 || changing.last().unwrap().0 > 0);
    }
}

#[test]
fn each_byte_of_the_head_counts() {
    let head = &SESSION_S[..head_length()];
    assert_eq!(read(head).unwrap().len(), 1);
    let values = head_length() - 5 - 78;
    for n in 0..head.len() {
        for byte in [0, b'\n', b'\r', b' ', b'0', b'1', b'#', head[n] ^ 32, head[n].wrapping_add(1)] {
            let mut other = head.to_vec();
            other[n] = byte;
            let value = n >= values && n < values + 78 && (n - values).is_multiple_of(3);
            let good = byte == head[n] || value && (byte == b'0' || byte == b'1');
            assert_eq!(read(&other).is_some(), good, "byte {n}: {byte}");
        }
        assert_eq!(read(&[&head[..n], &head[n + 1..]].concat()), None, "byte {n} dropped");
    }
}

/// Pieces of any size give the same output as the whole.
#[test]
fn read_in_pieces() {
    struct Pieces<'a>(&'a [u8], usize);
    impl Read for Pieces<'_> {
        fn read(&mut self, buf: &mut [u8]) -> std::io::Result<usize> {
            let n = self.1.min(buf.len()).min(self.0.len());
            buf[..n].copy_from_slice(&self.0[..n]);
            self.0 = &self.0[n..];
            Ok(n)
        }
    }
    let rules = Rules::default();
    for seed in 0..200 {
        let text = dump(seed, DUMP_KINDS[seed as usize % DUMP_KINDS.len()]).unwrap();
        let run = trace(seed, KINDS[seed as usize % KINDS.len()], None).unwrap();
        let wanted = [sheet_bytes(&rules, &text).0, waves_bytes(&rules, &run).0];
        for size in [1, 2, 7, 513] {
            let mut out = [Vec::new(), Vec::new()];
            let _ = sheet(&rules, Pieces(&text, size), &mut out[0]);
            let _ = waves(&rules, Pieces(&run, size), &mut out[1]);
            assert!(out == wanted, "seed {seed}, pieces of {size}");
        }
    }
}

#[test]
fn names_of_stored_dumps_say_whether_they_are_good() {
    for (name, _, dump) in dumps() {
        let sheet = sheet_bytes(&Rules::default(), &dump).0;
        assert_eq!(read(&dump).is_some(), name.starts_with("good_"), "{name}");
        assert!(dump.len().max(sheet.len()) < if name == "good_long" { 200_000 } else { 60_000 }, "{name}");
    }
}

#[test]
fn every_fault_is_in_some_stored_dump_or_sheet() {
    let traces = stored::read(Path::new("../crates/cases/data")).unwrap().dumps;
    let rules = Rules::default();
    let good: Vec<_> = dumps().iter().filter_map(|d| read(&d.2)).collect();
    for (name, fault) in wave_faults() {
        let in_trace = traces.iter().any(|t| waves_bytes(&fault, &t.1).0 != t.2);
        // No trace of a bearable length comes to 2^32 ms.
        assert_eq!(in_trace, name != "time_written_modulo_2p32", "{name}");
        let again = || good.iter().any(|list| write(&fault, list) != write(&rules, list));
        assert!(in_trace || again(), "{name}");
    }
    for (name, fault) in sheet_faults() {
        let seen = dumps().iter().any(|d| sheet_bytes(&fault, &d.2).0 != sheet_bytes(&rules, &d.2).0);
        assert!(seen, "{name}");
    }
}
