//! Request K3, told by the images of Session S after each row and by what must hold of any image, in the form of K3 or
//! in that of K6, in which images are saved.
use peer::gen::{cut, trace, KINDS};
use peer::handover::{converted_or_refused, handover_bytes, shown_or_refused, Said, Task};
use peer::image::{layout, Form, Image, Item};
use peer::image_gen::{image, second_trace, IMAGE_KINDS};
use peer::image_vectors::images;
use peer::rig::*;
use peer::rules::{image_faults, unseen_in_images, Rules};
use peer::stored;
use peer::trace::{replay_bytes, OUT_HEADER};
use peer::vectors::{session_s, vectors};
use std::io::Write;
use std::path::Path;
use std::process::{Command, Stdio};

/// Label and image in hexadecimal, a line for each row.
const SESSION_S: &str = include_str!("session_s.images.txt");

fn save(trace: &[u8]) -> Vec<u8> {
    handover_bytes(&Rules::default(), Task::Save, trace).0
}

fn save_from(image: &[u8], trace: &[u8]) -> Vec<u8> {
    handover_bytes(&Rules::default(), Task::SaveFrom(image), trace).0
}

fn resume(image: &[u8], trace: &[u8]) -> String {
    String::from_utf8(handover_bytes(&Rules::default(), Task::Resume(image), trace).0).unwrap()
}

fn show(image: &[u8]) -> String {
    String::from_utf8(handover_bytes(&Rules::default(), Task::Show(image), b"").0).unwrap()
}

/// An image in K3's form.
fn old(image: &[u8]) -> Vec<u8> {
    handover_bytes(&Rules::default(), Task::Convert(Form::Old, image), b"").0
}

/// 0, 10 or 11.
fn refusal(image: &[u8]) -> u8 {
    Image::take(&Rules::default(), image).err().map_or(0, |untaken| untaken.refusal)
}

fn hex(bytes: &[u8]) -> String {
    bytes.iter().map(|b| format!("{b:02x}")).collect()
}

/// The first rows of a trace.
fn rows(trace: &[u8], count: usize) -> Vec<u8> {
    trace.split_inclusive(|&b| b == b'\n').take(count + 1).flatten().copied().collect()
}

fn items(image: &[u8]) -> Vec<u32> {
    image.chunks(4).map(|four| u32::from_be_bytes(four.try_into().unwrap())).collect()
}

fn vector(name: &str) -> Vec<u8> {
    vectors().into_iter().find(|v| v.0 == name).unwrap().1
}

#[test]
fn session_s_after_each_row() {
    let lines: Vec<&str> = SESSION_S.lines().collect();
    assert_eq!(lines.len(), 12);
    for (label, line) in lines.into_iter().enumerate() {
        let image = save(&rows(&session_s(), label + 1));
        assert_eq!(format!("{label} {}", hex(&old(&image))), line);
        assert_eq!([refusal(&image), refusal(&old(&image))], [0, 0]);
        assert_eq!([image.len(), old(&image).len()], [348, 204]);
    }
}

#[test]
fn the_words_of_session_s() {
    let words = show(&save(&session_s()));
    let lines: Vec<&str> = words.lines().collect();
    assert_eq!((lines.len(), words.ends_with('\n'), words.contains('\r')), (28, true, false));
    assert_eq!(
        lines[..4],
        [
            "last stamp: 1650",
            "handle: all channels valid, held 1",
            "analogical_switch: all channels valid, held 0",
            "gear_extended_front: all channels valid, held 0",
        ]
    );
    assert_eq!(
        lines[18..],
        [
            "circuit_pressurized: all channels valid, held 0",
            "general_EV: on, age 500 ms",
            "close_EV: off, age 60000 ms",
            "open_EV: off, age 250 ms",
            "retract_EV: off, age 100 ms",
            "extend_EV: on, age 0 ms",
            "handle age: 100 ms",
            "doors: OPEN",
            "gears: EXTENDING",
            "cause: none",
        ]
    );
}

/// A trace in form, cut in two: saved after any row, gone on from with the rest under new labels.
#[test]
fn a_lesson_handed_over_is_the_same_lesson() {
    let mut counting = 0;
    for seed in 0..400 {
        let kind = KINDS[seed as usize % (KINDS.len() - 1)];
        let text = trace(seed, kind, None).unwrap();
        let all = cut(&text);
        let last = all.len() - 2;
        let at = (seed as usize * 37) % (last + 1);
        let image = save(&rows(&text, at + 1));
        counting += usize::from(old(&image).is_empty());
        // Row 0 of the second part: the sample does not count, the stamp is that of the last accepted row.
        let stamp = items(&image)[0];
        let mut second = [&all[0][..], b"\r\n"].concat();
        let triples = |row: &[u8]| row.splitn(3, |&b| b == b',').nth(2).unwrap().to_vec();
        second.extend([format!("0,{stamp},").as_bytes(), &triples(&all[1]), b"\r\n"].concat());
        for (label, row) in all[at + 2..].iter().enumerate() {
            let rest = row.splitn(2, |&b| b == b',').nth(1).unwrap();
            second.extend([format!("{},", label + 1).as_bytes(), rest, b"\r\n"].concat());
        }
        let whole = String::from_utf8(replay_bytes(&Rules::default(), &text).0).unwrap();
        let resumed = resume(&image, &second);
        let fields = |line: &str| line.split_once(',').unwrap().1.to_string();
        let (whole, resumed): (Vec<_>, Vec<_>) = (whole.lines().collect(), resumed.lines().collect());
        assert_eq!(whole.len(), at + resumed.len(), "{kind} {seed}");
        for (label, line) in resumed.iter().enumerate().skip(2) {
            assert_eq!(fields(line), fields(whole[at + label]), "{kind} {seed}");
        }
        // Row 0 shows the state as it was left, with code 0.
        assert_eq!(fields(&fields(resumed[1])), fields(&fields(whole[at + 1])), "{kind} {seed}");
        assert_eq!(save_from(&image, &second), save(&text), "{kind} {seed}");
    }
    assert!(counting > 20, "{counting}");
}

#[test]
fn loading_takes_a_new_stamp_and_nothing_else() {
    let rules = Rules::default();
    let row_0 = |stamp: u32| {
        let mut all = cut(&session_s());
        peer::gen::field(&mut all[1], 1, stamp.to_string().into_bytes());
        [&all[0][..], b"\r\n", &all[1]].concat()
    };
    for seed in 0..600 {
        let bytes = image(seed, "good").unwrap();
        let taken = Image::take(&rules, &bytes).unwrap();
        let form = Form::of(&rules, bytes.len()).unwrap();
        assert_eq!(taken.bytes_in(&rules, form), bytes, "{seed}");
        for stamp in [0, 1, taken.stamp, taken.stamp.wrapping_add(50), u32::MAX] {
            let again = save_from(&bytes, &row_0(stamp));
            assert_eq!(again[..4], stamp.to_be_bytes());
            assert_eq!(again[4..], taken.bytes(&rules)[4..], "{seed}");
        }
    }
}

/// The image of any run is taken.
#[test]
fn saved_images_are_taken() {
    let mut empty = 0;
    for seed in 0..400 {
        let image = save(&trace(seed, KINDS[seed as usize % KINDS.len()], None).unwrap());
        if image.is_empty() {
            empty += 1;
            continue;
        }
        assert_eq!((image.len(), refusal(&image)), (348, 0), "{seed}");
        // So is what comes of going on from it.
        let onward = save_from(&image, &second_trace(seed, &image));
        assert!(onward.is_empty() || refusal(&onward) == 0, "{seed}");
    }
    assert!(empty < 70);
}

/// K3's ranges and rules as sentences over the 51 numbers, then K6's over the other 36, which are 0 in the old form;
/// which of the rules are broken: 1 to 5, 6 to 8.
fn by_definition(image: &[u8]) -> (u8, Vec<u8>) {
    let (n, counted) = match image.len() {
        204 => (items(image), vec![(0, 0); 18]),
        348 => {
            let all = items(image);
            let sensors: Vec<&[u32]> = all[1..73].chunks(4).collect();
            let old = sensors.iter().flat_map(|s| [s[0], s[1]]);
            let n = [all[0]].into_iter().chain(old).chain(all[73..].iter().copied()).collect();
            (n, sensors.iter().map(|s| (s[2], s[3])).collect())
        }
        _ => return (10, vec![]),
    };
    let ranges = |n: &[u32]| {
        n[1..37].chunks(2).all(|s| s[0] <= 4 && s[1] <= 1)
            && n[37..47].chunks(2).all(|o| o[0] <= 1 && o[1] <= 60_000)
            && n[47] <= 60_000
            && n[48] <= 3
            && n[49] <= 3
            && n[50] <= 13
            && counted.iter().all(|&(odd, count)| odd <= 3 && count <= 2)
    };
    if !ranges(&n) {
        return (10, vec![]);
    }
    let (general, doors, gears, cause) = (n[37] == 1, n[48], n[49], n[50]);
    // close_EV, open_EV, retract_EV, extend_EV, each with where it is wanted.
    let four = [(n[39], doors == 3), (n[41], doors == 1), (n[43], gears == 3), (n[45], gears == 1)];
    let mut broken = vec![];
    if (gears == 1 || gears == 3) && doors != 2 {
        broken.push(1);
    }
    if four.iter().any(|&(on, place)| on == 1 && !(place && cause == 0)) {
        broken.push(2);
    }
    if four.iter().any(|&(on, _)| on == 1) && !general {
        broken.push(3);
    }
    if doors != 0 && cause == 0 && !general {
        broken.push(4);
    }
    if n[1..37].iter().step_by(2).any(|&voter| voter == 4) && cause == 0 {
        broken.push(5);
    }
    let voters = || n[1..37].iter().step_by(2).zip(&counted);
    if voters().any(|(&voter, &(odd, count))| voter == 0 && (odd == 0) != (count == 0)) {
        broken.push(6);
    }
    if voters().any(|(voter, &(odd, _))| (1..=3).contains(voter) && odd != 0) {
        broken.push(7);
    }
    if voters().any(|(&voter, &counted)| voter == 4 && counted != (0, 0)) {
        broken.push(8);
    }
    (if broken.is_empty() { 0 } else { 11 }, broken)
}

#[test]
fn images_are_taken_exactly_if_k3_and_k6_say_so() {
    let mut counts = [[0; 3]; 3];
    for seed in 0..24_000 {
        let kind = IMAGE_KINDS[seed as usize % IMAGE_KINDS.len()];
        let bytes = image(seed, kind).unwrap();
        let number = refusal(&bytes);
        assert_eq!(number, by_definition(&bytes).0, "{kind} {seed}");
        assert!(kind != "good" || number == 0);
        let form = [204, 348].iter().position(|&n| n == bytes.len()).unwrap_or(2);
        counts[form][[0, 10, 11].iter().position(|&n| n == number).unwrap()] += 1;
    }
    let [old, new, other] = counts;
    assert!(old.iter().chain(&new).all(|&n| n > 1_000), "{counts:?}");
    assert!(other[0] + other[2] == 0 && other[1] > 1_000, "{counts:?}");
}

/// Each item alone, at its top and one past it; what is refused says nothing else.
#[test]
fn each_item_has_its_range() {
    let rules = Rules::default();
    let base = Image::take(&rules, &save(&session_s())).unwrap();
    let base = Image { on: [1, 0, 0, 0, 0], doors: 2, gears: 0, ..base };
    let both = [(Form::Old, 51), (Form::New, 87)].map(|(form, count)| {
        let all = layout(&rules, form);
        assert_eq!((all.len(), form.items(), form.bytes()), (count, count, 4 * count));
        all.into_iter().map(move |item| (form, item))
    });
    for (form, item) in both.into_iter().flatten() {
        let top = match item {
            Item::Stamp => u32::MAX,
            Item::Voter(_) => 3,
            Item::Held(_) => 1,
            // Without the other both break a rule.
            Item::Odd(_) | Item::Count(_) => 0,
            // One of the four that is on is not wanted here.
            Item::On(order) => u32::from(order == GENERAL),
            Item::Age(_) => 60_000,
            Item::Doors => 3,
            Item::Gears => 3,
            Item::Cause => 13,
        };
        let with = |value: u32| {
            let mut image = base.clone();
            *image.item(item) = value;
            refusal(&image.bytes_in(&rules, form))
        };
        assert_eq!(with(top), 0, "{item:?}");
        match item {
            Item::Stamp => assert_eq!(with(0), 0),
            Item::Voter(_) => assert_eq!([with(4), with(5), with(u32::MAX)], [11, 10, 10], "{item:?}"),
            Item::Odd(_) => {
                assert_eq!([with(1), with(3), with(4), with(u32::MAX)], [11, 11, 10, 10], "{item:?}")
            }
            Item::Count(_) => {
                assert_eq!([with(1), with(2), with(3), with(u32::MAX)], [11, 11, 10, 10], "{item:?}")
            }
            Item::On(GENERAL) => assert_eq!([with(0), with(2)], [11, 10]),
            Item::On(_) => assert_eq!([with(1), with(2)], [11, 10], "{item:?}"),
            _ => assert_eq!([with(top + 1), with(u32::MAX), with(1 << 31)], [10; 3], "{item:?}"),
        }
    }
}

#[test]
fn every_length_but_204_and_348_is_10() {
    let image = save(&session_s());
    for image in [old(&image), image] {
        for length in (0..=700).filter(|length| ![204, 348].contains(length)) {
            let other: Vec<u8> = image.iter().cycle().take(length).copied().collect();
            assert_eq!(refusal(&other), 10, "{length}");
        }
    }
}

/// Row 0 shows what is held: its own sample does not count, and no time has passed.
#[test]
fn row_0_shows_the_loaded_state() {
    let image = save(&session_s());
    let text = resume(&image, &rows(&session_s(), 1));
    let header = std::str::from_utf8(OUT_HEADER).unwrap();
    assert_eq!(text, [header, "0,0,1,0,0,0,1,OPEN,EXTENDING,0,1,0\r\n"].concat());
}

#[test]
fn what_ends_the_reading() {
    let rules = Rules::default();
    let said = |task, input: &[u8]| handover_bytes(&rules, task, input);
    let image = save(&session_s());
    // A torn last row: the image of the row before it, and the line is told.
    let whole = session_s();
    for torn in whole.len() - 80..whole.len() - 2 {
        let (bytes, line) = said(Task::Save, &whole[..torn]);
        assert_eq!(bytes, save(&rows(&whole, 11)));
        assert!(matches!(line, Some(Said::Ended(ended)) if (ended.line, ended.refusal) == (13, 5)));
    }
    // Without its LF the last row is torn too; without CRLF it is whole.
    assert_eq!(said(Task::Save, &whole[..whole.len() - 1]).0, save(&rows(&whole, 11)));
    assert_eq!(said(Task::Save, &whole[..whole.len() - 2]), (image.clone(), None));
    // No row 0.
    for name in ["bad_empty", "bad_header_case", "bad_header_513", "bad_lone_lf"] {
        for task in [Task::Save, Task::SaveFrom(&image)] {
            let (bytes, line) = said(task, &vector(name));
            assert!(bytes.is_empty() && matches!(line, Some(Said::Ended(_))), "{name}");
        }
    }
    assert_eq!(said(Task::SaveFrom(&image), &vector("header_only")), (vec![], Some(Said::NoRow0)));
    assert_eq!(said(Task::Resume(&image), &vector("header_only")), (OUT_HEADER.to_vec(), None));
    // An image that is not taken: nothing is written, not even a header.
    for task in [Task::SaveFrom(&image[1..]), Task::Resume(&image[1..]), Task::Show(&image[1..])] {
        let (bytes, line) = said(task, &whole);
        assert!(bytes.is_empty(), "{bytes:?}");
        assert!(line.unwrap().to_string().contains("refusal 10: "));
    }
}

/// The program itself: its output, and the line that it says, without `handover: `.
fn program(args: &[&Path], input: &[u8]) -> (Vec<u8>, String) {
    let mut child = Command::new(env!("CARGO_BIN_EXE_peer-handover"))
        .args(args)
        .stdin(Stdio::piped())
        .stdout(Stdio::piped())
        .stderr(Stdio::piped())
        .spawn()
        .unwrap();
    // It need not read what it is given.
    let _ = child.stdin.take().unwrap().write_all(input);
    let ran = child.wait_with_output().unwrap();
    assert_eq!(ran.status.code(), Some(0));
    let said = String::from_utf8(ran.stderr).unwrap();
    if said.is_empty() {
        return (ran.stdout, said);
    }
    let line = said.strip_prefix("handover: ").unwrap().strip_suffix('\n').unwrap();
    assert!(!line.contains('\n'), "{line}");
    (ran.stdout, line.to_string())
}

#[test]
fn the_program_with_its_words_and_files() {
    let folder = std::env::temp_dir().join(format!("peer-request-k3-{}", std::process::id()));
    std::fs::create_dir_all(&folder).unwrap();
    let [good, bad, none] = ["good", "bad", "none"].map(|name| folder.join(name));
    let (saved, whole) = (save(&session_s()), session_s());
    std::fs::write(&good, &saved).unwrap();
    std::fs::write(&bad, &images().iter().find(|v| v.0 == "bad_open_cause").unwrap().2).unwrap();
    let [save, resume, show, other] = ["save", "resume", "show", "load"].map(Path::new);
    let [new, old] = ["new", "old"].map(Path::new);

    let silent = |out: &[u8]| (out.to_vec(), String::new());
    assert_eq!(program(&[save], &whole), silent(&saved));
    assert_eq!(program(&[save, &good], &whole), silent(&save_from(&saved, &whole)));
    assert_eq!(program(&[resume, &good], &whole), silent(self::resume(&saved, &whole).as_bytes()));
    assert_eq!(program(&[show, &good], b""), silent(self::show(&saved).as_bytes()));
    assert_eq!(program(&[new, &good], b""), silent(&saved));
    assert_eq!(program(&[old, &good], b""), silent(&self::old(&saved)));
    // The line and the refusal are told, and what there is of an image is written.
    let (image, line) = program(&[save], &whole[..whole.len() - 40]);
    assert!(image == self::save(&rows(&whole, 11)) && line.contains("line 13: refusal 5"), "{line}");
    assert!(program(&[resume, &good], b"").1.contains("line 1: refusal 5"));
    // Nothing is written, and a line says why.
    let uses: [&[&Path]; 13] = [
        &[new],
        &[old, &good, &good],
        &[old, &none],
        &[],
        &[other],
        &[other, &good],
        &[resume],
        &[show],
        &[save, &good, &good],
        &[resume, &good, &good],
        &[show, &good, &good],
        &[show, &none],
        &[resume, &folder],
    ];
    for args in uses {
        let (out, line) = program(args, &whole);
        assert!(out.is_empty() && !line.is_empty(), "{args:?}");
    }
    for word in [save, resume, show, new, old] {
        let (out, line) = program(&[word, &bad], &whole);
        assert!(out.is_empty() && line.contains("refusal 11"), "{line}");
    }
    let (out, line) = program(&[save], b"");
    assert!(out.is_empty() && line.contains("line 1: refusal 5"), "{line}");
    std::fs::remove_dir_all(&folder).unwrap();
}

/// Each image that breaks a rule breaks that one alone. Any of the four that is on and wanted has doors
/// that are not CLOSED and no cause, so that two sentences of K3 ask for general_EV there.
#[test]
fn stored_bad_images_are_bad_for_one_reason() {
    for (name, _, bytes) in images() {
        let (number, broken) = by_definition(&bytes);
        let (form, name) = name.strip_prefix("new_").map_or(("", name), |name| ("new", name));
        assert_eq!(number == 0, name.starts_with("good_"), "{name}");
        let wanted: &[u8] = match name.trim_start_matches("bad_").split_once('_') {
            _ if number != 11 => &[],
            Some(("moving", _)) => &[1],
            Some(("close" | "open" | "retract" | "extend", "unwanted" | "cause")) => &[2],
            Some(("close" | "open" | "retract" | "extend", "no_general")) => &[3, 4],
            Some(("opening" | "doors" | "closing", _)) => &[4],
            Some(("invalid", "no_cause")) => &[5],
            Some(("odd" | "count", "alone_first" | "alone_middle" | "alone_last")) => &[6],
            Some(("before", "held")) => &[6],
            Some(("struck", _)) => &[7],
            Some(("invalid", _)) if form == "new" => &[8],
            Some(("invalid", _)) => &[5],
            other => panic!("{name}: {other:?}"),
        };
        assert_eq!(broken, wanted, "{name}");
    }
}

/// What is stored for the crate `cases`.
fn data() -> stored::Data {
    stored::read(Path::new("../crates/cases/data")).unwrap()
}

#[test]
fn stored_starts_are_taken() {
    data().onwards.iter().for_each(|(name, image, ..)| assert_eq!(refusal(image), 0, "{name}"));
}

/// Every word that can stand in a line is in some stored text.
#[test]
fn stored_words_are_all_the_words() {
    let text: String = data().words.iter().map(|v| String::from_utf8(v.2.clone()).unwrap()).collect();
    let has = |line: &str| assert!(text.contains(line), "{line}");
    ["all channels valid", "channel 1 struck", "channel 2 struck", "channel 3 struck", "invalid"]
        .iter()
        .for_each(|voter| [0, 1].iter().for_each(|held| has(&format!(": {voter}, held {held}\n"))));
    for (n, many) in (1..=3).flat_map(|n| [(n, "1 sample"), (n, "2 samples")]) {
        has(&format!(": all channels valid, held 0, channel {n} odd in {many}\n"));
        has(&format!(": channel {n} struck, held 0, the two differed in {many}\n"));
    }
    ["CLOSED", "OPENING", "OPEN", "CLOSING"].iter().for_each(|doors| has(&format!("doors: {doors}\n")));
    ["RETRACTED", "EXTENDING", "EXTENDED", "RETRACTING"]
        .iter()
        .for_each(|gears| has(&format!("gears: {gears}\n")));
    (1..=13).for_each(|cause| has(&format!("cause: {cause}, ")));
    ["cause: none\n", "refusal 10\n", "refusal 11\n"].iter().for_each(|line| has(line));
}

#[test]
fn every_fault_is_in_some_stored_image() {
    let all = data();
    let seen = |fault: &Rules| {
        let resumed = |image: &[u8], trace: &[u8]| handover_bytes(fault, Task::Resume(image), trace).0;
        all.images.iter().any(|v| handover_bytes(fault, Task::Save, &v.1).0 != v.2)
            || all.words.iter().any(|v| shown_or_refused(fault, &v.1) != v.2)
            || all.onwards.iter().any(|v| resumed(&v.1, &v.2) != v.3)
            || all.forms.iter().any(|v| converted_or_refused(fault, Form::New, &v.1) != v.2)
            || all.forms.iter().any(|v| converted_or_refused(fault, Form::Old, &v.1) != v.3)
    };
    for (name, fault) in image_faults() {
        assert!(seen(&fault), "{name}");
    }
    for (name, fault) in unseen_in_images() {
        assert!(!seen(&fault), "{name}");
    }
}
