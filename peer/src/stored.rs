//! What is stored for the crate `cases`: the files of its folder `data`, each case with one line that says what
//! it is for, and `args` and `stdout`, which name and count them. `wanted` makes all of it anew, but for the
//! traces and images that were given; `read` takes it in. (The folder `trial`, and what stands behind the counts in `stdout`, are
//! made by the project's bin/stored.)

use crate::dump::{sheet_bytes, waves_bytes};
use crate::dump_vectors::{dumps, DUMPS_OF_TRACES};
use crate::handover::{converted_or_refused, handover_bytes, shown_or_refused, Task};
use crate::image::Form;
use crate::image_vectors::{forms, images, onwards, own, IMAGES_OF_TRACES};
use crate::rules::Rules;
use crate::trace::replay_bytes;
use crate::vectors::{brushed_twice, vectors};
use crate::wall::csv;
use std::collections::BTreeMap;
use std::io::{self, ErrorKind::NotFound};
use std::path::Path;

/// The groups of cases, in the words of `cases`, and the ending of what must be written; of `forms`, that of what is
/// converted.
const GROUPS: [(&str, &str); 9] = [
    ("rows", "out"),
    ("dumps", "vcd"),
    ("values", "csv"),
    ("broken", "csv"),
    ("images", "img"),
    ("onward", "out"),
    ("words", "txt"),
    ("forms", "img"),
    ("table", "csv"),
];

/// Every stored trace, and what its rows are for. One that is not the peer's own was given.
const TRACES: [(&str, &str); 145] = [
    ("adversarial_0", "sensors that say anything; given"),
    ("bad_bare_lf_long", "rows end in LF alone: the first line is too long; given"),
    ("bad_bare_lf_short", "a header that ends in LF alone, and no more; given"),
    ("bad_cr_cr_lf", "a row ends in CR CR LF"),
    ("bad_double_crlf", "an empty row at the end"),
    ("bad_double_crlf_at_rest", "an empty row at the end, before anything moved; given"),
    ("bad_empty", "an empty input"),
    ("bad_empty_row_inside", "an empty row between two others; given"),
    ("bad_final_cr", "the last row ends in a CR alone"),
    ("bad_final_cr_at_rest", "the last row ends in a CR alone, before anything moved; given"),
    ("bad_first_crlf", "an empty line before the header; given"),
    ("bad_header_513", "a header of 513 bytes, spaces at its end"),
    ("bad_header_513_letters", "a header of 513 bytes, letters at its end; given"),
    ("bad_header_case", "a capital letter in the header"),
    ("bad_header_case_alone", "a capital letter in the header, and no row; given"),
    ("bad_high_byte", "a byte above 127 in a triple; given"),
    ("bad_label_2p32", "a label that is right modulo 2^32"),
    ("bad_label_2p32_exact", "the label 2^32; given"),
    ("bad_label_again", "label 0 twice; given"),
    ("bad_label_late", "a wrong label after much has changed"),
    ("bad_label_next", "a label too high by one"),
    ("bad_label_plus", "a label with a plus sign"),
    ("bad_label_space", "a space before a label; given"),
    ("bad_label_zero", "a label with a leading zero"),
    ("bad_lone_cr_inside", "a CR within a triple; given"),
    ("bad_lone_lf", "LF between all rows: the first line is too long"),
    ("bad_nineteen_fields", "a field too few; given"),
    ("bad_no_header", "the header is missing; given"),
    ("bad_nul_byte", "a byte 0 in a triple; given"),
    ("bad_quoted", "a label in quotes; given"),
    ("bad_row_0_512", "row 0 has 512 bytes, digits at its end: 5; given"),
    ("bad_row_0_512_cr", "row 0 has 512 bytes and a CR, and goes on: 6; given"),
    ("bad_row_0_513_label", "row 0 has 513 bytes and a wrong label: 6; given"),
    ("bad_row_0_label", "row 0 has label 1; given"),
    ("bad_row_0_lone_lf", "row 0 begins with an LF; given"),
    ("bad_row_0_triple_digit", "a digit 2 in a triple of row 0; given"),
    ("bad_row_512", "a row of 512 bytes: 5"),
    ("bad_row_512_cr", "512 bytes and a CR, where the input ends: 6"),
    ("bad_row_513", "a row of 513 bytes: 6"),
    ("bad_row_513_label", "a row of 513 bytes with a wrong label: 6"),
    ("bad_row_513_late", "a row of 513 bytes after much has changed"),
    ("bad_row_label_form", "a wrong label and a bad triple: 5"),
    ("bad_row_lone_lf", "an LF within a row"),
    ("bad_stamp_2p32", "a stamp that is right modulo 2^32"),
    ("bad_stamp_empty", "an empty stamp"),
    ("bad_trailing_comma", "a comma at the end of a row; given"),
    ("bad_triple_digit", "a digit 2 in a triple"),
    ("bad_triple_extra", "a triple too many"),
    (
        "channels_0",
        "a bounce that is forgiven, and a channel that is struck; then cause 12, and splits that are forgiven; given",
    ),
    (
        "channels_1",
        "a channel is struck, splits of the two left are forgiven, then the sensor is invalid; given",
    ),
    ("channels_agree", "channels that agree in every row; the absorbers say ground from row 1 on; given"),
    ("edge_cause_1", "cause 1 at 7,000 ms, not at 6,999; then general_EV stops at 1,000"),
    ("edge_cause_10", "cause 10 at 10,000 ms, not at 9,999"),
    ("edge_cause_11_at_1000", "cause 11 at 1,000 ms, not at 999"),
    ("edge_cause_11_at_19999", "cause 11 at 19,999 ms"),
    ("edge_cause_11_at_20000", "no cause 11 at 20,000 ms"),
    ("edge_cause_12", "cause 12 at 21,500 ms, not at 21,499"),
    ("edge_cause_2", "cause 2 at 7,000 ms, not at 6,999"),
    ("edge_cause_3", "cause 3 at 7,000 ms, not at 6,999"),
    ("edge_cause_4", "cause 4 at 7,000 ms, not at 6,999"),
    ("edge_cause_5", "cause 5 at 7,000 ms, not at 6,999"),
    ("edge_cause_6", "cause 6 at 10,000 ms, not at 9,999"),
    ("edge_cause_7", "cause 7 at 7,000 ms, not at 6,999"),
    ("edge_cause_8", "cause 8 at 10,000 ms, not at 9,999"),
    ("edge_cause_9", "cause 9 at 2,000 ms, not at 1,999"),
    ("edge_elapsed", "elapsed 0, 1 and both sides of the limit"),
    ("edge_general_age_199_start", "general_EV on for 199 ms: no order yet; given"),
    ("edge_general_stop", "general_EV stops 1,000 ms after close_EV, not at 999"),
    ("edge_general_stop_1000", "general_EV stops at 1,000 ms exactly; given"),
    ("edge_general_wait", "open_EV starts at 200 ms, not at 199"),
    ("edge_open_7000_far", "open_EV comes to 7,000 ms, the doors seen open by then; given"),
    ("edge_opposite_age_99_extend", "retract_EV off for 99 ms: extend_EV not yet; given"),
    ("edge_opposite_doors", "close_EV and open_EV start 100 ms after the other, not at 99"),
    ("edge_opposite_gears", "extend_EV and retract_EV start 100 ms after the other, not at 99"),
    ("general_stop_after_gears", "channels of the switch bounce while the gears move: forgiven, the orders go on"),
    ("general_stop_after_gears_three", "the gears' order is the last to be off for 1,000 ms"),
    (
        "ground_bounces",
        "a wheel touches and lifts all the time: the doors turn each time, and at 24,796 ms nothing is settled",
    ),
    (
        "ground_channel_odd",
        "channels of absorbers that are odd: the majority tells of the ground, in that sample",
    ),
    (
        "ground_doors_closed",
        "doors CLOSED: it stands with the handle up, on each wheel alone too, and opens where the last one lifts",
    ),
    (
        "ground_doors_closing",
        "doors CLOSING: on the ground they go on, to CLOSED when the last is seen so, also where the handle is turned up",
    ),
    (
        "ground_doors_open",
        "doors OPEN: each wheel touches in the step in which the gears would leave: CLOSING",
    ),
    (
        "ground_doors_opening",
        "doors OPENING: each wheel touches: CLOSING; it lifts while they close, and when they are closed: OPENING",
    ),
    (
        "ground_gears_turned",
        "on the ground the gears turn while they move, each way; EXTENDED with the handle up, the doors close",
    ),
    (
        "ground_gears_unseen",
        "gears EXTENDED and seen retracted: on the ground they are EXTENDED all the same",
    ),
    ("ground_handle_down", "on the ground the handle goes down with gears RETRACTED: they extend"),
    ("ground_invalid", "an absorber is invalid on the ground: red, and nothing moves where it lifts"),
    (
        "ground_lifts_late",
        "the handle up on the ground for 20,000 ms, the switch open: it retracts where the wheels lift",
    ),
    ("ground_lifts_no_pressure", "the same with no pressure: cause 9 comes 2,000 ms behind the lift"),
    ("ground_refused_sample", "refused samples, and row 0, tell nothing of the ground"),
    (
        "ground_retracted",
        "wheels touch with gears RETRACTED and the handle up: the doors close and stay closed",
    ),
    (
        "ground_retracting",
        "wheels touch while gears are RETRACTING: they go on and arrive, with their order on",
    ),
    ("ground_struck", "a struck channel of each absorber: what it says of the ground does not count"),
    (
        "ground_this_sample",
        "the last wheel lifts, or a wheel touches, in the sample in which the handle goes up",
    ),
    (
        "ground_two_differ",
        "the two channels left of an absorber differ: it stays on the ground, or in the air",
    ),
    ("handle_moved_when_late", "the handle moves when cause 12 is near: its age is 0 at once"),
    ("handle_twice", "the handle's age starts again at each move"),
    ("header_only", "the header with no CRLF: no row, no refusal"),
    ("idle_61000", "nothing moves for 61,000 ms: nothing is late"),
    ("image_ages", "general_EV off for 59,999 ms"),
    ("image_causes", "cause 11; a bounce before it, and in the same step another, which goes on to a strike"),
    ("image_causes_three", "cause 11 with a sensor invalid in the same step"),
    ("image_torn", "the last row is torn: 5"),
    ("k7_bounces", "absorbers that bounce while the doors open and close; then the handle goes down; given"),
    (
        "k7_one_absorber",
        "the left absorber alone holds a retraction; later the right one turns the doors; given",
    ),
    ("k7_stands_then_lifts", "it stands with the handle up, and lifts; given"),
    (
        "k7_touches_while_opening",
        "the front absorber touches while the doors open, and later with gears RETRACTED; given",
    ),
    ("k7_touches_while_retracting", "absorbers touch while the gears retract, which go on; given"),
    ("lamps_door_open_unread", "door_open is not read by the lamps"),
    ("lamps_each_gear", "each gear and door by itself, at neither end and at both"),
    ("lamps_green_and_orange", "doors leave while the gears are extended: both lamps"),
    ("lamps_invalid_sensor", "channels of a gear bounce, one after another: the lamps go by the majority, no red"),
    ("lamps_invalid_sensor_three", "the lamps go by the value that an invalid sensor keeps"),
    ("lamps_neither", "gears at different ends: neither lamp"),
    ("lamps_one_channel_odd", "the lamps go by the votes, not by channels"),
    ("lamps_refused_sample", "a refused sample lights nothing"),
    ("lamps_with_anomaly", "the lamps follow the sensors after red; bounces of a gear and of a door are forgiven"),
    ("lamps_with_anomaly_three", "the lamps follow the sensors after red, but those that become invalid"),
    ("latching_move", "a move in the step in which red comes"),
    ("lesson", "a long lesson, the stamp goes round in it"),
    ("lesson_brushed", "a lesson in which channels bounce all through: the rows of the clean one; given"),
    (
        "lesson_brushed_twice",
        "the same lesson with two bounces in a row, another channel right behind them: the rows of the clean one",
    ),
    ("lesson_clean", "the same lesson with no bounce; given"),
    ("no_final_crlf", "the last row has no CRLF: it counts"),
    ("no_final_crlf_at_rest", "the same, and row 0 has an odd sample, which is not used; given"),
    ("random_edges", "a seeded trace near thresholds"),
    ("seen_open_at_7000", "the doors are seen open at 7,000 ms: no cause"),
    ("sequence_one_unit_late", "one gear or door is late each time: all are waited for"),
    ("sequence_reversals", "the handle turned at each place"),
    ("session_s", "Session S of document 01"),
    ("stall", "far stalls: refused until the stamp is near again"),
    ("stalls_0", "elapsed at and past its ends, the stamp goes round; given"),
    ("stalls_use_up_labels", "refused rows have labels too; given"),
    ("stamp_highest", "the stamp 2^32 - 1: good form, 4; given"),
    ("stamp_round", "the stamp goes round in the first accepted row"),
    (
        "vote_bounces",
        "bounces that are forgiven: one, two, and two with something between; then channel 1 of six sensors is struck, \
         so channel 3 was not; no red",
    ),
    ("vote_each_channel", "a channel of each number bounces: forgiven; then one of the handle is struck"),
    ("vote_each_channel_three", "a channel of each number is struck; then a sensor is invalid"),
    (
        "vote_handle",
        "a channel of the handle bounces: forgiven; then the others turn the handle and turn it back, and it is odd \
         between; then all turn it",
    ),
    (
        "vote_handle_three",
        "a channel of the handle struck, the handle turned by the two left; then they differ: invalid",
    ),
    ("vote_row_0", "row 0 is not voted on"),
    ("vote_struck_stays", "channel 3 of the absorbers is odd twice in a row, then once, then channel 1: none is struck"),
    ("vote_struck_stays_three", "P1 to P3: struck at the third, stays struck, invalid at the third"),
    (
        "vote_third_in_a_row",
        "three in a row that count: refused samples between, another channel or agreement before",
    ),
    ("vote_two_differ", "a channel is odd twice in a row, then once, then another where the others say otherwise: none is struck"),
    ("worst_up", "the slowest run up that no monitor minds; given"),
];

/// Files by their path below the folder of `cases`.
pub type Files = BTreeMap<String, Vec<u8>>;

#[derive(Default)]
struct Store {
    files: Files,
    /// By folder, the lines by what is stored.
    index: BTreeMap<&'static str, BTreeMap<String, String>>,
    cases: [Vec<String>; GROUPS.len()],
}

impl Store {
    /// What a case is run on.
    fn given(&mut self, folder: &str, name: &str, ending: &str, bytes: Vec<u8>) {
        self.files.insert(format!("data/{folder}/{name}.{ending}"), bytes);
    }

    /// A case of a group: what must be written, and what it is for.
    fn case(&mut self, group: &str, folder: &'static str, name: &str, why: &str, bytes: Vec<u8>) {
        let place = GROUPS.iter().position(|g| g.0 == group).unwrap();
        let ending = GROUPS[place].1;
        self.given(folder, name, ending, bytes);
        self.index.entry(folder).or_default().insert(format!("{name}.{ending}"), why.to_string());
        self.cases[place].push(format!("{folder}/{name}"));
    }

    /// An image, and what it is in both forms.
    fn forms(&mut self, name: &str, why: &str, image: Vec<u8>) {
        let rules = Rules::default();
        self.given("forms", name, "new", converted_or_refused(&rules, Form::New, &image));
        self.given("forms", name, "old", converted_or_refused(&rules, Form::Old, &image));
        self.case("forms", "forms", name, why, image);
    }

    fn all(mut self) -> Files {
        for (folder, lines) in &self.index {
            let text: String = lines.iter().map(|(name, why)| format!("{name}: {why}\n")).collect();
            self.files.insert(format!("data/{folder}/INDEX"), text.into_bytes());
        }
        let (mut args, mut stdout) = (String::new(), String::new());
        for ((group, _), names) in GROUPS.iter().zip(&self.cases) {
            args += &format!("{group}:\n{}\n", names.join("\n"));
            stdout += &format!("{group}: {} as stored\n", names.len());
        }
        self.files.insert("args".into(), args.into_bytes());
        self.files.insert("stdout".into(), stdout.into_bytes());
        self.files
    }
}

/// A trace or an image that was given.
fn read_given(cases: &Path, name: &str) -> io::Result<Vec<u8>> {
    let path = cases.join("data").join(name);
    std::fs::read(&path).map_err(|e| io::Error::new(e.kind(), format!("{}: {e}", path.display())))
}

/// How many images were given to be converted.
const GIVEN_IMAGES: usize = 40;

/// What there is to say of an image that was given.
fn of_given(image: &[u8]) -> String {
    let to = |form| match String::from_utf8(converted_or_refused(&Rules::default(), form, image)) {
        Ok(line) if line.starts_with("refusal ") => line.trim_end().to_string(),
        _ => "converted".into(),
    };
    format!("{} bytes, given; to new: {}, to old: {}", image.len(), to(Form::New), to(Form::Old))
}

/// All that is to be stored; `cases` is the folder that has the given traces.
pub fn wanted(cases: &Path) -> io::Result<Files> {
    let rules = Rules::default();
    let mut store = Store::default();
    let mut made: BTreeMap<String, Vec<u8>> = vectors().into_iter().collect();
    let mut traces = BTreeMap::new();
    for (name, why) in TRACES {
        let text = match made.remove(name).or_else(|| own(name)) {
            Some(text) => text,
            None if name == "lesson_brushed_twice" => {
                brushed_twice(&read_given(cases, "traces/lesson_clean.in")?)
            }
            None => read_given(cases, &format!("traces/{name}.in"))?,
        };
        store.given("traces", name, "in", text.clone());
        store.case("rows", "traces", name, why, replay_bytes(&rules, &text).0);
        traces.insert(name, text);
    }
    if let Some((name, _)) = made.pop_first() {
        return Err(io::Error::new(NotFound, format!("{name} has no line in stored.rs")));
    }
    for (name, why) in DUMPS_OF_TRACES {
        store.case("dumps", "traces", name, why, waves_bytes(&rules, &traces[name]).0);
    }
    let dump = waves_bytes(&rules, &traces["session_s"]).0;
    store.case("values", "traces", "session_s", "the dump of Session S", sheet_bytes(&rules, &dump).0);
    for (name, why, dump) in dumps() {
        let (rows, refused) = sheet_bytes(&rules, &dump);
        store.case(if refused.is_some() { "broken" } else { "values" }, "dumps", name, why, rows);
        store.given("dumps", name, "vcd", dump);
    }
    for (name, shown, why) in IMAGES_OF_TRACES {
        let image = handover_bytes(&rules, Task::Save, &traces[name]).0;
        if shown {
            let why = "the words of the image beside it";
            store.case("words", "traces", name, why, shown_or_refused(&rules, &image));
        }
        store.case("images", "traces", name, why, image);
    }
    for onward in onwards() {
        let rows = handover_bytes(&rules, Task::Resume(&onward.image), &onward.trace).0;
        store.case("onward", "resumed", onward.name, onward.reason, rows);
        store.given("resumed", onward.name, "img", onward.image);
        store.given("resumed", onward.name, "in", onward.trace);
    }
    for (name, why, image) in images() {
        store.case("words", "images", name, why, shown_or_refused(&rules, &image));
        store.given("images", name, "img", image);
    }
    for n in 1..=GIVEN_IMAGES {
        let name = format!("given_{n:02}");
        let image = read_given(cases, &format!("forms/{name}.img"))?;
        store.forms(&name, &of_given(&image), image);
    }
    for (name, why, image) in forms() {
        store.forms(name, why, image);
    }
    let why = "the sequence, an entry for ground and air, each handle, place and set of facts";
    store.case("table", "wall", "sequence", why, csv(&rules));
    Ok(store.all())
}

/// Where the counts of `stdout` end: at its first line that begins with `== `. Every other file is the peer's to its end.
fn own_end(name: &str, stored: &[u8]) -> usize {
    match name {
        "stdout" => stored.windows(4).position(|w| w == b"\n== ").map_or(stored.len(), |at| at + 1),
        _ => stored.len(),
    }
}

/// Every file below a folder, but those of a program's own.
fn found(cases: &Path) -> io::Result<Vec<String>> {
    let mut all = Vec::new();
    for folder in std::fs::read_dir(cases.join("data"))? {
        let folder = folder?.path();
        if folder.ends_with("trial") {
            continue;
        }
        for file in std::fs::read_dir(&folder)? {
            let path = file?.path();
            all.push(path.strip_prefix(cases).unwrap_or(&path).to_string_lossy().into_owned());
        }
    }
    Ok(all)
}

/// What is stored and not wanted, wanted and not stored, or stored otherwise: a line for each.
pub fn check(cases: &Path) -> io::Result<Vec<String>> {
    let wanted = wanted(cases)?;
    let more = found(cases)?.into_iter().filter(|name| !wanted.contains_key(name));
    let mut wrong: Vec<String> = more.map(|name| format!("{name} has no line, or is of no case")).collect();
    for (name, bytes) in &wanted {
        match std::fs::read(cases.join(name)) {
            Ok(stored) if stored[..own_end(name, &stored)] == *bytes => {}
            Ok(_) => wrong.push(format!("{name} is not what the peer writes")),
            Err(e) => wrong.push(format!("{name}: {e}")),
        }
    }
    Ok(wrong)
}

/// Writes what is not stored so already, and says how many files that were.
pub fn write(cases: &Path) -> io::Result<(usize, usize)> {
    let wanted = wanted(cases)?;
    let mut changed = 0;
    for (name, bytes) in &wanted {
        let path = cases.join(name);
        let old = std::fs::read(&path);
        let (own, behind) = match &old {
            Ok(old) => old.split_at(own_end(name, old)),
            Err(_) => (&[][..], &[][..]),
        };
        if old.is_ok() && own == bytes {
            continue;
        }
        changed += 1;
        std::fs::create_dir_all(path.parent().unwrap_or(cases))?;
        std::fs::write(path, [bytes, behind].concat())?;
    }
    Ok((wanted.len(), changed))
}

/// Name, input, output.
pub type Vector = (String, Vec<u8>, Vec<u8>);

/// Name, and three files that belong together.
pub type Three = (String, Vec<u8>, Vec<u8>, Vec<u8>);

/// The cases, by name.
#[derive(Default)]
pub struct Data {
    /// Traces and their rows, dumps, images.
    pub rows: Vec<Vector>,
    pub dumps: Vec<Vector>,
    pub images: Vec<Vector>,
    /// Dumps and their sheets.
    pub sheets: Vec<Vector>,
    /// Images, traces that go on from them, and their rows.
    pub onwards: Vec<Three>,
    /// Images and their words.
    pub words: Vec<Vector>,
    /// Images, and what they are in the new form and in the old one.
    pub forms: Vec<Three>,
}

/// What is stored in a folder `data`; of each kind there must be some.
pub fn read(data: &Path) -> io::Result<Data> {
    let mut all = Data::default();
    for folder in ["traces", "dumps", "images", "resumed", "forms"] {
        let mut paths: Vec<_> =
            std::fs::read_dir(data.join(folder))?.map(|e| e.map(|e| e.path())).collect::<Result<_, _>>()?;
        paths.sort();
        for path in paths {
            let name = path.file_stem().unwrap_or_default().to_string_lossy().into_owned();
            let get = |ending: &str| std::fs::read(path.with_extension(ending));
            match (folder, path.extension().and_then(|e| e.to_str())) {
                ("traces", Some("out")) => all.rows.push((name, get("in")?, get("out")?)),
                ("traces", Some("vcd")) => all.dumps.push((name, get("in")?, get("vcd")?)),
                ("traces", Some("img")) => all.images.push((name, get("in")?, get("img")?)),
                ("resumed", Some("out")) => all.onwards.push((name, get("img")?, get("in")?, get("out")?)),
                ("forms", Some("img")) => all.forms.push((name, get("img")?, get("new")?, get("old")?)),
                (_, Some("csv")) => all.sheets.push((name, get("vcd")?, get("csv")?)),
                (_, Some("txt")) => all.words.push((name, get("img")?, get("txt")?)),
                _ => {}
            }
        }
    }
    let [rows, dumps, images] = [&all.rows, &all.dumps, &all.images].map(Vec::len);
    let [sheets, onwards, words] = [all.sheets.len(), all.onwards.len(), all.words.len()];
    match [rows, dumps, images, sheets, onwards, words, all.forms.len()].contains(&0) {
        true => Err(io::Error::other(format!("{} lacks all cases of some kind", data.display()))),
        false => Ok(all),
    }
}
