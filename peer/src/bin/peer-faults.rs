//! `peer-faults DATA`: which stored case each planted fault changes first, and how many, as tables: of rows, of the
//! writer and the reader of dumps, of images, of the wall. `peer-faults --seeds SEED COUNT`: the same over the
//! traces, dumps and images that `compare` would make, each image converted both ways too. Status 1 if a fault changes nothing.
use peer::damage::{dump, DUMP_KINDS};
use peer::dump::{moments, sheet_bytes, waves_bytes, write};
use peer::gen::{trace, KINDS};
use peer::handover::{converted_or_refused, handover_bytes, shown_or_refused, Task};
use peer::image::Form;
use peer::image_gen::{image, second_trace, IMAGE_KINDS};
use peer::page::check;
use peer::rules::{faults, image_faults, sheet_faults, unseen, unseen_in_images, wave_faults, Rules};
use peer::stored::{read, Data, Vector};
use peer::trace::replay_bytes;
use peer::wall::{all_faults, changed_rows, csv, page, ENTRIES, PLACES};
use std::collections::HashSet;
use std::path::Path;
use std::process::ExitCode;

fn replay(r: &Rules, trace: &[u8]) -> Vec<u8> {
    replay_bytes(r, trace).0
}

fn waves(r: &Rules, trace: &[u8]) -> Vec<u8> {
    waves_bytes(r, trace).0
}

fn sheet(r: &Rules, dump: &[u8]) -> Vec<u8> {
    sheet_bytes(r, dump).0
}

fn save(r: &Rules, trace: &[u8]) -> Vec<u8> {
    handover_bytes(r, Task::Save, trace).0
}

/// An image and a trace in one: how long the image is, in four bytes, then both.
fn joined(image: &[u8], trace: &[u8]) -> Vec<u8> {
    [&(image.len() as u32).to_be_bytes(), image, trace].concat()
}

fn parted(both: &[u8]) -> (&[u8], &[u8]) {
    let (length, both) = both.split_at(4);
    both.split_at(length.iter().fold(0, |n, &b| n << 8 | usize::from(b)))
}

fn to_new(r: &Rules, image: &[u8]) -> Vec<u8> {
    converted_or_refused(r, Form::New, image)
}

fn to_old(r: &Rules, image: &[u8]) -> Vec<u8> {
    converted_or_refused(r, Form::Old, image)
}

/// A trace that goes on from an image.
fn resume(r: &Rules, both: &[u8]) -> Vec<u8> {
    let (image, trace) = parted(both);
    handover_bytes(r, Task::Resume(image), trace).0
}

/// The same, and then the image that is saved of it.
fn go_on(r: &Rules, both: &[u8]) -> Vec<u8> {
    let (image, trace) = parted(both);
    [resume(r, both), handover_bytes(r, Task::SaveFrom(image), trace).0].concat()
}

/// The values of a good dump, written again.
fn again(r: &Rules, dump: &[u8]) -> Vec<u8> {
    write(r, &moments(&Rules::default(), dump).unwrap_or_default())
}

fn is_good(dump: &[u8]) -> bool {
    moments(&Rules::default(), dump).is_ok()
}

/// A program and the vectors that are put through it.
struct Suite {
    program: fn(&Rules, &[u8]) -> Vec<u8>,
    vectors: Vec<Vector>,
}

impl Suite {
    /// The first vector that these rules change, and how many they change.
    fn changed(&self, rules: &Rules) -> Option<(&str, usize)> {
        let mut changed = self.vectors.iter().filter(|v| (self.program)(rules, &v.1) != v.2);
        changed.next().map(|first| (&first.0[..], 1 + changed.count()))
    }

    /// How many outputs are not what the peer writes.
    fn wrong(&self) -> usize {
        let mut wrong = 0;
        for (name, input, output) in &self.vectors {
            if (self.program)(&Rules::default(), input) != *output {
                eprintln!("{name}: what is stored is not what the peer writes");
                wrong += 1;
            }
        }
        wrong
    }

    /// Prints the table of these faults; how many are caught by none. A fault that changes no vector
    /// is looked for in the dumps written again, if there are any.
    fn table(&self, faults: &[(String, Rules)], again: Option<&Suite>) -> usize {
        println!("| fault | first changed | changed of {} |\n|---|---|---|", self.vectors.len());
        let mut missed = 0;
        for (name, rules) in faults {
            if let Some((first, count)) = self.changed(rules) {
                println!("| {name} | {first} | {count} |");
            } else if let Some((again, (first, count))) = again.and_then(|s| Some((s, s.changed(rules)?))) {
                let all = again.vectors.len();
                println!("| {name} | {first}, written again | 0; {count} of {all} written again |");
            } else {
                println!("| {name} | **none** | 0 |");
                missed += 1;
            }
        }
        missed
    }
}

/// Traces with their rows; how many faults changed none, or showed where they must not.
fn rows(vectors: Vec<Vector>) -> usize {
    let suite = Suite { program: replay, vectors };
    let mut wrong = suite.wrong();
    println!("## Faults of the rows\n");
    let missed = suite.table(&faults(), None);
    for (name, rules) in unseen() {
        if let Some((first, _)) = suite.changed(&rules) {
            eprintln!("{name} is held to be unseen, yet {first} shows it");
            wrong += 1;
        }
    }
    let hidden: Vec<String> = unseen().into_iter().map(|f| f.0).collect();
    println!("\nCannot be seen in output rows: {}.", hidden.join(", "));
    println!("{} faults, {missed} caught by none.", faults().len());
    missed + wrong
}

/// Traces with their dumps, dumps with their sheets; the good dumps are also written again.
fn dumps(traces: Vec<Vector>, sheets: Vec<Vector>) -> usize {
    let good = sheets.iter().filter(|v| is_good(&v.1)).map(|v| (v.0.clone(), v.1.clone(), v.1.clone()));
    let rewriter = Suite { program: again, vectors: good.collect() };
    let writer = Suite { program: waves, vectors: traces };
    let reader = Suite { program: sheet, vectors: sheets };
    let wrong = writer.wrong() + rewriter.wrong() + reader.wrong();
    println!("\n## Faults of the writer of dumps\n");
    let of_writer = writer.table(&wave_faults(), Some(&rewriter));
    println!("\n{} faults of the writer, {of_writer} caught by none.", wave_faults().len());
    println!("\n## Faults of the reader of dumps\n");
    let of_reader = reader.table(&sheet_faults(), None);
    println!("\n{} faults of the reader, {of_reader} caught by none.", sheet_faults().len());
    wrong + of_writer + of_reader
}

/// Traces with their images, images and traces with what comes of them, images with their words and in both forms.
fn images(all: Data, resume: fn(&Rules, &[u8]) -> Vec<u8>) -> usize {
    let onwards =
        all.onwards.into_iter().map(|(name, image, trace, rows)| (name, joined(&image, &trace), rows));
    let [new, old] = [Form::New, Form::Old].map(|form| {
        let forms = all.forms.iter().map(|(name, image, new, old)| {
            (name.clone(), image.clone(), if form == Form::New { new.clone() } else { old.clone() })
        });
        forms.collect::<Vec<Vector>>()
    });
    let suites = [
        Suite { program: save, vectors: all.images },
        Suite { program: resume, vectors: onwards.collect() },
        Suite { program: shown_or_refused, vectors: all.words },
        Suite { program: to_new, vectors: new },
        Suite { program: to_old, vectors: old },
    ];
    let mut wrong: usize = suites.iter().map(Suite::wrong).sum();
    let [saved, resumed, shown, new, old] = [0, 1, 2, 3, 4].map(|n| suites[n].vectors.len());
    println!("\n## Faults of images\n");
    let of_forms = format!("of {new} to new | of {old} to old");
    println!(
        "| fault | first changed | of {saved} saved | of {resumed} resumed | of {shown} shown | {of_forms} |"
    );
    println!("|---|---|---|---|---|---|---|");
    let mut missed = 0;
    for (name, rules) in image_faults() {
        let changed = [0, 1, 2, 3, 4].map(|n| suites[n].changed(&rules));
        let [saved, resumed, shown, new, old] = changed.map(|c| c.map_or(0, |c| c.1));
        let first = changed.into_iter().flatten().next().map_or("**none**", |c| c.0);
        println!("| {name} | {first} | {saved} | {resumed} | {shown} | {new} | {old} |");
        missed += usize::from(saved + resumed + shown + new + old == 0);
    }
    let hidden: Vec<String> = unseen_in_images().into_iter().map(|f| f.0).collect();
    for (name, rules) in unseen_in_images() {
        if let Some((first, _)) = suites.iter().find_map(|s| s.changed(&rules)) {
            eprintln!("{name} is held to be unseen, yet {first} shows it");
            wrong += 1;
        }
    }
    println!("\nCannot be seen in images: {}.", hidden.join(", "));
    println!("{} faults, {missed} caught by none.", image_faults().len());
    missed + wrong
}

/// The table on the wall: its faults are caught by the CSV or by the page.
fn wall() -> usize {
    let sound = Rules::default();
    println!("\n## Faults of the wall\n");
    println!("| fault | rows changed of {ENTRIES} | places disagree of {PLACES} |\n|---|---|---|");
    let all = all_faults();
    let mut missed = 0;
    for (name, fault) in &all {
        let rows = changed_rows(fault);
        let wrong = check(&sound, page(fault).as_bytes());
        let places = wrong.iter().filter_map(|wrong| wrong.place).collect::<HashSet<_>>().len();
        let header = if rows == 0 && csv(fault) != csv(&sound) { ", but the header" } else { "" };
        println!("| {name} | {rows}{header} | {places} |");
        missed += usize::from(header.is_empty() && rows == 0 && wrong.is_empty());
    }
    let sound_page = check(&sound, page(&sound).as_bytes());
    sound_page.iter().for_each(|wrong| eprintln!("no fault, and yet: {wrong}"));
    println!("\n{} faults, {missed} caught by none.", all.len());
    missed + sound_page.len()
}

fn kind_of(seed: u64, kinds: &[&'static str]) -> &'static str {
    kinds[(seed % kinds.len() as u64) as usize]
}

/// A trace that `compare` would make.
fn seeded(seed: u64, program: fn(&Rules, &[u8]) -> Vec<u8>) -> Vector {
    let kind = kind_of(seed, &KINDS);
    let input = trace(seed, kind, None).unwrap();
    let output = program(&Rules::default(), &input);
    (format!("{kind} {seed}"), input, output)
}

/// The traces, dumps and images that `compare` would make.
fn seeds(seeds: std::ops::Range<u64>) -> Data {
    let rules = Rules::default();
    let mut all = Data::default();
    for seed in seeds {
        all.rows.push(seeded(seed, replay));
        let run = seeded(seed, waves);
        all.sheets.push((format!("{}, its dump", run.0), run.2.clone(), sheet(&rules, &run.2)));
        all.dumps.push(run);
        let kind = kind_of(seed, &DUMP_KINDS);
        let drawn = dump(seed, kind).unwrap();
        let wanted = sheet(&rules, &drawn);
        all.sheets.push((format!("{kind} {seed}"), drawn, wanted));
        let run = seeded(seed, save);
        let (name, saved) = (run.0.clone(), run.2.clone());
        let onward = second_trace(seed, &saved);
        let wanted = go_on(&rules, &joined(&saved, &onward));
        all.onwards.push((format!("{name}, resumed"), saved.clone(), onward, wanted));
        all.images.push(run);
        let kind = kind_of(seed, &IMAGE_KINDS);
        for (name, image) in [(name, saved), (format!("{kind} {seed}"), image(seed, kind).unwrap())] {
            let [new, old] = [to_new(&rules, &image), to_old(&rules, &image)];
            all.forms.push((name.clone(), image.clone(), new, old));
            let words = shown_or_refused(&rules, &image);
            all.words.push((name, image, words));
        }
    }
    all
}

/// All tables but that of the wall.
fn tables(mut all: Data, resume: fn(&Rules, &[u8]) -> Vec<u8>) -> usize {
    let take = std::mem::take::<Vec<Vector>>;
    rows(take(&mut all.rows)) + dumps(take(&mut all.dumps), take(&mut all.sheets)) + images(all, resume)
}

fn main() -> ExitCode {
    let args: Vec<String> = std::env::args().skip(1).collect();
    let args: Vec<&str> = args.iter().map(String::as_str).collect();
    let number = |text: &str| text.parse::<u64>().ok();
    let wrong = match args[..] {
        ["--seeds", seed, count] => match (number(seed), number(count)) {
            (Some(seed), Some(count)) => Some(tables(seeds(seed..seed + count), go_on)),
            _ => None,
        },
        [data] if !data.starts_with("--") => match read(Path::new(data)) {
            Ok(all) => Some(tables(all, resume) + wall()),
            Err(e) => {
                eprintln!("{data}: {e}");
                return ExitCode::from(2);
            }
        },
        _ => None,
    };
    match wrong {
        Some(0) => ExitCode::SUCCESS,
        Some(_) => ExitCode::FAILURE,
        None => {
            eprintln!("usage: peer-faults DATA | --seeds SEED COUNT");
            ExitCode::from(2)
        }
    }
}
