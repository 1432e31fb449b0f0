//! `wall` of requests K4 and K7: `csv` and `page`; `check CSV PAGE` holds what the other side wrote to the peer's own;
//! `--fault NAME` before the word plants a fault, `--list-faults` lists them.
use peer::cli::planted;
use peer::page::check;
use peer::rules::Rules;
use peer::wall::{all_faults, check_csv, csv, page, shown_of_ground, ENTRIES, IN_AIR};
use std::ffi::OsString;
use std::io::{stdout, Write};
use std::process::ExitCode;

/// What disagrees, a line for each on standard output; status 1 if anything does.
fn held_to(rules: &Rules, paths: [&OsString; 2]) -> ExitCode {
    let mut read = [Vec::new(), Vec::new()];
    for (bytes, path) in read.iter_mut().zip(paths) {
        match std::fs::read(path) {
            Ok(all) => *bytes = all,
            Err(e) => {
                eprintln!("wall: {} cannot be read: {e}", path.to_string_lossy());
                return ExitCode::from(2);
            }
        }
    }
    let of_csv = check_csv(rules, &read[0]);
    let of_page = check(rules, &read[1]);
    of_csv.iter().for_each(|what| println!("DIFFERENT: {what}"));
    of_page.iter().for_each(|wrong| println!("DIFFERENT: page: {wrong}"));
    if of_csv.is_some() || !of_page.is_empty() {
        return ExitCode::FAILURE;
    }
    let ground = shown_of_ground(rules).len();
    println!("CSV equal, {ENTRIES} rows; page agrees, {IN_AIR} places and {ground} of the ground");
    ExitCode::SUCCESS
}

fn main() -> ExitCode {
    let args: Vec<OsString> = std::env::args_os().skip(1).collect();
    let (rules, args) = match planted(&args, all_faults) {
        Ok(planted) => planted,
        Err(code) => return code,
    };
    let word = args.first().and_then(|word| word.to_str());
    let text = match (word, &args[args.len().min(1)..]) {
        (Some("csv"), []) => csv(&rules),
        (Some("page"), []) => page(&rules).into_bytes(),
        (Some("check"), [csv, page]) => return held_to(&rules, [csv, page]),
        _ => {
            eprintln!("wall: use: csv >CSV, page >SVG, or check CSV PAGE");
            return ExitCode::SUCCESS;
        }
    };
    if let Err(e) = stdout().lock().write_all(&text) {
        eprintln!("wall: writing failed: {e}");
    }
    ExitCode::SUCCESS
}
