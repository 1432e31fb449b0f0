//! `sheet` of request K2: a dump in, its values out as CSV; `--fault NAME` plants a fault.
use peer::cli::{rules, say};
use peer::rules::sheet_faults;
use std::io::{stdin, stdout};
use std::process::ExitCode;

fn main() -> ExitCode {
    match rules("peer-sheet", &[("--list-faults", sheet_faults)]) {
        Ok(rules) => say(peer::dump::sheet(&rules, stdin().lock(), stdout().lock())),
        Err(code) => code,
    }
}
