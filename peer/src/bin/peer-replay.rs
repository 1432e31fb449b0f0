//! `replay` of document 01; `--fault NAME` plants a fault, `--list-faults` lists them.
use peer::cli::{rules, say};
use peer::rules::{faults, unseen};
use std::io::{stdin, stdout};
use std::process::ExitCode;

fn main() -> ExitCode {
    match rules("peer-replay", &[("--list-faults", faults), ("--list-unseen", unseen)]) {
        Ok(rules) => say(peer::trace::replay(&rules, stdin().lock(), stdout().lock())),
        Err(code) => code,
    }
}
