//! `peer-vectors CASES`: writes what is stored below CASES, the folder of the crate `cases`: `data` with an INDEX in
//! each of its folders, `args` and `stdout`. `peer-vectors --check CASES`: writes nothing, and has a line for each
//! file that is missing, is of no case or is not what the peer writes.
use peer::stored::{check, write};
use std::path::Path;
use std::process::ExitCode;

fn main() -> ExitCode {
    let args: Vec<String> = std::env::args().skip(1).collect();
    let args: Vec<&str> = args.iter().map(String::as_str).collect();
    let done = match args[..] {
        ["--check", cases] => check(Path::new(cases)).map(|wrong| {
            wrong.iter().for_each(|line| println!("{line}"));
            wrong.is_empty()
        }),
        [cases] if !cases.starts_with("--") => write(Path::new(cases)).map(|(files, changed)| {
            println!("{files} files, {changed} of them new or changed");
            true
        }),
        _ => {
            eprintln!("usage: peer-vectors [--check] CASES");
            return ExitCode::from(2);
        }
    };
    match done {
        Ok(true) => ExitCode::SUCCESS,
        Ok(false) => ExitCode::FAILURE,
        Err(e) => {
            eprintln!("{e}");
            ExitCode::from(2)
        }
    }
}
