//! What the programs with faults have in common.

use crate::rules::{by_name, Rules};
use crate::trace::Stopped;
use std::ffi::OsString;
use std::fmt::Display;
use std::process::ExitCode;

type List = fn() -> Vec<(String, Rules)>;

fn fault(name: &str) -> Result<Rules, ExitCode> {
    by_name(name).ok_or_else(|| {
        eprintln!("no such fault: {name}");
        ExitCode::from(2)
    })
}

/// For a program with arguments of its own: `--fault NAME` before them, or `--list-faults` alone.
pub fn planted(args: &[OsString], list: List) -> Result<(Rules, &[OsString]), ExitCode> {
    match args {
        [option] if option == "--list-faults" => {
            list().iter().for_each(|f| println!("{}", f.0));
            Err(ExitCode::SUCCESS)
        }
        [option, name, rest @ ..] if option == "--fault" => Ok((fault(&name.to_string_lossy())?, rest)),
        _ => Ok((Rules::default(), args)),
    }
}

/// The rules that the arguments ask for: none, `--fault NAME`, or an option that lists faults.
pub fn rules(program: &str, lists: &[(&str, List)]) -> Result<Rules, ExitCode> {
    let args: Vec<String> = std::env::args().skip(1).collect();
    let args: Vec<&str> = args.iter().map(String::as_str).collect();
    match args[..] {
        [] => return Ok(Rules::default()),
        ["--fault", name] => return fault(name),
        [option] => {
            if let Some((_, list)) = lists.iter().find(|l| l.0 == option) {
                list().iter().for_each(|f| println!("{}", f.0));
                return Err(ExitCode::SUCCESS);
            }
        }
        _ => {}
    }
    let options: Vec<&str> = lists.iter().map(|l| l.0).collect();
    eprintln!("usage: {program} [--fault NAME | {}] <in >out", options.join(" | "));
    Err(ExitCode::from(2))
}

/// One line on standard error where something ended the reading. The program ends normally.
pub fn say(ended: Result<Option<impl Display>, Stopped>) -> ExitCode {
    match ended {
        Ok(None) => {}
        Ok(Some(ended)) => eprintln!("{ended}"),
        Err(Stopped::Reading(e)) => eprintln!("reading failed: {e}"),
        Err(Stopped::Writing(e)) => eprintln!("writing failed: {e}"),
    }
    ExitCode::SUCCESS
}
