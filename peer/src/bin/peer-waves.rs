//! `waves` of request K2: a trace in, its dump out; with an image, that of a lesson that goes on from it. `--fault NAME`
//! before it plants a fault, `--list-faults` lists them.
use peer::cli::{planted, say};
use peer::dump::{waves, waves_from};
use peer::image::Image;
use peer::rules::wave_faults;
use peer::trace::Start;
use std::ffi::OsString;
use std::io::{stdin, stdout};
use std::process::ExitCode;

fn main() -> ExitCode {
    let args: Vec<OsString> = std::env::args_os().skip(1).collect();
    let (rules, args) = match planted(&args, wave_faults) {
        Ok(planted) => planted,
        Err(code) => return code,
    };
    let path = match args {
        [] => return say(waves(&rules, stdin().lock(), stdout().lock())),
        [path] if !path.to_string_lossy().starts_with("--") => path,
        _ => {
            eprintln!("usage: peer-waves [--fault NAME | --list-faults] [IMAGE] <in >out");
            return ExitCode::from(2);
        }
    };
    let taken = std::fs::read(path)
        .map_err(|e| e.to_string())
        .and_then(|bytes| Image::take(&rules, &bytes).map_err(|e| e.to_string()));
    match taken {
        Ok(image) => say(waves_from(&rules, Start::From(&image), stdin().lock(), stdout().lock())),
        Err(why) => {
            eprintln!("waves: {}: {why}", path.to_string_lossy());
            ExitCode::SUCCESS
        }
    }
}
