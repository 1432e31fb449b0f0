//! `handover` of requests K3 and K6: `save [IMAGE]`, `resume IMAGE`, `show IMAGE`, `new IMAGE`, `old IMAGE`; `--fault
//! NAME` before the word plants a fault, `--list-faults` lists them.
use peer::cli::planted;
use peer::handover::{handover, Task};
use peer::image::Form;
use peer::rules::{image_faults, Rules};
use peer::trace::Stopped;
use std::ffi::OsString;
use std::io::{stdin, stdout, Read};
use std::process::ExitCode;

const LONG: u64 = 1 << 20;

/// The bytes of an image; of a file that is far longer, as many as show that it is none.
fn image(path: &OsString) -> Result<Vec<u8>, String> {
    let mut bytes = Vec::new();
    std::fs::File::open(path)
        .and_then(|file| file.take(LONG).read_to_end(&mut bytes))
        .map_err(|e| format!("{} cannot be read: {e}", path.to_string_lossy()))?;
    Ok(bytes)
}

/// The whole program; what there is to say of it in one line, if anything.
fn run(rules: &Rules, args: &[OsString]) -> Result<(), String> {
    let word = args.first().and_then(|word| word.to_str());
    let bytes = match (word, &args[args.len().min(1)..]) {
        (Some("save"), []) => None,
        (Some("save" | "resume" | "show" | "new" | "old"), [path]) => Some(image(path)?),
        _ => {
            let uses =
                "save [IMAGE] <trace >image, resume IMAGE <trace >rows, show IMAGE, new or old IMAGE >image";
            return Err(format!("use: {uses}"));
        }
    };
    let task = match (word, &bytes) {
        (Some("resume"), Some(bytes)) => Task::Resume(bytes),
        (Some("show"), Some(bytes)) => Task::Show(bytes),
        (Some("new"), Some(bytes)) => Task::Convert(Form::New, bytes),
        (Some("old"), Some(bytes)) => Task::Convert(Form::Old, bytes),
        (_, Some(bytes)) => Task::SaveFrom(bytes),
        (_, None) => Task::Save,
    };
    match handover(rules, task, stdin().lock(), stdout().lock()) {
        Ok(None) => Ok(()),
        Ok(Some(said)) => Err(said.to_string()),
        Err(Stopped::Reading(e)) => Err(format!("reading failed: {e}")),
        Err(Stopped::Writing(e)) => Err(format!("writing failed: {e}")),
    }
}

fn main() -> ExitCode {
    let args: Vec<OsString> = std::env::args_os().skip(1).collect();
    let (rules, args) = match planted(&args, image_faults) {
        Ok(planted) => planted,
        Err(code) => return code,
    };
    if let Err(line) = run(&rules, args) {
        eprintln!("handover: {line}");
    }
    ExitCode::SUCCESS
}
