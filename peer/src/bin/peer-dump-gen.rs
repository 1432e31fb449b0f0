//! `peer-dump-gen SEED KIND`: one seeded dump on standard output, good (moments) or most often not.
use peer::damage::{dump, DUMP_KINDS};
use std::io::Write;
use std::process::ExitCode;

fn main() -> ExitCode {
    let args: Vec<String> = std::env::args().skip(1).collect();
    let seed = args.first().and_then(|a| a.parse().ok());
    match seed.zip(args.get(1)).and_then(|(seed, kind)| dump(seed, kind)) {
        Some(text) => {
            let _ = std::io::stdout().lock().write_all(&text);
            ExitCode::SUCCESS
        }
        None => {
            eprintln!("usage: peer-dump-gen SEED KIND; kinds: {}", DUMP_KINDS.join(" "));
            ExitCode::from(2)
        }
    }
}
