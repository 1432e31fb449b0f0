//! `peer-gen SEED KIND [ROWS]`: one seeded trace on standard output (ROWS for nominal only).
//! `peer-gen SEED onward IMAGE`: one of another seed, to go on from an image.
use peer::gen::{trace, KINDS};
use peer::image_gen::second_trace;
use std::io::Write;
use std::process::ExitCode;

fn main() -> ExitCode {
    let args: Vec<String> = std::env::args().skip(1).collect();
    let seed = args.first().and_then(|a| a.parse().ok());
    let rows = args.get(2).and_then(|a| a.parse().ok());
    let text = seed.zip(args.get(1)).and_then(|(seed, kind)| match &kind[..] {
        "onward" => {
            args.get(2).and_then(|path| std::fs::read(path).ok()).map(|image| second_trace(seed, &image))
        }
        _ => trace(seed, kind, rows),
    });
    match text {
        Some(text) => {
            let _ = std::io::stdout().lock().write_all(&text);
            ExitCode::SUCCESS
        }
        None => {
            eprintln!("usage: peer-gen SEED KIND [ROWS] | SEED onward IMAGE; kinds: {}", KINDS.join(" "));
            ExitCode::from(2)
        }
    }
}
