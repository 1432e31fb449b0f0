//! `peer-image-gen SEED KIND`: one seeded image on standard output, good or most often not.
use peer::image_gen::{image, IMAGE_KINDS};
use std::io::Write;
use std::process::ExitCode;

fn main() -> ExitCode {
    let args: Vec<String> = std::env::args().skip(1).collect();
    let seed = args.first().and_then(|a| a.parse().ok());
    match seed.zip(args.get(1)).and_then(|(seed, kind)| image(seed, kind)) {
        Some(bytes) => {
            let _ = std::io::stdout().lock().write_all(&bytes);
            ExitCode::SUCCESS
        }
        None => {
            eprintln!("usage: peer-image-gen SEED KIND; kinds: {}", IMAGE_KINDS.join(" "));
            ExitCode::from(2)
        }
    }
}
