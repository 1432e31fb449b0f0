//! `peer-bench REPS REPLAY BIN DIR WAVES [WORD..]`: REPLAY and the peer's in BIN on the same long nominal
//! traces, then WAVES with its WORDs (`-` for none) and the peer's on the longest; files in DIR.
use peer::gen::{trace, KINDS};
use std::fs::File;
use std::path::Path;
use std::process::{Command, ExitCode, Stdio};
use std::time::Instant;

const SIZES: [u64; 3] = [10_000, 100_000, 1_000_000];

fn run(mut command: Command, input: &Path, output: &Path) -> std::io::Result<f64> {
    command.stdin(File::open(input)?).stdout(File::create(output)?).stderr(Stdio::null());
    let start = Instant::now();
    let status = command.status()?;
    let time = start.elapsed().as_secs_f64();
    if status.success() {
        Ok(time)
    } else {
        Err(std::io::Error::other(format!("{status}")))
    }
}

/// A program and its words.
fn command(program: &[String]) -> Command {
    let mut command = Command::new(&program[0]);
    command.args(&program[1..]);
    command
}

/// Peak resident memory in KB, by GNU time.
fn memory(program: &[String], input: &Path, dir: &Path) -> Option<u64> {
    let report = dir.join("memory");
    let mut command = Command::new("/usr/bin/time");
    command.args(["-f", "%M", "-o"]).arg(&report).args(program);
    run(command, input, Path::new("/dev/null")).ok()?;
    std::fs::read_to_string(report).ok()?.trim().parse().ok()
}

/// Programs, each with its name, on one trace, the peer's last. True if their outputs are equal.
fn measure(reps: usize, programs: &[(&str, &[String])], rows: u64, dir: &Path) -> std::io::Result<bool> {
    let input = dir.join("trace.in");
    // Untimed, to warm up and to compare; then timed in turn, with the output thrown away.
    let mut outputs = Vec::new();
    for (_, program) in programs {
        run(command(program), &input, &dir.join("out"))?;
        outputs.push(std::fs::read(dir.join("out"))?);
    }
    let count = programs.len();
    let mut best = vec![f64::MAX; count];
    for turn in 0..count * reps {
        let n = (turn + turn / count) % count;
        best[n] = best[n].min(run(command(programs[n].1), &input, Path::new("/dev/null"))?);
    }
    for (n, (name, program)) in programs.iter().enumerate() {
        let kb = memory(program, &input, dir).map_or("?".into(), |kb| kb.to_string());
        let (rate, ratio) = (rows as f64 / best[n], best[n] / best[count - 1]);
        println!("{rows:>9}  {name:11} {:>7.4} {rate:>12.0} {ratio:>7.2} {kb:>10}", best[n]);
    }
    Ok(outputs.windows(2).all(|pair| pair[0] == pair[1]))
}

fn bench(reps: usize, replay: &str, waves: &[String], bin: &Path, dir: &Path) -> std::io::Result<bool> {
    let replay = [replay.to_string()];
    let peer = |name: &str| [bin.join(name).to_string_lossy().into_owned()];
    let (peer_replay, peer_waves) = (peer("peer-replay"), peer("peer-waves"));
    println!("     rows  program      best s       rows/s   ratio  memory KB");
    let mut equal = true;
    for rows in SIZES {
        std::fs::write(dir.join("trace.in"), trace(2014, KINDS[0], Some(rows)).unwrap())?;
        equal &= measure(reps, &[("REPLAY", &replay), ("peer", &peer_replay)], rows, dir)?;
    }
    let both = [("WAVES", waves), ("peer-waves", &peer_waves[..])];
    let left_out = waves[0] == "-";
    let programs = if left_out { &both[1..] } else { &both[..] };
    equal &= measure(reps, programs, SIZES[2], dir)?;
    println!("ratio: time over the peer's; outputs {}", if equal { "equal" } else { "DIFFERENT" });
    if left_out {
        println!("WAVES left out");
    }
    Ok(equal)
}

fn main() -> ExitCode {
    let args: Vec<String> = std::env::args().skip(1).collect();
    let ([reps, replay, bin, dir, waves @ ..], true) = (&args[..], args.len() > 4) else {
        eprintln!("usage: peer-bench REPS REPLAY BIN DIR WAVES [WORD..]");
        return ExitCode::from(2);
    };
    match bench(reps.parse().unwrap_or(3).max(1), replay, waves, Path::new(bin), Path::new(dir)) {
        Ok(true) => ExitCode::SUCCESS,
        Ok(false) => ExitCode::FAILURE,
        Err(e) => {
            eprintln!("{e}");
            ExitCode::from(2)
        }
    }
}
