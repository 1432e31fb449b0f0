//! `peer-compare SEED COUNT --bin DIR [--stdout-only] [--without NAME]..`: the traces of seeds SEED, SEED+1, .. over
//! all kinds in turn, through `replay` and `waves` of DIR and through the peer, byte for byte; the dump of each and
//! one more of each seed through `sheet`; the image of each, what goes on from it, one more image of each seed and both
//! images in both forms through `handover`, and its dump through `waves`; once, before them, what `wall` writes and
//! what bad use gets.
use peer::damage::{dump, DUMP_KINDS};
use peer::dump::{sheet_bytes, waves_bytes};
use peer::gen::{trace, KINDS};
use peer::handover::{handover_bytes, last_line, waves_on_bytes, Said as Line, Task};
use peer::image::{layout, Form};
use peer::image_gen::{image, second_trace, IMAGE_KINDS};
use peer::page::check;
use peer::rules::Rules;
use peer::trace::replay_bytes;
use peer::vectors::session_s;
use peer::wall::{check_csv, shown_of_ground, ENTRIES, IN_AIR};
use std::collections::HashMap;
use std::io::{Read, Write};
use std::path::{Path, PathBuf};
use std::process::{Command, ExitCode, Stdio};

struct Ran {
    out: Vec<u8>,
    err: Vec<u8>,
    status: Option<i32>,
}

fn run(program: &str, args: &[String], input: &[u8]) -> std::io::Result<Ran> {
    let mut command = Command::new(program);
    command.args(args).stdin(Stdio::piped()).stdout(Stdio::piped()).stderr(Stdio::piped());
    let mut child = command.spawn()?;
    let (mut stdin, mut stdout) = (child.stdin.take().unwrap(), child.stdout.take().unwrap());
    let mut stderr = child.stderr.take().unwrap();
    let (mut out, mut err) = (Vec::new(), Vec::new());
    std::thread::scope(|s| {
        // A program that ends at a refusal need not read the rest.
        s.spawn(move || drop(stdin.write_all(input)));
        stdout.read_to_end(&mut out)?;
        stderr.read_to_end(&mut err)
    })?;
    Ok(Ran { out, err, status: child.wait()?.code() })
}

/// What standard error must hold.
#[derive(Clone)]
enum Said {
    Anything,
    Lines(usize),
    Something(bool),
    /// Nothing, or one line that begins with the program's name and has this in it.
    Line(&'static str, Option<String>),
    /// Lines of which the last says that nothing was saved; two of them, the first with this in it, where it is given.
    Unsaved(Option<String>),
}

/// The first difference of two outputs: of images by item, of all else by line.
fn first_difference(theirs: &[u8], ours: &[u8]) -> String {
    let form = Form::of(&Rules::default(), ours.len());
    if let (Some(form), true) = (form, ours.len() == theirs.len()) {
        let place = (0..form.bytes()).step_by(4).find(|&n| theirs[n..n + 4] != ours[n..n + 4]).unwrap_or(0);
        let number = |image: &[u8]| image[place..place + 4].iter().fold(0u32, |n, &b| n << 8 | u32::from(b));
        let item = layout(&Rules::default(), form)[place / 4];
        let (theirs, ours) = (number(theirs), number(ours));
        return format!("item {}, {item:?}\n  program: {theirs}\n  peer:    {ours}", place / 4 + 1);
    }
    let (mut theirs, mut ours) = (theirs.split(|&b| b == b'\n'), ours.split(|&b| b == b'\n'));
    let mut line = 1;
    loop {
        let (a, b) = (theirs.next(), ours.next());
        if a != b {
            let show = |l: Option<&[u8]>| l.map_or("(nothing)".into(), |l| l.escape_ascii().to_string());
            return format!("output line {line}\n  program: {}\n  peer:    {}", show(a), show(b));
        }
        line += 1;
    }
}

/// What differs, or nothing.
fn differs(ran: &Ran, wanted: &[u8], said: &Said) -> Option<String> {
    if ran.out != wanted {
        return Some(first_difference(&ran.out, wanted));
    }
    let status = i32::from(!ran.err.is_empty());
    if ran.status != Some(status) {
        return Some(format!("status {:?}, not {status}", ran.status));
    }
    let lines = ran.err.iter().filter(|&&b| b == b'\n').count();
    let text = ran.err.escape_ascii();
    match said {
        Said::Lines(count) if lines != *count => {
            Some(format!("{lines} lines on standard error, not {count}: {text}"))
        }
        Said::Something(true) | Said::Line(_, Some(_)) if lines == 0 => {
            Some("no line on standard error".into())
        }
        Said::Something(false) | Said::Line(_, None) if !ran.err.is_empty() => {
            Some(format!("on standard error: {text}"))
        }
        Said::Line(name, Some(holds)) => {
            let line = String::from_utf8_lossy(&ran.err);
            let one = lines == 1 && line.ends_with('\n');
            let plain = one && line.starts_with(&format!("{name}: ")) && line.contains(&holds[..]);
            (!plain).then(|| format!("not one line `{name}: ..{holds}..` on standard error: {text}"))
        }
        Said::Unsaved(first) => {
            let said = String::from_utf8_lossy(&ran.err);
            let last = said.lines().last().unwrap_or_default();
            let of_two =
                first.as_ref().is_none_or(|first| lines == 2 && said.lines().next().unwrap().contains(first));
            let plain = of_two && last.contains("nothing was saved");
            (!plain).then(|| format!("not said that nothing was saved, and why: {text}"))
        }
        _ => None,
    }
}

/// The programs, and which comparisons were asked for.
struct Programs {
    replay: String,
    waves: Option<String>,
    sheet: Option<String>,
    handover: Option<String>,
    wall: Option<String>,
    stdout_only: bool,
    /// Where images are put for `handover`.
    folder: PathBuf,
}

const USAGE: &str =
    "usage: compare SEED COUNT [--bin DIR] [--stdout-only] [--without waves|sheet|handover|wall]..";

fn arguments() -> Result<(u64, u64, Programs), String> {
    let (mut numbers, mut without, mut bin, mut stdout_only) = (Vec::new(), Vec::new(), None, false);
    let mut args = std::env::args().skip(1);
    while let Some(arg) = args.next() {
        match &arg[..] {
            "--bin" => bin = Some(args.next().ok_or(USAGE)?),
            "--without" => without.push(args.next().ok_or(USAGE)?),
            "--stdout-only" => stdout_only = true,
            _ => numbers.push(arg.parse::<u64>().map_err(|_| USAGE)?),
        }
    }
    let ([seed, count], Some(bin)) = (&numbers[..], bin) else { return Err(USAGE.into()) };
    let known = ["waves", "sheet", "handover", "wall"];
    if without.iter().any(|name| !known.contains(&&name[..])) {
        return Err(USAGE.into());
    }
    let program = |name: &str| {
        if without.iter().any(|n| n == name) {
            return Ok(None);
        }
        let path = Path::new(&bin).join(name);
        match path.is_file() {
            true => Ok(Some(path.to_string_lossy().into_owned())),
            false => Err(format!("{} is not there (--without {name} leaves it out)", path.display())),
        }
    };
    let replay = program("replay")?.unwrap_or_default();
    let [waves, sheet, handover, wall] =
        [program("waves")?, program("sheet")?, program("handover")?, program("wall")?];
    let folder = std::env::temp_dir().join(format!("peer-compare-{}", std::process::id()));
    Ok((*seed, *count, Programs { replay, waves, sheet, handover, wall, stdout_only, folder }))
}

/// What went wrong: a difference with the way to repeat it, or a program that cannot be run.
enum Wrong {
    Different(String),
    NotRun(String),
}

/// What is counted together; a number is that of a kind.
#[derive(Clone, Copy, PartialEq, Eq, Hash)]
#[rustfmt::skip]
enum Sort {
    Replay(usize), Waves, WavesOn, SheetOfRun, Sheet(usize),
    Save, ShowOfRun, Resume, SaveFrom, Show(usize), ToNew, ToOld,
}

#[derive(Clone, Copy, Default)]
struct Tally {
    count: u64,
    lines: u64,
    refused: u64,
}

impl Tally {
    fn add(&mut self, other: Tally) {
        self.count += other.count;
        self.lines += other.lines;
        self.refused += other.refused;
    }
}

type Tallies = HashMap<Sort, Tally>;

fn lines(text: &[u8]) -> u64 {
    text.iter().filter(|&&b| b == b'\n').count() as u64
}

/// One input for one program, and what the peer has for it.
struct Job<'a> {
    sort: Sort,
    program: &'a str,
    /// The arguments, and as they are told to a person.
    args: Vec<String>,
    told: &'static str,
    peer: &'static str,
    input: Vec<u8>,
    wanted: Vec<u8>,
    said: Said,
    refused: bool,
    /// How the input comes about, and its name there.
    make: String,
    file: &'static str,
    /// A file that the program writes: its path, what it holds before and what it must hold after.
    writes: Option<(String, Vec<u8>, Vec<u8>)>,
}

/// What a file that a program has written differs in, or nothing.
fn file_differs(path: &str, wanted: &[u8]) -> Option<String> {
    match std::fs::read(path) {
        Ok(bytes) if bytes == wanted => None,
        Ok(bytes) if bytes.len() == wanted.len() => Some(first_difference(&bytes, wanted)),
        Ok(bytes) => Some(format!("{path} has {} bytes, not {}", bytes.len(), wanted.len())),
        Err(e) => Some(format!("{path}: {e}")),
    }
}

impl Job<'_> {
    fn compare(&self, stdout_only: bool) -> Result<(), Wrong> {
        let Job { program, told, peer, file, make, .. } = self;
        let said = if stdout_only { &Said::Anything } else { &self.said };
        if let Some((path, before, _)) = &self.writes {
            std::fs::write(path, before).map_err(|e| Wrong::NotRun(format!("{path}: {e}")))?;
        }
        let ran = run(program, &self.args, &self.input)
            .map_err(|e| Wrong::NotRun(format!("{program} cannot be run: {e}")))?;
        let of_file = self.writes.as_ref().and_then(|(path, _, after)| file_differs(path, after));
        let Some(what) = of_file.or_else(|| differs(&ran, &self.wanted, said)) else { return Ok(()) };
        Err(Wrong::Different(format!(
            "{program}{told}: {what}
to repeat it, in peer/:
{make}  target/release/{peer}{told} < {file} > peer.out
  {program}{told} < {file} > program.out
  cmp program.out peer.out"
        )))
    }

    fn tally(&self) -> Tally {
        // The header of replay and of sheet is not a row.
        let header = match self.sort {
            Sort::Replay(_) | Sort::SheetOfRun | Sort::Sheet(_) | Sort::Resume => 1,
            _ => 0,
        };
        let lines = lines(&self.wanted).saturating_sub(header);
        Tally { count: 1, lines, refused: u64::from(self.refused) }
    }
}

/// What standard error need hold of what the peer says: which refusal an image got.
fn holds(said: &Option<Line>) -> Option<String> {
    said.as_ref().map(|line| match line {
        Line::Untaken(untaken) | Line::Unconverted(untaken) => format!("refusal {}", untaken.refusal),
        _ => String::new(),
    })
}

/// A task of HANDOVER, with its words as they are told to a person and as they are.
fn job_hands<'a>(
    program: &'a str,
    sort: Sort,
    task: Task,
    (told, args): (&'static str, &[&str]),
    input: &[u8],
    make: String,
) -> Job<'a> {
    let (wanted, said) = handover_bytes(&Rules::default(), task, input);
    let args = args.iter().map(|word| word.to_string()).collect();
    let (refused, said) = (said.is_some(), Said::Line("handover", holds(&said)));
    let (peer, file) = ("peer-handover", if input.is_empty() { "/dev/null" } else { "trace.in" });
    let input = input.to_vec();
    Job { sort, program, args, told, peer, input, wanted, said, refused, make, file, writes: None }
}

/// A task of saving: the image is wanted in a file, which stays as it was where there is none, and standard output
/// says of which line it is.
fn job_saves<'a>(job: Job<'a>, path: &str, before: &[u8]) -> Job<'a> {
    if job.wanted.is_empty() {
        let writes = Some((path.into(), before.into(), before.into()));
        return Job { writes, said: Said::Unsaved(None), ..job };
    }
    let line = last_line(&Rules::default(), &job.input).unwrap_or_default();
    let said = format!("{path}: the lesson after line {line}\n").into_bytes();
    Job { writes: Some((path.into(), before.into(), job.wanted)), wanted: said, ..job }
}

/// A task of converting: the image is wanted in a file, which stays as it was where it is refused, or where it is
/// neither empty nor as long as an image.
fn job_converts<'a>(job: Job<'a>, form: Form, path: &str, from: &str, before: &[u8]) -> Job<'a> {
    let free = before.is_empty() || Form::of(&Rules::default(), before.len()).is_some();
    let unsaved = |job: Job<'a>, first| {
        let writes = Some((path.into(), before.into(), before.into()));
        Job { writes, wanted: Vec::new(), said: Said::Unsaved(first), ..job }
    };
    match (&job.said, free) {
        (Said::Line(_, Some(first)), _) => {
            let first = first.clone();
            unsaved(job, Some(first))
        }
        (_, false) => unsaved(job, None),
        (_, true) => {
            let name = if form == Form::New { "new" } else { "old" };
            let line = format!("{path}: the {name} form of {from}\n").into_bytes();
            // An image of zeros is converted, and it is told.
            let blank = job.wanted.iter().all(|&b| b == 0);
            let said = if blank { Said::Lines(1) } else { job.said };
            Job { writes: Some((path.into(), before.into(), job.wanted)), wanted: line, said, ..job }
        }
    }
}

fn kind_of(seed: u64, kinds: &[&str]) -> usize {
    (seed % kinds.len() as u64) as usize
}

/// The trace of a seed, and how it is made.
struct Run {
    seed: u64,
    kind: usize,
    trace: Vec<u8>,
    make: String,
}

impl Programs {
    /// Everything of one seed.
    fn seed(&self, seed: u64, tallies: &mut Tallies) -> Result<(), Wrong> {
        let kind = kind_of(seed, &KINDS);
        let trace = trace(seed, KINDS[kind], None).unwrap();
        let make = format!("  target/release/peer-gen {seed} {} > trace.in\n", KINDS[kind]);
        let run = Run { seed, kind, trace, make };
        let mut jobs = self.of_trace(&run);
        jobs.extend(self.of_images(&run)?);
        for job in jobs {
            job.compare(self.stdout_only)?;
            tallies.entry(job.sort).or_default().add(job.tally());
        }
        Ok(())
    }

    /// REPLAY, WAVES and SHEET.
    fn of_trace(&self, run: &Run) -> Vec<Job<'_>> {
        let rules = Rules::default();
        let (run_dump, ended) = waves_bytes(&rules, &run.trace);
        let refused = ended.is_some();
        let job = |program, peer, sort, wanted| Job {
            sort,
            program,
            args: Vec::new(),
            told: "",
            peer,
            input: run.trace.clone(),
            wanted,
            said: Said::Lines(usize::from(refused)),
            refused,
            make: run.make.clone(),
            file: "trace.in",
            writes: None,
        };
        let rows = replay_bytes(&rules, &run.trace).0;
        let mut jobs = vec![job(&self.replay[..], "peer-replay", Sort::Replay(run.kind), rows)];
        if let Some(program) = &self.waves {
            jobs.push(job(program, "peer-waves", Sort::Waves, run_dump.clone()));
        }
        let Some(program) = &self.sheet else { return jobs };
        let kind = kind_of(run.seed, &DUMP_KINDS);
        let made = dump(run.seed, DUMP_KINDS[kind]).unwrap();
        let make_made =
            format!("  target/release/peer-dump-gen {} {} > dump.vcd\n", run.seed, DUMP_KINDS[kind]);
        let make_run = run.make.clone() + "  target/release/peer-waves < trace.in > dump.vcd\n";
        for (sort, input, make) in
            [(Sort::SheetOfRun, run_dump, make_run), (Sort::Sheet(kind), made, make_made)]
        {
            let (wanted, refused) = sheet_bytes(&rules, &input);
            let refused = refused.is_some();
            let job = job(program, "peer-sheet", sort, wanted);
            jobs.push(Job { input, make, refused, said: Said::Something(refused), file: "dump.vcd", ..job });
        }
        jobs
    }

    /// HANDOVER, and WAVES from an image.
    fn of_images(&self, run: &Run) -> Result<Vec<Job<'_>>, Wrong> {
        let Some(program) = &self.handover else { return Ok(Vec::new()) };
        let (rules, seed) = (Rules::default(), run.seed);
        let saved = handover_bytes(&rules, Task::Save, &run.trace).0;
        let second = second_trace(seed, &saved);
        let kind = kind_of(seed, &IMAGE_KINDS);
        let made = image(seed, IMAGE_KINDS[kind]).unwrap();
        let old = handover_bytes(&rules, Task::Save, &session_s()).0;
        let [saved_at, made_at] = [self.put("saved.img", &saved)?, self.put("made.img", &made)?];
        let [new_at, same_at] = [self.put("new.img", &old)?, self.put("same.img", &saved)?];

        let job = |sort, task, told, args: &[&str], input: &[u8], make| {
            job_hands(program, sort, task, (told, args), input, make)
        };
        let make_run = run.make.clone() + "  target/release/peer-handover save < trace.in > image.img\n";
        let make_second = format!("{make_run}  target/release/peer-gen {seed} onward image.img > trace.in\n");
        let make_made = format!("  target/release/peer-image-gen {seed} {} > image.img\n", IMAGE_KINDS[kind]);
        let mut converts = self.of_forms(program, seed, &saved, &saved_at, &make_run)?;
        converts.extend(self.of_forms(program, seed + 6, &made, &made_at, &make_made)?);
        let mut jobs = vec![
            job_saves(
                job(Sort::Save, Task::Save, " save", &["save", &new_at], &run.trace, run.make.clone()),
                &new_at,
                &old,
            ),
            job(Sort::ShowOfRun, Task::Show(&saved), " show image.img", &["show", &saved_at], b"", make_run),
            job(
                Sort::Resume,
                Task::Resume(&saved),
                " resume image.img",
                &["resume", &saved_at],
                &second,
                make_second.clone(),
            ),
            // One name for both: the image is read before it is replaced.
            job_saves(
                job(
                    Sort::SaveFrom,
                    Task::SaveFrom(&saved),
                    " save image.img",
                    &["save", &same_at, &same_at],
                    &second,
                    make_second.clone(),
                ),
                &same_at,
                &saved,
            ),
            job(Sort::Show(kind), Task::Show(&made), " show image.img", &["show", &made_at], b"", make_made),
        ];
        jobs.extend(converts);
        if let Some(waves) = &self.waves {
            let (wanted, said) = waves_on_bytes(&rules, &saved, &second);
            jobs.push(Job {
                sort: Sort::WavesOn,
                program: waves,
                args: vec![saved_at],
                told: " image.img",
                peer: "peer-waves",
                input: second,
                wanted,
                refused: said.is_some(),
                said: Said::Line("waves", holds(&said)),
                make: make_second,
                file: "trace.in",
                writes: None,
            });
        }
        Ok(jobs)
    }

    /// Both conversions of an image. Where the converted one is to be stands an image of either form, nothing, what is
    /// none, or the image itself, in turn.
    fn of_forms<'a>(
        &self,
        program: &'a str,
        turn: u64,
        image: &[u8],
        at: &str,
        make: &str,
    ) -> Result<Vec<Job<'a>>, Wrong> {
        let rules = Rules::default();
        let saved = handover_bytes(&rules, Task::Save, &session_s()).0;
        let old = handover_bytes(&rules, Task::Convert(Form::Old, &saved), b"").0;
        let before = [saved, old, Vec::new(), session_s(), image.to_vec()][(turn / 6 % 5) as usize].clone();
        let mut jobs = Vec::new();
        for (form, word, told, sort) in [
            (Form::New, "new", " new image.img", Sort::ToNew),
            (Form::Old, "old", " old image.img", Sort::ToOld),
        ] {
            let to = self.put("to.img", &before)?;
            let from = if turn / 6 % 5 == 4 { &to[..] } else { at };
            let task = Task::Convert(form, image);
            let job = job_hands(program, sort, task, (told, &[word, &to, from]), b"", make.into());
            jobs.push(job_converts(job, form, &to, from, &before));
        }
        Ok(jobs)
    }

    /// Words that a program does not take: nothing is written, and one line says how it is used.
    fn of_bad_use(&self) -> Result<(), Wrong> {
        let extra = |program: &Option<String>, words: &[&str]| {
            program.clone().map(|program| (program, words.iter().map(|w| w.to_string()).collect::<Vec<_>>()))
        };
        let uses = [
            extra(&Some(self.replay.clone()), &["lesson.in"]),
            extra(&self.waves, &["lesson.img", "lesson.in"]),
            extra(&self.sheet, &["lesson.vcd"]),
            extra(&self.handover, &[]),
            extra(&self.handover, &["save"]),
            extra(&self.handover, &["show"]),
            extra(&self.handover, &["load", "lesson.img"]),
            extra(&self.handover, &["save", "a.img", "b.img", "c.img"]),
            extra(&self.handover, &["resume", "a.img", "b.img"]),
            extra(&self.handover, &["new"]),
            extra(&self.handover, &["old", "a.img"]),
            extra(&self.handover, &["new", "a.img", "b.img", "c.img"]),
        ];
        for (program, words) in uses.into_iter().flatten() {
            let ran = run(&program, &words, b"")
                .map_err(|e| Wrong::NotRun(format!("{program} cannot be run: {e}")))?;
            let name = Path::new(&program).file_name().unwrap_or_default().to_string_lossy();
            let name = ["replay", "waves", "sheet", "handover"].into_iter().find(|n| *n == name);
            let said = match (self.stdout_only, name) {
                (false, Some(name)) => Said::Line(name, Some("use: ".into())),
                _ => Said::Anything,
            };
            if let Some(what) = differs(&ran, b"", &said) {
                let told = [&[program], &words[..]].concat().join(" ");
                return Err(Wrong::Different(format!("{told}: {what}")));
            }
        }
        Ok(())
    }

    /// WALL: its CSV, its page, and what it says to bad use. It is not asked with an input.
    fn of_wall(&self) -> Result<(), Wrong> {
        let Some(program) = &self.wall else { return Ok(()) };
        let rules = Rules::default();
        let uses: [&[&str]; 6] = [&["csv"], &["page"], &[], &["poster"], &["csv", "page"], &["page", "page"]];
        for args in uses {
            let words: Vec<String> = args.iter().map(|word| word.to_string()).collect();
            let ran = run(program, &words, b"")
                .map_err(|e| Wrong::NotRun(format!("{program} cannot be run: {e}")))?;
            let (what, said) = match args {
                ["csv"] => (check_csv(&rules, &ran.out), None),
                ["page"] => {
                    let wrong: Vec<String> =
                        check(&rules, &ran.out).iter().map(|w| format!("  {w}")).collect();
                    ((!wrong.is_empty()).then(|| format!("the page disagrees\n{}", wrong.join("\n"))), None)
                }
                _ => (
                    (!ran.out.is_empty()).then(|| "something on standard output".into()),
                    Some(String::new()),
                ),
            };
            let said = if self.stdout_only { Said::Anything } else { Said::Line("wall", said) };
            // What it wrote is looked at already.
            if let Some(what) = what.or_else(|| differs(&ran, &ran.out, &said)) {
                let told = [&[&program[..]], args].concat().join(" ");
                return Err(Wrong::Different(format!(
                    "{told}: {what}
to repeat it, in peer/:
  {program} csv > wall.csv; {program} page > wall.svg
  target/release/peer-wall check wall.csv wall.svg"
                )));
            }
        }
        Ok(())
    }

    /// Puts an image where a program finds it.
    fn put(&self, name: &str, image: &[u8]) -> Result<String, Wrong> {
        let path = self.folder.join(name);
        let put = std::fs::create_dir_all(&self.folder).and_then(|()| std::fs::write(&path, image));
        put.map_err(|e| Wrong::NotRun(format!("{}: {e}", path.display())))?;
        Ok(path.to_string_lossy().into_owned())
    }
}

/// What was compared, a line for each sort.
fn show(programs: &Programs, tallies: &Tallies) {
    let of = |sort| tallies.get(&sort).copied().unwrap_or_default();
    let mut all = Tally::default();
    for (kind, name) in KINDS.iter().enumerate() {
        let t = of(Sort::Replay(kind));
        println!("{name:12} {:7} traces {:10} rows  equal", t.count, t.lines);
        all.add(t);
    }
    println!("{:12} {:7} traces {:10} rows  equal", "all", all.count, all.lines);
    match programs.waves {
        Some(_) => {
            let t = of(Sort::Waves);
            println!("{:12} {:7} dumps  {:10} lines equal", "waves", t.count, t.lines);
            let t = of(Sort::WavesOn);
            println!("{:12} {:7} dumps  {:10} lines equal", "waves IMAGE", t.count, t.lines);
        }
        None => println!("waves        left out"),
    }
    if programs.sheet.is_some() {
        let kinds = DUMP_KINDS.iter().enumerate().map(|(kind, name)| (*name, Sort::Sheet(kind)));
        for (name, sort) in [("of runs", Sort::SheetOfRun)].into_iter().chain(kinds) {
            let (name, t) = (format!("sheet: {name}"), of(sort));
            println!("{name:15} {:4} dumps  {:10} rows  equal, {} got 9", t.count, t.lines, t.refused);
        }
    } else {
        println!("sheet        left out");
    }
    match programs.wall {
        Some(_) => {
            let ground = shown_of_ground(&Rules::default()).len();
            let places = format!("{IN_AIR} places and {ground} of the ground agree");
            println!("wall: csv {ENTRIES:9} rows equal, page: {places}, bad use told");
        }
        None => println!("wall         left out"),
    }
    if programs.handover.is_none() {
        println!("handover     left out");
        return;
    }
    for (name, sort, what) in [
        ("save NEW", Sort::Save, "ended by a refusal or without row 0"),
        ("save SAME SAME", Sort::SaveFrom, "so, or the image not taken"),
    ] {
        let t = of(sort);
        println!("{name:15} {:4} images equal, {} {what}", t.count, t.refused);
    }
    for (name, sort) in [("new TO FROM", Sort::ToNew), ("old TO FROM", Sort::ToOld)] {
        let t = of(sort);
        println!("{name:15} {:4} images equal, {} got 10, 11 or 12", t.count, t.refused);
    }
    let t = of(Sort::Resume);
    println!("{:15} {:4} traces {:10} rows  equal", "resume", t.count, t.lines);
    let kinds = IMAGE_KINDS.iter().enumerate().map(|(kind, name)| (*name, Sort::Show(kind)));
    for (name, sort) in [("of runs", Sort::ShowOfRun)].into_iter().chain(kinds) {
        let (name, t) = (format!("show: {name}"), of(sort));
        println!("{name:15} {:4} images equal, {} got 10 or 11", t.count, t.refused);
    }
}

fn main() -> ExitCode {
    let (seed, count, programs) = match arguments() {
        Ok(arguments) => arguments,
        Err(text) => {
            eprintln!("{text}");
            return ExitCode::from(2);
        }
    };
    let mut tallies = Tallies::default();
    let mut compare = || {
        programs.of_wall().map_err(|wrong| (String::new(), wrong))?;
        programs.of_bad_use().map_err(|wrong| (String::new(), wrong))?;
        (seed..seed + count).try_for_each(|seed| {
            programs.seed(seed, &mut tallies).map_err(|wrong| (format!("seed {seed}: "), wrong))
        })
    };
    let compared = compare();
    // It is there only if an image was put into it.
    let _ = std::fs::remove_dir_all(&programs.folder);
    match compared {
        Ok(()) => {
            show(&programs, &tallies);
            ExitCode::SUCCESS
        }
        Err((of, Wrong::Different(what))) => {
            println!("DIFFERENT: {of}{what}");
            ExitCode::FAILURE
        }
        Err((_, Wrong::NotRun(what))) => {
            eprintln!("{what}");
            ExitCode::from(2)
        }
    }
}
