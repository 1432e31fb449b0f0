//! The program `handover` of requests K3 and K6 but for its files and standard error: a lesson saved as an image,
//! a trace that goes on from one, an image in words, an image in the other form.

use crate::dump::waves_from;
use crate::image::{Form, Image, Untaken};
use crate::rig::{majority, Rig};
use crate::rules::{Rules, Slip};
use crate::trace::{replay_from, run, Ended, Row, Sink, Start, Stopped};
use std::io::{self, Read, Write};

/// What is asked for, with the bytes of the image that it is about.
#[derive(Clone, Copy)]
pub enum Task<'a> {
    Save,
    SaveFrom(&'a [u8]),
    Resume(&'a [u8]),
    Show(&'a [u8]),
    Convert(Form, &'a [u8]),
}

/// What there is to say on standard error.
#[derive(Clone, PartialEq, Eq, Debug)]
pub enum Said {
    Untaken(Untaken),
    Unconverted(Untaken),
    Ended(Ended),
    NoRow0,
}

impl std::fmt::Display for Said {
    fn fmt(&self, f: &mut std::fmt::Formatter<'_>) -> std::fmt::Result {
        match self {
            Said::Untaken(untaken) => write!(f, "the image is not taken, {untaken}"),
            Said::Unconverted(untaken) => write!(f, "the image is not converted, {untaken}"),
            Said::Ended(ended) => write!(f, "{ended}"),
            Said::NoRow0 => write!(f, "the trace has no row 0, so there is no image of it"),
        }
    }
}

/// Keeps the controller as the last row left it, and writes its image at the end.
struct Save<W> {
    out: W,
    last: Option<Rig>,
    /// The stamp of row 0, once there was one.
    start: Option<u32>,
    // For faults: the state before, the last row's code and stamp, whether there was a 5, 6 or 7.
    before: Option<Rig>,
    code: u8,
    shown: u32,
    refused: bool,
}

impl<W: Write> Sink for Save<W> {
    fn row(&mut self, r: &Rules, label: u64, code: u8, row: &Row, rig: &Rig) -> io::Result<()> {
        self.start.get_or_insert(row.stamp);
        self.before = self.last.replace(rig.clone());
        (self.code, self.shown) = (code, row.stamp);
        if let (Slip::HeldUnvoted, 0, 1.., Some(last)) = (r.slip, code, label, &mut self.last) {
            last.held = majority(row.sample);
        }
        Ok(())
    }

    fn refused(&mut self, _: &Ended) {
        self.refused = true;
    }

    fn end(&mut self, r: &Rules, _: bool) -> io::Result<()> {
        let last = match r.slip {
            Slip::ImageBefore => self.before.take(),
            Slip::TornNoImage if self.refused => None,
            Slip::StallNoImage if self.code != 0 => None,
            Slip::ImageWithoutRow0 => self.last.take().or_else(|| Some(Rig::fresh(r, 0))),
            _ => self.last.take(),
        };
        let Some(mut rig) = last else { return Ok(()) };
        rig.stamp = match r.slip {
            Slip::StampOfStart => self.start.unwrap_or_default(),
            Slip::StampOfRefused => self.shown,
            _ => rig.stamp,
        };
        self.out.write_all(&Image::of(r, &rig).bytes(r))
    }
}

fn save(r: &Rules, start: Start, input: impl Read, out: impl Write) -> Result<Option<Said>, Stopped> {
    let mut save = Save { out, last: None, start: None, before: None, code: 0, shown: 0, refused: false };
    let ended = run(r, start, input, &mut save)?;
    Ok(match (ended, save.start) {
        (Some(ended), _) => Some(Said::Ended(ended)),
        (None, None) => Some(Said::NoRow0),
        (None, Some(_)) => None,
    })
}

/// `handover`. An image that is not taken leaves the trace unread and writes nothing.
pub fn handover(
    r: &Rules,
    task: Task,
    input: impl Read,
    mut out: impl Write,
) -> Result<Option<Said>, Stopped> {
    let image = match task {
        Task::Save => return save(r, Start::Fresh, input, out),
        Task::Convert(to, bytes) => match Image::convert(r, to, to.bytes(), bytes) {
            Ok(converted) => return out.write_all(&converted).map(|()| None).map_err(Stopped::Writing),
            Err(untaken) => return Ok(Some(Said::Unconverted(untaken))),
        },
        Task::SaveFrom(bytes) | Task::Resume(bytes) | Task::Show(bytes) => match Image::take(r, bytes) {
            Ok(image) => image,
            Err(untaken) => return Ok(Some(Said::Untaken(untaken))),
        },
    };
    match task {
        Task::Resume(_) => {
            replay_from(r, Start::From(&image), input, out).map(|ended| ended.map(Said::Ended))
        }
        Task::Show(_) => {
            out.write_all(image.words(r).as_bytes()).map_err(Stopped::Writing)?;
            Ok(None)
        }
        _ => save(r, Start::From(&image), input, out),
    }
}

/// The line of the last good row of a trace, which is the one that its image is of; none with no row 0.
struct LastLine(Option<u64>);

impl Sink for LastLine {
    fn row(&mut self, _: &Rules, label: u64, _: u8, _: &Row, _: &Rig) -> io::Result<()> {
        self.0 = Some(label + 2);
        Ok(())
    }

    fn refused(&mut self, _: &Ended) {}

    fn end(&mut self, _: &Rules, _: bool) -> io::Result<()> {
        Ok(())
    }
}

pub fn last_line(r: &Rules, trace: &[u8]) -> Option<u64> {
    let mut last = LastLine(None);
    let _ = run(r, Start::Fresh, trace, &mut last);
    last.0
}

/// The dump of a lesson that goes on from an image; what there is to say, if anything.
pub fn waves_on_bytes(r: &Rules, image: &[u8], trace: &[u8]) -> (Vec<u8>, Option<Said>) {
    let image = match Image::take(r, image) {
        Ok(image) => image,
        Err(untaken) => return (Vec::new(), Some(Said::Untaken(untaken))),
    };
    let mut out = Vec::new();
    let ended = waves_from(r, Start::From(&image), trace, &mut out);
    (out, ended.unwrap_or(None).map(Said::Ended))
}

/// In memory, for tests.
pub fn handover_bytes(r: &Rules, task: Task, input: &[u8]) -> (Vec<u8>, Option<Said>) {
    let mut out = Vec::new();
    let said = handover(r, task, input, &mut out);
    (out, said.unwrap_or(None))
}

/// What is stored for an image: what `show` writes, or one line with the refusal.
pub fn shown_or_refused(r: &Rules, image: &[u8]) -> Vec<u8> {
    match handover_bytes(r, Task::Show(image), b"") {
        (_, Some(Said::Untaken(untaken))) => format!("refusal {}\n", untaken.refusal).into_bytes(),
        (words, _) => words,
    }
}

/// What is stored for an image and a form: the image in that form, or one line with the refusal. Room that is one byte
/// short must be refused before the image is looked at, and room that is longer taken; a line says so where it is not.
pub fn converted_or_refused(r: &Rules, to: Form, image: &[u8]) -> Vec<u8> {
    let into = |room: usize| Image::convert(r, to, room, image);
    if !into(to.bytes() - 1).is_err_and(|untaken| untaken.refusal == 8) {
        return b"not refused with 8\n".to_vec();
    }
    let converted = into(to.bytes());
    if into(to.bytes() + 100) != converted {
        return b"otherwise with more room\n".to_vec();
    }
    converted.unwrap_or_else(|untaken| format!("refusal {}\n", untaken.refusal).into_bytes())
}
