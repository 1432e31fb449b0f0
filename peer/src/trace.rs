//! "The trace and its program" of document 01: rows in, rows out, `replay`. What is made of the rows
//! is a `Sink`, so that K2's `waves` reads a trace by the same rules; what row 0 starts is a `Start`, so
//! that K3's `handover` goes on from an image.

use crate::image::Image;
use crate::rig::{Doors, Gears, Rig};
use crate::rules::{Rules, Slip};
use std::io::{self, BufRead, ErrorKind, Read, Write};

pub const HEADER: &[u8] = b"step,stamp,handle,analogical_switch,\
gear_extended_front,gear_extended_left,gear_extended_right,\
gear_retracted_front,gear_retracted_left,gear_retracted_right,\
gear_shock_absorber_front,gear_shock_absorber_left,gear_shock_absorber_right,\
door_closed_front,door_closed_left,door_closed_right,\
door_open_front,door_open_left,door_open_right,circuit_pressurized";
pub const OUT_HEADER: &[u8] = b"step,code,general_EV,close_EV,open_EV,retract_EV,extend_EV,\
doors,gears,green,orange,red\r\n";

/// What ended the reading.
#[derive(Clone, Copy, PartialEq, Eq, Debug)]
pub struct Ended {
    pub line: u64,
    pub refusal: u8,
    pub bare_lf: bool,
}

impl std::fmt::Display for Ended {
    fn fmt(&self, f: &mut std::fmt::Formatter<'_>) -> std::fmt::Result {
        let what = match (self.refusal, self.line) {
            (6, _) => "the row is over 512 bytes",
            (7, _) => "the label is not the one due",
            (_, 1) => "the first line is not the header",
            _ => "the row breaks the form",
        };
        write!(f, "line {}: refusal {}: {what}", self.line, self.refusal)?;
        if self.line == 1 && self.bare_lf {
            write!(f, " (rows end in CRLF; a bare LF was seen)")?;
        }
        Ok(())
    }
}

pub struct Row {
    pub label: u32,
    pub stamp: u32,
    pub sample: [u32; 3],
}

/// Decimal, 0 to 4,294,967,295, no sign, no leading zero.
fn number(r: &Rules, text: &[u8], round: Slip) -> Option<u32> {
    let text = match text {
        [b'+', rest @ ..] if r.is(Slip::PlusSign) => rest,
        [] if r.is(Slip::EmptyNumber) => b"0",
        _ => text,
    };
    let long = text.len() > 10 && !r.is(Slip::LeadingZero) && !r.is(round);
    if text.is_empty() || long || text.len() > 1 && text[0] == b'0' && !r.is(Slip::LeadingZero) {
        return None;
    }
    let mut value = 0u64;
    for &b in text {
        let digit = b.wrapping_sub(b'0');
        if digit > 9 {
            return None;
        }
        value = value.wrapping_mul(10).wrapping_add(u64::from(digit));
    }
    if r.is(round) {
        Some(value as u32)
    } else {
        u32::try_from(value).ok()
    }
}

/// A row without its line break: label, stamp and 18 times `,ddd`, or it breaks the form.
pub fn row(r: &Rules, text: &[u8]) -> Option<Row> {
    let text = match r.slip {
        Slip::ExtraField => nineteen(text),
        _ => text,
    };
    let (head, tail) = text.split_at(text.len().checked_sub(72)?);
    let (comma, mask) = match r.slip {
        Slip::DigitUnchecked => (0x0000_002C, 0x0000_00FF),
        _ => (0x3030_302C, 0xFEFE_FEFF), // `,` and three times `0`, the lowest bit free
    };
    let mut sample = [0; 3];
    let mut wrong = 0;
    for (third, fields) in tail.chunks_exact(24).enumerate() {
        // Six sensors: channel 1 in the low byte of `bits`, then channels 2 and 3.
        let mut bits = 0;
        for (sensor, field) in fields.chunks_exact(4).enumerate() {
            let field = u32::from_le_bytes([field[0], field[1], field[2], field[3]]);
            wrong |= field & mask ^ comma;
            bits |= (field >> 8 & 0x01_0101) << sensor;
        }
        for (channel, word) in sample.iter_mut().enumerate() {
            *word |= (bits >> (8 * channel) & 0x3F) << (6 * third);
        }
    }
    if wrong != 0 {
        return None;
    }
    let comma = head.iter().position(|&b| b == b',')?;
    let label = number(r, &head[..comma], Slip::LabelRound)?;
    let stamp = number(r, &head[comma + 1..], Slip::StampRound)?;
    Some(Row { label, stamp, sample })
}

/// A fault: what stands before a twenty-first field.
fn nineteen(text: &[u8]) -> &[u8] {
    let twentieth = text.iter().enumerate().filter(|b| *b.1 == b',').nth(19);
    twentieth.map_or(text, |(at, _)| &text[..at])
}

enum Line<'a> {
    End,
    Row(&'a [u8]),
    /// Over 512 bytes: the first of them.
    Long(&'a [u8]),
}

/// The input cut at CRLF, in bounded memory.
struct Lines<R> {
    input: R,
    buf: Vec<u8>,
    pos: usize,
    end: usize,
    eof: bool,
    /// The last row lacked its CRLF (used by a fault only).
    bare: bool,
}

/// Where the first CRLF stands. A lone CR or LF is a byte of the row.
fn crlf(text: &[u8]) -> Option<usize> {
    let mut at = 0;
    while at < text.len() {
        at += (&text[at..]).skip_until(b'\n').unwrap_or(0);
        if text[..at].ends_with(b"\r\n") {
            return Some(at - 2);
        }
    }
    None
}

impl<R: Read> Lines<R> {
    fn new(input: R) -> Self {
        Lines { input, buf: vec![0; 1 << 17], pos: 0, end: 0, eof: false, bare: false }
    }

    fn fill(&mut self) -> io::Result<()> {
        self.buf.copy_within(self.pos..self.end, 0);
        self.end -= self.pos;
        self.pos = 0;
        loop {
            match self.input.read(&mut self.buf[self.end..]) {
                Ok(n) => {
                    self.eof = n == 0;
                    self.end += n;
                    return Ok(());
                }
                Err(e) if e.kind() == ErrorKind::Interrupted => {}
                Err(e) => return Err(e),
            }
        }
    }

    fn next(&mut self, r: &Rules) -> io::Result<Line<'_>> {
        // A row of at most 512 bytes has its CRLF within the first 514.
        let reach = r.row_max + 2;
        let (len, line_break) = loop {
            let ready = &self.buf[self.pos..self.end];
            let ready = &ready[..ready.len().min(reach)];
            if let Some(len) = crlf(ready) {
                break (len, 2);
            }
            if r.is(Slip::LfEndsRow) {
                if let Some(len) = ready.iter().position(|&b| b == b'\n') {
                    break (len, 1);
                }
            }
            if self.eof || ready.len() == reach {
                break (ready.len(), 0);
            }
            self.fill()?;
        };
        self.bare = line_break == 0 && (len > 0 || self.bare);
        if r.is(Slip::EmptyLastRow) && (len, line_break) == (0, 2) {
            self.pos += 2;
            self.fill()?;
            if self.eof && self.pos == self.end {
                return Ok(Line::End);
            }
            return Ok(Line::Row(b""));
        }
        let start = self.pos;
        self.pos += len + line_break;
        let mut text = &self.buf[start..start + len];
        match (r.slip, line_break) {
            (Slip::CrDropped, 0) | (Slip::CrCrLf, 2) => text = text.strip_suffix(b"\r").unwrap_or(text),
            (Slip::LastRowDropped, 0) if len <= r.row_max => return Ok(Line::End),
            _ => {}
        }
        Ok(match text.len() {
            _ if (len, line_break) == (0, 0) => Line::End,
            n if n > r.row_max => Line::Long(text),
            _ => Line::Row(text),
        })
    }
}

pub(crate) fn decimal(out: &mut Vec<u8>, mut n: u64) {
    let mut text = [0; 20];
    let mut at = text.len();
    loop {
        at -= 1;
        text[at] = b'0' + (n % 10) as u8;
        n /= 10;
        if n == 0 {
            break;
        }
    }
    out.extend_from_slice(&text[at..]);
}

/// What row 0 starts, with its stamp: a controller afresh, or one that an image holds.
#[derive(Clone, Copy)]
pub enum Start<'a> {
    Fresh,
    From(&'a Image),
}

impl Start<'_> {
    /// Row 0 gives the start stamp; its sample is not used.
    fn at(self, r: &Rules, row: &Row) -> Rig {
        let mut rig = match self {
            Start::From(image) if !r.is(Slip::FreshInstead) => image.start(r, row.stamp),
            _ => Rig::fresh(r, row.stamp),
        };
        match r.slip {
            Slip::Row0Used => rig.vote(r, row.sample),
            Slip::Row0Counts => rig.count_only(r, row.sample),
            _ => {}
        }
        if let (Start::From(_), Slip::Row0Stepped) = (self, r.slip) {
            rig.stamp = row.stamp.wrapping_sub(1);
            rig.step(r, row.stamp, row.sample);
        }
        rig
    }
}

/// What a program makes of the rows of a trace.
pub(crate) trait Sink {
    /// A row that was taken, or got 3 or 4 as its code, and the controller as it then stands.
    fn row(&mut self, r: &Rules, label: u64, code: u8, row: &Row, rig: &Rig) -> io::Result<()>;
    /// The refusal that ends the reading.
    fn refused(&mut self, _ended: &Ended) {}
    /// After the last row: writes out what is ready. `bare`: the last row lacked its CRLF.
    fn end(&mut self, r: &Rules, bare: bool) -> io::Result<()>;
}

/// The output, written in large pieces. The fields after the code are kept as text while the
/// state they show stays the same.
struct Output<W> {
    out: W,
    buf: Vec<u8>,
    shown: Option<(u8, Doors, Gears, [bool; 3])>,
    fields: Vec<u8>,
}

impl<W: Write> Sink for Output<W> {
    #[inline]
    fn row(&mut self, r: &Rules, label: u64, code: u8, _: &Row, rig: &Rig) -> io::Result<()> {
        let state = (rig.on, rig.doors, rig.gears, rig.lights(r));
        if self.shown != Some(state) {
            self.shown = Some(state);
            self.fields.clear();
            let bit = |fields: &mut Vec<u8>, on: bool| fields.extend([b',', b'0' + u8::from(on)]);
            (0..5).for_each(|order| bit(&mut self.fields, rig.is_on(order)));
            self.fields.extend_from_slice(match rig.doors {
                Doors::Closed => b",CLOSED",
                Doors::Opening => b",OPENING",
                Doors::Open => b",OPEN",
                Doors::Closing => b",CLOSING",
            });
            self.fields.extend_from_slice(match rig.gears {
                Gears::Retracted => b",RETRACTED",
                Gears::Extending => b",EXTENDING",
                Gears::Extended => b",EXTENDED",
                Gears::Retracting => b",RETRACTING",
            });
            state.3.into_iter().for_each(|lit| bit(&mut self.fields, lit));
            self.fields.extend_from_slice(b"\r\n");
        }
        decimal(&mut self.buf, label);
        self.buf.extend_from_slice(&[b',', b'0' + code]);
        if code != 0 && r.is(Slip::RefusedEmpty) {
            self.buf.extend_from_slice(b",,,,,,,,,,\r\n");
        } else {
            self.buf.extend_from_slice(&self.fields);
        }
        if self.buf.len() >= 1 << 16 {
            self.flush()?;
        }
        Ok(())
    }

    /// The refusal row: line number, refusal, ten empty fields.
    fn refused(&mut self, ended: &Ended) {
        decimal(&mut self.buf, ended.line);
        self.buf.extend_from_slice(&[b',', b'0' + ended.refusal]);
        self.buf.extend_from_slice(b",,,,,,,,,,\r\n");
    }

    fn end(&mut self, r: &Rules, bare: bool) -> io::Result<()> {
        if r.is(Slip::LastCrLfCopied) && bare {
            self.buf.truncate(self.buf.len().saturating_sub(2));
        }
        self.flush()
    }
}

impl<W: Write> Output<W> {
    fn flush(&mut self) -> io::Result<()> {
        self.out.write_all(&self.buf)?;
        self.buf.clear();
        Ok(())
    }
}

/// Why `replay` stopped short of the end of the input.
pub enum Stopped {
    Reading(io::Error),
    Writing(io::Error),
}

/// How the reading of a trace went: to its end, or to the refusal that ended it.
pub type Reading = Result<Option<Ended>, Stopped>;

/// `replay`: the whole program but for its message on standard error.
pub fn replay(r: &Rules, input: impl Read, out: impl Write) -> Reading {
    replay_from(r, Start::Fresh, input, out)
}

/// What `replay` writes, from a start of any kind.
pub fn replay_from(r: &Rules, start: Start, input: impl Read, out: impl Write) -> Reading {
    let mut output = Output { out, buf: Vec::with_capacity(1 << 17), shown: None, fields: Vec::new() };
    output.buf.extend_from_slice(OUT_HEADER);
    run(r, start, input, &mut output)
}

/// A whole trace through a sink. If reading fails, what is ready is written out.
pub(crate) fn run(r: &Rules, start: Start, input: impl Read, sink: &mut impl Sink) -> Reading {
    let mut lines = Lines::new(input);
    match rows(r, start, &mut lines, sink) {
        Err(Stopped::Writing(e)) => Err(Stopped::Writing(e)),
        other => sink.end(r, lines.bare).map_err(Stopped::Writing).and(other),
    }
}

fn rows<R: Read>(r: &Rules, start: Start, lines: &mut Lines<R>, sink: &mut impl Sink) -> Reading {
    // The header is line 1.
    let (refusal, bare_lf) = match lines.next(r).map_err(Stopped::Reading)? {
        Line::Row(text) if text == HEADER || r.is(Slip::HeaderUnchecked) => (0, false),
        Line::Row(text) => (5, text.contains(&b'\n')),
        Line::End if r.is(Slip::NoHeaderSilent) => return Ok(None),
        Line::End => (5, false),
        Line::Long(text) => (if r.is(Slip::HeaderLong5) { 5 } else { 6 }, text.contains(&b'\n')),
    };
    if refusal != 0 {
        let ended = Ended { line: 1, refusal, bare_lf };
        sink.refused(&ended);
        return Ok(Some(ended));
    }
    // Labels count 0, 1, 2 and so on; after 4,294,967,295 none of 32 bits is due.
    let mut due = 0u64;
    let mut rig = Rig::fresh(r, 0);
    loop {
        let refusal = match lines.next(r).map_err(Stopped::Reading)? {
            Line::End => return Ok(None),
            Line::Long(text) => match r.slip {
                Slip::FiveBeforeSix => 5,
                Slip::SevenBeforeSix if other_label(r, text, due) => 7,
                _ => 6,
            },
            Line::Row(text) => match row(r, text) {
                None if r.is(Slip::SevenBeforeFive) && other_label(r, text, due) => 7,
                None => 5,
                Some(row) if u64::from(row.label) != due && !r.is(Slip::LabelUnchecked) => 7,
                Some(row) => {
                    let code = if due == 0 {
                        rig = start.at(r, &row);
                        0
                    } else {
                        rig.step(r, row.stamp, row.sample)
                    };
                    sink.row(r, due, code, &row, &rig).map_err(Stopped::Writing)?;
                    // A row that gets 3 or 4 uses up its label.
                    due += u64::from(code == 0 || !r.is(Slip::LabelKeptOnRefusal));
                    continue;
                }
            },
        };
        let line = if r.is(Slip::LineIsLabel) { due } else { due + 2 };
        let ended = Ended { line, refusal, bare_lf: false };
        sink.refused(&ended);
        if !r.is(Slip::GoesOn) {
            return Ok(Some(ended));
        }
        due += 1;
    }
}

/// Faults only: the first field is a number and not the label due.
fn other_label(r: &Rules, text: &[u8], due: u64) -> bool {
    let first = text.split(|&b| b == b',').next().unwrap_or(b"");
    number(r, first, Slip::LabelRound).is_some_and(|label| u64::from(label) != due)
}

/// In memory, for tests.
pub fn replay_bytes(r: &Rules, input: &[u8]) -> (Vec<u8>, Option<Ended>) {
    let mut out = Vec::new();
    let ended = replay(r, input, &mut out);
    (out, ended.unwrap_or(None))
}
