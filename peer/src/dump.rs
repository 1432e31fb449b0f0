//! Request K2: the value change dump of a run, its reader, and the sheet of its values.
//!
//! The 26 values are bits of a `u32`, the wire of code `!` lowest. A run, or any other list of times
//! rising from 0 with the values from each on, is a list of moments.

use crate::rig::{majority, Rig};
use crate::rules::{Rules, Slip};
use crate::trace::{decimal, run, Ended, Reading, Row, Sink, Start, Stopped};
use std::io::{self, ErrorKind, Read, Write};

pub const COUNT: usize = 26;
pub const ALL: u32 = (1 << COUNT) - 1;

/// The wires in the order of their codes.
#[rustfmt::skip]
pub const WIRES: [&str; COUNT] = [
    "general_EV", "close_EV", "open_EV", "retract_EV", "extend_EV", "green", "orange", "red",
    "handle", "analogical_switch",
    "gear_extended_front", "gear_extended_left", "gear_extended_right",
    "gear_retracted_front", "gear_retracted_left", "gear_retracted_right",
    "gear_shock_absorber_front", "gear_shock_absorber_left", "gear_shock_absorber_right",
    "door_closed_front", "door_closed_left", "door_closed_right",
    "door_open_front", "door_open_left", "door_open_right", "circuit_pressurized",
];

/// A time in ms, and the values from then on.
pub type Moment = (u64, u32);

/// `!` to `:`.
fn code(r: &Rules, wire: u32) -> u8 {
    b'!' + wire as u8 + u8::from(r.is(Slip::CodesFromNext))
}

/// All that stands before the 26 first values.
fn head(r: &Rules) -> Vec<u8> {
    let mut text = b"$timescale 1 ms $end\n$scope module rig $end\n".to_vec();
    for (wire, name) in (0..).zip(WIRES) {
        text.extend_from_slice(b"$var wire 1 ");
        text.push(code(r, wire));
        text.extend_from_slice(format!(" {name} $end\n").as_bytes());
    }
    text.extend_from_slice(b"$upscope $end\n$enddefinitions $end\n#0\n$dumpvars\n");
    text
}

/// The length of a dump that has `#0` alone.
pub fn head_length() -> usize {
    head(&Rules::default()).len() + 3 * COUNT + b"$end\n".len()
}

fn wire(r: &Rules, out: &mut Vec<u8>, values: u32, wire: u32) {
    out.extend([b'0' + (values >> wire & 1) as u8, code(r, wire), b'\n']);
}

/// Moments in, the bytes of the dump out.
#[derive(Default)]
pub struct Writer {
    first: u32,
    last: Option<u32>,
}

impl Writer {
    /// The first moment writes the head and all values, whatever its time.
    pub fn moment(&mut self, r: &Rules, out: &mut Vec<u8>, time: u64, values: u32) {
        let from = out.len();
        match self.last {
            None => self.start(r, out, values),
            Some(last) => {
                let before = if r.is(Slip::ComparesWithFirst) { self.first } else { last };
                let mut changed = before ^ values;
                if changed == 0 && !r.is(Slip::IdleTimeWritten) {
                    return;
                }
                if r.is(Slip::AllWiresWritten) {
                    changed = ALL;
                }
                out.push(b'#');
                decimal(out, if r.is(Slip::TimeModulo32) { time & 0xFFFF_FFFF } else { time });
                out.push(b'\n');
                while changed != 0 {
                    let next = match r.slip {
                        Slip::ChangesBackwards => changed.ilog2(),
                        _ => changed.trailing_zeros(),
                    };
                    changed &= !(1 << next);
                    wire(r, out, values, next);
                    if r.is(Slip::FirstChangeOnly) {
                        break;
                    }
                }
            }
        }
        self.last = Some(values);
        if r.is(Slip::DumpCrLf) {
            let text: Vec<u8> = out.drain(from..).collect();
            out.extend(text.split(|&b| b == b'\n').collect::<Vec<_>>().join(&b"\r\n"[..]));
        }
    }

    fn start(&mut self, r: &Rules, out: &mut Vec<u8>, values: u32) {
        self.first = values;
        out.extend(head(r));
        if r.is(Slip::FirstStateMissing) {
            out.truncate(out.len() - b"#0\n$dumpvars\n".len());
            return;
        }
        (0..COUNT as u32).for_each(|n| wire(r, out, values, n));
        if !r.is(Slip::DumpvarsOpen) {
            out.extend_from_slice(b"$end\n");
        }
    }
}

/// The dump of a list of moments: what changes nothing is not written.
pub fn write(r: &Rules, moments: &[Moment]) -> Vec<u8> {
    let (mut writer, mut out) = (Writer::default(), Vec::new());
    moments.iter().for_each(|&(time, values)| writer.moment(r, &mut out, time, values));
    out
}

/// The 26 values: orders as in the output row, green, orange, red, sensors as in the sample.
fn values(r: &Rules, code: u8, row: &Row, rig: &Rig) -> u32 {
    let lamps = rig.lights(r).into_iter().rev().fold(0, |all, lit| all << 1 | u32::from(lit));
    let first = row.label == 0;
    let sensors = match r.slip {
        Slip::WiresMajority if !first && code == 0 => majority(row.sample),
        Slip::WiresChannel1 if !first && code == 0 => row.sample[0],
        Slip::WiresRefusedSample if code != 0 => majority(row.sample),
        Slip::WiresInvalid0 => rig.held & !rig.invalid,
        _ => rig.held,
    };
    let all = u32::from(rig.on) | lamps << 5 | sensors << 8;
    let swapped = |a: u32, b: u32| {
        let differ = (all >> a ^ all >> b) & 1;
        all ^ (differ << a | differ << b)
    };
    match r.slip {
        Slip::LampOrderSwapped => swapped(4, 5),
        Slip::OpenCloseSwapped => swapped(1, 2),
        Slip::OrangeRedSwapped => swapped(6, 7),
        Slip::LeftRightSwapped => swapped(11, 12),
        _ => all,
    }
}

/// `waves`, row by row. Time is the sum of the elapsed times of accepted rows.
struct Waves<W> {
    out: W,
    buf: Vec<u8>,
    writer: Writer,
    /// The last accepted stamp, once there was a row 0.
    stamp: Option<u32>,
    time: u64,
    // For faults: the start stamp, where the last block begins, whether there was a 3 or 4, and
    // whether a 5, 6 or 7.
    start: u32,
    block: usize,
    stalled: bool,
    refused: bool,
}

impl<W: Write> Waves<W> {
    fn flush(&mut self) -> io::Result<()> {
        self.out.write_all(&self.buf)?;
        self.buf.clear();
        Ok(())
    }
}

impl<W: Write> Sink for Waves<W> {
    #[inline]
    fn row(&mut self, r: &Rules, label: u64, code: u8, row: &Row, rig: &Rig) -> io::Result<()> {
        let before = self.time;
        match self.stamp {
            None => self.start = rig.stamp,
            Some(last) if r.is(Slip::RefusedAddsTime) && code != 0 => {
                self.time += u64::from(row.stamp.wrapping_sub(last));
            }
            // A refused row leaves the stamp of the controller.
            Some(last) => self.time += u64::from(rig.stamp.wrapping_sub(last)),
        }
        self.stamp = Some(rig.stamp);
        let time = match r.slip {
            Slip::TimeIsStamp => u64::from(rig.stamp),
            Slip::TimeIsLabel => label,
            Slip::TimeNotRound => u64::from(rig.stamp.saturating_sub(self.start)),
            Slip::TimeBeforeStep => before,
            _ => self.time,
        };
        self.stalled |= code != 0;
        let held_back = r.is(Slip::FirstAfterStep) && self.writer.last.is_none() && time == 0;
        if held_back || self.stalled && r.is(Slip::RefusedRowEnds) {
            return Ok(());
        }
        if self.buf.len() >= 1 << 16 {
            self.flush()?;
        }
        let from = self.buf.len();
        self.writer.moment(r, &mut self.buf, time, values(r, code, row, rig));
        if self.buf.len() > from {
            self.block = from;
        }
        Ok(())
    }

    fn refused(&mut self, _: &Ended) {
        self.refused = true;
    }

    fn end(&mut self, r: &Rules, _: bool) -> io::Result<()> {
        match r.slip {
            Slip::NoLastLf => drop(self.buf.pop()),
            Slip::LastBlockLost => self.buf.truncate(self.block),
            Slip::LastTimeWritten if self.time > 0 => {
                self.buf.extend(format!("#{}\n", self.time).bytes());
            }
            Slip::WithheldOnRefusal if self.refused => self.buf.clear(),
            Slip::HeadAlways if self.buf.is_empty() => self.buf = head(r),
            _ => {}
        }
        self.flush()
    }
}

/// `waves`: a trace in, its dump out; the whole program but for its message on standard error.
/// With no row 0 nothing is written.
pub fn waves(r: &Rules, input: impl Read, out: impl Write) -> Reading {
    waves_from(r, Start::Fresh, input, out)
}

/// The same where a lesson goes on from an image: the dump of a lesson that was handed over.
pub fn waves_from(r: &Rules, start: Start, input: impl Read, out: impl Write) -> Reading {
    let mut waves = Waves {
        out,
        buf: Vec::with_capacity(1 << 17),
        writer: Writer::default(),
        stamp: None,
        time: 0,
        start: 0,
        block: 0,
        stalled: false,
        refused: false,
    };
    run(r, start, input, &mut waves)
}

/// Why a dump got 9.
#[derive(Clone, Copy, PartialEq, Eq, Debug)]
pub struct Refused {
    pub line: u64,
    pub what: &'static str,
}

impl std::fmt::Display for Refused {
    fn fmt(&self, f: &mut std::fmt::Formatter<'_>) -> std::fmt::Result {
        write!(f, "line {}: refusal 9: {}", self.line, self.what)
    }
}

enum Fail {
    Refused(Refused),
    Stopped(Stopped),
}

/// A dump, read byte by byte in bounded memory and refused where it can be none.
struct Reader<R> {
    input: R,
    buf: Vec<u8>,
    pos: usize,
    end: usize,
    line: u64,
    /// The block under way: its time, the values so far, the wires that may still change in it.
    time: u64,
    values: u32,
    free: u32,
    /// It can end here: something changed, or it is the first.
    whole: bool,
    in_head: bool,
}

impl<R: Read> Reader<R> {
    fn new(input: R) -> Self {
        Reader {
            input,
            buf: vec![0; 1 << 16],
            pos: 0,
            end: 0,
            line: 1,
            time: 0,
            values: 0,
            free: 0,
            whole: true,
            in_head: true,
        }
    }

    #[inline]
    fn next(&mut self) -> Result<Option<u8>, Fail> {
        while self.pos == self.end {
            match self.input.read(&mut self.buf) {
                Ok(0) => return Ok(None),
                Ok(n) => (self.pos, self.end) = (0, n),
                Err(e) if e.kind() == ErrorKind::Interrupted => {}
                Err(e) => return Err(Fail::Stopped(Stopped::Reading(e))),
            }
        }
        self.pos += 1;
        Ok(Some(self.buf[self.pos - 1]))
    }

    fn refuse<T>(&self, what: &'static str) -> Result<T, Fail> {
        Err(Fail::Refused(Refused { line: self.line, what }))
    }

    /// LF and nothing else.
    fn lf(&mut self, r: &Rules, what: &'static str) -> Result<(), Fail> {
        match self.next()? {
            Some(b'\n') => {}
            None if r.is(Slip::MissingLfTaken) => {}
            Some(b'\r') if r.is(Slip::CrLfTaken) => return self.lf(r, what),
            _ => return self.refuse(what),
        }
        self.line += 1;
        Ok(())
    }

    /// A fixed text, line by line.
    fn text(&mut self, r: &Rules, text: &[u8]) -> Result<(), Fail> {
        let what = "this is not how a dump begins";
        for line in text.split_inclusive(|&b| b == b'\n') {
            for &wanted in &line[..line.len() - 1] {
                match self.next()? {
                    Some(b) if b == wanted => {}
                    Some(b) if r.is(Slip::HeadUnchecked) && b != b'\n' => {}
                    _ => return self.refuse(what),
                }
            }
            if r.is(Slip::AfterEndSkipped) && line.ends_with(b"$end\n") {
                while self.next()?.is_some_and(|b| b != b'\n') {}
            } else {
                self.lf(r, what)?;
            }
        }
        Ok(())
    }

    fn head(&mut self, r: &Rules) -> Result<(), Fail> {
        self.text(r, &head(&Rules::default()))?;
        for wire in 0..COUNT as u32 {
            match self.next()? {
                Some(value @ (b'0' | b'1')) => self.values |= u32::from(value - b'0') << wire,
                Some(b'x') if r.is(Slip::UnknownTaken) => {}
                _ => return self.refuse("not a first value"),
            }
            if self.next()? != Some(code(&Rules::default(), wire)) {
                return self.refuse("not the code of this wire");
            }
            self.lf(r, "more than a value and its code")?;
        }
        self.text(r, b"$end\n")?;
        self.in_head = false;
        Ok(())
    }

    /// What follows the `#` of a later time.
    fn time(&mut self, r: &Rules) -> Result<u64, Fail> {
        let (mut time, mut digits) = (0u64, 0);
        loop {
            let next = self.next()?;
            match next {
                Some(digit @ b'0'..=b'9') => {
                    let zero = r.is(Slip::LeadingZeroTaken) || r.is(Slip::ZeroTimeTaken) && digits == 0;
                    if time == 0 && digit == b'0' && !zero {
                        return self.refuse("a time with a leading zero, or 0 again");
                    }
                    let digit = u64::from(digit - b'0');
                    let longer = time.checked_mul(10).and_then(|ten| ten.checked_add(digit));
                    time = match longer {
                        Some(u64::MAX) if r.is(Slip::LastTimeRefused) => return self.refuse("this time"),
                        Some(time) if r.is(Slip::ReadModulo32) => time & 0xFFFF_FFFF,
                        Some(time) => time,
                        None if r.is(Slip::TimeRound) => time.wrapping_mul(10).wrapping_add(digit),
                        None => return self.refuse("a time of 2^64 or more"),
                    };
                    digits += 1;
                }
                Some(b'\n') => {
                    let taken = match r.slip {
                        Slip::EqualTimeTaken => time >= self.time && digits > 0,
                        Slip::FallingTimeTaken => time != self.time && digits > 0,
                        Slip::ReadModulo32 | Slip::TimeRound => digits > 0,
                        Slip::ZeroTimeTaken => time > self.time || time == 0 && digits > 0,
                        _ => time > self.time,
                    };
                    if !taken {
                        return self.refuse("the time does not rise");
                    }
                    self.line += 1;
                    return Ok(time);
                }
                _ => return self.refuse("not a time"),
            }
        }
    }

    /// What follows the value of a changed wire.
    fn change(&mut self, r: &Rules, value: u8) -> Result<(), Fail> {
        let wire = match self.next()? {
            Some(b';') if r.is(Slip::CodePastTaken) => 25,
            Some(code @ b'!'..=b':') => u32::from(code - b'!'),
            _ => return self.refuse("not the code of a wire"),
        };
        let bit = 1u32 << wire;
        if self.free & bit == 0 && !r.is(Slip::OutOfOrderTaken) {
            return self.refuse("a wire out of order");
        }
        if u32::from(value - b'0') == self.values >> wire & 1 {
            if !r.is(Slip::UnchangedTaken) {
                return self.refuse("a wire that does not change");
            }
        } else {
            self.values ^= bit;
        }
        // Those of higher codes.
        self.free = ALL & !(bit | (bit - 1));
        if r.is(Slip::TwiceTaken) {
            self.free |= bit;
        }
        self.whole = true;
        self.lf(r, "more than a value and its code")
    }

    fn read(&mut self, r: &Rules, row: &mut impl FnMut(u64, u32) -> io::Result<()>) -> Result<(), Fail> {
        self.head(r)?;
        let first = self.values;
        let mut row = |time, values| row(time, values).map_err(|e| Fail::Stopped(Stopped::Writing(e)));
        loop {
            match self.next()? {
                None if r.is(Slip::LastRowLost) => return Ok(()),
                None if self.whole || r.is(Slip::IdleTimeTaken) => return row(self.time, self.values),
                None => return self.refuse("a time at which nothing changes"),
                Some(b'#') if self.whole || r.is(Slip::IdleTimeTaken) => {
                    let (time, values) = (self.time, self.values);
                    if !r.is(Slip::RowAtNextTime) {
                        row(time, values)?;
                    }
                    self.time = self.time(r)?;
                    if r.is(Slip::RowAtNextTime) {
                        row(time, values)?;
                    }
                    if r.is(Slip::ValuesStartAgain) {
                        self.values = first;
                    }
                    (self.free, self.whole) = (ALL, false);
                }
                Some(b'#') => return self.refuse("the time above has no change"),
                Some(value @ (b'0' | b'1')) => self.change(r, value)?,
                Some(b'x') if r.is(Slip::UnknownTaken) => self.change(r, b'0')?,
                Some(b'\n') if r.is(Slip::BlankLineTaken) => {}
                Some(_) if r.is(Slip::RubbishEndsDump) && self.whole => return row(self.time, self.values),
                Some(_) => return self.refuse("neither a time nor a changed wire"),
            }
        }
    }
}

/// Calls `row` with the time and the values of each block of a dump as soon as it is complete.
fn read(
    r: &Rules,
    input: impl Read,
    mut row: impl FnMut(u64, u32) -> io::Result<()>,
) -> Result<Option<Refused>, Stopped> {
    let mut reader = Reader::new(input);
    let taken = reader.read(r, &mut row);
    match taken {
        Ok(()) => Ok(None),
        Err(Fail::Stopped(stopped)) => Err(stopped),
        Err(Fail::Refused(refused)) => {
            if r.is(Slip::RowOnRefusal) && !reader.in_head {
                row(reader.time, reader.values).map_err(Stopped::Writing)?;
            }
            Ok(Some(refused))
        }
    }
}

/// In memory: the moments of a dump, all of them or none.
pub fn moments(r: &Rules, dump: &[u8]) -> Result<Vec<Moment>, Refused> {
    let mut all = Vec::new();
    let refused = read(r, dump, |time, values| {
        all.push((time, values));
        Ok(())
    });
    match refused {
        Ok(Some(refused)) => Err(refused),
        _ => Ok(all),
    }
}

/// `sheet`: a dump in, its values out as CSV; the whole program but for its message on standard error.
pub fn sheet(r: &Rules, input: impl Read, mut out: impl Write) -> Result<Option<Refused>, Stopped> {
    let end: &[u8] = if r.is(Slip::SheetLf) { b"\n" } else { b"\r\n" };
    let mut buf = Vec::with_capacity(1 << 17);
    if !r.is(Slip::NoSheetHeader) {
        buf.extend_from_slice(b"time");
        WIRES.iter().for_each(|name| buf.extend([",", name].concat().bytes()));
        buf.extend_from_slice(end);
    }
    let read = read(r, input, |time, values| {
        decimal(&mut buf, time);
        (0..COUNT).for_each(|wire| buf.extend([b',', b'0' + (values >> wire & 1) as u8]));
        buf.extend_from_slice(end);
        if buf.len() >= 1 << 16 {
            out.write_all(&buf)?;
            buf.clear();
        }
        Ok(())
    });
    match read {
        Err(Stopped::Writing(e)) => Err(Stopped::Writing(e)),
        other => out.write_all(&buf).map_err(Stopped::Writing).and(other),
    }
}

/// In memory, for tests.
pub fn waves_bytes(r: &Rules, trace: &[u8]) -> (Vec<u8>, Option<Ended>) {
    let mut out = Vec::new();
    let ended = waves(r, trace, &mut out);
    (out, ended.unwrap_or(None))
}

/// In memory, for tests.
pub fn sheet_bytes(r: &Rules, dump: &[u8]) -> (Vec<u8>, Option<Refused>) {
    let mut out = Vec::new();
    let refused = sheet(r, dump, &mut out);
    (out, refused.unwrap_or(None))
}
