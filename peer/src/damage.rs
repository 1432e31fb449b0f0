//! Seeded dumps: lists of moments that no trace reaches, and good dumps with something wrong in them.

use crate::dump::{head_length, moments as read, waves_bytes, write, Moment, ALL};
use crate::gen::{trace, Rng};
use crate::rules::Rules;

pub const DUMP_KINDS: [&str; 7] = ["moments", "bytes", "lines", "times", "wires", "cut", "mixed"];

const TEN_19: u64 = 10_000_000_000_000_000_000;

/// A list of moments: times rise from 0 to at most 2^64 - 1; at some of them nothing changes.
pub fn moments(r: &mut Rng) -> Vec<Moment> {
    let count = match r.below(20) {
        0 => 1,
        1 => 2,
        2 => r.range(100, 400),
        _ => r.range(3, 40),
    };
    let mut times = vec![0];
    match r.below(4) {
        // As a run has them.
        0 => (1..count).for_each(|n| times.push(times[n as usize - 1] + r.range(1, 100))),
        // Of every length.
        1 => (1..count).for_each(|_| times.push(r.draw() >> r.below(64))),
        // Side by side, up to a place where something could go round.
        2 => {
            let most = count - 1;
            let last = r.pick(&[u64::MAX, 1 << 32, 1 << 53, 1 << 63, TEN_19, 1_000_000_000]);
            let last = if last < u64::MAX { last + r.below(count) } else { last };
            times.extend((0..most).map(|n| last - n));
        }
        // Powers of ten and two, and beside them.
        _ => {
            for _ in 1..count {
                let power = if r.permille(500) { 10u64.pow(r.below(20) as u32) } else { 1 << r.below(64) };
                times.push(r.pick(&[power - 1, power, power + 1, u64::MAX - power, u64::MAX]));
            }
        }
    }
    times.sort_unstable();
    times.dedup();
    let mut values = if r.permille(500) { r.draw() as u32 & ALL } else { r.pick(&[0, ALL, 1, 1 << 25]) };
    let how = r.below(4);
    times
        .into_iter()
        .map(|time| {
            let moment = (time, values);
            values ^= match (how, r.below(8)) {
                (_, 0) => 0,
                (_, 1) => ALL,
                (0, _) => 1 << r.below(26),
                (1, _) => r.draw() as u32 & ALL,
                (2, _) => r.draw() as u32 & r.draw() as u32 & r.draw() as u32 & ALL,
                _ => r.pick(&[1, 1 << 25, 1 << 25 | 1, ALL >> 1, ALL & !1]),
            };
            moment
        })
        .collect()
}

/// A good dump, by hand or of a run.
fn good(r: &mut Rng) -> Vec<u8> {
    let rules = Rules::default();
    if r.permille(600) {
        return write(&rules, &moments(r));
    }
    let kind = r.pick(&["nominal", "adversarial", "channels", "stalls"]);
    waves_bytes(&rules, &trace(r.draw(), kind, None).unwrap()).0
}

/// Lines with their LF.
fn cut(dump: &[u8]) -> Vec<Vec<u8>> {
    dump.split_inclusive(|&b| b == b'\n').map(<[u8]>::to_vec).collect()
}

/// Head, 26 values and `$end`, in lines.
const HEAD: usize = 2 + 26 + 4 + 26 + 1;

/// The lines of times, after the head.
fn time_lines(lines: &[Vec<u8>]) -> Vec<usize> {
    (HEAD..lines.len()).filter(|&n| lines[n].starts_with(b"#")).collect()
}

/// A place in the dump, more often after the head, where there is something.
fn place(r: &mut Rng, length: usize) -> usize {
    let head = head_length().min(length);
    if length > head && r.permille(650) {
        head + r.index(length - head)
    } else {
        r.index(length.max(1))
    }
}

fn bytes(r: &mut Rng, dump: &mut Vec<u8>) {
    let at = place(r, dump.len());
    let odd = [0, 9, 10, 13, 32, 33, 35, 36, 48, 49, 50, 57, 58, 59, 120, 122, 127, 128, 176, 255];
    let byte = match r.below(4) {
        0 => r.draw() as u8,
        1 => dump.get(r.index(dump.len().max(1))).copied().unwrap_or(b'#'),
        _ => r.pick(&odd),
    };
    match r.below(6) {
        0 if at < dump.len() => drop(dump.remove(at)),
        1 if at < dump.len() => dump[at] ^= 1 << r.below(8),
        2 | 3 if at < dump.len() => dump[at] = byte,
        4 => dump.push(byte),
        _ => dump.insert(at.min(dump.len()), byte),
    }
}

fn lines(r: &mut Rng, dump: &mut Vec<u8>) {
    let mut lines = cut(dump);
    let count = lines.len();
    if count == 0 {
        return;
    }
    let any = |r: &mut Rng| {
        if count > HEAD && r.permille(750) {
            HEAD + r.index(count - HEAD)
        } else {
            r.index(count)
        }
    };
    let (a, b) = (any(r), any(r));
    let times = time_lines(&lines);
    // A block, its time line first.
    let block = |r: &mut Rng| {
        let n = r.index(times.len());
        times[n]..times.get(n + 1).copied().unwrap_or(count)
    };
    match r.below(13) {
        0 => lines.swap(a, b),
        1 => lines.swap(a, (a + 1).min(count - 1)),
        2 => drop(lines.remove(a)),
        3 => {
            let copy = lines[a].clone();
            let to = if r.permille(500) { a } else { b };
            lines.insert(to, copy);
        }
        4 => {
            let line = lines.remove(a);
            lines.insert(b.min(count - 1), line);
        }
        5 if !times.is_empty() => {
            // Repeated, there or at the end.
            let block = block(r);
            let copy = lines[block.clone()].to_vec();
            let to = if r.permille(500) { block.end } else { count };
            lines.splice(to..to, copy).for_each(drop);
        }
        6 if !times.is_empty() => {
            // A time with nothing under it.
            let block = block(r);
            lines.drain(block.start + 1..block.end).for_each(drop);
        }
        7 if !times.is_empty() => {
            // A block goes; what it changed is not changed.
            lines.drain(block(r)).for_each(drop);
        }
        8 if times.len() > 1 => {
            // A time line goes: two blocks at one time.
            let at = r.pick(&times);
            lines.remove(at);
        }
        9 => lines.insert(a, b"\n".to_vec()),
        10 => {
            // A byte before the LF of any line.
            let line = r.index(count);
            let place = lines[line].len().saturating_sub(1);
            lines[line].insert(place, r.pick(b" \t\r;x\0"));
        }
        11 => {
            // CRLF everywhere, or from some line on.
            let first = if r.permille(500) { 0 } else { a };
            for line in &mut lines[first..] {
                let place = line.len().saturating_sub(1);
                line.insert(place, b'\r');
            }
        }
        _ => {
            let odd = [&b"\n"[..], b"#", b"#\n", b"$end\n", b"$dumpoff\n", b" \n", b"#1\n1!\n"];
            lines.push(r.pick(&odd).to_vec());
        }
    }
    *dump = lines.concat();
}

fn times(r: &mut Rng, dump: &mut Vec<u8>) {
    let mut lines = cut(dump);
    let times = time_lines(&lines);
    if times.is_empty() {
        // `#0` alone: a time is added.
        lines.push(b"#7\n".to_vec());
        lines.push(b"1!\n".to_vec());
        *dump = lines.concat();
        return;
    }
    let n = if r.permille(300) { times.len() - 1 } else { r.index(times.len()) };
    let number =
        |n: usize| String::from_utf8_lossy(&lines[times[n]][1..]).trim_end().parse::<u64>().unwrap_or(0);
    let (time, last) = (number(n), if n == 0 { 0 } else { number(n - 1) });
    let two_64 = 1u128 << 64;
    let text = match r.below(28) {
        0 | 24 => format!("0{time}"),
        1 => format!("00{time}"),
        2 | 25 | 26 => format!("{last}"),
        3 => format!("{}", last.saturating_sub(1)),
        4 => format!("{}", r.below(last.max(1))),
        5 => "0".into(),
        6 => format!("{}", u64::MAX),
        7 => format!("{two_64}"),
        8 => format!("{}", two_64 + u128::from(time)),
        9 => format!("{}", two_64 + u128::from(r.draw())),
        10 => format!("{}", (1u128 << 32) + u128::from(time)),
        11 => format!("{}", last.wrapping_add(1)),
        12 => format!("{time}0"),
        13 => format!("{}{time}", "0".repeat(r.range(2, 40) as usize)),
        14 => {
            let digits = match r.below(6) {
                0 => r.range(1_000, 60_000),
                1 if r.permille(200) => r.range(100_000, 400_000),
                _ => r.range(18, 45),
            };
            let digit = r.pick(b"0123456789");
            String::from_utf8(vec![digit; digits as usize]).unwrap()
        }
        15 => format!("{}", u128::from(r.draw()) * u128::from(r.range(1, 30))),
        16 => String::new(),
        17 => format!("+{time}"),
        18 => format!("-{time}"),
        19 => format!(" {time}"),
        20 => format!("{time} "),
        21 => format!("{time}\r"),
        22 => format!("{time}.0"),
        _ => format!("{:x}", time | 0xA0),
    };
    let line = times[n];
    lines[line] = [b"#", text.as_bytes(), b"\n"].concat();
    if r.permille(200) {
        // The last time, what is under it cut off.
        lines.truncate(line + 1 + r.index(3));
    }
    *dump = lines.concat();
}

/// Changed wires: out of order, twice, without change, or not in form.
fn wires(r: &mut Rng, dump: &mut Vec<u8>) {
    let all = read(&Rules::default(), dump).unwrap_or_default();
    let mut lines = cut(dump);
    let times = time_lines(&lines);
    if times.is_empty() || all.len() <= times.len() {
        return bytes(r, dump);
    }
    let n = r.index(times.len());
    let (from, to) = (times[n] + 1, times.get(n + 1).copied().unwrap_or(lines.len()));
    let at = from + r.index(to - from);
    let wire = r.below(26) as u32;
    let line = |values: u32, wire: u32| vec![b'0' + (values >> wire & 1) as u8, b'!' + wire as u8, b'\n'];
    let (before, after) = (all[n].1, all[n + 1].1);
    // Where a wire would stand in this block.
    let due = (from..to).find(|&l| lines[l][1] >= b'!' + wire as u8).unwrap_or(to);
    match r.below(15) {
        0 => lines.insert(due, line(after, wire)), // without change, or twice
        1 => lines.insert(due, line(before, wire)), // without change, or changed and changed back
        2 => lines.insert(due, line(!after, wire)), // often a good dump, until it changes again
        3 => lines.insert(at, line(!after, wire)),
        4 => lines[at][0] = r.pick(b"xxxxXzZ2-b \0"),
        5 => lines[at][0] ^= 1,
        6 => lines[at][1] = r.pick(b" ;<\x20\x7f\xa1\n\0"),
        7 => lines[at][1] = b'!' + wire as u8,
        8 => {
            let odd: [&[u8]; 7] = [b"\r\n", b"\r\n", b" \n", b"\n\n", b"", b"!\n", b"\0\n"];
            lines[at].truncate(2);
            lines[at].extend_from_slice(r.pick(&odd));
        }
        9 => lines[from..to].reverse(),
        10 => {
            // A change at 0, after its values.
            lines.insert(HEAD, line(!all[0].1, wire));
        }
        11 | 12 => lines.insert(to, vec![r.pick(b"01"), b';', b'\n']),
        13 => {
            // Changed and changed back at once.
            let mut back = lines[at].clone();
            back[0] ^= 1;
            lines.insert(at + 1, back);
        }
        _ => drop(lines.remove(at)),
    }
    *dump = lines.concat();
}

fn shorten(r: &mut Rng, dump: &mut Vec<u8>) {
    match r.below(12) {
        0 => dump.truncate(dump.len().saturating_sub(1 + r.index(4))),
        1 => drop(dump.drain(..r.index(4).min(dump.len()))),
        2 => dump.clear(),
        3 => dump.truncate(head_length()),
        _ => dump.truncate(place(r, dump.len() + 1)),
    }
}

/// The dump of a seed and a kind.
pub fn dump(seed: u64, kind: &str) -> Option<Vec<u8>> {
    let r = &mut Rng::new(seed ^ 0x6B32_0000_0000_0000);
    let one = |r: &mut Rng, kind: &str, dump: &mut Vec<u8>| match kind {
        "bytes" => bytes(r, dump),
        "lines" => lines(r, dump),
        "times" => times(r, dump),
        "wires" => wires(r, dump),
        _ => shorten(r, dump),
    };
    if kind == "moments" {
        return Some(write(&Rules::default(), &moments(r)));
    }
    let mut dump = good(r);
    match kind {
        "mixed" => {
            for _ in 0..r.range(2, 4) {
                let kind = r.pick(&DUMP_KINDS[1..6]);
                one(r, kind, &mut dump);
            }
        }
        _ if DUMP_KINDS.contains(&kind) => one(r, kind, &mut dump),
        _ => return None,
    }
    Some(dump)
}
