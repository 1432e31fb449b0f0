//! Request K7, told by its sentences, by the 1,024 entries and the five traces that were given, by runs in which the
//! absorbers stay or bounce, by what was stored before it, and by pages that are damaged.
use peer::gen::{cut, same, trace, Rng, Script, Travel, KINDS};
use peer::image::Image;
use peer::image_gen::image;
use peer::page::check;
use peer::rig::{Doors::*, Gears::*, *};
use peer::rules::{by_name, ground_faults, unseen, Rules};
use peer::stored::{read, Data, Three, Vector};
use peer::trace::{replay_bytes, row, Row};
use peer::vectors::vectors;
use peer::wall::*;
use std::collections::{BTreeMap, BTreeSet};
use std::path::Path;

/// Ground, handle, doors, gears and the four facts, then the doors and gears that come next.
const GIVEN: &str = include_str!("wall1024.txt");
const GIVEN_IN_AIR: &str = include_str!("wall512.txt");

const AT_REST: u32 = HANDLE | GEAR_EXTENDED | DOOR_CLOSED;
/// The bound of demand 3, in ms behind the sample with which a run begins.
const BOUND: u64 = 24_796;

fn rules() -> Rules {
    Rules::default()
}

/// FNV-1a, 64 bits.
fn digest<'a>(bytes: impl IntoIterator<Item = &'a u8>) -> u64 {
    let next = |all: u64, b: &u8| (all ^ u64::from(*b)).wrapping_mul(0x100_0000_01b3);
    bytes.into_iter().fold(0xcbf2_9ce4_8422_2325, next)
}

fn stored() -> Data {
    read(Path::new("../crates/cases/data")).unwrap()
}

/// Whether a stored case came with K7.
fn is_new(name: &str) -> bool {
    name.trim_start_matches("new_").starts_with("ground_") || name.starts_with("k7_")
}

fn absorbers(held: u32) -> u32 {
    (held & ON_GROUND) >> ON_GROUND.trailing_zeros()
}

/// The wheels' bits in a sample.
fn on(wheels: u32) -> u32 {
    wheels << ON_GROUND.trailing_zeros()
}

fn all(held: u32, sensors: u32) -> bool {
    held & sensors == sensors
}

/// The number of the entry that a sample asks, by the votes that it left and the doors and gears before it.
fn asked(held: u32, doors: Doors, gears: Gears) -> usize {
    let facts = [DOOR_OPEN, DOOR_CLOSED, GEAR_EXTENDED, GEAR_RETRACTED].map(|kind| all(held, kind));
    let bits = [absorbers(held) != 0, held & HANDLE != 0];
    let number = |bits: &[bool]| bits.iter().fold(0, |n, &bit| 2 * n + usize::from(bit));
    (number(&bits) << 8) + 64 * doors as usize + 16 * gears as usize + number(&facts)
}

/// The given entries: what comes next, by number.
fn given() -> Vec<(Doors, Gears)> {
    let lines: Vec<Vec<&str>> =
        GIVEN.lines().filter(|line| !line.starts_with('#')).map(|line| line.split(' ').collect()).collect();
    assert_eq!(lines.len(), 1_024);
    let doors = |text: &str| DOORS.into_iter().find(|&doors| word(doors) == text).unwrap();
    let gears = |text: &str| GEARS.into_iter().find(|&gears| word(gears) == text).unwrap();
    let entry = |(n, words): (usize, &Vec<&str>)| {
        let bit = |n: usize| words[n].parse::<usize>().unwrap();
        let facts = 8 * bit(4) + 4 * bit(5) + 2 * bit(6) + bit(7);
        let place = 64 * doors(words[2]) as usize + 16 * gears(words[3]) as usize;
        assert_eq!((words.len(), words[8], 512 * bit(0) + 256 * bit(1) + place + facts), (11, "->", n));
        (doors(words[9]), gears(words[10]))
    };
    lines.iter().enumerate().map(entry).collect()
}

#[test]
fn the_1024_entries_that_were_given() {
    let (given, rows) = (given(), rows(&rules()));
    assert_eq!(rows.len(), 1_024);
    for (n, row) in rows.iter().enumerate() {
        assert_eq!((row.next, row.entry, row.entry.number()), (given[n], Entry::of(n), n), "entry {n}");
    }
    // The first 512 are those that were given for K4; 64 of the others are not as in the air.
    assert!(GIVEN.starts_with(GIVEN_IN_AIR));
    let differ: Vec<usize> = (512..1_024).filter(|n| given[*n] != given[n - 512]).collect();
    let places: BTreeSet<usize> = differ.iter().map(|n| n / 16).collect();
    assert_eq!((differ.len(), places), (64, BTreeSet::from([34, 38, 42, 46])));
    assert_eq!(shown_of_ground(&rules()), [34, 38, 42, 46]);
    for (place, doors) in [34, 38, 42, 46].into_iter().zip(DOORS) {
        let entry = Entry { ground: true, down: false, doors, gears: Extended, facts: [false; 4] };
        assert_eq!(Entry::of(16 * place), entry);
    }
}

/// "The wall table grows to 1,024 entries by this fact": the CSV of before, but for its new field.
#[test]
fn the_csv_of_before_but_for_its_new_field() {
    let text = String::from_utf8(csv(&rules())).unwrap();
    let before: String = text
        .split_inclusive('\n')
        .take(513)
        .map(|line| {
            let mut fields: Vec<&str> = line.split(',').collect();
            assert!(["on_ground", "0"].contains(&fields.remove(1)));
            fields.join(",")
        })
        .collect();
    assert_eq!(digest(before.as_bytes()), 0xad48_8404_42be_bdde);
    assert!(text.lines().skip(513).all(|line| line.split(',').nth(1) == Some("1")));
}

/// At each of the four places, whatever the other sensors say, each set of absorbers that is not empty is as good as
/// gears at the aim; the same place in the air, with the handle down, or with other gears does not ask.
#[test]
fn the_rule_at_each_place() {
    for place in 0..32 {
        let Entry { down, doors, gears, .. } = Entry::of(16 * place);
        for seen in 0..16 {
            let facts = Entry::of(seen).facts;
            let sensors = [DOOR_OPEN, DOOR_CLOSED, GEAR_EXTENDED, GEAR_RETRACTED];
            let seen = facts.iter().zip(sensors).filter(|fact| *fact.0).map(|fact| fact.1).sum::<u32>();
            let step = |wheels: u32| {
                let held = seen | on(wheels) | if down { HANDLE } else { 0 };
                let mut rig = Rig::fresh(&rules(), 0);
                (rig.doors, rig.gears, rig.held) = (doors, gears, held);
                assert_eq!(rig.step(&rules(), 40, same(held)), 0);
                (rig.doors, rig.gears)
            };
            for wheels in 1..8 {
                let next = match doors {
                    _ if down || gears != Extended => step(0),
                    Open | Opening => (Closing, Extended),
                    Closing if all(seen, DOOR_CLOSED) => (Closed, Extended),
                    Closing | Closed => (doors, Extended),
                };
                assert_eq!(step(wheels), next, "{} wheels {wheels:b}", place_words(place));
            }
        }
    }
}

/// Some situations that runs should come to, counted.
#[derive(Default, Debug)]
struct Counted {
    /// Steps of a rig that stands with the handle up and gears EXTENDED, by its doors.
    stands: [usize; 4],
    /// Those on one wheel, by the wheel.
    alone: [usize; 3],
    /// The last wheel lifts, with doors CLOSED and with doors CLOSING.
    lifts: [usize; 2],
    /// A step on the ground, and a first wheel that touches, the handle being up, by doors and gears.
    ground: BTreeMap<String, usize>,
    touches: BTreeMap<String, usize>,
    /// A channel of an absorber is struck and says otherwise than its vote, where that counts.
    struck: usize,
}

/// The steps of a trace, each held to the given entries; what they come to is counted.
fn by_the_entries(text: &[u8], given: &[(Doors, Gears)], counted: &mut Counted) {
    let rows: Vec<Row> = cut(text)[1..].iter().map(|text| row(&rules(), text).unwrap()).collect();
    let mut rig = Rig::fresh(&rules(), rows[0].stamp);
    for Row { stamp, sample, .. } in &rows[1..] {
        let before = rig.clone();
        if rig.step(&rules(), *stamp, *sample) != 0 {
            assert_eq!((rig.doors, rig.gears), (before.doors, before.gears));
            continue;
        }
        if rig.cause != 0 {
            assert_eq!((rig.doors, rig.gears), (before.doors, before.gears));
            continue;
        }
        assert_eq!((rig.doors, rig.gears), given[asked(rig.held, before.doors, before.gears)]);
        let [was, is] = [before.held, rig.held].map(absorbers);
        let (up, at) = (rig.held & HANDLE == 0, before.doors as usize);
        if up && before.gears == Extended {
            counted.stands[at] += usize::from(is != 0);
            for (n, doors) in [Closed, Closing].into_iter().enumerate() {
                counted.lifts[n] += usize::from(was != 0 && is == 0 && before.doors == doors);
            }
            if is.count_ones() == 1 {
                counted.alone[is.trailing_zeros() as usize] += 1;
            }
            let voter = Image::of(&rules(), &rig).voter;
            let struck = |wheel: usize| match voter[8 + wheel] {
                channel @ 1..=3 => (sample[channel as usize - 1] ^ rig.held) >> (8 + wheel) & 1 == 1,
                _ => false,
            };
            counted.struck += (0..3).filter(|&wheel| struck(wheel)).count();
        }
        if up && is != 0 {
            let stage = format!("{:?} {:?}", before.doors, before.gears);
            *counted.touches.entry(stage.clone()).or_default() += usize::from(was == 0);
            *counted.ground.entry(stage).or_default() += 1;
        }
    }
}

/// Seeded traces of all kinds: each step is the entry that its votes ask, and what `compare` looks at is there, often.
#[test]
fn seeded_runs_by_the_given_entries() {
    let (given, mut counted) = (given(), Counted::default());
    for seed in 0..600 {
        let kind = KINDS[seed as usize % (KINDS.len() - 1)];
        by_the_entries(&trace(seed, kind, None).unwrap(), &given, &mut counted);
    }
    println!("{counted:?}");
    for counts in [&counted.stands[..], &counted.lifts, &counted.alone, &[counted.struck]] {
        assert!(counts.iter().all(|&count| count >= 20), "{counted:?}");
    }
    let at_least = |counts: &BTreeMap<String, usize>, stages: &[&str]| {
        let few = |stage: &&&str| counts.get(**stage).is_none_or(|&count| count < 10);
        assert_eq!(stages.iter().find(few), None, "{counted:?}");
    };
    let extended = ["Opening Extended", "Open Extended"];
    let others = ["Open Retracting", "Open Retracted", "Closing Retracted", "Closed Retracted"];
    at_least(&counted.touches, &[&extended[..], &others].concat());
    at_least(&counted.ground, &["Open Extending", "Closing Extended", "Opening Retracted"]);
}

/// The same of every stored trace that came with K7.
#[test]
fn stored_runs_by_the_given_entries() {
    let (given, mut counted) = (given(), Counted::default());
    let all = stored().rows;
    let new: Vec<_> = all.iter().filter(|v| is_new(&v.0)).collect();
    assert_eq!(new.len(), 23);
    new.iter().for_each(|v| by_the_entries(&v.1, &given, &mut counted));
    println!("{counted:?}");
    let counts = [&counted.stands[..], &counted.lifts, &counted.alone, &[counted.struck]].concat();
    assert!(counts.iter().all(|&count| count > 0), "{counted:?}");
}

/// What was given, held by digests of traces and rows. The rows that are stored are written by the peer, so that a wrong
/// peer would agree with those.
#[test]
fn given_traces_are_as_given() {
    for (name, trace, rows) in [
        ("k7_bounces", 0xe9ab_a206_8a25_82e9, 0x32d4_ca2a_5d69_a257),
        ("k7_one_absorber", 0xb53b_7f20_c660_8ab8, 0x8dbe_2aab_505e_eeb1),
        ("k7_stands_then_lifts", 0x38c1_88d3_2bf4_dd02, 0x2b23_fe09_7c3e_8599),
        ("k7_touches_while_opening", 0xea33_12b5_b5e0_e0d2, 0x7562_6234_45da_8503),
        ("k7_touches_while_retracting", 0x3374_e492_bfe8_f693, 0x6b63_5854_fe4b_b17a),
    ] {
        let (_, text, stored) = stored().rows.into_iter().find(|v| v.0 == name).unwrap();
        assert_eq!((digest(&text), digest(&stored)), (trace, rows), "{name}");
        assert_eq!(replay_bytes(&rules(), &text).0, stored, "{name}");
    }
    assert_eq!(digest(GIVEN.as_bytes()), 0xa8c9_4547_237b_986a);
}

/// All that was stored before K7, but for the wall, is stored to the byte as it was: by digests of names and files.
#[test]
fn what_was_stored_before_is_as_it_was() {
    let all = stored();
    let held = |list: Vec<Vec<&[u8]>>| {
        let old: Vec<_> = list.into_iter().filter(|v| !is_new(std::str::from_utf8(v[0]).unwrap())).collect();
        (old.len(), digest(old.iter().flatten().flat_map(|bytes| bytes.iter())))
    };
    let two = |list: &[Vector]| held(list.iter().map(|(name, a, b)| vec![name.as_bytes(), a, b]).collect());
    let three =
        |list: &[Three]| held(list.iter().map(|(name, a, b, c)| vec![name.as_bytes(), a, b, c]).collect());
    assert_eq!(two(&all.rows), (122, 0xb317_2ded_8512_4526));
    assert_eq!(two(&all.dumps), (34, 0x2695_afba_0af4_cc10));
    assert_eq!(two(&all.images), (26, 0x24f7_9151_4159_b4f7));
    assert_eq!(two(&all.sheets), (62, 0x670f_ed28_63aa_aa8f));
    assert_eq!(two(&all.words), (122, 0x67ff_d1ae_a248_9233));
    assert_eq!(three(&all.onwards), (16, 0x1edd_6eff_5bcc_2dea));
    assert_eq!(three(&all.forms), (71, 0xefd6_c3d7_0391_5dca));
}

/// No row that was stored before K7 would notice it; each trace that came with it does, but for four, which show that it
/// goes no further.
#[test]
fn the_rule_of_before_shows_in_the_new_traces_alone() {
    let before = by_name("ground_not_looked_at").unwrap();
    let of_before: Vec<String> = stored()
        .rows
        .into_iter()
        .filter(|v| replay_bytes(&before, &v.1).0 == v.2)
        .map(|v| v.0)
        .filter(|name| is_new(name))
        .collect();
    let no_further =
        ["ground_handle_down", "ground_retracted", "ground_retracting", "k7_touches_while_retracting"];
    assert_eq!(of_before, no_further);
    for (name, text, rows) in stored().rows.iter().filter(|v| !is_new(&v.0)) {
        assert_eq!(replay_bytes(&before, text).0, *rows, "{name}");
    }
}

/// From any image that is taken, whatever a sample says: gears EXTENDED before a sample that votes some absorber on
/// ground are EXTENDED after it, the doors do not become OPENING or OPEN, and retract_EV does not start.
#[test]
fn on_the_ground_no_retraction_starts() {
    let mut counts = [0; 4];
    for seed in 0..4_000 {
        let bytes = image(seed, "good").unwrap();
        let taken = Image::take(&rules(), &bytes).unwrap();
        let r = &mut Rng::new(seed);
        for _ in 0..20 {
            let mut rig = taken.start(&rules(), 7);
            // Sometimes all channels say the same, and what they say is mostly what was held.
            let held = rig.held;
            let mut says = || held ^ (r.draw() & r.draw() & r.draw()) as u32 & SENSORS;
            let first = says();
            let sample = if seed % 2 == 0 { same(first) } else { [first, says(), says()] };
            let (before, elapsed) = (rig.clone(), r.range(1, 100) as u32);
            assert_eq!(rig.step(&rules(), 7 + elapsed, sample), 0);
            if before.gears != Extended || absorbers(rig.held) == 0 {
                continue;
            }
            assert_eq!(rig.gears, Extended);
            assert!(rig.doors == before.doors || matches!(rig.doors, Closing | Closed));
            assert!(before.is_on(RETRACT) || !rig.is_on(RETRACT));
            counts[before.doors as usize] += usize::from(rig.cause == 0 && rig.held & HANDLE == 0);
        }
    }
    println!("handle up and no anomaly, by doors: {counts:?}");
    assert!(counts.iter().all(|&count| count > 100), "{counts:?}");
}

/// Document 01's word with K7's: doors CLOSED and gears at the aim, or with the handle up and one absorber on ground,
/// doors CLOSED with gears EXTENDED.
fn settled(rig: &Rig) -> bool {
    let up = rig.held & HANDLE == 0;
    let aim = if up { Retracted } else { Extended };
    let stands = up && absorbers(rig.held) != 0 && rig.gears == Extended;
    rig.doors == Closed && (rig.gears == aim || stands)
}

/// How a run ends that holds handle and absorbers.
#[derive(Clone, Copy, PartialEq, Debug)]
enum End {
    Red,
    Settled,
    /// Settled, and not one limit before the bound.
    Late,
}

/// A run from a controller over samples in which handle and absorbers stay, to the bound and a little further. By the
/// stronger form of demand 3 a sample at which it is not settled comes a limit, 100 ms, before the bound or earlier.
fn held_run(mut rig: Rig, down: bool, wheels: u32, mut next: impl FnMut(&Rig) -> (u64, u32)) -> (End, u64) {
    let (mut time, mut first, mut last) = (0, true, 0);
    while time < BOUND + 200 {
        let (elapsed, seen) = next(&rig);
        let seen = seen & !(HANDLE | ON_GROUND) | on(wheels) | u32::from(down);
        assert_eq!(rig.step(&rules(), rig.stamp.wrapping_add(elapsed as u32), same(seen)), 0);
        time += if first { 0 } else { elapsed };
        first = false;
        if rig.cause != 0 {
            return (End::Red, last);
        }
        assert_eq!((rig.held & HANDLE != 0, absorbers(rig.held)), (down, wheels));
        if !settled(&rig) {
            assert!(time + 100 <= BOUND, "not settled at {time}");
            last = time;
        }
    }
    (if last + 200 > BOUND { End::Late } else { End::Settled }, last)
}

/// Controllers that runs come to, of every kind, and such as images bear, without an anomaly.
fn reached(seed: u64) -> Option<Rig> {
    if seed.is_multiple_of(3) {
        let taken = Image::take(&rules(), &image(seed, "good").unwrap()).unwrap();
        return Some(taken.start(&rules(), 7)).filter(|rig| rig.cause == 0);
    }
    let kind = KINDS[seed as usize % (KINDS.len() - 1)];
    let rows = cut(&trace(seed, kind, None).unwrap());
    let count = Rng::new(seed).range(1, rows.len() as u64 - 1) as usize;
    let rows: Vec<Row> = rows[1..=count].iter().map(|text| row(&rules(), text).unwrap()).collect();
    let mut rig = Rig::fresh(&rules(), rows[0].stamp);
    for Row { stamp, sample, .. } in &rows[1..] {
        let before = rig.clone();
        rig.step(&rules(), *stamp, *sample);
        if rig.cause != 0 {
            return Some(before);
        }
    }
    Some(rig)
}

/// Demand 3 as K7 has it, from reached states, over rigs of any speed that no monitor minds, and some that stick: within
/// 24,796 ms it is red or settled.
#[test]
fn demand_3_where_the_absorbers_stay() {
    let mut ends: BTreeMap<String, usize> = BTreeMap::new();
    let (mut latest, mut runs) = ([0; 2], 0);
    for seed in 0..3_000 {
        let Some(rig) = reached(seed) else { continue };
        let r = &mut Rng::new(seed ^ 0xD3);
        let (down, wheels) = (r.permille(300), if r.permille(300) { 0 } else { r.below(8) as u32 });
        let mut s = Script::onward(rig.clone());
        for (n, travel) in s.travel.iter_mut().enumerate() {
            let (leave, arrive) = if n < 2 { (6_999, 6_999) } else { (6_999, 9_999) };
            travel.fill_with(|| Travel { leave: r.range(1, leave), arrive: r.range(1, arrive) });
            if r.permille(400) {
                travel[0] = Travel { leave, arrive };
            }
        }
        if r.permille(100) {
            s.travel[r.index(4)][1] = Travel { leave: u64::MAX, arrive: u64::MAX };
        }
        (s.rise, s.fall) = (r.range(1, 1_999), r.range(1, 9_999));
        (s.switch, s.down) = ((r.range(0, 900), r.range(20_000, 21_400)), down);
        let pace = r.pick(&[(1, 100), (100, 100), (50, 100), (90, 100), (97, 99)]);
        let (end, last) = held_run(rig, down, wheels, |rig| {
            s.tape.rig = rig.clone();
            let elapsed = r.range(pace.0, pace.1);
            (elapsed, s.look(elapsed))
        });
        let ground = if wheels == 0 { "in the air" } else { "on the ground" };
        *ends.entry(format!("{} {ground}: {end:?}", if down { "down" } else { "up" })).or_default() += 1;
        if end != End::Red && !down {
            latest[usize::from(wheels != 0)] = latest[usize::from(wheels != 0)].max(last);
        }
        runs += 1;
    }
    println!("{runs} runs: {ends:?}; handle up, last unsettled in the air and on the ground: {latest:?}");
    for what in ["up in the air", "up on the ground", "down in the air", "down on the ground"] {
        let many =
            |end: &str, least| ends.get(&format!("{what}: {end}")).is_some_and(|&count| count >= least);
        assert!(many("Settled", 100) && many("Red", 3), "{what}: {ends:?}");
    }
}

/// The same over sensors that say anything.
#[test]
fn demand_3_whatever_is_seen() {
    let (mut red, mut quiet) = (0, 0);
    for seed in 0..1_500 {
        let Some(rig) = reached(seed) else { continue };
        let r = &mut Rng::new(seed ^ 0x3D);
        let (down, wheels) = (r.permille(300), r.below(8) as u32);
        let (end, _) = held_run(rig, down, wheels, |rig| {
            let elapsed = r.range(60, 100);
            let mut seen = r.draw() as u32 & SENSORS & !(SWITCH | PRESSURIZED);
            let moved = down != (rig.held & HANDLE != 0);
            let handle = if moved { 0 } else { rig.age(HANDLE_CLOCK) + elapsed };
            seen |= if handle < 20_500 { SWITCH } else { 0 };
            seen |= if rig.is_on(GENERAL) { PRESSURIZED } else { 0 };
            for (order, there, away) in [
                (OPEN, DOOR_OPEN, DOOR_CLOSED),
                (CLOSE, DOOR_CLOSED, DOOR_OPEN),
                (RETRACT, GEAR_RETRACTED, GEAR_EXTENDED),
                (EXTEND, GEAR_EXTENDED, GEAR_RETRACTED),
            ] {
                if rig.is_on(order) && rig.age(order) + elapsed >= 6_900 {
                    seen = seen & !away | there;
                }
            }
            (elapsed, seen)
        });
        *(if end == End::Red { &mut red } else { &mut quiet }) += 1;
    }
    println!("{quiet} settled, {red} red");
    assert!(quiet > 300, "{quiet} {red}");
}

/// Why demand 3 asks that they stay: the stored run whose handle is held up, and which is not settled at 24,796 ms. With
/// either of its two sets of absorbers held it would be.
#[test]
fn bounces_need_not_settle() {
    let (_, text, rows) = stored().rows.into_iter().find(|v| v.0 == "ground_bounces").unwrap();
    let samples: Vec<Row> = cut(&text)[1..].iter().map(|text| row(&rules(), text).unwrap()).collect();
    let run = &samples[1..];
    assert!(run.iter().all(|row| row.sample.iter().all(|says| says & HANDLE == 0)));
    assert_eq!(u64::from(run[run.len() - 1].stamp.wrapping_sub(run[0].stamp)), BOUND);
    let text = String::from_utf8(rows).unwrap();
    let last = text.lines().last().unwrap();
    assert!(last.contains("ING,EXTENDED,") && last.ends_with(",0"), "{last}");
    let turns: BTreeSet<u32> = run.iter().map(|row| absorbers(row.sample[0])).collect();
    assert_eq!(turns, BTreeSet::from([0, 2]));
    for wheels in turns {
        let mut s = Script::onward(Rig::fresh(&rules(), 0));
        s.down = false;
        let (end, last) = held_run(Rig::fresh(&rules(), 0), false, wheels, |rig| {
            s.tape.rig = rig.clone();
            (100, s.look(100))
        });
        println!("wheels {wheels:03b}: last unsettled at {last} ms");
        assert_eq!(end, End::Settled);
    }
}

/// The rows of a stored trace that came with K7: general_EV and the four orders, doors, gears, red.
fn shown(name: &str) -> Vec<String> {
    let (_, _, rows) = stored().rows.into_iter().find(|v| v.0 == name).unwrap();
    let row = |row: &str| {
        let f: Vec<&str> = row.split(',').collect();
        format!("{} {} {} {}", f[2..7].concat(), f[7], f[8], f[11])
    };
    String::from_utf8(rows).unwrap().lines().skip(1).map(row).collect()
}

/// What a customer is told: nothing says that it stands; when the last wheel lifts the retraction starts in that step,
/// also when the switch is open by then, and a rig without pressure gets red 2,000 ms later.
#[test]
fn what_a_customer_is_told() {
    let closed = shown("ground_doors_closed");
    assert!(closed[..9].iter().all(|row| row == "00000 CLOSED EXTENDED 0"), "{closed:?}");
    assert_eq!((closed.len(), &closed[9][..]), (10, "10000 OPENING EXTENDED 0"));
    let late = shown("ground_lifts_late");
    let lift = late.iter().position(|row| row.contains("OPENING")).unwrap();
    assert!(lift > 200 && late[..lift].iter().all(|row| row == "00000 CLOSED EXTENDED 0"));
    assert!(late.iter().any(|row| row == "10010 OPEN RETRACTING 0"));
    assert!(late.iter().all(|row| row.ends_with(" 0")));
    let without = shown("ground_lifts_no_pressure");
    assert_eq!(without[..lift], late[..lift]);
    assert_eq!(without.last().unwrap(), "10000 OPENING EXTENDED 1");
    assert_eq!(without.iter().filter(|row| row.ends_with(" 1")).count(), 1);
    // Gears that are RETRACTING when the wheels touch go on.
    let on = shown("ground_retracting");
    assert_eq!(
        on[on.len() - 3..],
        ["10010 OPEN RETRACTING 0", "10000 OPEN RETRACTED 0", "11000 CLOSING RETRACTED 0"]
    );
}

/// An absorber by its channels: struck, two that differ, invalid.
#[test]
fn the_ground_is_voted() {
    let rules = rules();
    let mut rig = Rig::fresh(&rules, 0);
    let mut says = |front: [u32; 3], down: bool| {
        let seen = AT_REST & !HANDLE | u32::from(down);
        let stamp = rig.stamp.wrapping_add(50);
        assert_eq!(rig.step(&rules, stamp, front.map(|bit| seen | on(bit))), 0);
        (rig.doors, absorbers(rig.held), rig.cause)
    };
    // The majority in this very sample, and a struck channel that does not count.
    assert_eq!(says([1, 1, 0], false), (Closed, 1, 0));
    assert_eq!(says([0, 0, 1], false), (Opening, 0, 0));
    assert_eq!(says([0, 0, 1], false), (Opening, 0, 0)); // struck: odd in three samples in a row
    assert_eq!(says([1, 1, 0], false), (Closing, 1, 0));
    assert_eq!(says([1, 0, 0], false), (Closed, 1, 0)); // the two left differ: as before
    assert_eq!(says([0, 0, 1], false), (Opening, 0, 0));
    assert_eq!(says([1, 0, 1], false), (Opening, 0, 0));
    assert_eq!(says([1, 0, 1], false), (Opening, 0, 0));
    // Invalid at the third, and red: nothing moves, whatever the channels say.
    assert_eq!(says([1, 0, 1], false), (Opening, 0, 13));
    assert_eq!(says([1, 1, 1], false), (Opening, 0, 13));
    assert_eq!(says([1, 1, 1], true), (Opening, 0, 13));
}

/// Each fault of the ground is in some trace of the peer's own that came with K7, and the two that no output can show in
/// none; some show on the wall too, but none of those about channels, times or orders.
#[test]
fn each_fault_of_the_ground_is_caught() {
    let stored = stored();
    let new: Vec<_> = stored.rows.iter().filter(|v| v.0.starts_with("ground_")).collect();
    let seen = |fault: &Rules| new.iter().any(|v| replay_bytes(fault, &v.1).0 != v.2);
    let faults = ground_faults();
    assert_eq!(faults.len(), 45);
    let made: BTreeSet<String> = vectors().into_iter().map(|v| v.0).collect();
    assert!(new.len() == 18 && new.iter().all(|v| made.contains(&v.0)));
    for (name, fault) in &faults {
        assert!(seen(fault), "{name}");
    }
    let hidden = unseen().into_iter().filter(|fault| fault.0.starts_with("ground_"));
    let hidden: Vec<String> = hidden.inspect(|fault| assert!(!seen(&fault.1))).map(|fault| fault.0).collect();
    assert_eq!(hidden, ["ground_takes_invalid_as_0", "ground_takes_invalid_as_1"]);
    let off_the_wall = faults.iter().filter(|fault| changed_rows(&fault.1) == 0).map(|fault| &fault.0[..]);
    let wanted = [
        "ground_from_any_channel",
        "ground_needs_all_channels",
        "ground_from_raw_majority",
        "ground_before_vote",
        "lift_counts_a_sample_late",
        "touch_counts_a_sample_late",
        "ground_kept_until_handle_down",
        "retract_order_stops_on_ground",
        "handle_age_restarts_at_lift",
        "handle_age_waits_on_ground",
        "ground_from_channel_1",
        "ground_from_channel_2",
        "ground_from_channel_3",
    ];
    assert_eq!(off_the_wall.collect::<Vec<_>>(), wanted);
}

/// The peer's own page in parts: what stands before the places, those of the air, those of the ground.
fn parts() -> (String, Vec<String>, Vec<String>) {
    let page = page(&rules());
    let starts: Vec<usize> = page.match_indices("<g class='").map(|found| found.0).collect();
    let ends = starts[1..].iter().copied().chain([page.len() - "</svg>\n".len()]);
    let mut places: Vec<String> =
        starts.iter().zip(ends).map(|(&start, end)| page[start..end].to_string()).collect();
    let ground = places.split_off(IN_AIR);
    (page[..starts[0]].into(), places, ground)
}

/// What is said of a page.
fn said(page: &str) -> String {
    check(&rules(), page.as_bytes()).iter().map(|wrong| format!("{wrong}\n")).collect()
}

/// `from` must be there.
fn swap(text: &str, from: &str, to: &str) -> String {
    assert!(text.contains(from), "{from} is not in {text}");
    text.replacen(from, to, 1)
}

/// What is said of the page with other places of the ground.
fn said_of_ground(edit: impl Fn(&mut Vec<String>)) -> String {
    let (head, air, mut ground) = parts();
    edit(&mut ground);
    said(&[head, air.concat(), ground.concat(), "</svg>\n".into()].concat())
}

const SHOWN: [usize; 4] = [34, 38, 42, 46];

fn named(place: usize) -> String {
    format!("{} ({} on): ", place_words(place), 16 * place)
}

#[test]
fn damaged_places_of_the_ground_are_refused_for_their_reason() {
    assert_eq!(said_of_ground(|_| ()), "");
    assert_eq!(named(34), "on ground, handle UP, doors CLOSED, gears EXTENDED (544 on): ");
    let (_, air, ground) = parts();
    assert_eq!((air.len(), ground.len()), (32, 4));
    let corner =
        |place: &str| place.split_once("translate(").unwrap().1.split_once(')').unwrap().0.to_string();
    for (n, place) in SHOWN.into_iter().enumerate() {
        let name = named(place);
        // Missing, twice, in another column.
        assert_eq!(said_of_ground(|all| drop(all.remove(n))), format!("{name}it is not there\n"));
        assert_eq!(said_of_ground(|all| all.push(all[n].clone())), format!("{name}it is there 2 times\n"));
        for other in 0..4 {
            let there =
                said_of_ground(|all| all[n] = swap(&all[n], &corner(&all[n]), &corner(&ground[other])));
            let wanted = format!("{}it bears the numbers of {}\n", named(SHOWN[other]), place_words(place));
            assert_eq!(there.contains(&wanted), other != n, "{there}");
            assert_eq!(there.contains(&format!("{name}it is not there\n")), other != n, "{there}");
        }
        // In the air, where its place is.
        let there = said_of_ground(|all| all[n] = swap(&all[n], &corner(&all[n]), &corner(&air[place - 32])));
        assert!(there.contains(&format!("{}it is there 2 times\n", named(place - 32))), "{there}");
        // What its place in the air tells, with its own numbers and with those of the air.
        let told = |text: &str| {
            let at = text.find("<text class='when'").unwrap();
            (text[..at].to_string(), text[at..].to_string())
        };
        let as_in_air = said_of_ground(|all| all[n] = told(&all[n]).0 + &told(&air[place - 32]).1);
        assert!(as_in_air.lines().all(|line| line.starts_with(&name)), "{as_in_air}");
        assert!(as_in_air.contains(" of its 16 entries are told wrong"), "{as_in_air}");
        let of_air = format!("{} to {}", 16 * place - 512, 16 * place - 497);
        let numbers = format!("{} to {}", 16 * place, 16 * place + 15);
        let wanted = format!("{name}it bears the numbers of {}\n", place_words(place - 32));
        assert_eq!(said_of_ground(|all| all[n] = swap(&all[n], &numbers, &of_air)), wanted);
        assert!(said_of_ground(|all| all[n] = swap(&all[n], "'place'", "'never'"))
            .contains(&format!("{name}it is grey, yet it can be reached\n")));
    }
    // Two in each other's place.
    let swapped = said_of_ground(|all| {
        let [a, b] = [0, 3].map(|n| corner(&all[n]));
        (all[0], all[3]) = (swap(&all[0], &a, &b), swap(&all[3], &b, &a));
    });
    assert!(swapped.contains("it bears the numbers of") && !swapped.contains("times"), "{swapped}");
    // All missing: the four are told as in the air, and the heading has no place.
    let none = said_of_ground(Vec::clear);
    assert_eq!(none.matches("it is not there").count(), 4, "{none}");
    // A place in the air that is told wrong is told wrong of the ground too, where that does not show it.
    let (head, mut air, ground) = parts();
    air[0] =
        swap(&air[0], ">stays<", ">doors OPENING</text><text class='keeps' x='6' y='15'>gears RETRACTED<");
    let told = said(&[head, air.concat(), ground.concat(), "</svg>\n".into()].concat());
    let wanted = format!("{}16 of its 16 entries are told wrong by its place in the air\n", named(32));
    assert!(told.contains(&wanted) && told.contains(&named(0)), "{told}");
}

#[test]
fn damaged_headings_of_the_ground_are_refused_for_their_reason() {
    let own = page(&rules());
    let handle = "<text class='handle' x='40' y='338'>Handle UP, on ground</text>\n";
    let aim = "<text class='aim' x='164' y='338'>acts as if gears EXTENDED were at the aim</text>\n";
    for (from, to, reason) in [
        (
            "UP, on ground",
            "DOWN, on ground",
            "the headings are handle UP, handle DOWN, handle DOWN on ground, not",
        ),
        ("UP, on ground", "UP", "the headings are handle UP, handle DOWN, handle UP, not"),
        ("UP, on ground", "UP, on the ground", "the heading 'Handle UP, on the ground' is not understood"),
        ("UP, on ground", "UP, in the air", "the heading 'Handle UP, in the air' is not understood"),
        (
            handle,
            "",
            "the headings are handle UP, handle DOWN, not handle UP, handle DOWN, handle UP on ground",
        ),
        (handle, &handle.repeat(2), "handle UP on ground, handle UP on ground, not"),
        (aim, "", "0 aims beside handle UP on ground, not 1"),
        (aim, &aim.repeat(2), "2 aims beside handle UP on ground, not 1"),
        ("if gears EXTENDED", "if gears RETRACTED", "it is not so that it acts as if gears RETRACTED were"),
        ("if gears EXTENDED", "if gears extended", "gears extended were at the aim' is not understood"),
        ("if gears EXTENDED were at", "if gears EXTENDED were not at", "is not understood"),
        (
            "acts as if gears EXTENDED were at the aim",
            "aims at EXTENDED",
            "it is not so that it aims at EXTENDED",
        ),
        (
            "aims at EXTENDED",
            "acts as if gears EXTENDED were at the aim",
            "handle DOWN: it is not so that it acts",
        ),
    ] {
        let said = said(&swap(&own, from, to));
        assert!(said.contains(reason), "{from} -> {to}: {said}");
    }
    // The headings along the top and down the side: those of the ground stand last.
    let (air, ground) = own.split_at(own.find("<text class='handle' x='40' y='338'>").unwrap());
    let damaged = |from: &str, to: &str| said(&[air, &swap(ground, from, to)].concat());
    for (from, to, reason) in [
        (">OPENING<", ">CLOSING<", "it bears the numbers of"),
        (
            ">OPENING<",
            ">EXTENDING<",
            "is in the column of Gears(Extending) and in the row of Gears(Extended)",
        ),
        (">OPENING<", ">AJAR<", "the heading 'AJAR' is not understood"),
        ("x='105' y='347'", "x='167' y='347'", "is in the column of no one heading"),
        (">EXTENDED<", ">RETRACTED<", "it is there, yet what comes next is as in the air"),
        (">EXTENDED<", ">OPEN<", "and in the row of Doors(Open)"),
        ("x='10' y='368'", "x='10' y='349'", "is in the row of no one heading"),
    ] {
        let said = damaged(from, to);
        assert!(said.contains(reason), "{from} -> {to}: {said}");
    }
    // Columns and their headings in another order.
    let turned = ground
        .replace("x='43' y='347'", "x='9' y='347'")
        .replace("x='105' y='347'", "x='43' y='347'")
        .replace("x='9' y='347'", "x='105' y='347'")
        .replace("(40 350)", "(9 350)")
        .replace("(102 350)", "(40 350)")
        .replace("(9 350)", "(102 350)");
    let order = said(&[air, &turned].concat());
    assert!(order.contains("stand in the wrong order") && order.lines().count() == 1, "{order}");
}

/// A place of the ground is shown exactly if it differs: one too many, or all of them, and the handle that has none.
#[test]
fn places_of_the_ground_that_do_not_differ_are_refused() {
    let more = |name: &str| said(&page(&by_name(name).unwrap()));
    let as_in_air = "it is there, yet what comes next is as in the air\n";
    assert_eq!(more("page_has_one_of_ground_too_many"), format!("{}{as_in_air}", named(32)));
    let down = more("page_has_one_of_ground_down_too_many");
    assert!(down.contains(&format!("{}{as_in_air}", named(50))), "{down}");
    assert!(down.contains("handle UP on ground, handle DOWN on ground, not"), "{down}");
    assert_eq!(more("page_has_all_of_ground").matches(as_in_air).count(), 28);
    assert_eq!(more("page_without_ground").matches("it is not there\n").count(), 4);
    assert!(
        more("page_table_number_of_air").contains("the table number is 1016708, and the table's is 4087680")
    );
}

/// With the block of the ground in the form of the other program: `doors` and `gears` before the words, other numbers.
#[test]
fn the_ground_in_another_form() {
    let (head, air, ground) = parts();
    let (of_air, of_ground) = head.split_at(head.find("<text class='handle' x='40' y='338'>").unwrap());
    let said_by = |of_ground: &str, ground: &str| {
        said(&[of_air, of_ground, &air.concat(), ground, "</svg>\n"].concat())
    };
    let words = DOORS.iter().fold(of_ground.to_string(), |text, &doors| {
        swap(&text, &format!(">{}<", word(doors)), &format!(">doors {}<", word(doors)))
    });
    assert_eq!(said_by(&words, &ground.concat()), "");
    // Gears along the top and doors down the side, as in the air, on a larger sheet.
    let mut text = String::new();
    for (n, doors) in DOORS.iter().enumerate() {
        text += &format!("<text class='head' x='10' y='{}'>{}</text>", 368 + 34 * n, word(doors));
    }
    text += "<text class='head' x='43' y='347'>gears EXTENDED</text>";
    let start = of_ground.find("<text class='head'").unwrap();
    let end = of_ground.find("<text class='table'").unwrap();
    let turned = [&of_ground[..start], &text, &of_ground[end..]].concat();
    let places: String = ground
        .iter()
        .enumerate()
        .map(|(n, place)| swap(place, &format!("({} 350)", 40 + 62 * n), &format!("(40 {})", 350 + 34 * n)))
        .collect();
    let page = [of_air, &turned, &air.concat(), &places, "</svg>\n"].concat();
    assert_eq!(said(&swap(&page, "0 0 297 420", "0 0 594 840")), "");
}
