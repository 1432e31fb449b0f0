//! Request K5, told by worked examples, by its sentences with an odd channel and a count for each sensor, and by the
//! traces that were given for it.
use peer::dump::waves_bytes;
use peer::gen::{cut, same, trace, Tape};
use peer::handover::{handover_bytes, Task};
use peer::image::{Form, Image};
use peer::rig::*;
use peer::rules::{by_name, Rules};
use peer::stored::{read, Vector};
use peer::trace::replay_bytes;
use peer::vectors::vectors;
use std::path::Path;

const AT_REST: u32 = HANDLE | GEAR_EXTENDED | DOOR_CLOSED;
const ALL_VALID: u32 = 0;
const INVALID: u32 = 4;
/// The sensor of the examples, by its bit and by its place: the front absorber, at rest 0.
const FRONT: u32 = 1 << 8;
const PLACE: usize = 8;

/// A controller, and samples in which the front absorber's channels say something.
struct Told {
    rig: Rig,
    rules: Rules,
}

impl Told {
    fn fresh() -> Told {
        let rules = Rules::default();
        Told { rig: Rig::fresh(&rules, 0), rules }
    }

    fn after(&mut self, elapsed: u32, says: [u32; 3]) -> u8 {
        let sample = says.map(|bit| AT_REST | bit << PLACE);
        self.rig.step(&self.rules, self.rig.stamp.wrapping_add(elapsed), sample)
    }

    /// An accepted sample; the value and the voter that it leaves, and whether there is a count.
    fn says(&mut self, a: u32, b: u32, c: u32) -> (u32, u32, bool) {
        assert_eq!(self.after(50, [a, b, c]), 0);
        self.now()
    }

    fn now(&self) -> (u32, u32, bool) {
        let image = Image::of(&self.rules, &self.rig);
        (image.held[PLACE], image.voter[PLACE], self.rig.counting() & FRONT != 0)
    }
}

/// P1, then what is asked of it.
fn after_p1() -> Told {
    let mut told = Told::fresh();
    assert_eq!(told.says(1, 1, 0), (1, ALL_VALID, true));
    assert_eq!(told.says(1, 1, 0), (1, ALL_VALID, true));
    assert_eq!(told.says(1, 1, 0), (1, 3, false));
    told
}

#[test]
fn p1_p2_p3() {
    let mut told = after_p1();
    assert_eq!(told.says(1, 0, 0), (1, 3, true)); // P2; channel 3 does not count
    assert_eq!(told.says(1, 0, 1), (1, 3, true));
    assert_eq!(told.rig.cause, 0);
    assert_eq!(told.says(1, 0, 0), (1, INVALID, false));
    assert_eq!(told.rig.cause, 13);
    let mut told = after_p1();
    assert_eq!(told.says(1, 1, 1), (1, 3, false)); // P3
    assert_eq!(told.says(0, 0, 1), (0, 3, false));
}

/// The votes of an odd channel's first sample count for the monitors.
#[test]
fn monitors_go_by_the_majority_at_once() {
    let rules = Rules::default();
    let mut rig = Rig::fresh(&rules, 0);
    rig.step(&rules, 10, [AT_REST | SWITCH, AT_REST | SWITCH, AT_REST]);
    assert_eq!((rig.held & SWITCH, rig.cause), (SWITCH, 12));
}

#[test]
fn agreement_sets_the_count_to_0() {
    let mut told = Told::fresh();
    for _ in 0..5 {
        assert_eq!(told.says(1, 1, 0), (1, ALL_VALID, true));
        assert_eq!(told.says(0, 0, 1), (0, ALL_VALID, true)); // odd again, whatever it says
        assert_eq!(told.says(0, 0, 0), (0, ALL_VALID, false));
    }
    // Two that are left: in which way they differ does not count.
    let mut told = after_p1();
    for _ in 0..5 {
        assert_eq!(told.says(0, 1, 0), (1, 3, true));
        assert_eq!(told.says(1, 0, 0), (1, 3, true));
        assert_eq!(told.says(1, 1, 0), (1, 3, false));
    }
    assert_eq!([told.says(0, 1, 0), told.says(1, 0, 0)], [(1, 3, true); 2]);
    assert_eq!(told.says(0, 1, 0), (1, INVALID, false));
}

#[test]
fn another_odd_channel_starts_again_at_1() {
    let mut told = Told::fresh();
    for _ in 0..4 {
        assert_eq!([told.says(1, 1, 0), told.says(1, 1, 0)], [(1, ALL_VALID, true); 2]);
        assert_eq!([told.says(0, 1, 0), told.says(0, 1, 0)], [(0, ALL_VALID, true); 2]);
    }
    assert_eq!(told.says(0, 1, 0), (0, 2, false));
    // The one of before, with the other between, has no start.
    let mut told = Told::fresh();
    for (a, b, c) in [(1, 1, 0), (1, 1, 0), (1, 0, 1), (1, 1, 0), (1, 1, 0)] {
        assert_eq!(told.says(a, b, c), (1, ALL_VALID, true));
    }
    assert_eq!(told.says(1, 1, 0), (1, 3, false));
}

/// Neither adds nor resets, whatever it says, be it refused with 3 or with 4.
#[test]
fn refused_samples_do_not_count() {
    for elapsed in [0, 101, u32::MAX] {
        for says in [[1, 1, 0], [1, 1, 1], [0, 1, 0], [0, 0, 0]] {
            let mut told = Told::fresh();
            let refused = |told: &mut Told| {
                let before = told.now();
                assert_eq!(told.after(elapsed, says), if elapsed == 0 { 3 } else { 4 });
                assert_eq!(told.now(), before);
            };
            for left in [(1, ALL_VALID, true), (1, ALL_VALID, true), (1, 3, false)] {
                refused(&mut told);
                assert_eq!(told.says(1, 1, 0), left);
            }
            for left in [(1, 3, true), (1, 3, true), (1, INVALID, false)] {
                refused(&mut told);
                assert_eq!(told.says(1, 0, 0), left);
            }
        }
    }
}

/// With three valid channels the value held before does not count, also at the third odd sample; with two that differ
/// it is kept, also at the third.
#[test]
fn the_value_until_then() {
    let mut told = Told::fresh();
    assert_eq!(told.says(1, 1, 0), (1, ALL_VALID, true));
    assert_eq!(told.says(0, 0, 1), (0, ALL_VALID, true));
    assert_eq!(told.says(1, 1, 0), (1, 3, false));
    for (a, b) in [(0, 1), (1, 0), (0, 1)] {
        assert_eq!(told.says(a, b, 0).0, 1);
    }
    assert_eq!(told.says(0, 0, 0), (1, INVALID, false));
}

/// A sensor's voter as the request tells it.
#[derive(Clone, Copy, PartialEq, Debug)]
struct ByText {
    /// Of the three channels, those that are not struck; with one alone the sensor is invalid.
    valid: [bool; 3],
    odd: usize,
    count: u32,
    value: u32,
}

impl ByText {
    fn vote(&mut self, says: [u32; 3]) {
        let valid: Vec<usize> = (0..3).filter(|&n| self.valid[n]).collect();
        match valid[..] {
            [_, _, _] if says == [says[0]; 3] => (self.value, self.count) = (says[0], 0),
            [_, _, _] => {
                let ones = says.iter().sum::<u32>();
                self.value = u32::from(ones >= 2);
                let odd = (0..3).find(|&n| says[n] != self.value).unwrap();
                self.count = if self.count > 0 && self.odd == odd { self.count + 1 } else { 1 };
                self.odd = odd;
                if self.count == 3 {
                    self.valid[odd] = false;
                    self.count = 0;
                }
            }
            [a, b] if says[a] == says[b] => (self.value, self.count) = (says[a], 0),
            [_, _] => {
                self.count += 1;
                if self.count == 3 {
                    self.valid = [false; 3];
                    self.count = 0;
                }
            }
            _ => {}
        }
    }

    /// As an image has it.
    fn voter(&self) -> u32 {
        match self.valid {
            [true, true, true] => ALL_VALID,
            [false, false, false] => INVALID,
            valid => 1 + valid.iter().position(|valid| !valid).unwrap() as u32,
        }
    }

    /// The odd channel from 1, 0 when none or when two are valid, and the count, as an image has them since K6.
    fn counted(&self) -> (u32, u32) {
        match (self.count, self.voter()) {
            (0, _) => (0, 0),
            (count, ALL_VALID) => (self.odd as u32 + 1, count),
            (count, _) => (0, count),
        }
    }
}

/// Rows of a trace in form: stamp, and what the channels of each sensor say.
fn rows(text: &[u8]) -> Vec<(u32, [[u32; 3]; 18])> {
    let row = |row: &Vec<u8>| {
        let fields: Vec<&[u8]> = row.split(|&b| b == b',').collect();
        let says = std::array::from_fn(|n| [0, 1, 2].map(|channel| u32::from(fields[n + 2][channel] - b'0')));
        (std::str::from_utf8(fields[1]).unwrap().parse().unwrap(), says)
    };
    cut(text)[1..].iter().map(row).collect()
}

fn sample(says: &[[u32; 3]; 18]) -> [u32; 3] {
    [0, 1, 2].map(|channel| (0..18).fold(0, |all, n| all | says[n][channel] << n))
}

/// What a trace comes to, counted over its sensors and rows.
#[derive(Default, Debug)]
struct Counted {
    strikes: usize,
    invalid: usize,
    /// Counts that went back to 0, or began again with another channel.
    forgiven: [usize; 2],
    /// The sensors that came to a count of 2, and those where another odd channel came right behind it.
    twice: [u32; 2],
    /// Refused rows at which a sensor's count stood, and went on with the next accepted row.
    over_refused: usize,
    /// Sensors with a count at the last row.
    at_the_end: usize,
}

/// A trace through the peer's controller and through the text's voters; they must agree after each row.
fn counted(text: &[u8]) -> Counted {
    let rules = Rules::default();
    let rows = rows(text);
    let mut rig = Rig::fresh(&rules, rows[0].0);
    let mut all = Counted::default();
    let mut voters: [ByText; 18] =
        std::array::from_fn(|n| ByText { valid: [true; 3], odd: 0, count: 0, value: AT_REST >> n & 1 });
    let mut refused = false;
    for (stamp, says) in &rows[1..] {
        if rig.step(&rules, *stamp, sample(says)) == 0 {
            for (n, voter) in voters.iter_mut().enumerate() {
                let before = *voter;
                voter.vote(says[n]);
                let struck = before.voter() == ALL_VALID && voter.voter() != ALL_VALID;
                let lost = before.voter() != INVALID && voter.voter() == INVALID;
                all.strikes += usize::from(struck);
                all.invalid += usize::from(lost);
                let was_counting = before.count > 0 && !struck && !lost;
                all.forgiven[0] += usize::from(was_counting && voter.count == 0);
                all.forgiven[1] += usize::from(was_counting && voter.count == 1);
                all.twice[0] |= u32::from(voter.count == 2) << n;
                all.twice[1] |= u32::from(before.count == 2 && voter.count == 1) << n;
                all.over_refused +=
                    usize::from(refused && before.count > 0 && (voter.count == 2 || struck || lost));
            }
            refused = false;
        } else {
            refused = true;
        }
        let image = Image::of(&rules, &rig);
        for (n, voter) in voters.iter().enumerate() {
            assert_eq!((image.voter[n], image.held[n]), (voter.voter(), voter.value), "sensor {n}");
            assert_eq!(rig.counting() >> n & 1 == 1, voter.count > 0, "sensor {n}");
            assert_eq!((image.odd[n], image.count[n]), voter.counted(), "sensor {n}");
        }
    }
    all.at_the_end = voters.iter().filter(|voter| voter.count > 0).count();
    all
}

/// Seeded traces of which channels are the matter: what `compare` looks at is there, and often.
#[test]
fn seeded_channels_by_the_text() {
    let all: Vec<Counted> = (0..50).map(|seed| counted(&trace(seed, "channels", None).unwrap())).collect();
    let sum =
        |of: fn(&Counted) -> usize| (all.iter().map(of).sum(), all.iter().filter(|c| of(c) > 0).count());
    let found: [(usize, usize); 6] = [
        sum(|c| c.strikes),
        sum(|c| c.invalid),
        sum(|c| c.forgiven[0]),
        sum(|c| c.forgiven[1]),
        sum(|c| c.over_refused),
        sum(|c| c.at_the_end),
    ];
    println!("of 50 seeds, in all and in how many: strikes, invalid, forgiven by agreement and by another");
    println!("channel, counts over refused rows, counts at the end: {found:?}");
    assert!(found.iter().all(|(all, seeds)| *all >= 10 && *seeds >= 8), "{found:?}");
}

/// Any samples at all, each channel most often as it was before.
#[test]
fn any_samples_by_the_text() {
    let mut r = peer::gen::Rng::new(5);
    for _ in 0..200 {
        let mut tape = Tape::new(0, same(AT_REST));
        let mut says: [u32; 3] = same(AT_REST);
        for _ in 0..150 {
            let often = r.below(4);
            says = says.map(|says| says ^ (0..often).fold(SENSORS, |bits, _| bits & r.draw() as u32));
            if r.permille(300) {
                says = same(says[0]);
            }
            tape.after(if r.permille(200) { 0 } else { 50 }, says);
        }
        counted(&tape.text);
    }
}

/// A stored trace and its rows.
fn trace_and_rows(name: &str) -> (Vec<u8>, Vec<u8>) {
    let file = |ending: &str| std::fs::read(format!("../crates/cases/data/traces/{name}.{ending}")).unwrap();
    (file("in"), file("out"))
}

fn saved(rules: &Rules, text: &[u8]) -> Vec<u8> {
    handover_bytes(rules, Task::Save, text).0
}

/// Without what its voters have counted.
fn uncounted(image: &[u8]) -> Image {
    let taken = Image::take(&Rules::default(), image).unwrap();
    Image { odd: [0; 18], count: [0; 18], ..taken }
}

/// FNV-1a, 64 bits.
fn digest<'a>(bytes: impl IntoIterator<Item = &'a u8>) -> u64 {
    let next = |all: u64, b: &u8| (all ^ u64::from(*b)).wrapping_mul(0x100_0000_01b3);
    bytes.into_iter().fold(0xcbf2_9ce4_8422_2325, next)
}

/// What was given, held by digests of traces and rows. The rows that are stored are written by the peer, so that a wrong
/// peer would agree with those.
#[test]
fn given_traces_are_as_given() {
    for (name, trace, rows) in [
        ("channels_0", 0x99e4_60e1_b86f_ed34, 0xb3fc_390e_6f13_7613),
        ("channels_1", 0xf2a8_cc67_f4a4_0faa, 0x6ec4_07a4_60b4_2a50),
        ("channels_agree", 0x45ca_9a40_fdc8_6d69, 0x27bb_f10a_8c1a_8b91),
        ("lesson_brushed", 0xfff5_e9f4_17a5_3d96, 0xfa74_f9fe_5a32_ed8b),
        ("lesson_clean", 0xbc13_a156_7717_8b8e, 0xfa74_f9fe_5a32_ed8b),
    ] {
        let (text, stored) = trace_and_rows(name);
        assert_eq!((digest(&text), digest(&stored)), (trace, rows), "{name}");
        assert_eq!(replay_bytes(&Rules::default(), &text).0, stored, "{name}");
    }
}

/// They reach what they are stored for.
#[test]
fn given_traces_by_the_text() {
    let all = ["channels_0", "channels_1", "lesson_brushed", "lesson_clean"]
        .map(|name| counted(&trace_and_rows(name).0));
    println!("{all:?}");
    let [zero, one, brushed, clean] = &all;
    assert!(zero.strikes > 0 && zero.forgiven[0] > 0);
    assert!(one.strikes > 0 && one.invalid > 0 && one.forgiven[0] > 0);
    assert_eq!((brushed.strikes, brushed.invalid, clean.forgiven), (0, 0, [0, 0]));
    assert!(brushed.forgiven[0] > 0);
}

/// The same lesson, brushed all through: rows and dump are those of the clean one, byte for byte, and so is the image
/// where no count runs at the end. The one that was given ends in a bounce of three sensors.
#[test]
fn a_brushed_lesson_is_the_clean_one() {
    let rules = Rules::default();
    let (clean, rows) = trace_and_rows("lesson_clean");
    assert_eq!(rows, replay_bytes(&rules, &clean).0);
    let all = read(Path::new("../crates/cases/data")).unwrap();
    for name in ["lesson_brushed", "lesson_brushed_twice"] {
        let (brushed, brushed_rows) = trace_and_rows(name);
        assert_ne!(brushed, clean);
        assert_eq!(brushed_rows, rows, "{name}");
        let stored = |list: &[Vector]| list.iter().find(|v| v.0 == name).map(|v| v.2.clone()).unwrap();
        assert_eq!(stored(&all.dumps), waves_bytes(&rules, &clean).0, "{name}");
        let (image, of_clean) = (stored(&all.images), saved(&rules, &clean));
        assert_eq!(image == of_clean, name == "lesson_brushed_twice", "{name}");
        assert_eq!(uncounted(&image), uncounted(&of_clean), "{name}");
        let counts = Image::take(&rules, &image).unwrap().count;
        assert_eq!(counts.iter().sum::<u32>(), if name == "lesson_brushed" { 3 } else { 0 }, "{name}");
        assert_eq!((image.len(), uncounted(&of_clean).bytes(&rules)), (Form::New.bytes(), of_clean));
    }
}

/// In the one that was given every bounce is a single one. In the other each sensor comes to a count of 2, and from
/// there to another odd channel: a voter that strikes at the second sample gives other rows and another image.
#[test]
fn a_lesson_brushed_twice_in_a_row() {
    let [once, twice, clean] =
        ["lesson_brushed", "lesson_brushed_twice", "lesson_clean"].map(|name| trace_and_rows(name).0);
    assert_eq!(counted(&once).twice, [0, 0]);
    let found = counted(&twice);
    println!("{found:?}");
    assert_eq!((found.strikes, found.invalid, found.at_the_end, found.twice), (0, 0, 0, [SENSORS; 2]));
    for name in ["struck_at_sample_2", "count_kept_over_agreement", "count_kept_over_other_odd_channel"] {
        let fault = by_name(name).unwrap();
        assert_ne!(replay_bytes(&fault, &twice).0, replay_bytes(&fault, &clean).0, "{name}");
        assert_ne!(uncounted(&saved(&fault, &twice)), uncounted(&saved(&fault, &clean)), "{name}");
    }
    let at_second = by_name("struck_at_sample_2").unwrap();
    assert_eq!(uncounted(&saved(&at_second, &once)), uncounted(&saved(&at_second, &clean)));
}

/// Where all channels agree K5 changes nothing: such traces and their rows are those that were stored before it, by a
/// digest of names, traces and rows. Left out are one that is new, one that had another name and is held above, and
/// those that came with K7, of which no rule before it says what they give.
#[test]
fn agreeing_traces_are_those_of_before() {
    let left_out = ["channels_agree", "lesson_clean"];
    let of_k7 = |name: &str| name.starts_with("ground_") || name.starts_with("k7_");
    let agree = |text: &[u8]| {
        let rows = cut(text);
        let mut fields = rows.iter().skip(2).flat_map(|row| row.split(|&b| b == b',').skip(2));
        rows.len() > 2 && fields.all(|says| says == b"000" || says == b"111")
    };
    let all = read(Path::new("../crates/cases/data")).unwrap().rows;
    let before = all.iter().filter(|v| agree(&v.1) && !left_out.contains(&&v.0[..]) && !of_k7(&v.0));
    let before: Vec<_> = before.collect();
    let bytes = before.iter().flat_map(|(name, text, rows)| name.as_bytes().iter().chain(text).chain(rows));
    assert_eq!((before.len(), digest(bytes)), (79, 0x794f_b802_8003_2491));
}

/// Traces of before K5 that bounce: nothing is invalid in them. What they were for is reached by others.
#[test]
fn stored_bounces_and_their_threes() {
    let of = |name: &str| {
        let (_, text) = vectors().into_iter().find(|v| v.0 == name).unwrap_or_else(|| panic!("{name}"));
        counted(&text)
    };
    for name in
        ["general_stop_after_gears", "lamps_invalid_sensor", "lamps_with_anomaly", "vote_each_channel"]
    {
        let (old, new) = (of(name), of(&[name, "_three"].concat()));
        assert!(old.invalid == 0 && old.forgiven != [0, 0], "{name}: {old:?}");
        assert!(new.strikes > 0 && new.invalid > 0, "{name}: {new:?}");
    }
    for name in ["vote_struck_stays", "vote_two_differ", "vote_handle"] {
        let old = of(name);
        assert!(old.strikes == 0 && old.invalid == 0 && old.forgiven != [0, 0], "{name}: {old:?}");
    }
    for name in ["vote_struck_stays_three", "vote_handle_three", "vote_third_in_a_row"] {
        let new = of(name);
        assert!(new.strikes > 0 && new.invalid > 0, "{name}: {new:?}");
    }
    let bounces = of("vote_bounces");
    assert!(bounces.invalid == 0 && bounces.forgiven.iter().all(|&n| n > 0) && bounces.at_the_end == 2);
}

/// An image of before K6, of a lesson saved while a count ran, has no place for it: what comes back counts from 0.
#[test]
fn an_old_image_has_no_count() {
    let rules = Rules::default();
    let old = |rig: &Rig, stamp: u32| {
        let image = Image::of(&rules, rig);
        let bytes = image.bytes_in(&rules, Form::Old);
        let taken = Image::take(&rules, &bytes).unwrap();
        assert_eq!((bytes.len(), &taken), (204, &Image { odd: [0; 18], count: [0; 18], ..image }));
        taken.start(&rules, stamp)
    };
    let mut told = Told::fresh();
    told.says(1, 1, 0);
    told.says(1, 1, 0);
    told.rig = old(&told.rig, 7);
    assert_eq!(told.now(), (1, ALL_VALID, false));
    assert_eq!([told.says(1, 1, 0), told.says(1, 1, 0)], [(1, ALL_VALID, true); 2]);
    assert_eq!(told.says(1, 1, 0), (1, 3, false));
    // Of two that are left, too.
    assert_eq!([told.says(1, 0, 0), told.says(1, 0, 0)], [(1, 3, true); 2]);
    told.rig = old(&told.rig, 9);
    assert_eq!([told.says(1, 0, 0), told.says(1, 0, 0)], [(1, 3, true); 2]);
    assert_eq!(told.says(1, 0, 0), (1, INVALID, false));
}

/// With the count at 0 the image is that of a lesson without the bounces.
#[test]
fn the_image_of_a_forgiven_bounce() {
    let rules = Rules::default();
    let [mut bounced, mut clean] = [Told::fresh(), Told::fresh()];
    for n in 0..9 {
        bounced.says(1, 1, u32::from(n % 3 == 2));
        clean.says(1, 1, 1);
    }
    assert_eq!(Image::of(&rules, &bounced.rig), Image::of(&rules, &clean.rig));
}
