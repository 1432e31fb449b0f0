//! Request K6, told by the images and conversions that were given, by what converting does to bytes, and by random
//! states that are saved, loaded and converted there and back.
use peer::gen::{same, Rng};
use peer::handover::{converted_or_refused, handover_bytes, Said, Task};
use peer::image::{Form, Image};
use peer::image_gen::{image, IMAGE_KINDS};
use peer::rig::*;
use peer::rules::Rules;
use peer::stored::{read, Three, Vector};
use peer::vectors::session_s;
use std::path::Path;
use Form::{New, Old};

/// Label and image in hexadecimal, a line for each row; K3's have the same labels.
const SESSION_S: &str = include_str!("k6_session_s.images.txt");
const SESSION_S_OLD: &str = include_str!("session_s.images.txt");
/// The form asked for, the code, the image, the converted image or `-`.
const CONVERSIONS: &str = include_str!("k6_conversions.txt");

const AT_REST: u32 = HANDLE | GEAR_EXTENDED | DOOR_CLOSED;

fn bytes(hex: &str) -> Vec<u8> {
    (0..hex.len()).step_by(2).map(|n| u8::from_str_radix(&hex[n..n + 2], 16).unwrap()).collect()
}

/// With all the room that it needs: the converted image, or the refusal.
fn convert(to: Form, image: &[u8]) -> Result<Vec<u8>, u8> {
    Image::convert(&Rules::default(), to, to.bytes(), image).map_err(|untaken| untaken.refusal)
}

fn take(image: &[u8]) -> Result<Image, u8> {
    Image::take(&Rules::default(), image).map_err(|untaken| untaken.refusal)
}

fn state(rig: &Rig) -> Image {
    Image::of(&Rules::default(), rig)
}

/// The request as it is said of bytes: eight of 0 behind each sensor's eight.
fn widened(old: &[u8]) -> Vec<u8> {
    let sensors = old[4..148].chunks(8).flat_map(|two| [two, &[0; 8]].concat());
    [&old[..4], &sensors.collect::<Vec<u8>>(), &old[148..]].concat()
}

/// The eight behind each sensor's eight are left out.
fn narrowed(new: &[u8]) -> Vec<u8> {
    let sensors = new[4..292].chunks(16).flat_map(|four| four[..8].to_vec());
    [&new[..4], &sensors.collect::<Vec<u8>>(), &new[292..]].concat()
}

/// Some count in the bytes of a new image is not 0.
fn counts(new: &[u8]) -> bool {
    new[4..292].chunks(16).any(|four| four[12..] != [0; 4])
}

#[test]
fn session_s_after_each_row() {
    let old: Vec<&str> = SESSION_S_OLD.lines().collect();
    assert_eq!((SESSION_S.lines().count(), old.len()), (12, 12));
    for (n, line) in SESSION_S.lines().enumerate() {
        let rows: Vec<u8> =
            session_s().split_inclusive(|&b| b == b'\n').take(n + 2).flatten().copied().collect();
        let (saved, said) = handover_bytes(&Rules::default(), Task::Save, &rows);
        let (label, given) = line.split_once(' ').unwrap();
        assert_eq!((label, &saved, said), (&n.to_string()[..], &bytes(given), None));
        let (label_old, given_old) = old[n].split_once(' ').unwrap();
        assert_eq!((label_old, convert(Old, &saved)), (label, Ok(bytes(given_old))));
        assert_eq!(convert(New, &bytes(given_old)), Ok(saved));
    }
}

/// The given ones, and that they are stored as given.
#[test]
fn forty_conversions() {
    let lines: Vec<Vec<&str>> = CONVERSIONS
        .lines()
        .filter(|line| !line.starts_with('#'))
        .map(|line| line.split(' ').collect())
        .collect();
    assert_eq!(lines.len(), 40);
    let stored = read(Path::new("../crates/cases/data")).unwrap().forms;
    for (n, line) in (1..).zip(lines) {
        let [to, code, given, converted] = line[..] else { panic!("{line:?}") };
        let (form, given) = (if to == "new" { New } else { Old }, bytes(given));
        let wanted = match code {
            "0" => Ok(bytes(converted)),
            code => Err(code.parse().unwrap()),
        };
        assert_eq!(convert(form, &given), wanted, "line {n}");
        let (_, image, new, old) = stored.iter().find(|v| v.0 == format!("given_{n:02}")).unwrap();
        let there = if form == New { new } else { old };
        let text = wanted.unwrap_or_else(|code| format!("refusal {code}\n").into_bytes());
        assert_eq!((image, there), (&given, &text), "line {n}");
    }
}

/// Any image is converted as its bytes say, with the first refusal that applies.
fn by_bytes(to: Form, room: usize, image: &[u8]) -> Result<Vec<u8>, u8> {
    if room < if to == Old { 204 } else { 348 } {
        return Err(8);
    }
    take(image)?;
    match (image.len(), to) {
        (204, New) => Ok(widened(image)),
        (348, Old) if counts(image) => Err(12),
        (348, Old) => Ok(narrowed(image)),
        _ => Ok(image.to_vec()),
    }
}

#[test]
fn converting_is_by_bytes() {
    let mut codes = [0; 5];
    for seed in 0..12_000 {
        let image = image(seed, IMAGE_KINDS[seed as usize % IMAGE_KINDS.len()]).unwrap();
        for to in [Old, New] {
            for room in [0, 203, 204, 205, 347, 348, 349, 1_000] {
                let converted = Image::convert(&Rules::default(), to, room, &image).map_err(|u| u.refusal);
                assert_eq!(converted, by_bytes(to, room, &image), "{seed} {to:?} {room}");
                let code = converted.err().unwrap_or_default();
                codes[[0, 8, 10, 11, 12].iter().position(|&n| n == code).unwrap()] += 1;
            }
        }
    }
    println!("0, 8, 10, 11, 12: {codes:?}");
    assert!(codes.iter().all(|&n| n > 2_000), "{codes:?}");
}

/// What is stored is what the bytes say; each refusal is there, and the first that applies is given.
#[test]
fn stored_forms() {
    let all = read(Path::new("../crates/cases/data")).unwrap().forms;
    for (name, image, new, old) in &all {
        for (to, there) in [(New, new), (Old, old)] {
            let wanted = by_bytes(to, 348, image);
            let wanted = wanted.unwrap_or_else(|code| format!("refusal {code}\n").into_bytes());
            assert_eq!(*there, wanted, "{name} {to:?}");
            assert_eq!(converted_or_refused(&Rules::default(), to, image), wanted, "{name} {to:?}");
        }
    }
    for code in [10, 11, 12] {
        let line = format!("refusal {code}\n").into_bytes();
        let some = |form: fn(&Three) -> &Vec<u8>| all.iter().any(|v| *form(v) == line);
        assert_eq!([some(|v| &v.2), some(|v| &v.3)], [code != 12, true], "{code}");
    }
    // All four of 8, 10, 11 and 12 apply, or fewer; the first is given.
    let worst = &all.iter().find(|v| v.0 == "new_count_alone").unwrap().1;
    let mut out_of_range = worst.clone();
    out_of_range[4..8].fill(9);
    let code = |room, image: &[u8]| Image::convert(&Rules::default(), Old, room, image).unwrap_err().refusal;
    assert_eq!([code(203, &out_of_range), code(204, &out_of_range), code(204, worst)], [8, 10, 11]);
    assert_eq!(code(203, worst), 8);
}

/// A controller that any samples are put to, channels most often as they were, so that counts of every kind come up.
struct Walk {
    rig: Rig,
    says: [u32; 3],
}

impl Walk {
    fn sample(&mut self, r: &mut Rng) -> [u32; 3] {
        let some = |r: &mut Rng, often: u64| (0..often).fold(SENSORS, |bits, _| bits & r.draw() as u32);
        match r.below(10) {
            0 | 1 => self.says = same(self.says[r.index(3)]),
            2 => {
                let seen = some(r, 4);
                self.says = self.says.map(|says| says ^ seen);
            }
            3..=6 => {
                let channel = r.index(3);
                self.says[channel] ^= some(r, 3);
            }
            _ => {}
        }
        self.says
    }

    fn step(&mut self, r: &mut Rng) {
        let sample = self.sample(r);
        let elapsed = r.pick(&[0, 1, 50, 100, 100, 101]);
        self.rig.step(&Rules::default(), self.rig.stamp.wrapping_add(elapsed), sample);
    }
}

/// What a state's image must come to.
fn there_and_back(rig: &Rig, r: &mut Rng) -> bool {
    let rules = Rules::default();
    let whole = state(rig);
    let new = whole.bytes(&rules);
    let counting = rig.counting() != 0;
    assert_eq!((new.len(), take(&new), counts(&new)), (348, Ok(whole.clone()), counting));
    assert_eq!(convert(New, &new), Ok(new.clone()));
    // Loaded, it is the same controller but for the stamp.
    let stamp = r.draw() as u32;
    let loaded = take(&new).unwrap().start(&rules, stamp);
    assert_eq!(state(&loaded), Image { stamp, ..whole.clone() });
    // The old form, for which counts must be 0.
    let old = match convert(Old, &new) {
        Err(12) if counting => whole.bytes_in(&rules, Old),
        Ok(old) if !counting => {
            assert_eq!((&old, convert(New, &old)), (&whole.bytes_in(&rules, Old), Ok(new)));
            old
        }
        other => panic!("{counting}: {other:?}"),
    };
    let clean = Image { odd: [0; 18], count: [0; 18], ..whole };
    assert_eq!((old.len(), take(&old)), (204, Ok(clean.clone())));
    assert_eq!(convert(Old, &old), Ok(old.clone()));
    // Old to new to old, and both start the same controller.
    let widened = convert(New, &old).unwrap();
    assert_eq!(convert(Old, &widened), Ok(old.clone()));
    let [from_old, from_new] = [&old, &widened].map(|image| take(image).unwrap().start(&rules, stamp));
    assert_eq!(state(&from_old), Image { stamp, ..clean });
    assert_eq!(state(&from_old), state(&from_new));
    counting
}

#[test]
fn twenty_thousand_states_there_and_back() {
    let r = &mut Rng::new(6);
    let (mut counting, mut seen) = (0, [[0; 2]; 4]);
    for _ in 0..400 {
        let mut walk = Walk { rig: Rig::fresh(&Rules::default(), r.draw() as u32), says: same(AT_REST) };
        for _ in 0..50 {
            (0..r.range(1, 3)).for_each(|_| walk.step(r));
            counting += usize::from(there_and_back(&walk.rig, r));
            let image = state(&walk.rig);
            for n in (0..18).filter(|&n| image.count[n] > 0) {
                seen[image.odd[n] as usize][image.count[n] as usize - 1] += 1;
            }
        }
    }
    println!(
        "{counting} of 20,000 count; two that differ and each odd channel, counts of 1 and of 2: {seen:?}"
    );
    assert!((5_000..19_000).contains(&counting), "{counting}");
    assert!(seen.iter().flatten().all(|&n| n > 1_000), "{seen:?}");
}

/// Handed over at any sample, a lesson goes on as if it had not been.
#[test]
fn handed_over_at_any_sample() {
    let rules = Rules::default();
    let r = &mut Rng::new(66);
    for _ in 0..300 {
        let mut stayed = Walk { rig: Rig::fresh(&rules, 1_000), says: same(AT_REST) };
        (0..r.range(1, 40)).for_each(|_| stayed.step(r));
        let mut handed = state(&stayed.rig).start(&rules, stayed.rig.stamp);
        for _ in 0..20 {
            let sample = stayed.sample(r);
            let elapsed = r.pick(&[0, 50, 100, 101]);
            for rig in [&mut stayed.rig, &mut handed] {
                rig.step(&rules, rig.stamp.wrapping_add(elapsed), sample);
            }
            assert_eq!(state(&stayed.rig), state(&handed));
            if r.permille(300) {
                handed = take(&state(&handed).bytes(&rules)).unwrap().start(&rules, handed.stamp);
            }
        }
    }
}

/// A sample at rest in which a channel says otherwise of a sensor.
fn otherwise(sensor: usize, channel: usize) -> [u32; 3] {
    let mut sample = same(AT_REST);
    sample[channel] ^= 1 << sensor;
    sample
}

/// Every sensor, every odd channel, three channels valid and two, a count of 1 and of 2: the strike, or that the sensor
/// is invalid, comes at the same sample; from an old image it comes at the third.
#[test]
fn a_bounce_handed_over() {
    let rules = Rules::default();
    for (sensor, odd) in (0..18).flat_map(|sensor| (0..3).map(move |odd| (sensor, odd))) {
        for (struck, count) in [(false, 1), (false, 2), (true, 1), (true, 2)] {
            let mut rig = Rig::fresh(&rules, 0);
            let step =
                |rig: &mut Rig, sample| assert_eq!(rig.step(&rules, rig.stamp.wrapping_add(50), sample), 0);
            if struck {
                (0..3).for_each(|_| step(&mut rig, otherwise(sensor, (odd + 1) % 3)));
            }
            (0..count).for_each(|_| step(&mut rig, otherwise(sensor, odd)));
            let image = state(&rig);
            let named = if struck { 0 } else { odd as u32 + 1 };
            assert_eq!((image.odd[sensor], image.count[sensor]), (named, count));
            assert_eq!((image.odd.iter().sum::<u32>(), image.count.iter().sum::<u32>()), (named, count));
            let before = if struck { (odd as u32 + 1) % 3 + 1 } else { 0 };
            let after = if struck { 4 } else { odd as u32 + 1 };
            let new = take(&image.bytes(&rules)).unwrap().start(&rules, 7);
            let old = take(&image.bytes_in(&rules, Old)).unwrap().start(&rules, 7);
            for (mut rig, third) in [(rig, 3 - count), (new, 3 - count), (old, 3)] {
                for n in 1..=third {
                    assert_eq!(state(&rig).voter[sensor], before, "{n}");
                    step(&mut rig, otherwise(sensor, odd));
                }
                assert_eq!(state(&rig).voter[sensor], after);
                assert_eq!(rig.counting(), 0);
            }
        }
    }
}

/// What was stored before K6 goes on as it did; what is stored for it bears its counts.
#[test]
fn stored_images_of_lessons() {
    let all = read(Path::new("../crates/cases/data")).unwrap();
    for (name, image, ..) in &all.onwards {
        assert_eq!(image.len(), if name.starts_with("new_") { 348 } else { 204 }, "{name}");
        let image = take(image).unwrap();
        let counted: Vec<(u32, u32)> =
            (0..18).map(|n| (image.odd[n], image.count[n])).filter(|&counted| counted != (0, 0)).collect();
        let wanted: &[(u32, u32)] = match &name[..] {
            "new_odd_1" => &[(3, 1)],
            "new_odd_2" => &[(3, 2)],
            "new_two_1" => &[(0, 1)],
            "new_two_2" => &[(0, 2)],
            "new_agreed" => &[(3, 2), (1, 2), (2, 2), (0, 2)],
            _ => &[],
        };
        assert_eq!(counted, wanted, "{name}");
    }
    let counting = |v: &&Vector| v.2.len() == 348 && counts(&v.2);
    let names: Vec<&str> = all.images.iter().filter(counting).map(|v| &v.0[..]).collect();
    assert_eq!(names, ["lesson_brushed", "vote_bounces"]);
    assert!(all.images.iter().all(|v| [0, 348].contains(&v.2.len())));
}

/// FNV-1a, 64 bits.
fn digest<'a>(bytes: impl IntoIterator<Item = &'a u8>) -> u64 {
    let next = |all: u64, b: &u8| (all ^ u64::from(*b)).wrapping_mul(0x100_0000_01b3);
    bytes.into_iter().fold(0xcbf2_9ce4_8422_2325, next)
}

/// Images of before K6, their words, and what goes on from them, by a digest of names and bytes.
#[test]
fn old_images_are_those_of_before() {
    let all = read(Path::new("../crates/cases/data")).unwrap();
    let old = |name: &str| !name.starts_with("new_");
    let words: Vec<_> = all.words.iter().filter(|v| v.1.len() != 348 && old(&v.0)).collect();
    let onwards: Vec<_> = all.onwards.iter().filter(|v| old(&v.0)).collect();
    let of_words = words.iter().flat_map(|v| v.0.as_bytes().iter().chain(&v.1).chain(&v.2));
    let of_onwards = onwards.iter().flat_map(|v| v.0.as_bytes().iter().chain(&v.1).chain(&v.2).chain(&v.3));
    assert_eq!((words.len(), digest(of_words)), (44, 0x13f3_ddf5_d9a2_5e0b));
    assert_eq!((onwards.len(), digest(of_onwards)), (11, 0x472d_89d7_5f77_a1cb));
}

/// The line of a sensor says what it has counted, and nothing where it has counted nothing.
#[test]
fn words_of_counts() {
    let rules = Rules::default();
    let mut image = state(&Rig::fresh(&rules, 0));
    let line = |image: &Image| image.words(&rules).lines().nth(1).unwrap().to_string();
    assert_eq!(line(&image), "handle: all channels valid, held 1");
    (image.odd[0], image.count[0]) = (2, 1);
    assert_eq!(line(&image), "handle: all channels valid, held 1, channel 2 odd in 1 sample");
    image.count[0] = 2;
    assert_eq!(line(&image), "handle: all channels valid, held 1, channel 2 odd in 2 samples");
    (image.voter[0], image.odd[0]) = (3, 0);
    assert_eq!(line(&image), "handle: channel 3 struck, held 1, the two differed in 2 samples");
    image.count[0] = 1;
    assert_eq!(line(&image), "handle: channel 3 struck, held 1, the two differed in 1 sample");
    // An old image and the new one of it have the same words.
    let old = image.bytes_in(&rules, Old);
    let words = |image: &[u8]| handover_bytes(&rules, Task::Show(image), b"").0;
    assert_eq!(words(&old), words(&convert(New, &old).unwrap()));
}

/// The task: the converted image, or nothing and the refusal.
#[test]
fn the_tasks() {
    let rules = Rules::default();
    let mut image = state(&Rig::fresh(&rules, 5));
    let converted = |to, image: &Image| handover_bytes(&rules, Task::Convert(to, &image.bytes(&rules)), b"");
    assert_eq!(converted(New, &image), (image.bytes(&rules), None));
    assert_eq!(converted(Old, &image), (image.bytes_in(&rules, Old), None));
    (image.odd[17], image.count[17]) = (1, 2);
    assert_eq!(converted(New, &image), (image.bytes(&rules), None));
    let (out, said) = converted(Old, &image);
    assert!(out.is_empty() && matches!(said, Some(Said::Unconverted(untaken)) if untaken.refusal == 12));
}
