//! Seeded images of both forms: good ones that runs come to and that none comes to, and good ones with something wrong
//! in them; and the traces that go on from an image.

use crate::gen::{onward, trace, Rng, KINDS};
use crate::handover::{handover_bytes, Task};
use crate::image::{layout, Form, Image, Item};
use crate::rig::{CLOSE, EXTEND, GENERAL, OPEN, RETRACT};
use crate::rules::Rules;

pub const IMAGE_KINDS: [&str; 6] = ["good", "pushed", "broken", "cut", "longer", "random"];

/// The highest number of an item; the stamp has none.
fn top(item: Item) -> u32 {
    match item {
        Item::Stamp => u32::MAX,
        Item::Voter(_) => 4,
        Item::Held(_) | Item::On(_) => 1,
        Item::Odd(_) => 3,
        Item::Count(_) => 2,
        Item::Age(_) => 60_000,
        Item::Doors | Item::Gears => 3,
        Item::Cause => 13,
    }
}

/// An age: at or beside a number that counts, or any.
fn age(r: &mut Rng) -> u32 {
    let marks = [0, 100, 200, 1_000, 2_000, 7_000, 10_000, 20_000, 21_500, 60_000];
    match r.below(4) {
        0 => r.range(0, 60_000) as u32,
        1 => 60_000,
        _ => (r.pick(&marks) + r.below(3)).saturating_sub(r.below(120)).min(60_000) as u32,
    }
}

/// The order that doors and gears ask for, if they ask for one.
fn wanted(image: &Image) -> Option<usize> {
    match (image.doors, image.gears) {
        (1, _) => Some(OPEN),
        (3, _) => Some(CLOSE),
        (_, 1) => Some(EXTEND),
        (_, 3) => Some(RETRACT),
        _ => None,
    }
}

/// An odd channel and a count that a voter can have.
fn counted(r: &mut Rng, voter: u32, often: u64) -> (u32, u32) {
    match (r.permille(often), voter) {
        (false, _) | (_, 4) => (0, 0),
        (true, 0) => (r.range(1, 3) as u32, r.range(1, 2) as u32),
        (true, _) => (0, r.range(1, 2) as u32),
    }
}

/// Any image that is taken, built from the rules.
fn built(r: &mut Rng) -> Image {
    let mut image = Image::default();
    let any = r.draw() as u32;
    image.stamp = r.pick(&[0, 1, u32::MAX, 1 << 31, any, 1_000]);
    image.cause = match r.below(8) {
        0..=3 => 0,
        4 => 13,
        _ => r.range(1, 13) as u32,
    };
    let often = r.pick(&[0, 60, 300, 900]);
    let worst = if image.cause == 0 { 3 } else { 4 };
    image.voter.fill_with(|| if r.permille(often) { r.range(1, worst) as u32 } else { 0 });
    image.held.fill_with(|| r.below(2) as u32);
    let often = r.pick(&[0, 60, 300, 1_000]);
    for sensor in 0..18 {
        (image.odd[sensor], image.count[sensor]) = counted(r, image.voter[sensor], often);
    }
    image.age.fill_with(|| age(r));
    image.doors = r.below(4) as u32;
    image.gears = if image.doors == 2 { r.below(4) as u32 } else { r.pick(&[0, 2]) };
    let needed = image.doors != 0 && image.cause == 0;
    image.on[GENERAL] = u32::from(needed || r.permille(400));
    if let (Some(order), true) = (wanted(&image), needed) {
        image.on[order] = r.below(2) as u32;
    }
    image
}

/// Either form.
fn form(r: &mut Rng) -> Form {
    r.pick(&[Form::Old, Form::New])
}

/// A good image of either form, of a run or built.
fn good(r: &mut Rng) -> Vec<u8> {
    let (rules, form) = (Rules::default(), form(r));
    let image = if r.permille(600) {
        built(r)
    } else {
        let kind = r.pick(&["nominal", "adversarial", "channels", "stalls", "edges"]);
        let saved = handover_bytes(&rules, Task::Save, &trace(r.draw(), kind, None).unwrap()).0;
        Image::take(&rules, &saved).unwrap()
    };
    image.bytes_in(&rules, form)
}

/// Items as they stand in bytes of this length.
fn items(bytes: &[u8]) -> Vec<Item> {
    let rules = Rules::default();
    layout(&rules, Form::of(&rules, bytes.len()).unwrap_or(Form::New))
}

/// An item of the image as bytes, and where it stands.
fn place(r: &mut Rng, bytes: &[u8]) -> (Item, usize) {
    let all = items(bytes);
    // Sensors are many: the others get their turn.
    let n = if r.permille(500) { r.index(all.len()) } else { all.len() - 14 + r.index(14) };
    (all[n], 4 * n)
}

fn set(bytes: &mut [u8], at: usize, value: u32) {
    if let Some(four) = bytes.get_mut(at..at + 4) {
        four.copy_from_slice(&value.to_be_bytes());
    }
}

/// An item that is out of range, now and then the stamp, which cannot be.
fn push(r: &mut Rng, bytes: &mut [u8]) {
    let (item, at) = place(r, bytes);
    let top = top(item);
    let value = match r.below(6) {
        0 => u32::MAX,
        1 => 1 << r.range(8, 31) | r.below(2) as u32,
        2 => top.wrapping_add(r.range(1, 20) as u32),
        _ => top.wrapping_add(1),
    };
    set(bytes, at, value);
}

/// A rule broken, sometimes more than one.
fn break_rule(r: &mut Rng, form: Form, image: &mut Image) {
    match r.below(9) {
        6 | 7 if form == Form::New => break_count(r, image),
        0 => {
            image.gears = r.pick(&[1, 3]);
            image.doors = r.pick(&[0, 1, 3]);
        }
        1 => image.on[r.range(1, 4) as usize] = 1,
        2 => {
            image.doors = r.range(1, 3) as u32;
            image.cause = 0;
            image.on[GENERAL] = 0;
        }
        3 => {
            image.voter[r.pick(&[0, 1, 8, 16, 17])] = 4;
            image.cause = 0;
        }
        4 => {
            image.on[GENERAL] = 1;
            if let Some(order) = wanted(image) {
                image.on[order] = 1;
            }
            image.cause = r.range(1, 13) as u32;
        }
        _ => {
            image.on[GENERAL] = 0;
            if let Some(order) = wanted(image) {
                image.on[order] = 1;
            }
        }
    }
}

/// A rule for odd channels and counts broken, for some voter, or now and then none.
fn break_count(r: &mut Rng, image: &mut Image) {
    let sensor = r.pick(&[0, 1, 8, 16, 17]);
    let worst = if image.cause == 0 { 3 } else { 4 };
    image.voter[sensor] = r.range(0, worst) as u32;
    let (odd, count) = (r.range(1, 3) as u32, r.range(1, 2) as u32);
    (image.odd[sensor], image.count[sensor]) = match (image.voter[sensor], r.below(3)) {
        (0, 0) | (4, 0) => (0, count),
        (0, _) | (_, 1) => (odd, 0),
        _ => (odd, count),
    };
}

fn broken(r: &mut Rng) -> Vec<u8> {
    let (mut image, form) = (built(r), form(r));
    break_rule(r, form, &mut image);
    let mut bytes = image.bytes_in(&Rules::default(), form);
    if r.permille(150) {
        push(r, &mut bytes);
    }
    bytes
}

/// Bytes in other places, other bytes, or numbers drawn item by item.
fn random(r: &mut Rng) -> Vec<u8> {
    let mut bytes = good(r);
    match r.below(8) {
        0 => bytes.fill_with(|| r.draw() as u8),
        1 => {
            for (n, item) in items(&bytes).into_iter().enumerate() {
                set(&mut bytes, 4 * n, r.below(u64::from(top(item)) + 1) as u32);
            }
        }
        2 => {
            for n in 0..bytes.len() / 4 {
                set(&mut bytes, 4 * n, r.below(4) as u32);
            }
        }
        3 => bytes.chunks_exact_mut(4).for_each(<[u8]>::reverse),
        4 => {
            let ((_, a), (_, b)) = (place(r, &bytes), place(r, &bytes));
            (0..4).for_each(|n| bytes.swap(a + n, b + n));
        }
        5 => bytes.rotate_left(r.range(1, 8) as usize),
        _ => {
            for _ in 0..r.range(1, 3) {
                let (item, at) = place(r, &bytes);
                match r.below(3) {
                    0 => bytes[at + r.index(4)] ^= 1 << r.below(8),
                    _ => set(&mut bytes, at, r.below(u64::from(top(item)) + 1) as u32),
                }
            }
        }
    }
    bytes
}

/// The image of a seed and a kind.
pub fn image(seed: u64, kind: &str) -> Option<Vec<u8>> {
    let r = &mut Rng::new(seed ^ 0x6B33_0000_0000_0000);
    Some(match kind {
        "good" => good(r),
        "pushed" => {
            let mut bytes = good(r);
            push(r, &mut bytes);
            bytes
        }
        "broken" => broken(r),
        "cut" => {
            let mut bytes = good(r);
            let fewer = [0, 1, 4, 200, 203, 204, 205, 344, 347];
            bytes.truncate(if r.permille(500) { r.pick(&fewer) } else { r.index(bytes.len()) });
            bytes
        }
        "longer" => {
            let more = match r.below(8) {
                0 => r.range(1, 3_000),
                1 if r.permille(200) => r.range(10_000, 200_000),
                2 => 204,
                3 => 348,
                4 => 348 - 204,
                _ => r.pick(&[1, 1, 2, 3, 4]),
            };
            let mut bytes = good(r);
            bytes.extend((0..more).map(|_| if r.permille(900) { 0 } else { r.draw() as u8 }));
            bytes
        }
        "random" => random(r),
        _ => return None,
    })
}

/// A trace of another seed to go on from the image of a seed: most often one that the controller of the
/// image is in the loop of, else any.
pub fn second_trace(seed: u64, image: &[u8]) -> Vec<u8> {
    let rules = Rules::default();
    let other = seed.wrapping_add(1_000_003);
    match Image::take(&rules, image) {
        Ok(image) if seed % 5 < 3 => onward(other, &image.start(&rules, 0)),
        _ => trace(other, KINDS[(other % KINDS.len() as u64) as usize], None).unwrap(),
    }
}
