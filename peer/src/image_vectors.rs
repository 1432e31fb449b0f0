//! Stored vectors of requests K3, K6 and K7: which traces have their image stored, images from which a trace goes on,
//! images of every kind, good ones and one for each way of being wrong, and images in both forms, so that every fault
//! of `rules::image_faults` changes at least one of what is stored. What was stored before K6 is in the old form.

use crate::dump_vectors::Stored;
use crate::gen::{cut, field, same, Script, Tape, Travel};
use crate::ground_vectors;
use crate::image::{Form, Image, Item};
use crate::rig::*;
use crate::rules::Rules;
use crate::vectors::{handle_up, one, session_s, started, NEVER};

/// Traces with their image; where it is marked, with the image in words too; and what that is for.
pub const IMAGES_OF_TRACES: [(&str, bool, &str); 27] = [
    ("session_s", true, "Session S: doors OPEN, gears EXTENDING with their order on; a 3 and a 4 in it"),
    ("lesson", true, "a long lesson; the stamp goes round in it; every age by itself"),
    ("edge_cause_1", true, "cause 1; doors OPENING and general_EV off"),
    ("edge_cause_2", true, "cause 2"),
    ("edge_cause_3", true, "cause 3; doors CLOSING"),
    ("edge_cause_4", true, "cause 4"),
    ("edge_cause_5", true, "cause 5; gears RETRACTING"),
    ("edge_cause_6", true, "cause 6"),
    ("edge_cause_7", true, "cause 7; gears EXTENDING"),
    ("edge_cause_8", true, "cause 8"),
    ("edge_cause_9", true, "cause 9; general_EV on with doors CLOSED, gears RETRACTED"),
    ("edge_cause_10", true, "cause 10"),
    ("image_causes_three", true, "cause 11 kept where 13 holds too and 9 holds later; a sensor invalid"),
    (
        "lamps_with_anomaly_three",
        true,
        "cause 12 kept where 13 holds later; invalid sensors held at 1 and at 0",
    ),
    ("vote_each_channel_three", true, "cause 13; a channel of each number struck, one sensor invalid"),
    ("vote_third_in_a_row", false, "three sensors invalid in the same step"),
    (
        "vote_bounces",
        true,
        "channels struck, none for a bounce; counts under way: channel 3 odd in 2 samples, two that differ in 1",
    ),
    (
        "lesson_brushed",
        false,
        "a lesson brushed all through: the image of the clean one but for three odd channels with a count of 1",
    ),
    (
        "lesson_brushed_twice",
        false,
        "two bounces in a row, another channel right behind them: the image of the clean one",
    ),
    ("lesson_clean", false, "the same lesson with no bounce: the same image"),
    (
        "ground_invalid",
        true,
        "cause 13: an absorber invalid and held at 1, with the handle up, gears EXTENDED, doors CLOSED",
    ),
    ("image_ages", false, "general_EV's age is 59,999, the handle's was longer and stopped at 60,000"),
    ("image_torn", false, "the last row is torn, the one before it gets 4: the image of the row before"),
    ("bad_row_512_cr", false, "row 0, then a 6: the image of a fresh start"),
    ("bad_empty", true, "no row 0, the input is empty: an empty file, which is no image"),
    ("header_only", false, "no row 0, and no refusal either: an empty file"),
    ("bad_row_0_label", false, "row 0 gets 7: an empty file"),
];

/// The traces of this file's own.
pub(crate) fn own(name: &str) -> Option<Vec<u8>> {
    match name {
        "image_ages" => {
            let mut s = handle_up();
            s.handle(true, 10);
            s.until(|rig| rig.doors == Doors::Closed && !rig.is_on(GENERAL));
            s.land(GENERAL, 59_999);
            Some(s.tape.text)
        }
        "image_causes" => Some(causes(1)),
        "image_causes_three" => Some(causes(3)),
        "image_torn" => {
            let rows = cut(&session_s());
            let whole: Vec<u8> = rows[..10].iter().flat_map(|row| [&row[..], b"\r\n"].concat()).collect();
            Some([&whole, &rows[10][..40]].concat())
        }
        _ => None,
    }
}

/// The handle goes up and the switch stays open, with no pressure: cause 11 comes at 1,000 ms, and 9 would come at
/// 2,000 ms, in the step in which general_EV stops. Channel 3 of the absorbers is odd so many times in a row; that
/// channel 1 is too comes for so many times at 1,000 ms.
fn causes(times: usize) -> Vec<u8> {
    let seen = AT_REST ^ HANDLE;
    let mut tape = Tape::new(4_294_966_000, same(AT_REST));
    tape.after(100, same(AT_REST));
    tape.rows_of(times, 100, odd(seen, [0, 0, ON_GROUND]));
    tape.rows_of(11 - 2 * times, 100, same(seen));
    tape.rows_of(times - 1, 100, odd(seen, [ON_GROUND, 0, 0]));
    assert!(!tape.red());
    tape.after(100, odd(seen, [ON_GROUND, 0, 0]));
    assert_eq!((tape.rig.cause, tape.rig.invalid != 0), (11, times == 3));
    tape.rows_of(10, 100, odd(seen, [ON_GROUND, 0, 0]));
    assert!(tape.rig.cause == 11 && !tape.rig.is_on(GENERAL));
    tape.text
}

/// An image, and a trace that goes on from it.
pub struct Onward {
    pub name: &'static str,
    pub reason: &'static str,
    pub image: Vec<u8>,
    pub trace: Vec<u8>,
}

/// The image of a script's controller in the old form, and the script that goes on from it at a stamp.
fn handed(s: &Script, stamp: u32) -> (Vec<u8>, Script) {
    let rules = Rules::default();
    let image = Image { odd: [0; 18], count: [0; 18], ..Image::of(&rules, &s.tape.rig) };
    (image.bytes_in(&rules, Form::Old), Script::onward(image.start(&rules, stamp)))
}

/// Gears RETRACTED, doors CLOSED, the handle up, all at rest for long.
fn up() -> Image {
    let mut s = handle_up();
    s.until(|rig| rig.gears == Gears::Retracted && rig.doors == Doors::Closed && !rig.is_on(GENERAL));
    Image { age: [60_000; 6], ..Image::of(&Rules::default(), &s.tape.rig) }
}

/// Images from which traces go on. Where a reason gives an age, the next change comes at the very ms.
pub fn onwards() -> Vec<Onward> {
    let mut all = Vec::new();
    let mut add = |name, reason, image, trace| all.push(Onward { name, reason, image, trace });
    let rules = Rules::default();

    let mut s = handle_up();
    s.land(GENERAL, 100);
    let (image, mut s) = handed(&s, 4_294_967_100);
    s.step(99);
    s.step(1);
    s.until(|rig| rig.is_on(RETRACT));
    add("opening", "doors OPENING, general_EV on for 100 ms: open_EV starts at 200", image, s.tape.text);

    let mut s = started(OPEN);
    s.travel[OPEN - 1][1] = STUCK;
    s.land(OPEN, 6_900);
    let (image, mut s) = handed(&s, 0);
    s.travel[OPEN - 1][1] = STUCK;
    s.step(99);
    s.step(1);
    s.land(OPEN, 999);
    s.step(1);
    add("open_late", "open_EV on for 6,900 ms: cause 1 comes at 7,000", image, s.tape.text);

    let mut s = started(RETRACT);
    s.step(50);
    s.handle(true, 50);
    s.land(RETRACT, 60);
    let (image, mut s) = handed(&s, 77);
    s.step(39);
    s.step(1);
    s.until(|rig| rig.doors == Doors::Closing);
    add(
        "turned_back",
        "gears EXTENDING, retract_EV off for 60 ms: extend_EV starts at 100",
        image,
        s.tape.text,
    );

    let mut s = started(RETRACT);
    s.until(|rig| rig.is_on(CLOSE));
    s.step(20);
    let (image, mut s) = handed(&s, 4_294_967_295);
    s.handle(true, 100);
    s.land(CLOSE, 99);
    s.step(1);
    s.step(100);
    add(
        "closing",
        "doors CLOSING with close_EV on; the handle is turned in the first row",
        image,
        s.tape.text,
    );

    let (image, trace) = struck();
    add(
        "struck",
        "a channel of each number struck; close_EV off for 900 ms: general_EV stops at 1,000",
        image,
        trace,
    );
    let (image, trace) = bounces();
    add(
        "bounces",
        "an old image of a lesson saved at counts of 2, which had no place: two more samples strike nothing and make \
         nothing invalid",
        image,
        trace,
    );
    let (image, trace) = anomaly();
    add(
        "cause",
        "cause 7, two sensors invalid; extend_EV off for 900 ms: general_EV stops at 1,000",
        image,
        trace,
    );

    let mut s = handle_up();
    s.until(|rig| rig.doors == Doors::Closed);
    s.switch.1 = NEVER;
    s.land(HANDLE_CLOCK, 21_400);
    let (image, mut s) = handed(&s, 1 << 31);
    s.switch.1 = NEVER;
    s.step(99);
    s.step(1);
    s.step(100);
    add(
        "handle_age",
        "the handle's age is 21,400, the switch closed: cause 12 comes at 21,500",
        image,
        s.tape.text,
    );

    let image = up();
    let sample = [AT_REST, AT_REST ^ GEAR_EXTENDED, AT_REST ^ PRESSURIZED];
    let mut trace = Tape::onward(image.start(&rules, 5), sample).text;
    trace.truncate(trace.len() - 2);
    let bytes = image.bytes_in(&rules, Form::Old);
    add("row_0", "row 0 alone: gears RETRACTED, every age 60,000; its sample is not used", bytes, trace);

    let mut rows = cut(&session_s());
    field(&mut rows[1], 0, b"1".to_vec());
    let trace = rows.iter().flat_map(|row| [&row[..], b"\r\n"].concat()).collect();
    let bytes = up().bytes_in(&rules, Form::Old);
    add("refused_row_0", "row 0 gets 7: no row but that of the refusal", bytes, trace);

    // The stamps are near the image's, which no longer counts.
    let image = Image { stamp: 4_294_967_200, ..up() };
    let mut tape = Tape::onward(image.start(&rules, 4_294_967_250), same(0));
    let seen = GEAR_RETRACTED | DOOR_CLOSED;
    for (elapsed, seen) in [(0, 0), (101, 0), (100, seen), (0, seen), (99, seen | HANDLE), (4_294_967_245, 0)]
    {
        tape.after(elapsed, same(seen));
    }
    tape.after(100, same(seen | HANDLE));
    tape.text.extend_from_slice(b"8,");
    add(
        "stalls",
        "stamps near the image's: 3s and 4s, the stamp goes round, the last row is torn",
        image.bytes_in(&rules, Form::Old),
        tape.text,
    );
    for (name, reason, struck, count) in IN_A_BOUNCE {
        let (image, trace) = in_a_bounce(struck, count);
        add(name, reason, image, trace);
    }
    let (image, trace) = agreed();
    add(
        "new_agreed",
        "counts of 2 where the lesson is saved, in the new form; agreement, or another channel, comes before the third",
        image,
        trace,
    );
    all.extend(ground_vectors::onwards());
    all
}

/// Lessons handed over in the new form in the middle of a bounce: whether a channel was struck before, and the count.
const IN_A_BOUNCE: [(&str, &str, bool, usize); 4] = [
    (
        "new_odd_1",
        "channel 3 odd in 1 sample: struck at the second behind the image, and so red at the fifth",
        false,
        1,
    ),
    (
        "new_odd_2",
        "channel 3 odd in 2 samples: struck at the first behind the image, and so red at the fourth",
        false,
        2,
    ),
    (
        "new_two_1",
        "the two left differed in 1 sample: invalid, and red, at the second behind the image",
        true,
        1,
    ),
    (
        "new_two_2",
        "the two left differed in 2 samples: invalid, and red, at the first behind the image",
        true,
        2,
    ),
];

/// A sample of a lesson in which the doors open, channels of the front absorber saying otherwise; in the controller that
/// was not handed over too, and the two agree.
fn both(s: &mut Script, stayed: &mut Rig, by: [u32; 3]) {
    let rules = Rules::default();
    let seen = s.look(50);
    let sample = odd(seen, by.map(|says| says * one(ON_GROUND, 0)));
    assert_eq!(s.tape.after(50, sample), 0);
    assert_eq!(stayed.step(&rules, stayed.stamp.wrapping_add(50), sample), 0);
    let [here, there] = [&s.tape.rig, stayed].map(|rig| Image { stamp: 0, ..Image::of(&rules, rig) });
    assert_eq!(here, there);
}

/// The doors open; the front absorber's channel 3 is odd, or was struck before and the other two differ, in so many
/// samples where the lesson is saved. What follows makes the sensor invalid at the very sample at which it would be
/// without handing over.
fn in_a_bounce(struck: bool, count: usize) -> (Vec<u8>, Vec<u8>) {
    let mut s = started(OPEN);
    let (channel_3, channel_2) = ([0, 0, 1], [0, 1, 0]);
    let brush = |s: &mut Script, times: usize, by: [u32; 3]| {
        for _ in 0..times {
            let seen = s.look(50);
            s.tape.after(50, odd(seen, by.map(|says| says * one(ON_GROUND, 0))));
        }
    };
    let bounce = if struck { channel_2 } else { channel_3 };
    brush(&mut s, if struck { 3 } else { 0 }, channel_3);
    brush(&mut s, count, bounce);
    let (image, mut onward) = handed_new(&s, 2_000_000);
    let mut stayed = s.tape.rig;
    for _ in count..3 {
        assert!(!onward.tape.red());
        both(&mut onward, &mut stayed, bounce);
    }
    // The two left differ: were channel 3 not struck, channel 2 would be odd.
    for _ in 0..if struck { 0 } else { 3 } {
        assert!(!onward.tape.red());
        both(&mut onward, &mut stayed, channel_2);
    }
    assert_eq!(onward.tape.rig.cause, 13);
    both(&mut onward, &mut stayed, [0; 3]);
    (image, onward.tape.text)
}

/// The image of a script's controller in the new form, and the script that goes on from it at a stamp.
pub(crate) fn handed_new(s: &Script, stamp: u32) -> (Vec<u8>, Script) {
    let rules = Rules::default();
    let image = Image::of(&rules, &s.tape.rig);
    (image.bytes(&rules), Script::onward(image.start(&rules, stamp)))
}

/// Counts of 2 of each odd channel and of two that differ; then all agree, or another channel is odd, and twice more the
/// same: nothing is struck. Then channel 1, or 2, three times: were another struck already, red would come.
fn agreed() -> (Vec<u8>, Vec<u8>) {
    let [front, left, right] = [0, 1, 2].map(|unit| one(ON_GROUND, unit));
    let door = one(DOOR_OPEN, 0);
    let mut s = Script::new(1_000);
    s.tape.rows_of(3, 50, odd(AT_REST, [0, door, 0]));
    s.tape.rows_of(2, 50, odd(AT_REST, [left | door, right, front]));
    assert_eq!(s.tape.rig.counting(), front | left | right | door);
    let (image, mut s) = handed_new(&s, 4_294_967_000);
    // The left absorber's channel 3 is odd once, all others agree.
    s.tape.after(50, odd(AT_REST, [0, 0, left]));
    s.tape.rows_of(2, 50, odd(AT_REST, [left | door, right, front]));
    s.tape.after(50, same(AT_REST));
    s.tape.rows_of(3, 50, odd(AT_REST, [right, front, left]));
    s.tape.after(50, same(AT_REST));
    assert!(!s.tape.red());
    (image, s.tape.text)
}

const AT_REST: u32 = HANDLE | GEAR_EXTENDED | DOOR_CLOSED;
const STUCK: Travel = Travel { leave: NEVER, arrive: NEVER };

/// A sample in which channels say otherwise for some sensors.
fn odd(seen: u32, by: [u32; 3]) -> [u32; 3] {
    by.map(|odd| seen ^ odd)
}

/// Doors closed just now; each channel is struck for some sensors, and says otherwise for the first of them.
fn struck() -> (Vec<u8>, Vec<u8>) {
    let otherwise = [HANDLE, one(GEAR_EXTENDED, 1), one(DOOR_CLOSED, 2)];
    let agreeing = [one(ON_GROUND, 0), PRESSURIZED, SWITCH];
    let mut s = handle_up();
    s.until(|rig| rig.doors == Doors::Closed);
    let seen = s.look(50);
    s.tape.rows_of(3, 50, odd(seen, [0, 1, 2].map(|n| otherwise[n] | agreeing[n])));
    s.land(CLOSE, 900);
    let (image, mut s) = handed(&s, 1_000_000);
    for elapsed in [99, 1, 100] {
        let seen = s.look(elapsed);
        s.tape.after(elapsed, odd(seen, otherwise));
    }
    s.down = true;
    let seen = s.look(50);
    s.tape.after(50, odd(seen, otherwise));
    // A second channel, where the struck one has agreed all the time: a bounce, and then three times.
    for times in [1, 3] {
        let seen = s.look(50);
        s.tape.rows_of(times, 50, odd(seen, [otherwise[0] | PRESSURIZED, otherwise[1], otherwise[2]]));
        s.step(50);
    }
    assert_eq!(s.tape.rig.cause, 13);
    (image, s.tape.text)
}

/// Channel 3 of an absorber is odd twice, and the two left of another differ twice; then the same again from the image,
/// and channel 1 three times. Were a count kept, a sensor would be invalid.
fn bounces() -> (Vec<u8>, Vec<u8>) {
    let [front, left] = [0, 1].map(|unit| one(ON_GROUND, unit));
    let mut s = Script::new(1_000);
    s.tape.rows_of(3, 50, odd(AT_REST, [0, left, 0]));
    s.tape.rows_of(2, 50, odd(AT_REST, [left, 0, front]));
    assert_eq!(s.tape.rig.counting(), front | left);
    let (image, mut s) = handed(&s, 4_000_000);
    s.tape.rows_of(2, 50, odd(AT_REST, [left, 0, front]));
    s.tape.rows_of(3, 50, odd(AT_REST, [front, 0, 0]));
    assert!(!s.tape.red());
    (image, s.tape.text)
}

/// Cause 7, then two sensors invalid: one gear's extended at 1, one door's closed at 0.
fn anomaly() -> (Vec<u8>, Vec<u8>) {
    let invalid = one(GEAR_EXTENDED, 0) | one(DOOR_CLOSED, 1);
    let mut s = started(EXTEND);
    s.travel[EXTEND - 1][1] = STUCK;
    s.land(EXTEND, 6_999);
    s.step(1);
    assert_eq!(s.tape.rig.cause, 7);
    let seen = s.look(50);
    s.tape.rows_of(3, 50, odd(seen, [invalid, 0, 0]));
    s.tape.rows_of(3, 50, odd(seen, [invalid, invalid, 0]));
    s.land(EXTEND, 900);
    let (image, mut s) = handed(&s, 123_456_789);
    for elapsed in [99, 1] {
        let seen = s.look(elapsed);
        s.tape.after(elapsed, same(seen ^ invalid));
    }
    // The lamps show that the one is kept at 1 and the other at 0, whatever is seen.
    for seen in [AT_REST, AT_REST ^ HANDLE, AT_REST] {
        s.tape.after(100, same(seen & !one(GEAR_EXTENDED, 0)));
    }
    (image, s.tape.text)
}

/// A lesson under way: the doors open for a retraction.
fn opening() -> Image {
    let mut image = Image::of(&Rules::default(), &Rig::fresh(&Rules::default(), 5_000));
    image.held[0] = 0;
    image.on = [1, 0, 1, 0, 0];
    image.age = [700, 60_000, 500, 60_000, 12_345, 700];
    image.doors = 1;
    image
}

/// The doors are where a number says, the gears too; general_EV and one order on.
fn at(doors: u32, gears: u32, order: usize) -> Image {
    let mut image = Image { doors, gears, ..opening() };
    image.on = std::array::from_fn(|n| u32::from(n == GENERAL || n == order));
    image
}

/// In the old form.
fn with(image: Image, change: impl Fn(&mut Image)) -> Vec<u8> {
    let mut image = image;
    change(&mut image);
    image.bytes_in(&Rules::default(), Form::Old)
}

/// In the new form.
fn new(image: Image, change: impl Fn(&mut Image)) -> Vec<u8> {
    let mut image = image;
    change(&mut image);
    image.bytes(&Rules::default())
}

fn item(item: Item, value: u32) -> Vec<u8> {
    with(opening(), |image| *image.item(item) = value)
}

/// Images, good (their names begin so) and bad; then those of the new form, or of lengths near it, whose names begin
/// with `new_` before that.
pub fn images() -> Vec<Stored> {
    let mut all: Vec<Stored> = good();
    all.extend(out_of_range());
    all.extend(of_other_length_or_form());
    all.extend(rule_broken());
    all.extend(new_good());
    all.extend(new_out_of_range());
    all.extend(new_of_other_length_or_form());
    all.extend(new_rule_broken());
    all.extend(new_old_rule_broken());
    all
}

fn good() -> Vec<Stored> {
    let tops = Image {
        stamp: u32::MAX,
        voter: [4; 18],
        held: [1; 18],
        odd: [0; 18],
        count: [0; 18],
        on: [1, 0, 0, 0, 0],
        age: [60_000; 6],
        doors: 3,
        gears: 2,
        cause: 13,
    };
    let odd = |image: &mut Image| {
        image.stamp = 1 << 31;
        image.voter = std::array::from_fn(|sensor| sensor as u32 % 4);
        image.on[GENERAL] = 0;
        image.cause = 13;
    };
    let why = "doors OPEN with gears at rest and general_EV off; cause 13 with no sensor invalid: no rule against it";
    vec![
        ("good_zeros", "every item 0: gears RETRACTED, all ages 0", vec![0; Form::Old.bytes()]),
        ("good_tops", "the highest stamp, voters, held values, ages and cause", with(tops, |_| {})),
        ("good_odd", why, with(at(2, 2, GENERAL), odd)),
    ]
}

/// Refusal 10 for an item.
fn out_of_range() -> Vec<Stored> {
    vec![
        ("bad_voter_first", "the first sensor's voter is 5", item(Item::Voter(0), 5)),
        ("bad_held_last", "the last sensor's held value is 2", item(Item::Held(17), 2)),
        ("bad_on", "open_EV's on is 2", item(Item::On(OPEN), 2)),
        ("bad_age_general", "general_EV's age is 60,001", item(Item::Age(GENERAL), 60_001)),
        ("bad_age_close", "close_EV's age is 60,001", item(Item::Age(CLOSE), 60_001)),
        ("bad_age_open", "open_EV's age is 60,001", item(Item::Age(OPEN), 60_001)),
        ("bad_age_retract", "retract_EV's age is 60,001", item(Item::Age(RETRACT), 60_001)),
        ("bad_age_extend", "extend_EV's age is 60,001", item(Item::Age(EXTEND), 60_001)),
        ("bad_age_handle", "the handle's age is 60,001", item(Item::Age(HANDLE_CLOCK), 60_001)),
        ("bad_doors", "doors are 4", with(up(), |image| image.doors = 4)),
        ("bad_gears", "gears are 4", with(up(), |image| image.gears = 4)),
        ("bad_cause", "cause is 14", with(up(), |image| image.cause = 14)),
        (
            "bad_item_2p32",
            "an age of 2^32 - 1, which is -1 if it had a sign",
            item(Item::Age(CLOSE), u32::MAX),
        ),
        ("bad_item_2p16", "a held value of 65,537, whose low half is 1", item(Item::Held(0), 65_537)),
    ]
}

/// Refusal 10 for a length, and images whose bytes are in other places.
fn of_other_length_or_form() -> Vec<Stored> {
    let whole = with(opening(), |_| {});
    let swapped = whole.chunks_exact(4).flat_map(|four| [four[3], four[2], four[1], four[0]]).collect();
    let pairs = with(opening(), |image| {
        for order in GENERAL..=EXTEND {
            std::mem::swap(&mut image.on[order], &mut image.age[order]);
        }
    });
    let both = with(at(1, 3, GENERAL), |image| image.cause = 14);
    vec![
        (
            "bad_length_203",
            "the last byte is missing; without it all items would be in range",
            with(up(), |_| {})[..Form::Old.bytes() - 1].to_vec(),
        ),
        ("bad_length_205", "a byte more", [&whole[..], &[0]].concat()),
        ("bad_length_408", "two images", [&whole[..], &whole].concat()),
        ("bad_little_endian", "least significant byte first", swapped),
        ("bad_swapped", "age before on", pairs),
        ("bad_range_and_rule", "gears move with doors OPENING, and cause is 14: 10 comes before 11", both),
    ]
}

/// Refusal 11.
fn rule_broken() -> Vec<Stored> {
    let plain = |image: Image| with(image, |_| {});
    let red = |image: Image| with(image, |image| image.cause = 9);
    let off = |image: Image| with(image, |image| image.on[GENERAL] = 0);
    let invalid = |sensor: usize| with(up(), |image| image.voter[sensor] = 4);
    vec![
        ("bad_moving_closed", "gears RETRACTING with doors CLOSED", plain(at(0, 3, GENERAL))),
        ("bad_moving_opening", "gears EXTENDING with doors OPENING", plain(at(1, 1, GENERAL))),
        ("bad_moving_closing", "gears RETRACTING with doors CLOSING", plain(at(3, 3, GENERAL))),
        ("bad_close_unwanted", "close_EV on with doors OPENING", plain(at(1, 2, CLOSE))),
        ("bad_open_unwanted", "open_EV on with doors OPEN", plain(at(2, 2, OPEN))),
        ("bad_retract_unwanted", "retract_EV on with gears EXTENDING", plain(at(2, 1, RETRACT))),
        ("bad_extend_unwanted", "extend_EV on with gears EXTENDED", plain(at(2, 2, EXTEND))),
        ("bad_close_no_general", "close_EV on and wanted, general_EV off", off(at(3, 0, CLOSE))),
        ("bad_open_no_general", "open_EV on and wanted, general_EV off", off(at(1, 2, OPEN))),
        ("bad_retract_no_general", "retract_EV on and wanted, general_EV off", off(at(2, 3, RETRACT))),
        ("bad_extend_no_general", "extend_EV on and wanted, general_EV off", off(at(2, 1, EXTEND))),
        ("bad_close_cause", "close_EV on with doors CLOSING and a cause", red(at(3, 0, CLOSE))),
        ("bad_open_cause", "open_EV on with doors OPENING and a cause", red(at(1, 2, OPEN))),
        ("bad_retract_cause", "retract_EV on with gears RETRACTING and a cause", red(at(2, 3, RETRACT))),
        ("bad_extend_cause", "extend_EV on with gears EXTENDING and a cause", red(at(2, 1, EXTEND))),
        ("bad_opening_no_general", "doors OPENING, no cause, no order on", off(at(1, 2, GENERAL))),
        ("bad_doors_open_no_general", "doors OPEN, no cause, no order on", off(at(2, 0, GENERAL))),
        ("bad_closing_no_general", "doors CLOSING, no cause, no order on", off(at(3, 2, GENERAL))),
        ("bad_invalid_first", "the first sensor is invalid and there is no cause", invalid(0)),
        ("bad_invalid_last", "the last sensor is invalid and there is no cause", invalid(17)),
    ]
}

/// Sets a sensor's voter, odd channel and count.
fn voter(image: &mut Image, sensor: usize, voter: u32, odd: u32, count: u32) {
    (image.voter[sensor], image.odd[sensor], image.count[sensor]) = (voter, odd, count);
}

/// A lesson under way in which one sensor's voter, odd channel and count are these; a cause where it is invalid.
fn of_one(sensor: usize, (number, odd, count): (u32, u32, u32)) -> Image {
    let mut image = if number == 4 { Image { cause: 13, ..up() } } else { opening() };
    voter(&mut image, sensor, number, odd, count);
    image
}

/// First, in the middle, last.
const SOME: [usize; 3] = [0, 8, 17];

/// Every kind of count, all of the same number: each odd channel, and two that differ with each channel struck.
fn kinds(image: &mut Image, count: u32) {
    for n in 0..3 {
        voter(image, n, 0, n as u32 + 1, count);
        voter(image, 7 + n, n as u32 + 1, 0, count);
        voter(image, 15 + n, 0, 3 - n as u32, count);
    }
}

/// Every sensor counts something.
fn all_counting(image: &mut Image) {
    for sensor in 0..18 {
        let n = sensor as u32;
        let (number, odd) = if n.is_multiple_of(2) { (0, n / 2 % 3 + 1) } else { (n / 2 % 3 + 1, 0) };
        voter(image, sensor, number, odd, 1 + n / 3 % 2);
    }
}

/// Some channels struck and some sensors invalid, with a cause, and no count.
fn struck_and_invalid(image: &mut Image) {
    for sensor in 0..18 {
        voter(image, sensor, sensor as u32 % 5, 0, 0);
    }
    image.cause = 13;
}

fn new_good() -> Vec<Stored> {
    let tops = |image: &mut Image| {
        (image.stamp, image.held, image.age) = (u32::MAX, [1; 18], [60_000; 6]);
        (0..18).for_each(|sensor| {
            let (number, odd, count) = [(0, 3, 2), (3, 0, 2), (4, 0, 0)][sensor % 3];
            voter(image, sensor, number, odd, count);
        });
        (image.on[GENERAL], image.doors, image.gears, image.cause) = (1, 3, 2, 13);
    };
    let cause = |image: &mut Image| {
        struck_and_invalid(image);
        kinds(image, 2);
    };
    vec![
        ("new_good_zeros", "every item 0, in the new form", vec![0; Form::New.bytes()]),
        ("new_good_tops", "the highest numbers, odd channels and counts among them", new(up(), tops)),
        ("new_good_no_count", "no odd channel and no count", new(opening(), |_| {})),
        (
            "new_good_count_1",
            "counts of 1 of every kind: each odd channel, two that differ with each channel struck",
            new(opening(), |image| kinds(image, 1)),
        ),
        ("new_good_count_2", "counts of 2 of every kind", new(opening(), |image| kinds(image, 2))),
        ("new_good_all_counting", "every sensor has a count", new(at(2, 1, EXTEND), all_counting)),
        ("new_good_cause", "counts with a cause, and invalid sensors with none", new(up(), cause)),
        ("new_good_cut_204", CUT_204, new(up(), |image| image.stamp = 7)[..Form::Old.bytes()].to_vec()),
    ]
}

const CUT_204: &str =
    "the first 204 bytes of a new image: the length tells the form, and so they are taken as an old one";

/// Refusal 10 for an item of the new form.
fn new_out_of_range() -> Vec<Stored> {
    let one = |sensor, counted| of_one(sensor, counted).bytes(&Rules::default());
    vec![
        ("new_bad_odd_first", "the first sensor's odd channel is 4", one(0, (0, 4, 1))),
        ("new_bad_odd_middle", "a sensor's odd channel is 4, in the middle", one(8, (0, 4, 2))),
        ("new_bad_odd_last", "the last sensor's odd channel is 4", one(17, (0, 4, 1))),
        ("new_bad_count_first", "the first sensor's count is 3", one(0, (0, 1, 3))),
        ("new_bad_count_middle", "a sensor's count is 3, in the middle", one(8, (0, 2, 3))),
        ("new_bad_count_last", "the last sensor's count is 3", one(17, (0, 3, 3))),
        ("new_bad_count_struck", "a count of 3 with a channel struck", one(4, (2, 0, 3))),
        ("new_bad_odd_2p16", "an odd channel of 65,537, whose low half is 1", one(0, (0, 65_537, 1))),
        ("new_bad_odd_2p32", "an odd channel of 2^32 - 1, which is -1 if it had a sign", one(17, (0, u32::MAX, 1))),
        ("new_bad_count_2p16", "a count of 65,537, whose low half is 1", one(17, (0, 1, 65_537))),
        ("new_bad_count_2p32", "a count of 2^32 - 1", one(0, (0, 1, u32::MAX))),
        ("new_bad_voter_first", "the first sensor's voter is 5", one(0, (5, 0, 0))),
        ("new_bad_held_last", "the last sensor's held value is 2", new(opening(), |image| image.held[17] = 2)),
        ("new_bad_age_handle", "the handle's age is 60,001", new(opening(), |image| image.age[HANDLE_CLOCK] = 60_001)),
        ("new_bad_cause", "cause is 14", new(up(), |image| image.cause = 14)),
        ("new_bad_count_and_rule", "a count of 3 without an odd channel: 10 comes before 11", one(8, (0, 0, 3))),
        (
            "new_bad_odd_and_rule",
            "the first sensor has a count without an odd channel, the last one's odd channel is 4: 10 comes before 11",
            new(of_one(17, (0, 4, 1)), |image| voter(image, 0, 0, 0, 1)),
        ),
        (
            "new_bad_odd_and_old_rule",
            "gears move with doors OPENING, and an odd channel is 4: 10 comes before 11",
            new(at(1, 3, GENERAL), |image| voter(image, 17, 0, 4, 1)),
        ),
    ]
}

/// Lengths near 348, and images whose bytes are in other places.
fn new_of_other_length_or_form() -> Vec<Stored> {
    let (old, whole) = (with(opening(), |_| {}), new(opening(), |image| kinds(image, 2)));
    let cut = |length: usize| whole[..length].to_vec();
    // Behind an old image's bytes, or between them, what makes 348.
    let behind = [&old[..], &[0; 144]].concat();
    let before_held = |image: &[u8]| {
        let mut all = image[..4].to_vec();
        image[4..148].chunks_exact(8).for_each(|two| all.extend([&two[..4], &[0; 8], &two[4..]].concat()));
        [&all, &image[148..]].concat()
    };
    let swapped = |image: &mut Image| {
        kinds(image, 1);
        std::mem::swap(&mut image.odd, &mut image.count);
    };
    vec![
        ("new_bad_length_0", "no bytes at all", vec![]),
        ("new_bad_length_203", "the first 203 bytes of a new image", cut(203)),
        ("new_bad_length_205", "the first 205 bytes of a new image", cut(205)),
        ("new_bad_length_344", "the last item is missing", cut(344)),
        ("new_bad_length_347", "the last byte is missing", cut(347)),
        ("new_bad_length_349", "a byte more", [&whole[..], &[0]].concat()),
        ("new_bad_length_408", "an old image and a part of a new one", [&old[..], &whole[..204]].concat()),
        ("new_bad_length_696", "two new images", [&whole[..], &whole].concat()),
        ("new_bad_cut_204", "the first 204 bytes of a new image, which are no old one", cut(204)),
        ("new_bad_old_and_zeros", "an old image and 144 bytes of 0 behind it", behind),
        (
            "new_bad_before_held",
            "an old image with eight bytes of 0 before each held value",
            before_held(&old),
        ),
        ("new_bad_swapped", "odd channel and count swapped", new(opening(), swapped)),
    ]
}

/// Refusal 11 for odd channels and counts.
fn new_rule_broken() -> Vec<Stored> {
    let one = |n: usize, counted| of_one(SOME[n], counted).bytes(&Rules::default());
    vec![
        ("new_bad_odd_alone_first", "all valid: odd channel 1 and no count, first", one(0, (0, 1, 0))),
        (
            "new_bad_odd_alone_middle",
            "all valid: odd channel 2 and no count, in the middle",
            one(1, (0, 2, 0)),
        ),
        ("new_bad_odd_alone_last", "all valid: odd channel 3 and no count, last", one(2, (0, 3, 0))),
        ("new_bad_count_alone_first", "all valid: a count of 1 and no odd channel, first", one(0, (0, 0, 1))),
        (
            "new_bad_count_alone_middle",
            "all valid: a count of 2 and no odd channel, in the middle",
            one(1, (0, 0, 2)),
        ),
        ("new_bad_count_alone_last", "all valid: a count of 1 and no odd channel, last", one(2, (0, 0, 1))),
        ("new_bad_struck_1_odd", "channel 1 struck, odd channel 2, no count, first", one(0, (1, 2, 0))),
        ("new_bad_struck_1_odd_count", "channel 1 struck, odd channel 3, a count, first", one(0, (1, 3, 1))),
        ("new_bad_struck_1_odd_itself", "channel 1 struck and odd, a count, last", one(2, (1, 1, 1))),
        (
            "new_bad_struck_2_odd",
            "channel 2 struck, odd channel 1, no count, in the middle",
            one(1, (2, 1, 0)),
        ),
        (
            "new_bad_struck_2_odd_count",
            "channel 2 struck, odd channel 3, a count, in the middle",
            one(1, (2, 3, 2)),
        ),
        ("new_bad_struck_3_odd", "channel 3 struck, odd channel 1, no count, last", one(2, (3, 1, 0))),
        ("new_bad_struck_3_odd_count", "channel 3 struck, odd channel 2, a count, last", one(2, (3, 2, 2))),
        ("new_bad_invalid_odd_first", "invalid: odd channel 1, first", one(0, (4, 1, 0))),
        ("new_bad_invalid_count_first", "invalid: a count of 2, first", one(0, (4, 0, 2))),
        ("new_bad_invalid_both_first", "invalid: odd channel 3 and a count of 1, first", one(0, (4, 3, 1))),
        ("new_bad_invalid_odd_middle", "invalid: odd channel 2, in the middle", one(1, (4, 2, 0))),
        ("new_bad_invalid_count_middle", "invalid: a count of 1, in the middle", one(1, (4, 0, 1))),
        ("new_bad_invalid_both_last", "invalid: odd channel 1 and a count of 2, last", one(2, (4, 1, 2))),
    ]
}

/// Refusal 11 for K3's rules, in the new form.
fn new_old_rule_broken() -> Vec<Stored> {
    let count = |image: &mut Image| voter(image, 3, 0, 1, 1);
    let off = |image: &mut Image| image.on[GENERAL] = 0;
    vec![
        ("new_bad_moving_closed", "gears RETRACTING with doors CLOSED", new(at(0, 3, GENERAL), |_| {})),
        (
            "new_bad_moving_count",
            "gears EXTENDING with doors OPENING, and a count",
            new(at(1, 1, GENERAL), count),
        ),
        ("new_bad_open_unwanted", "open_EV on with doors OPEN", new(at(2, 2, OPEN), |_| {})),
        ("new_bad_opening_no_general", "doors OPENING, no cause, no order on", new(at(1, 2, GENERAL), off)),
        (
            "new_bad_invalid_no_cause",
            "the last sensor is invalid and there is no cause",
            new(up(), |image| image.voter[17] = 4),
        ),
    ]
}

/// Images to be converted both ways; those that were given are not among them.
pub fn forms() -> Vec<Stored> {
    let mut all = old_forms();
    all.extend(new_forms());
    all.extend(new_forms_refused());
    all
}

fn old_forms() -> Vec<Stored> {
    let stored =
        |name: &str| good().into_iter().find(|stored| stored.0 == name).map_or(vec![], |stored| stored.2);
    vec![
        ("old_lesson", "an old image of a lesson under way", with(opening(), |_| {})),
        ("old_tops", "an old image with the highest numbers", stored("good_tops")),
        (
            "old_struck",
            "an old image with channels struck and sensors invalid",
            with(up(), struck_and_invalid),
        ),
        ("old_blank", "204 bytes of 0, an image", stored("good_zeros")),
        ("old_range", "an old image with cause 14: 10", with(up(), |image| image.cause = 14)),
        (
            "old_rule",
            "an old image with gears RETRACTING and doors CLOSED: 11",
            with(at(0, 3, GENERAL), |_| {}),
        ),
        ("length_0", "no bytes: 10", vec![]),
        ("length_203", "a byte less than an old image: 10", with(opening(), |_| {})[..203].to_vec()),
        ("length_205", "a byte more than an old image: 10", [&with(opening(), |_| {})[..], &[0]].concat()),
        ("length_347", "a byte less than a new image: 10", new(opening(), |_| {})[..347].to_vec()),
        ("length_349", "a byte more than a new image: 10", [&new(opening(), |_| {})[..], &[0]].concat()),
    ]
}

fn new_forms() -> Vec<Stored> {
    let one = |sensor, counted| of_one(sensor, counted).bytes(&Rules::default());
    vec![
        ("new_lesson", "a new image with no count", new(opening(), |_| {})),
        (
            "new_struck",
            "a new image with channels struck and sensors invalid, no count",
            new(up(), struck_and_invalid),
        ),
        ("new_blank", "348 bytes of 0, an image", vec![0; Form::New.bytes()]),
        ("new_odd_first", "the first sensor's channel 1 odd in 1 sample: 12", one(0, (0, 1, 1))),
        ("new_odd_middle", "channel 2 odd in 2 samples, in the middle: 12", one(8, (0, 2, 2))),
        ("new_odd_last", "the last sensor's channel 3 odd in 1 sample: 12", one(17, (0, 3, 1))),
        ("new_odd_last_twice", "the last sensor's channel 1 odd in 2 samples: 12", one(17, (0, 1, 2))),
        ("new_two_first", "the two left of the first sensor differed in 2 samples: 12", one(0, (1, 0, 2))),
        ("new_two_middle", "the two left differed in 1 sample, in the middle: 12", one(8, (2, 0, 1))),
        ("new_two_last", "the two left of the last sensor differed in 1 sample: 12", one(17, (3, 0, 1))),
        ("new_all", "every sensor has a count: 12", new(opening(), all_counting)),
    ]
}

fn new_forms_refused() -> Vec<Stored> {
    let moving = || at(0, 3, GENERAL);
    vec![
        (
            "new_range",
            "an odd channel of 4, and no other count: 10",
            new(opening(), |image| voter(image, 17, 0, 4, 1)),
        ),
        ("new_range_count", "a count of 3: 10", new(opening(), |image| voter(image, 0, 0, 1, 3))),
        (
            "new_range_and_count",
            "cause 14, and a count: 10 comes before 12",
            new(Image { cause: 14, ..up() }, |image| voter(image, 3, 0, 1, 1)),
        ),
        ("new_rule", "gears RETRACTING with doors CLOSED, no count: 11", new(moving(), |_| {})),
        (
            "new_rule_and_count",
            "the same and a count: 11 comes before 12",
            new(moving(), |image| voter(image, 3, 0, 1, 1)),
        ),
        (
            "new_odd_alone",
            "an odd channel without a count: 11",
            new(opening(), |image| voter(image, 3, 0, 1, 0)),
        ),
        (
            "new_count_alone",
            "a count without an odd channel: 11 comes before 12",
            new(opening(), |image| voter(image, 3, 0, 0, 1)),
        ),
        (
            "new_struck_odd",
            "an odd channel with one struck, and a count elsewhere: 11 comes before 12",
            new(opening(), |image| {
                voter(image, 3, 2, 1, 0);
                voter(image, 17, 1, 0, 2);
            }),
        ),
        (
            "new_invalid_count",
            "an invalid sensor with a count: 11 comes before 12",
            new(Image { cause: 13, ..up() }, |image| voter(image, 3, 4, 0, 1)),
        ),
    ]
}
