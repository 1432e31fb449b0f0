//! Stored vectors of request K7: what the absorbers do with the handle up, at each place of doors and gears, so that
//! every fault of the ground in `rules::faults` changes at least one of them. What a trace is for is asserted here.

use crate::gen::{same, Script, Tape, Travel};
use crate::image_vectors::{handed_new, Onward};
use crate::rig::{Doors::*, Gears::*, *};
use crate::vectors::{handle_up, AT_REST, NEVER};

/// Wheels that touch the ground.
const AIR: u32 = 0;
const FRONT: u32 = 1;
const LEFT: u32 = 2;
const RIGHT: u32 = 4;
const ALL: u32 = 7;

/// These wheels touch from now on.
fn wheels(s: &mut Script, on: u32) {
    s.seen = s.seen & !ON_GROUND | on << ON_GROUND.trailing_zeros();
}

/// A step with these wheels on the ground, the doors and gears that it must lead to, and no red.
fn to(s: &mut Script, on: u32, doors: Doors, gears: Gears) {
    wheels(s, on);
    s.step(50);
    let Rig { doors: d, gears: g, cause, .. } = s.tape.rig;
    assert_eq!((d, g, cause), (doors, gears, 0));
}

/// The handle moves in the step.
fn turned(s: &mut Script, down: bool, on: u32, doors: Doors, gears: Gears) {
    s.down = down;
    to(s, on, doors, gears);
}

/// A step in which the channels of the absorbers say that these wheels are on the ground, and the doors that it must
/// lead to with gears EXTENDED.
fn channels(s: &mut Script, says: [u32; 3], doors: Doors) {
    let seen = s.look(50) & !ON_GROUND;
    assert_eq!(s.tape.after(50, says.map(|on| seen | on << ON_GROUND.trailing_zeros())), 0);
    assert_eq!((s.tape.rig.doors, s.tape.rig.gears), (doors, Extended));
}

/// A name, and how its trace is made.
type Named = (&'static str, fn() -> Script);

/// Name and trace of each.
pub fn vectors() -> Vec<(String, Vec<u8>)> {
    let all: [Named; 18] = [
        ("ground_doors_closed", doors_closed),
        ("ground_doors_opening", doors_opening),
        ("ground_doors_open", doors_open),
        ("ground_doors_closing", doors_closing),
        ("ground_retracting", retracting),
        ("ground_retracted", retracted),
        ("ground_handle_down", extends),
        ("ground_gears_turned", gears_turned),
        ("ground_gears_unseen", gears_unseen),
        ("ground_this_sample", this_sample),
        ("ground_refused_sample", refused_sample),
        ("ground_channel_odd", channel_odd),
        ("ground_struck", struck),
        ("ground_two_differ", two_differ),
        ("ground_invalid", invalid),
        ("ground_lifts_late", lifts_late),
        ("ground_lifts_no_pressure", lifts_no_pressure),
        ("ground_bounces", bounces),
    ];
    all.map(|(name, made)| (name.to_string(), made().tape.text)).into()
}

/// It stands with the handle up, on each wheel alone too, and opens in the step in which the last one lifts.
fn doors_closed() -> Script {
    let mut s = Script::new(1_000);
    to(&mut s, ALL, Closed, Extended);
    s.down = false;
    for on in [ALL, FRONT | LEFT, FRONT, FRONT | RIGHT, RIGHT, LEFT | RIGHT, LEFT] {
        to(&mut s, on, Closed, Extended);
    }
    to(&mut s, AIR, Opening, Extended);
    s
}

/// Each wheel touches while the doors open, with open_EV on and before it is; it lifts while they close, and when they
/// are closed and general_EV is off.
fn doors_opening() -> Script {
    let mut s = handle_up();
    s.until(|rig| rig.is_on(OPEN));
    s.step(100);
    to(&mut s, FRONT, Closing, Extended);
    s.until(|rig| rig.is_on(CLOSE));
    to(&mut s, AIR, Opening, Extended);
    assert!(s.tape.rig.on == 1 << GENERAL);
    to(&mut s, LEFT, Closing, Extended);
    to(&mut s, AIR, Opening, Extended);
    s.until(|rig| rig.is_on(OPEN));
    to(&mut s, RIGHT, Closing, Extended);
    s.until(|rig| !rig.is_on(GENERAL));
    assert_eq!((s.tape.rig.doors, s.age(CLOSE)), (Closed, 1_000));
    to(&mut s, AIR, Opening, Extended);
    s.until(|rig| rig.is_on(OPEN));
    s
}

/// Each wheel touches in the step in which the gears would leave; then they leave.
fn doors_open() -> Script {
    let mut s = handle_up();
    s.until(|rig| rig.doors == Open);
    for on in [FRONT, LEFT, RIGHT] {
        to(&mut s, on, Closing, Extended);
        to(&mut s, AIR, Opening, Extended);
        to(&mut s, AIR, Open, Extended);
    }
    to(&mut s, AIR, Open, Retracting);
    s
}

/// The doors close with the handle up, and are CLOSED when the last of them is seen closed. Then, the doors closing for
/// an extension, the handle is turned up in the step in which a wheel touches.
fn doors_closing() -> Script {
    let mut s = handle_up();
    s.until(|rig| rig.doors == Open);
    to(&mut s, ALL, Closing, Extended);
    s.until(|rig| rig.is_on(CLOSE));
    s.travel[CLOSE - 1] = [150, 250, 200].map(|arrive| Travel { leave: 100, arrive });
    for on in [LEFT, FRONT, RIGHT, ALL] {
        to(&mut s, on, Closing, Extended);
    }
    to(&mut s, RIGHT, Closed, Extended);
    to(&mut s, AIR, Opening, Extended);
    s.until(|rig| rig.doors == Open);
    turned(&mut s, true, AIR, Closing, Extended);
    turned(&mut s, false, LEFT, Closing, Extended);
    s.until(|rig| rig.doors == Closed);
    s
}

/// Wheels touch right behind the step in which the gears left, all still seen extended: they go on, with their order
/// on, and arrive.
fn retracting() -> Script {
    let mut s = handle_up();
    s.until(|rig| rig.gears == Retracting);
    for on in [ALL, FRONT, AIR, LEFT, RIGHT] {
        to(&mut s, on, Open, Retracting);
        assert!(s.tape.rig.is_on(RETRACT));
    }
    to(&mut s, RIGHT, Open, Retracted);
    to(&mut s, RIGHT, Closing, Retracted);
    s
}

/// Wheels touch once the gears are up: the doors close all the same, and stay closed.
fn retracted() -> Script {
    let mut s = handle_up();
    s.until(|rig| rig.gears == Retracted);
    to(&mut s, LEFT, Closing, Retracted);
    to(&mut s, AIR, Closing, Retracted);
    to(&mut s, ALL, Closing, Retracted);
    s.until(|rig| rig.doors == Closed);
    to(&mut s, AIR, Closed, Retracted);
    to(&mut s, FRONT, Closed, Retracted);
    s
}

/// On the ground the handle goes down with gears RETRACTED: they extend.
fn extends() -> Script {
    let mut s = handle_up();
    s.until(|rig| rig.doors == Closed);
    to(&mut s, ALL, Closed, Retracted);
    turned(&mut s, true, ALL, Opening, Retracted);
    s.until(|rig| rig.gears == Extending);
    s.until(|rig| rig.doors == Closed);
    assert_eq!(s.tape.rig.gears, Extended);
    s
}

/// On the ground the gears turn while they move, each way; once they are EXTENDED with the handle up the doors close.
fn gears_turned() -> Script {
    let mut s = handle_up();
    s.until(|rig| rig.gears == Retracting);
    to(&mut s, ALL, Open, Retracting);
    turned(&mut s, true, ALL, Open, Extending);
    turned(&mut s, false, ALL, Open, Retracting);
    turned(&mut s, true, ALL, Open, Extending);
    s.until(|rig| rig.gears == Extended);
    assert_eq!(s.tape.rig.doors, Open);
    turned(&mut s, false, ALL, Closing, Extended);
    to(&mut s, AIR, Opening, Extended);
    s
}

/// Gears that are EXTENDED and are not seen so.
fn gears_unseen() -> Script {
    let mut s = Script::new(1_000);
    s.seen ^= GEAR_EXTENDED | GEAR_RETRACTED;
    turned(&mut s, false, ALL, Closed, Extended);
    to(&mut s, FRONT, Closed, Extended);
    to(&mut s, AIR, Opening, Extended);
    to(&mut s, LEFT, Closing, Extended);
    to(&mut s, LEFT, Closed, Extended);
    s
}

/// The last wheel lifts in the sample in which the handle goes up; a wheel touches in it.
fn this_sample() -> Script {
    let mut s = Script::new(1_000);
    to(&mut s, ALL, Closed, Extended);
    turned(&mut s, false, AIR, Opening, Extended);
    turned(&mut s, true, AIR, Closing, Extended);
    to(&mut s, AIR, Closed, Extended);
    turned(&mut s, false, RIGHT, Closed, Extended);
    to(&mut s, RIGHT, Closed, Extended);
    s
}

/// Row 0 says ground. It stands, and refused samples say that it is in the air; in the air they say ground.
fn refused_sample() -> Script {
    let mut s = Script { tape: Tape::new(1_000, same(AT_REST | ON_GROUND)), ..Script::new(1_000) };
    turned(&mut s, false, AIR, Opening, Extended);
    turned(&mut s, true, AIR, Closing, Extended);
    to(&mut s, AIR, Closed, Extended);
    s.down = false;
    for (on, doors) in [(ALL, Closed), (AIR, Opening)] {
        to(&mut s, on, doors, Extended);
        let otherwise = same(s.seen ^ ON_GROUND);
        assert_eq!((s.tape.after(0, otherwise), s.tape.after(101, otherwise)), (3, 4));
        to(&mut s, on, doors, Extended);
    }
    s
}

/// A channel by itself says ground, or says that it is in the air: the majority tells, in that sample.
fn channel_odd() -> Script {
    let mut s = Script::new(1_000);
    s.down = false;
    channels(&mut s, [FRONT, AIR, AIR], Opening);
    channels(&mut s, [FRONT, FRONT, AIR], Closing);
    channels(&mut s, [AIR, LEFT, AIR], Opening);
    channels(&mut s, [AIR, LEFT, LEFT], Closing);
    channels(&mut s, [AIR, AIR, RIGHT], Opening);
    channels(&mut s, [RIGHT, AIR, RIGHT], Closing);
    // Each wheel by another channel.
    channels(&mut s, [FRONT, LEFT, RIGHT], Opening);
    assert!(!s.tape.red());
    s
}

/// A channel of each absorber is struck. That they say ground does not count, nor that they do not.
fn struck() -> Script {
    let mut s = Script::new(1_000);
    let [one, two, three] = [FRONT, LEFT, RIGHT];
    for _ in 0..3 {
        channels(&mut s, [one, two, three], Closed);
    }
    s.down = false;
    for says in [[AIR, FRONT, FRONT], [LEFT, AIR, LEFT], [RIGHT, RIGHT, AIR]] {
        channels(&mut s, [one, two, three], Opening);
        channels(&mut s, says, Closing);
    }
    channels(&mut s, [one, two, three], Opening);
    assert!(!s.tape.red());
    s
}

/// Channel 3 of the front absorber is struck, it stands, and the handle goes up.
fn stands_on_two_channels() -> Script {
    let mut s = Script::new(1_000);
    for _ in 0..3 {
        channels(&mut s, [AIR, AIR, FRONT], Closed);
    }
    s.down = false;
    channels(&mut s, [FRONT, FRONT, AIR], Closed);
    s
}

/// The two channels left of an absorber differ: the value is that of before, on the ground and in the air.
fn two_differ() -> Script {
    let mut s = stands_on_two_channels();
    channels(&mut s, [FRONT, AIR, AIR], Closed);
    channels(&mut s, [AIR, FRONT, AIR], Closed);
    channels(&mut s, [AIR, AIR, FRONT], Opening);
    channels(&mut s, [FRONT, AIR, FRONT], Opening);
    channels(&mut s, [AIR, FRONT, FRONT], Opening);
    channels(&mut s, [FRONT, FRONT, AIR], Closing);
    assert!(!s.tape.red());
    s
}

/// They differ three times: the absorber is invalid at 1, which is red; when it lifts nothing moves.
fn invalid() -> Script {
    let mut s = stands_on_two_channels();
    for _ in 0..3 {
        assert!(!s.tape.red());
        channels(&mut s, [AIR, FRONT, AIR], Closed);
    }
    assert_eq!(s.tape.rig.cause, 13);
    channels(&mut s, [AIR, AIR, AIR], Closed);
    channels(&mut s, [AIR, AIR, AIR], Closed);
    s
}

/// It stands with the handle up until the switch is open, at 20,000 ms, and lifts 1 ms later.
fn stands_20_000() -> Script {
    let mut s = Script::new(1_000);
    s.switch.1 = 20_000;
    turned(&mut s, false, ALL, Closed, Extended);
    s.land(HANDLE_CLOCK, 20_000);
    assert_eq!((s.tape.rig.doors, s.tape.rig.held & SWITCH, s.tape.red()), (Closed, 0, false));
    wheels(&mut s, AIR);
    s.step(1);
    assert_eq!((s.tape.rig.doors, s.tape.rig.on), (Opening, 1 << GENERAL));
    s
}

/// The retraction starts by itself. The handle's age goes on: with one of 1,000 ms the open switch would be cause 11.
fn lifts_late() -> Script {
    let mut s = stands_20_000();
    s.until(|rig| rig.gears == Retracted);
    s.land(GENERAL, 1_100);
    assert!(!s.tape.red());
    s
}

/// No pressure: cause 9 comes 2,000 ms behind the lift.
fn lifts_no_pressure() -> Script {
    let mut s = stands_20_000();
    (s.rise, s.travel) = (NEVER, [[Travel { leave: NEVER, arrive: NEVER }; 3]; 4]);
    s.land(GENERAL, 1_999);
    assert!(!s.tape.red());
    s.step(1);
    assert_eq!(s.tape.rig.cause, 9);
    s
}

/// A wheel touches and lifts all the time, with the handle held up: the doors turn each time, no monitor minds, and
/// at 24,796 ms behind the sample in which the handle went up nothing is settled.
fn bounces() -> Script {
    let mut s = Script::new(1_000);
    turned(&mut s, false, AIR, Opening, Extended);
    for n in 1.. {
        wheels(&mut s, if n / 3 % 2 == 0 { AIR } else { LEFT });
        s.step((24_796 - s.age(HANDLE_CLOCK)).min(100));
        let Rig { doors, gears, cause, .. } = s.tape.rig;
        assert!(matches!(doors, Opening | Closing) && gears == Extended && cause == 0);
        if s.age(HANDLE_CLOCK) == 24_796 {
            break;
        }
    }
    s
}

/// Lessons that are handed over on the ground.
pub fn onwards() -> Vec<Onward> {
    let mut s = Script::new(1_000);
    turned(&mut s, false, ALL, Closed, Extended);
    s.land(HANDLE_CLOCK, 500);
    let (image, mut s) = handed_new(&s, 4_294_967_200);
    to(&mut s, ALL, Closed, Extended);
    to(&mut s, RIGHT, Closed, Extended);
    to(&mut s, AIR, Opening, Extended);
    s.until(|rig| rig.is_on(OPEN));
    let stands = Onward {
        name: "new_ground_stands",
        reason: "saved on the ground with the handle up: it stands on, and opens where the last wheel lifts",
        image,
        trace: s.tape.text,
    };
    let mut s = handle_up();
    s.until(|rig| rig.doors == Open);
    let (image, mut s) = handed_new(&s, 5_000);
    to(&mut s, FRONT, Closing, Extended);
    s.until(|rig| rig.doors == Closed);
    let touches = Onward {
        name: "new_ground_touches",
        reason: "saved in the air with doors OPEN; a wheel touches in the first row: CLOSING, not RETRACTING",
        image,
        trace: s.tape.text,
    };
    vec![stands, touches]
}
