//! Stored vectors: small traces, each made to show one thing, so that every fault of
//! `rules::faults` changes the output of at least one of them.

use crate::gen::{cut, edges, field, lesson, same, Rng, Script, Tape, Travel, Wheels};
use crate::ground_vectors;
use crate::rig::*;
use crate::rules::Rules;
use crate::trace::{row, Row, HEADER};

pub(crate) const NEVER: u64 = u64::MAX;
pub(crate) const AT_REST: u32 = HANDLE | GEAR_EXTENDED | DOOR_CLOSED;
/// Gears up with the handle down: from a fresh start nothing moves, whatever doors and gears say.
pub(crate) const UP_AT_REST: u32 = HANDLE | GEAR_RETRACTED | DOOR_CLOSED;
const OPEN_ALL: Travel = Travel { leave: 100, arrive: 300 };

/// A script with the handle up and the named order just started.
pub(crate) fn started(order: usize) -> Script {
    let mut s = Script::new(1_000);
    s.step(100);
    s.handle(false, 100);
    if order == EXTEND {
        // Turned back while the gears move.
        s.until(|rig| rig.is_on(RETRACT));
        s.travel[RETRACT - 1] = [Travel { leave: 1, arrive: 1 }; 3];
        s.until(|rig| rig.gears == Gears::Retracted);
        s.handle(true, 100);
    }
    s.until(|rig| rig.is_on(order));
    s
}

/// Both sides of a cause that is about an order: `leave` and `arrive` decide which one it is.
fn cause(order: usize, leave: u64, arrive: u64, mark: u64) -> Vec<u8> {
    let mut s = started(order);
    s.travel[order - 1] = [OPEN_ALL, Travel { leave, arrive }, OPEN_ALL];
    s.land(order, mark - 1);
    assert!(!s.tape.red());
    s.step(1);
    assert!(s.tape.red());
    // The anomaly stays, the four orders are off, general_EV goes 1,000 ms later.
    s.travel[order - 1] = [OPEN_ALL; 3];
    s.land(order, 999);
    s.step(1);
    s.step(50);
    s.tape.text
}

pub(crate) fn handle_up() -> Script {
    let mut s = Script::new(1_000);
    s.step(100);
    s.handle(false, 50);
    s
}

/// A short sound trace, as rows.
fn plain() -> Vec<Vec<u8>> {
    let mut s = Script::new(4_294_967_200);
    s.step(20);
    s.handle(false, 100);
    s.step(100);
    s.step(100);
    cut(&s.tape.text)
}

fn with_breaks(rows: &[Vec<u8>]) -> Vec<u8> {
    rows.iter().flat_map(|row| [&row[..], b"\r\n"].concat()).collect()
}

/// The sound trace with one row changed.
fn changed(row: usize, change: impl Fn(&mut Vec<u8>)) -> Vec<u8> {
    let mut rows = plain();
    change(&mut rows[row]);
    with_breaks(&rows)
}

fn padded(row: usize, length: usize, with: u8, label: Option<&str>) -> Vec<u8> {
    changed(row, |text| {
        if let Some(label) = label {
            field(text, 0, label.into());
        }
        text.resize(length, with);
    })
}

/// Session S, from the text of document 01.
pub fn session_s() -> Vec<u8> {
    let mut tape = Tape::new(1_000, same(AT_REST));
    let stamps = [1050, 1150, 1250, 1350, 1350, 1400, 1450, 1551, 1550, 1649, 1650];
    for (n, stamp) in (1..).zip(stamps) {
        let mut seen = AT_REST;
        if (2..=8).contains(&n) {
            seen &= !HANDLE;
        }
        if n >= 6 {
            seen = seen & !DOOR_CLOSED | DOOR_OPEN;
        }
        if n >= 9 {
            seen &= !GEAR_EXTENDED;
        }
        tape.at(stamp, same(seen));
    }
    tape.text
}

/// So many samples in which channel 3 of a sensor is odd, and so many in which another is.
fn vote(sensor: u32, odd_3: usize, then: [bool; 3], times: usize) -> Vec<u8> {
    let mut tape = Tape::new(7, same(AT_REST));
    let rest = same(AT_REST);
    tape.after(10, rest);
    let odd = |channels: [bool; 3]| {
        let mut sample = rest;
        (0..3).filter(|&n| channels[n]).for_each(|n| sample[n] ^= sensor);
        sample
    };
    tape.rows_of(odd_3, 10, odd([false, false, true])); // P1: struck at the third
    tape.after(10, rest); // P3: it stays struck
    tape.after(10, odd([true, true, false]));
    tape.rows_of(times, 10, odd(then)); // P2: invalid at the third
    tape.after(10, rest);
    tape.after(10, odd([true, true, true]));
    tape.text
}

/// Rows at rest, by what the channels of some sensors do: a letter for each row, row 0 first. `1`, `2`, `3`: that
/// channel says otherwise; `y`: channels 1 and 2 do; `x`: all do; `.`: none. `beat` says which rows are accepted (`+`),
/// get 3 (`0`) or 4 (`>`).
fn told(beat: &str, sensors: &[(u32, &str)]) -> Tape {
    let sample = |row: usize| {
        let mut sample = same(AT_REST);
        for (sensor, letters) in sensors {
            assert_eq!(letters.len(), beat.len());
            for (n, letter) in ["1xy", "2xy", "3x"].into_iter().enumerate() {
                if letter.contains(&letters[row..row + 1]) {
                    sample[n] ^= sensor;
                }
            }
        }
        sample
    };
    let mut tape = Tape::new(4_294_967_000, sample(0));
    for (row, kind) in beat.bytes().enumerate().skip(1) {
        let (elapsed, code) = [(50, 0), (0, 3), (101, 4)][b"+0>".iter().position(|b| *b == kind).unwrap()];
        assert_eq!(tape.after(elapsed, sample(row)), code);
    }
    tape
}

/// Which channel of a sensor says otherwise, over and over: none three times in a row, but each twice with another right
/// behind it, and twice with agreement and the same again.
const TWICE: &[u8] = b"1122.33.3311.22.2233.11.";

/// A lesson that is brushed behind row 0, each sensor by `TWICE` from a place of its own. In the last row all channels
/// agree, so that no count is under way. No row of the lesson may be refused.
pub(crate) fn brushed_twice(clean: &[u8]) -> Vec<u8> {
    let rules = Rules::default();
    let rows: Vec<Row> = cut(clean)[1..].iter().map(|text| row(&rules, text).unwrap()).collect();
    let mut tape = Tape::new(rows[0].stamp, rows[0].sample);
    for (n, row) in rows.iter().enumerate().skip(1) {
        let says = |channel: u8| {
            let sensors = (0..18).filter(|sensor| TWICE[(n + sensor) % TWICE.len()] == channel);
            sensors.fold(0, |all, sensor| all | 1 << sensor)
        };
        let odd = if n + 1 < rows.len() { [b'1', b'2', b'3'].map(says) } else { [0; 3] };
        let sample = std::array::from_fn(|channel| row.sample[channel] ^ odd[channel]);
        assert_eq!(tape.at(row.stamp, sample), 0);
    }
    tape.text
}

/// From a fresh start, samples on which the channels agree. No order is ever on with the handle
/// down, so doors and gears can be seen anywhere and no monitor minds.
fn samples(seen: &[u32]) -> Vec<u8> {
    let mut tape = Tape::new(0, same(AT_REST));
    for &seen in seen {
        tape.after(50, same(seen));
    }
    assert!(!tape.red() && tape.rig.on == 0);
    tape.text
}

/// One unit of the three sensors of a kind.
pub(crate) fn one(sensors: u32, unit: u32) -> u32 {
    1 << (sensors.trailing_zeros() + unit)
}

/// Name and trace of every stored vector.
pub fn vectors() -> Vec<(String, Vec<u8>)> {
    let mut all: Vec<(String, Vec<u8>)> = Vec::new();
    let mut add = |name: &str, text: Vec<u8>| all.push((name.to_string(), text));

    add("session_s", session_s());
    add("lesson", lesson(3_500).text);

    // Both sides of each threshold.
    add("edge_cause_1", cause(OPEN, NEVER, 7_000, 7_000));
    add("edge_cause_2", cause(OPEN, 100, NEVER, 7_000));
    add("edge_cause_3", cause_close(NEVER, 7_000));
    add("edge_cause_4", cause_close(100, NEVER));
    add("edge_cause_5", cause(RETRACT, NEVER, NEVER, 7_000));
    add("edge_cause_6", cause(RETRACT, 100, NEVER, 10_000));
    add("edge_cause_7", cause(EXTEND, NEVER, NEVER, 7_000));
    add("edge_cause_8", cause(EXTEND, 100, NEVER, 10_000));
    add("edge_cause_9", {
        let mut s = handle_up();
        s.rise = NEVER;
        s.land(GENERAL, 1_999);
        s.step(1);
        s.step(100);
        s.tape.text
    });
    add("edge_cause_10", {
        let mut s = handle_up();
        s.fall = NEVER;
        s.handle(true, 10); // before open_EV could start
        s.until(|rig| rig.doors == Doors::Closed && !rig.is_on(GENERAL));
        s.land(GENERAL, 9_999);
        s.step(1);
        s.step(100);
        s.tape.text
    });
    for (name, open_at, land) in [
        ("edge_cause_11_at_19999", 19_999, 19_999),
        ("edge_cause_11_at_20000", 20_000, 20_000),
        ("edge_cause_12", NEVER, 21_500),
    ] {
        let mut s = handle_up();
        s.switch.1 = open_at;
        s.land(HANDLE_CLOCK, land - 1);
        s.step(1);
        s.step(100);
        s.step(100);
        add(name, s.tape.text);
    }
    add("edge_cause_11_at_1000", {
        let mut s = handle_up();
        s.switch.0 = NEVER;
        s.land(HANDLE_CLOCK, 999);
        s.step(1);
        s.step(100);
        s.tape.text
    });
    add("edge_elapsed", {
        let mut s = Script::new(4_294_967_190);
        for elapsed in [1, 100, 101, 99, 0, 1, 102, 100] {
            s.step(elapsed);
        }
        s.tape.text
    });
    add("edge_general_wait", {
        let mut s = handle_up();
        s.land(GENERAL, 199);
        s.step(1);
        s.step(50);
        s.tape.text
    });
    add("edge_general_stop", {
        let mut s = handle_up();
        s.until(|rig| rig.is_on(OPEN));
        s.handle(true, 100);
        s.until(|rig| rig.doors == Doors::Closed);
        s.land(CLOSE, 999);
        s.step(1);
        s.step(100);
        s.tape.text
    });
    add("edge_opposite_doors", {
        let mut s = handle_up();
        s.until(|rig| rig.is_on(OPEN));
        s.step(100);
        s.handle(true, 100); // stops open_EV, P12
        s.land(OPEN, 99);
        s.step(1);
        s.step(40);
        s.handle(false, 10); // stops close_EV, P11
        s.land(CLOSE, 99);
        s.step(1);
        s.tape.text
    });
    add("edge_opposite_gears", {
        let mut s = started(RETRACT);
        s.travel[RETRACT - 1] = [Travel { leave: 50, arrive: 2_000 }; 3];
        s.step(100);
        s.handle(true, 100);
        s.land(RETRACT, 99);
        s.step(1);
        s.step(40);
        s.handle(false, 10);
        s.land(EXTEND, 99);
        s.step(1);
        s.tape.text
    });
    add("idle_61000", {
        // Switch open and no pressure for long: nothing is ever late.
        let mut s = Script::new(0);
        for _ in 0..620 {
            s.step(99);
        }
        s.tape.text
    });

    // The sequence.
    add("sequence_reversals", {
        let mut s = handle_up();
        s.until(|rig| rig.doors == Doors::Open);
        s.handle(true, 30); // gears EXTENDED, doors OPEN: CLOSING
        s.step(30);
        s.handle(false, 30);
        s.until(|rig| rig.gears == Gears::Retracted);
        s.until(|rig| rig.is_on(CLOSE));
        s.handle(true, 30); // P11
        s.until(|rig| rig.gears == Gears::Extending);
        s.handle(false, 30);
        s.until(|rig| rig.doors == Doors::Closed);
        s.step(100);
        s.handle(true, 100);
        s.until(|rig| !rig.is_on(GENERAL));
        s.step(100);
        s.tape.text
    });
    add("sequence_one_unit_late", {
        let mut s = handle_up();
        for order in 0..4 {
            s.travel[order][2 - order % 3].arrive = 800;
        }
        s.until(|rig| rig.gears == Gears::Retracted && rig.doors == Doors::Closed);
        s.handle(true, 100);
        s.until(|rig| !rig.is_on(GENERAL));
        s.tape.text
    });
    add("general_stop_after_gears", {
        // The rows that the rig before K5 gave rise to.
        let before_k5 = Rules { strike_at: 1, invalid_at: 1, ..Rules::default() };
        stop_after_gears(before_k5, &[false, false, true, true])
    });
    add("general_stop_after_gears_three", {
        stop_after_gears(Rules::default(), &[false, false, false, true, true, true, true])
    });
    add("latching_move", {
        let mut s = handle_up();
        s.rise = NEVER;
        s.travel[OPEN - 1] = [Travel { leave: 100, arrive: 1_800 }; 3];
        s.land(GENERAL, 2_000);
        s.rise = 0;
        s.until(|rig| !rig.is_on(GENERAL));
        s.handle(true, 100);
        s.step(100);
        s.tape.text
    });
    add("seen_open_at_7000", {
        let mut s = started(OPEN);
        s.travel[OPEN - 1] = [Travel { leave: 7_000, arrive: 7_000 }; 3];
        s.land(OPEN, 6_999);
        s.step(1);
        s.step(100);
        s.tape.text
    });
    add("handle_twice", {
        // The handle's age starts again: switch open for less than 1,000 ms, closed past 21,500.
        let mut s = handle_up();
        s.switch = (900, 20_500);
        s.land(HANDLE_CLOCK, 950);
        s.handle(true, 90);
        s.land(HANDLE_CLOCK, 940);
        s.step(100);
        s.tape.text
    });
    add("handle_moved_when_late", {
        // The step in which the handle moves: its age is 0 when the monitors look.
        let mut s = handle_up();
        s.switch.1 = 20_000;
        s.until(|rig| rig.doors == Doors::Closed);
        s.land(HANDLE_CLOCK, 21_450);
        s.switch = (0, NEVER);
        s.handle(true, 60);
        s.step(100);
        s.tape.text
    });

    // Voting.
    add("vote_struck_stays", vote(ON_GROUND, 2, [true, false, false], 1));
    add("vote_two_differ", vote(1 << 8, 2, [false, true, true], 1));
    add("vote_handle", vote(HANDLE, 2, [true, true, false], 1));
    add("vote_each_channel", each_channel(1));
    add("vote_struck_stays_three", vote(GEAR_EXTENDED, 3, [true, false, false], 3));
    add("vote_handle_three", vote(HANDLE, 3, [false, true, false], 3));
    add("vote_each_channel_three", each_channel(3));
    add("vote_bounces", {
        let tape = told(
            "++0++++++++++++>+++",
            &[
                // Two in a row with agreement between; then of the two left, just behind the strike, with agreement
                // between, with a refused sample between.
                (one(ON_GROUND, 0), ".3.3.33.11122.322.2"),
                // Another channel between; a refused sample between; row 0 before; other sensors before; once.
                (one(ON_GROUND, 1), ".3.3233.111........"),
                (one(ON_GROUND, 2), ".333....111........"),
                (one(DOOR_OPEN, 0), "33.3....111........"),
                (one(DOOR_OPEN, 1), "....33..111........"),
                (one(DOOR_OPEN, 2), ".3......111........"),
                // Two at the end.
                (SWITCH, ".................33"),
            ],
        );
        assert!(!tape.red());
        tape.text
    });
    add("vote_third_in_a_row", {
        // The gears' extended are struck in one row and invalid in one row: refused samples between; another channel
        // before, and the two left differ in turn; two in a row and agreement before. With a strike the value changes.
        let tape = told(
            "+++++0+>++++++0+>+++",
            &[
                (one(GEAR_EXTENDED, 0), "....3.3.3....1.1.1x."),
                (one(GEAR_EXTENDED, 1), "...23.3.3....1.2.1x."),
                (one(GEAR_EXTENDED, 2), ".33.3.3.3.12.1.1.1x."),
                (one(GEAR_RETRACTED, 0), ".................33y"),
            ],
        );
        assert!(tape.red());
        tape.text
    });
    add("vote_row_0", {
        // Row 0 would strike a channel and move the handle, were it used.
        let mut tape = Tape::new(0, [ON_GROUND | PRESSURIZED, 0, PRESSURIZED]);
        let rest = AT_REST;
        tape.after(100, [rest, rest ^ ON_GROUND, rest]);
        for _ in 0..12 {
            tape.after(100, [rest, rest, rest]);
        }
        tape.text
    });

    // Lamps.
    add("lamps_green_and_orange", {
        // The doors leave while the gears are extended; the gears leave later.
        let mut s = handle_up();
        s.until(|rig| rig.gears == Gears::Retracting);
        s.step(50);
        s.step(50);
        s.tape.text
    });
    add("lamps_neither", {
        // Each gear at one end, not all at the same.
        let mut seen = vec![AT_REST, UP_AT_REST];
        for gear in 0..3 {
            let turned = one(GEAR_EXTENDED, gear) | one(GEAR_RETRACTED, gear);
            seen.extend([AT_REST ^ turned, UP_AT_REST ^ turned]);
        }
        seen.push(AT_REST);
        samples(&seen)
    });
    add("lamps_each_gear", {
        let mut seen = vec![AT_REST];
        for gear in 0..3 {
            let (extended, retracted) = (one(GEAR_EXTENDED, gear), one(GEAR_RETRACTED, gear));
            // At neither end, then at both; the others extended, then retracted.
            seen.extend([AT_REST ^ extended, AT_REST ^ retracted]);
            seen.extend([UP_AT_REST ^ retracted, UP_AT_REST ^ extended]);
        }
        seen.extend((0..3).map(|door| AT_REST ^ one(DOOR_CLOSED, door)));
        seen.extend([AT_REST ^ GEAR_EXTENDED, AT_REST ^ GEAR_RETRACTED, AT_REST ^ DOOR_CLOSED, AT_REST]);
        samples(&seen)
    });
    add("lamps_door_open_unread", {
        let mut seen = vec![AT_REST];
        for door in 0..3 {
            let (closed, open) = (one(DOOR_CLOSED, door), one(DOOR_OPEN, door));
            // Open, then open and closed at once.
            seen.extend([AT_REST ^ closed ^ open, AT_REST ^ open]);
        }
        seen.extend([AT_REST ^ DOOR_CLOSED ^ DOOR_OPEN, AT_REST ^ DOOR_OPEN, AT_REST]);
        samples(&seen)
    });
    add("lamps_one_channel_odd", {
        // Each channel is struck for one gear and one door and says the opposite from then on.
        let mut tape = Tape::new(0, same(AT_REST));
        let odd = [0, 1, 2].map(|n| one(GEAR_EXTENDED, n) | one(DOOR_CLOSED, (n + 1) % 3));
        for seen in [AT_REST, AT_REST, UP_AT_REST ^ DOOR_CLOSED, UP_AT_REST, AT_REST] {
            tape.after(50, odd.map(|odd| seen ^ odd));
        }
        assert!(!tape.red());
        tape.text
    });
    add("lamps_invalid_sensor", invalid_gear(1));
    add("lamps_invalid_sensor_three", invalid_gear(3));
    add("lamps_with_anomaly", with_anomaly(1));
    add("lamps_with_anomaly_three", with_anomaly(3));
    add("lamps_refused_sample", {
        // Before the first accepted step and after it, a refused sample lights nothing.
        let mut tape = Tape::new(4_294_967_250, same(0));
        tape.after(0, same(0));
        tape.after(101, same(0));
        tape.after(100, same(AT_REST ^ DOOR_CLOSED));
        tape.after(0, same(UP_AT_REST));
        tape.after(101, same(UP_AT_REST));
        tape.after(100, same(AT_REST));
        assert!(!tape.red());
        tape.text
    });

    // Stamps.
    add("stamp_round", {
        let mut s = Script::new(4_294_967_290);
        s.tape.at(4, same(AT_REST)); // P4
        s.handle(false, 90);
        s.step(100);
        s.tape.text
    });
    add("stall", {
        let mut s = handle_up();
        s.step(100);
        let (seen, last) = (s.seen, s.tape.rig.stamp);
        // Past 100 ms: refused, though each is near the one before; then the stamp comes round.
        for past in [101, 150, 200, 5_000, 0, u32::MAX, 1 << 31] {
            s.tape.at(last.wrapping_add(past), [seen ^ ON_GROUND, seen, seen ^ HANDLE]);
        }
        s.tape.at(last + 99, same(seen));
        s.tape.at(last + 100, [seen, seen ^ ON_GROUND, seen]);
        s.step(99);
        s.step(100);
        s.tape.text
    });

    // Inputs that are wrong.
    let rows = plain();
    let whole = with_breaks(&rows);
    add("bad_empty", Vec::new());
    add("bad_header_case", changed(0, |row| row[0] = b'S'));
    add("bad_header_513", padded(0, 513, b' ', None));
    add("no_final_crlf", whole[..whole.len() - 2].to_vec());
    add("bad_final_cr", whole[..whole.len() - 1].to_vec());
    add("bad_double_crlf", [&whole[..], b"\r\n"].concat());
    add("bad_lone_lf", rows.join(&b'\n'));
    add("bad_row_lone_lf", changed(2, |row| row.extend_from_slice(b"\n2,4294967230")));
    add("bad_cr_cr_lf", changed(3, |row| row.push(b'\r')));
    add("bad_row_512", padded(3, 512, b'0', None));
    add("bad_row_513", padded(3, 513, b'0', None));
    add("bad_row_513_label", padded(3, 513, b'0', Some("7")));
    add("bad_row_512_cr", [&with_breaks(&rows[..2]), &vec![b','; 512][..], b"\r"].concat());
    add(
        "bad_row_label_form",
        changed(3, |row| {
            field(row, 0, b"7".to_vec());
            field(row, 9, b"0".to_vec());
        }),
    );
    for (name, which, text) in [
        ("bad_label_next", 0, "3"),
        ("bad_label_zero", 0, "02"),
        ("bad_label_plus", 0, "+2"),
        ("bad_label_2p32", 0, "4294967298"),
        ("bad_stamp_2p32", 1, "4294967306"),
        ("bad_stamp_empty", 1, ""),
        ("bad_triple_digit", 6, "012"),
        ("bad_triple_extra", 19, "000,000"),
    ] {
        add(name, changed(3, |row| field(row, which, text.into())));
    }
    // After much has changed.
    add("bad_label_late", {
        let mut rows = cut(&session_s());
        field(&mut rows[11], 0, b"11".to_vec());
        with_breaks(&rows)
    });
    add("bad_row_513_late", {
        let mut rows = cut(&session_s());
        rows[11].resize(513, b'0');
        with_breaks(&rows)
    });
    add("header_only", HEADER.to_vec());
    add("random_edges", edges(&mut Rng::new(5), Wheels::in_flight()).text);
    all.extend(ground_vectors::vectors());
    all
}

/// The doors are seen closed at once: the gear order is the last to be quiet for 1,000 ms. Channel 1 of the switch is
/// struck, then channel 3 differs too and the sensor is invalid.
fn stop_after_gears(rules: Rules, differ: &[bool]) -> Vec<u8> {
    let mut s = handle_up();
    s.tape.rules = rules;
    s.until(|rig| rig.is_on(RETRACT));
    let seen = s.look(50) | DOOR_CLOSED | DOOR_OPEN | SWITCH;
    for differ in differ {
        s.tape.after(50, [seen & !SWITCH, seen, if *differ { seen & !SWITCH } else { seen }]);
    }
    assert!(s.tape.red());
    s.land(RETRACT, 999);
    s.step(1);
    s.tape.text
}

/// Each channel is odd so many times in a row, for two sensors; struck, it says anything. Then channel 1 of the handle,
/// and so many times a second channel of an absorber.
fn each_channel(times: usize) -> Vec<u8> {
    let mut tape = Tape::new(0, same(AT_REST));
    for channel in 0..3 {
        let mut sample = same(AT_REST);
        sample[channel] ^= 1 << (8 + channel) | 1 << (5 + channel);
        tape.rows_of(times, 50, sample);
    }
    for channel in 0..3 {
        let mut sample = same(AT_REST);
        sample[channel] ^= 1 << (8 + channel);
        tape.after(50, sample);
    }
    let mut sample = same(AT_REST & !HANDLE);
    sample[0] ^= HANDLE;
    for _ in 0..4 {
        tape.after(100, sample);
    }
    sample[2] ^= 1 << 9;
    tape.rows_of(times, 50, sample);
    assert_eq!(tape.red(), times == 3);
    tape.text
}

/// The front gear is last voted extended, one of its channels odd so many times, then two that differ. Becoming invalid
/// latches the anomaly.
fn invalid_gear(times: usize) -> Vec<u8> {
    let mut tape = Tape::new(0, same(AT_REST));
    let front = one(GEAR_EXTENDED, 0);
    tape.rows_of(times, 50, [AT_REST, AT_REST, AT_REST ^ front]);
    tape.rows_of(times, 50, [AT_REST, AT_REST ^ front, AT_REST ^ front]);
    assert_eq!(tape.red(), times == 3);
    // All its channels say otherwise; the other sensors count.
    let others = UP_AT_REST ^ one(GEAR_RETRACTED, 0);
    for seen in [AT_REST ^ front, AT_REST ^ front, AT_REST ^ GEAR_EXTENDED, others, AT_REST] {
        tape.after(50, same(seen));
    }
    tape.text
}

/// The switch is closed for too long in a step in which the doors leave; then channels are odd so many times.
fn with_anomaly(times: usize) -> Vec<u8> {
    let mut tape = Tape::new(0, same(AT_REST));
    tape.after(50, same(AT_REST));
    tape.after(50, same(AT_REST ^ DOOR_CLOSED | SWITCH));
    assert!(tape.red());
    for seen in [AT_REST, UP_AT_REST, AT_REST ^ GEAR_EXTENDED, AT_REST] {
        tape.after(50, same(seen));
    }
    // The left gear's extended is struck, then invalid at 1; its channels change.
    let left = one(GEAR_EXTENDED, 1);
    tape.rows_of(times, 50, [AT_REST, AT_REST, AT_REST ^ left]);
    tape.rows_of(times, 50, [AT_REST ^ left, AT_REST, AT_REST ^ left]);
    tape.after(50, same(AT_REST ^ left));
    tape.after(50, same(AT_REST ^ left));
    // The front door's closed is struck, then invalid at 0; its channels change.
    let front = one(DOOR_CLOSED, 0);
    tape.rows_of(times, 50, [AT_REST, AT_REST ^ front, AT_REST ^ front]);
    tape.rows_of(times, 50, [AT_REST, AT_REST, AT_REST ^ front]);
    for seen in [AT_REST, AT_REST, UP_AT_REST, AT_REST] {
        tape.after(50, same(seen));
    }
    tape.text
}

/// Causes 3 and 4: the doors close after a turn back.
fn cause_close(leave: u64, arrive: u64) -> Vec<u8> {
    let mut s = started(OPEN);
    s.until(|rig| rig.doors == Doors::Open);
    s.handle(true, 50);
    s.until(|rig| rig.is_on(CLOSE));
    s.travel[CLOSE - 1] = [OPEN_ALL, OPEN_ALL, Travel { leave, arrive }];
    s.land(CLOSE, 6_999);
    assert!(!s.tape.red());
    s.step(1);
    assert!(s.tape.red());
    s.land(CLOSE, 999);
    s.step(1);
    s.tape.text
}
