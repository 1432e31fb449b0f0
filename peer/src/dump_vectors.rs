//! Stored vectors of request K2: which traces have their dump stored, and small dumps, good ones and
//! one for each way of being wrong, so that every fault of `rules::wave_faults` and
//! `rules::sheet_faults` changes at least one stored dump or sheet.

use crate::dump::{head_length, write, Moment, ALL};
use crate::gen::Rng;
use crate::rig::{DOOR_CLOSED, GEAR_EXTENDED, HANDLE};
use crate::rules::Rules;

/// Name, reason, bytes.
pub type Stored = (&'static str, &'static str, Vec<u8>);

/// Traces with their dump, and what that is for.
pub const DUMPS_OF_TRACES: [(&str, &str); 36] = [
    ("session_s", "Session S: a 3 and a 4 add no time"),
    ("lesson", "a long lesson; the stamp goes round in it, time does not"),
    ("lamps_green_and_orange", "doors, then gears leave; orders, lamps and sensors change together"),
    ("lamps_each_gear", "every gear and door sensor changes by itself, with its lamps"),
    ("lamps_neither", "gears at different ends: sensors change where lamps stay dark"),
    ("lamps_one_channel_odd", "struck channels say anything: the wires show the votes"),
    ("lamps_invalid_sensor_three", "an invalid sensor keeps its value, red is latched"),
    ("lamps_with_anomaly_three", "wires go on with red latched"),
    (
        "lamps_refused_sample",
        "refused rows before the first accepted step and after it; the stamp goes round",
    ),
    ("general_stop_after_gears_three", "an invalid sensor other than a gear's or a door's"),
    ("vote_row_0", "row 0 is not used: the first values are those of a fresh start"),
    ("vote_struck_stays_three", "struck channels, then invalid sensors"),
    ("vote_bounces", "bounces that are forgiven: no wire tells"),
    ("channels_0", "the voted switch goes on, with red, and off; a strike and splits show on no wire"),
    ("channels_agree", "the absorbers change together in row 1, and then no wire does"),
    ("lesson_brushed", "a lesson brushed all through: the dump of the clean one"),
    (
        "lesson_brushed_twice",
        "two bounces in a row, another channel right behind them: the dump of the clean one",
    ),
    ("lesson_clean", "the same lesson with no bounce: the same dump"),
    ("ground_doors_opening", "each absorber by itself, and what the doors' orders do at once"),
    ("ground_invalid", "an absorber that is invalid keeps its 1, red is latched"),
    ("adversarial_0", "many wires change at once"),
    ("stall", "far stalls; an accepted row after many refused ones"),
    ("stalls_0", "elapsed at and past its ends"),
    ("stalls_use_up_labels", "refused rows between accepted ones"),
    ("stamp_round", "the stamp goes round in the first accepted row"),
    ("edge_elapsed", "elapsed 0, 1, 99 to 102"),
    ("idle_61000", "620 rows of which no wire tells: `#0` alone"),
    ("bad_empty", "no row 0, the input is empty: an empty dump"),
    ("header_only", "no row 0, and no refusal either: an empty dump"),
    ("bad_header_513", "refused on its header: an empty dump"),
    ("bad_row_0_label", "row 0 gets 7: an empty dump"),
    ("bad_triple_digit", "ended by 5 before anything changed: `#0` alone"),
    ("bad_double_crlf", "ended by 5 after the last row"),
    ("bad_row_513", "ended by 6 early"),
    ("bad_row_513_late", "ended by 6 late: the dump has what was accepted before"),
    ("bad_label_late", "ended by 7 late: the dump has what was accepted before"),
];

/// A dump of four times, to be made wrong: at 5 wires 0, 8 and 25 change, at 40 wires 3 and 4, at 200
/// wires 0 and 3.
fn small() -> Vec<u8> {
    let at_rest = 1 << 5 | (HANDLE | GEAR_EXTENDED | DOOR_CLOSED) << 8;
    let at_5 = at_rest ^ (1 | 1 << 8 | 1 << 25);
    let at_40 = at_5 ^ 0b11000;
    write(&Rules::default(), &[(0, at_rest), (5, at_5), (40, at_40), (200, at_40 ^ 0b1001)])
}

/// The small dump with a text in it replaced.
fn with(old: &str, new: &str) -> Vec<u8> {
    let text = String::from_utf8(small()).unwrap();
    assert_eq!(text.matches(old).count(), 1, "{old:?}");
    text.replacen(old, new, 1).into_bytes()
}

fn and(tail: &str) -> Vec<u8> {
    [&small()[..], tail.as_bytes()].concat()
}

fn list(moments: &[Moment]) -> Vec<u8> {
    write(&Rules::default(), moments)
}

/// Times at which wire 0 goes on and off.
fn ticks(times: &[u64]) -> Vec<u8> {
    let moments: Vec<Moment> = times.iter().zip(0..).map(|(&time, n)| (time, n & 1)).collect();
    list(&moments)
}

/// Small dumps, good (their names begin so) and bad.
pub fn dumps() -> Vec<Stored> {
    let mut all: Vec<Stored> = Vec::new();
    let mut add = |name, reason, bytes| all.push((name, reason, bytes));
    add("good_small", "the dump that most bad ones are made from", small());
    add("good_start_0", "`#0` alone, all values 0", list(&[(0, 0)]));
    add("good_start_1", "`#0` alone, all values 1", list(&[(0, ALL)]));
    add("good_each_wire", "each wire goes on, then each goes off, one at a time", {
        let on = (0..26).map(|n| (n + 1, ALL >> (25 - n)));
        let off = (0..26).map(|n| (n + 27, ALL & (ALL << 1 << n)));
        list(&[(0, 0)].into_iter().chain(on).chain(off).collect::<Vec<_>>())
    });
    add("good_all_wires", "all wires change at every time", {
        list(&[(0, 0), (1, ALL), (2, 0), (3, ALL), (1_000, 0)])
    });
    add("good_first_and_last_wire", "only the wires of the lowest and the highest code", {
        let ends = 1 << 25 | 1;
        list(&[(0, 1), (9, 1 << 25), (10, ends), (11, 0), (99, ends), (100, 1 << 25)])
    });
    add("good_digits", "times of every number of digits, and side by side", {
        let mut times: Vec<u64> = (0..20).flat_map(|n| [10u64.pow(n) - 1, 10u64.pow(n)]).collect();
        times.dedup();
        ticks(&times)
    });
    add("good_times_2p32", "times at both sides of 2^31 and 2^32", {
        ticks(&[0, (1 << 31) - 1, 1 << 31, (1 << 32) - 1, 1 << 32, (1 << 32) + 1, 3 << 32])
    });
    add("good_times_2p64", "times up to 2^64 - 1", {
        ticks(&[0, (1 << 53) + 1, (1 << 63) - 1, 1 << 63, 18_446_744_073_709_551_609, u64::MAX - 1, u64::MAX])
    });
    add("good_long", "some 2,000 times", {
        let (mut r, mut time, mut values) = (Rng::new(2), 0, 0);
        let moments: Vec<Moment> = (0..2_000)
            .map(|_| {
                let moment = (time, values);
                time += r.range(1, 100);
                values ^= 1 << r.below(26) | 1 << r.below(26);
                moment
            })
            .collect();
        list(&moments)
    });

    // The head.
    add("bad_empty", "an empty input", Vec::new());
    add("bad_head_cut", "cut within the name of a wire", small()[..400].to_vec());
    add("bad_head_no_values", "ends after `$dumpvars`", small()[..head_length() - 5 - 78].to_vec());
    add("bad_head_timescale", "another timescale", with("1 ms", "1 us"));
    add("bad_head_name", "a wire of another name", with("orange", "yellow"));
    add("bad_head_code", "a code that is another wire's", with("wire 1 \" close", "wire 1 ! close"));
    add("bad_head_order", "two wires in each other's place", {
        let (open, close) = ("$var wire 1 # open_EV $end\n", "$var wire 1 \" close_EV $end\n");
        with(&[close, open].concat(), &[open, close].concat())
    });
    add("bad_head_after_end", "a space after `$end`", with("definitions $end\n", "definitions $end \n"));
    add("bad_head_crlf", "CRLF in the first line", with("1 ms $end\n", "1 ms $end\r\n"));
    add("bad_head_time", "begins at 1", with("#0\n", "#1\n"));
    // The first values.
    add("bad_first_x", "a first value x", with("0!\n0\"\n", "x!\n0\"\n"));
    add("bad_first_order", "first values out of order", with("0\"\n0#\n", "0#\n0\"\n"));
    add("bad_first_no_end", "no `$end` after them", with("\n$end\n#5", "\n#5"));
    add("bad_first_rubbish", "a byte after that `$end`", with("\n$end\n#5", "\n$end;\n#5"));
    add("bad_first_no_lf", "ends after that `$end`, its LF missing", small()[..head_length() - 1].to_vec());
    add("bad_first_change", "a wire changes at 0, below the first values", with("\n$end\n", "\n$end\n1!\n"));
    // Times.
    add("bad_time_zero", "a leading zero", with("#40", "#040"));
    add("bad_time_0_again", "`#0` later", with("#40", "#0"));
    add("bad_time_equal", "the time before again", with("#40", "#5"));
    add("bad_time_falls", "a time below the one before", with("#200", "#39"));
    add("bad_time_empty", "no digit", with("#40", "#"));
    add("bad_time_2p64", "2^64", with("#40", "#18446744073709551616"));
    add("bad_time_2p64_more", "2^64 + 45, which rises modulo 2^64", with("#200", "#18446744073709551661"));
    add("bad_time_long", "fifty thousand digits", with("#40", &["#", &"7".repeat(50_000)].concat()));
    add(
        "bad_time_long_zeros",
        "fifty thousand zeros",
        with("#40", &["#", &"0".repeat(50_000), "40"].concat()),
    );
    add("bad_time_after_last", "a time after 2^64 - 1", {
        let text = String::from_utf8(ticks(&[0, 7, u64::MAX])).unwrap();
        (text + "#18446744073709551616\n1!\n").into_bytes()
    });
    add("bad_time_cr", "CRLF after the number", with("#40", "#40\r"));
    add("bad_time_letter", "a letter in the number", with("#200", "#2e2"));
    add("bad_time_idle", "nothing changes at a time", with("#40\n", "#39\n#40\n"));
    add("bad_time_idle_last", "nothing changes at the last time", and("#201\n"));
    add("bad_time_cut", "ends within a time: the block above is complete", and("#20"));
    add("bad_time_hash", "ends after a `#`: the block above is complete", and("#"));
    add("bad_time_hash_start", "`#0` alone and a `#`", [list(&[(0, 5)]), b"#".to_vec()].concat());
    // Changed wires.
    add("bad_wire_order", "changed wires out of order", with("1$\n1%\n", "1%\n1$\n"));
    add("bad_wire_back", "a wire changes and changes back", with("1$\n1%\n", "1$\n0$\n1%\n"));
    add("bad_wire_same", "a wire that does not change", with("1$\n1%\n", "0\"\n1$\n1%\n"));
    add("bad_wire_same_alone", "nothing but a wire that does not change", and("#300\n1%\n"));
    add("bad_wire_past", "the code after the last", with("1$\n1%\n", "1$\n1;\n"));
    add("bad_wire_past_off", "the code after the last, going off", with("1$\n1%\n", "1$\n0;\n"));
    add("bad_wire_space", "the code before the first", with("1$\n1%\n", "1$\n1 \n"));
    add("bad_wire_high", "a code with its eighth bit set", {
        let mut dump = small();
        let last = dump.len() - 2;
        dump[last] |= 128;
        dump
    });
    add("bad_value_x", "a value x", with("1$\n1%\n", "x$\n1%\n"));
    add("bad_value_cut", "ends after a value", and("#201\n1"));
    add("bad_wire_no_lf", "ends without its LF", small()[..small().len() - 1].to_vec());
    add("bad_wire_cr", "CRLF after a wire", with("1$\n1%\n", "1$\r\n1%\n"));
    add("bad_wire_more", "a byte more in the line", with("1$\n1%\n", "1$ \n1%\n"));
    // Lines that never are.
    add("bad_line_blank", "an empty line", with("1$\n1%\n", "1$\n\n1%\n"));
    add("bad_line_blank_last", "an LF more at the end", and("\n"));
    add("bad_line_comment", "a `$comment`", with("#200\n", "$comment late $end\n#200\n"));
    add("bad_line_second", "a dump after a dump", and(std::str::from_utf8(&small()).unwrap()));
    add("bad_line_block_again", "the last block twice", and("#200\n0!\n0$\n"));
    all
}
