//! Request K4, told by the 512 entries that were given, by what docs/WALL.md says of the CSV and of the page,
//! and by pages that are damaged. What K7 added is told in request_k7.rs.
use peer::page::{check, differences};
use peer::rig::*;
use peer::rules::{by_name, ground_faults, Rules};
use peer::wall::*;
use std::collections::HashSet;
use std::path::{Path, PathBuf};
use std::process::{Command, Output};

/// Ground (0), handle, doors, gears and the four facts, then the doors and gears that come next.
const GIVEN: &str = include_str!("wall512.txt");

fn rules() -> Rules {
    Rules::default()
}

fn text() -> String {
    String::from_utf8(csv(&rules())).unwrap()
}

#[test]
fn the_512_entries_that_were_given() {
    let given: Vec<&str> = GIVEN.lines().filter(|line| !line.starts_with('#')).collect();
    let (rows, text) = (rows(&rules()), text());
    let lines: Vec<&str> = text.lines().skip(1).collect();
    assert_eq!((given.len(), rows.len(), lines.len()), (512, 1_024, 1_024));
    for (n, (given, row)) in given.iter().zip(&rows).enumerate() {
        let words: Vec<&str> = given.split(' ').collect();
        let [ground, handle, doors, gears, open, closed, extended, retracted, arrow, next_doors, next_gears] =
            words[..]
        else {
            panic!("{given}")
        };
        assert_eq!((ground, arrow), ("0", "->"));
        let (up, bit) = (if handle == "0" { "up" } else { "down" }, |fact: bool| u8::from(fact).to_string());
        let Entry { doors: d, gears: g, facts, .. } = row.entry;
        assert_eq!([word(d), word(g)], [doors, gears], "{n}");
        assert_eq!(facts.map(bit), [open, closed, extended, retracted], "{n}");
        assert_eq!([word(row.next.0), word(row.next.1)], [next_doors, next_gears], "{n}: {given}");
        assert_eq!((row.entry.number(), Entry::of(n)), (n, row.entry));
        // The words of the row, without the numbers.
        let fields: Vec<&str> = lines[n].split(',').collect();
        let row = [0, 2, 3, 4, 6, 8, 9, 10, 11, 12, 14].map(|n| fields[n]);
        let n = n.to_string();
        let wanted =
            [&n, up, handle, doors, gears, open, closed, extended, retracted, next_doors, next_gears];
        assert_eq!(row, wanted);
    }
}

#[test]
fn the_csv_has_its_form() {
    let text = text();
    let lines: Vec<&str> = text.split("\r\n").collect();
    assert_eq!((lines.len(), lines[1_025]), (1_026, ""));
    assert!(lines.iter().all(|line| !line.contains(['\r', '\n', '"', ' '])));
    assert_eq!(
        lines[0],
        "entry,on_ground,handle,handle_number,doors,doors_number,gears,gears_number,all_open,all_closed,\
all_extended,all_retracted,next_doors,next_doors_number,next_gears,next_gears_number,possible"
    );
    assert_eq!(lines[1], "0,0,up,0,CLOSED,0,RETRACTED,0,0,0,0,0,CLOSED,0,RETRACTED,0,1");
    assert_eq!(lines[512], "511,0,down,1,CLOSING,3,RETRACTING,3,1,1,1,1,OPENING,1,RETRACTING,3,0");
    assert_eq!(lines[545], "544,1,up,0,CLOSED,0,EXTENDED,2,0,0,0,0,CLOSED,0,EXTENDED,2,1");
    assert_eq!(lines[1_024], "1023,1,down,1,CLOSING,3,RETRACTING,3,1,1,1,1,OPENING,1,RETRACTING,3,0");
    let mut possible = 0;
    for line in &lines[1..1_025] {
        let f: Vec<&str> = line.split(',').collect();
        let n = |field: usize| f[field].parse::<usize>().unwrap();
        assert_eq!(f.len(), 17);
        let facts = 8 * n(8) + 4 * n(9) + 2 * n(10) + n(11);
        assert_eq!(n(0), 512 * n(1) + 256 * n(3) + 64 * n(5) + 16 * n(7) + facts, "{line}");
        assert_eq!(f[2], ["up", "down"][n(3)]);
        for (words, number) in [(4, 5), (12, 13)] {
            assert_eq!(f[words], ["CLOSED", "OPENING", "OPEN", "CLOSING"][n(number)]);
        }
        for (words, number) in [(6, 7), (14, 15)] {
            assert_eq!(f[words], ["RETRACTED", "EXTENDING", "EXTENDED", "RETRACTING"][n(number)]);
        }
        assert_eq!(f[16] == "0", f[6].ends_with("ING") && f[4] != "OPEN", "{line}");
        possible += n(16);
    }
    assert_eq!(possible, 640);
}

/// A fact is not so in seven ways, and on the ground is so in seven: what comes next is the same in all of them.
#[test]
fn nothing_but_the_facts_counts() {
    let kinds = [DOOR_OPEN, DOOR_CLOSED, GEAR_EXTENDED, GEAR_RETRACTED];
    for seen in 0u32..1 << 12 {
        let threes = [9, 6, 3, 0].map(|by| seen >> by & 7);
        let facts = threes.map(|three| three == 7);
        let values: u32 = threes.iter().zip(kinds).map(|(three, kind)| three << kind.trailing_zeros()).sum();
        for place in 0..PLACES {
            let entry = Entry { facts, ..Entry::of(16 * place) };
            let ground = if entry.ground { (1 + seen % 7) << ON_GROUND.trailing_zeros() } else { 0 };
            let held = values | ground | if entry.down { HANDLE } else { 0 };
            let mut rig = Rig::fresh(&rules(), 7);
            (rig.doors, rig.gears, rig.held) = (entry.doors, entry.gears, held);
            rig.step(&rules(), 9, [held; 3]);
            assert_eq!(((rig.doors, rig.gears), rig.cause), (entry.next(&rules()), 0), "{entry:?} {seen:o}");
        }
    }
}

/// Runs from a fresh start come to all entries that are possible, and to no other.
#[test]
fn runs_ask_what_is_possible() {
    let table = rows(&rules());
    let mut asked = HashSet::new();
    let mut rig = Rig::fresh(&rules(), 0);
    let mut drawn = 88_172_645_463_325_252u64;
    for step in 1..200_000u32 {
        drawn ^= drawn << 13;
        drawn ^= drawn >> 7;
        drawn ^= drawn << 17;
        let seen = (drawn >> 20) as u32;
        // Each kind is seen whole, or as it comes. The switch and the pressure are sound.
        let mut values = seen & (DOOR_OPEN | DOOR_CLOSED | GEAR_EXTENDED | GEAR_RETRACTED | ON_GROUND);
        for (bit, kind) in [DOOR_OPEN, DOOR_CLOSED, GEAR_EXTENDED, GEAR_RETRACTED].into_iter().enumerate() {
            values |= if seen >> (20 + bit) & 1 == 1 { kind } else { 0 };
        }
        values &= if seen >> 27 & 3 == 0 { SENSORS } else { !ON_GROUND };
        let turns = seen >> 24 & 7 == 0;
        values |= if turns { !rig.held & HANDLE } else { rig.held & HANDLE };
        values |= if rig.age(HANDLE_CLOCK) < 20_000 { SWITCH } else { 0 };
        values |= if rig.is_on(GENERAL) { PRESSURIZED } else { 0 };
        let all = |kind| values & kind == kind;
        let entry = Entry {
            ground: values & ON_GROUND != 0,
            down: values & HANDLE != 0,
            doors: rig.doors,
            gears: rig.gears,
            facts: [DOOR_OPEN, DOOR_CLOSED, GEAR_EXTENDED, GEAR_RETRACTED].map(all),
        };
        assert_eq!(rig.step(&rules(), step * 100, [values; 3]), 0);
        assert_eq!(rig.cause, 0, "step {step}");
        assert_eq!((rig.doors, rig.gears), table[entry.number()].next);
        asked.insert(entry.number());
    }
    for (n, row) in table.iter().enumerate() {
        assert_eq!(asked.contains(&n), row.possible, "entry {n}");
    }
}

/// The table's number, as docs/WALL.md has it from the columns of the CSV. Two entries that differ and are exchanged
/// change it, and so does a single entry that is another.
#[test]
fn the_table_number_is_of_all_entries_in_their_order() {
    let mut rows = rows(&rules());
    let number = table_number(&rows);
    let weighed = |line: &str| {
        let fields: Vec<&str> = line.split(',').collect();
        let [entry, doors, gears] = [0, 13, 15].map(|n| fields[n].parse::<u64>().unwrap());
        (entry + 1) * (4 * doors + gears)
    };
    assert_eq!((number, text().lines().skip(1).map(weighed).sum()), (4_087_680, number));
    assert_eq!(text().lines().skip(1).take(512).map(weighed).sum::<u64>(), 1_016_708);
    for i in 0..ENTRIES {
        for j in 0..i {
            let [one, other] = [rows[i].next, rows[j].next];
            (rows[i].next, rows[j].next) = (other, one);
            assert_eq!(table_number(&rows) == number, one == other, "{i} {j}");
            (rows[i].next, rows[j].next) = (one, other);
        }
        let one = rows[i].next;
        for other in DOORS.into_iter().flat_map(|doors| GEARS.map(|gears| (doors, gears))) {
            rows[i].next = other;
            assert_eq!(table_number(&rows) == number, one == other, "{i}");
        }
        rows[i].next = one;
    }
}

/// The page that is stored is held to the peer's sequence: its places, its headings, its number.
#[test]
fn the_stored_page_agrees() {
    assert_eq!(check(&rules(), &std::fs::read("../docs/wall.svg").unwrap()), []);
}

#[test]
fn at_most_one_fact_makes_a_difference() {
    let counts: Vec<usize> = (0..PLACES).map(|place| differences(&rules(), place).len()).collect();
    assert!(counts.iter().all(|&count| count <= 1));
    assert_eq!([0, IN_AIR].map(|first| counts[first..first + IN_AIR].iter().sum::<usize>()), [10, 10]);
}

/// The parts of the peer's own page: what stands before the places, and the places, those of the air first.
fn parts() -> (String, Vec<String>) {
    let page = page(&rules());
    let starts: Vec<usize> = page.match_indices("<g class='").map(|found| found.0).collect();
    let end = page.len() - "</svg>\n".len();
    let ends = starts[1..].iter().copied().chain([end]);
    let places = starts.iter().zip(ends).map(|(&start, end)| page[start..end].to_string());
    (page[..starts[0]].into(), places.collect())
}

fn joined(head: &str, places: &[String]) -> String {
    [head, &places.concat(), "</svg>\n"].concat()
}

/// What is said of a page.
fn said(page: &str) -> String {
    let wrong: Vec<String> =
        check(&rules(), page.as_bytes()).iter().map(|wrong| format!("{wrong}\n")).collect();
    wrong.concat()
}

/// `from` must be there.
fn swap(text: &str, from: &str, to: &str) -> String {
    assert!(text.contains(from), "{from} is not in {text}");
    text.replacen(from, to, 1)
}

/// The page with one place changed.
fn with(place: usize, from: &str, to: &str) -> String {
    let (head, mut places) = parts();
    places[place] = swap(&places[place], from, to);
    joined(&head, &places)
}

#[test]
fn the_peers_own_page_agrees_in_any_spelling() {
    let own = page(&rules());
    assert_eq!(said(&own), "");
    let (head, mut places) = parts();
    assert_eq!((places.len(), joined(&head, &places)), (36, own.clone()));
    let same = [
        own.replace('\'', "\""),
        own.replace("class='head' ", "")
            .replace("</text>\n<text x", "</text>\n\n<text\n class = \"head\"  x"),
        own.replace(" to ", "\n  to\t "),
        own.replace("doors ", "&#100;oors&#x20;"),
        own.replace('\n', "\r\n"),
        own.replace("<g class", "<!-- a place --><g class"),
        format!("<?xml version='1.0' encoding='UTF-8'?>\n<!-- a page -->\n{own}\n<!-- its end -->\n"),
        own.replace(
            "</style>",
            "</style><rect width='100%' height='100%'/><text x='9' y='9'>Sequence</text>",
        ),
        own.replace(".never rect{", "@media screen{g.never > rect , .other{").replace("ddd}", "ddd}}"),
        own.replace("</style>", "</style><g transform='translate(1,-2) translate(3)'>")
            .replace("</svg>", "</g></svg>"),
        own.replace("<g transform='translate(0 16)'>", "<g><g transform='translate( 0, 16 )'>")
            .replace("</g>\n</g>", "</g></g>\n</g>"),
        own.replace("class='moves'", "class='moves' font-weight='700'")
            .replace(".moves{font-weight:bold}", ""),
        own.replace(".never rect{fill:#ddd}", "")
            .replace("<g class='never' ", "<g class='never' id='n' ")
            .split("class='never'")
            .enumerate()
            .map(|(n, part)| if n == 0 { part.into() } else { swap(part, "<rect", "<rect fill='#ccc'") })
            .collect::<Vec<String>>()
            .join("class='never'"),
        own.replace("class='head' x='10' y='48'", "class='head' transform='rotate(-90 10 48)' x='10' y='48'"),
    ];
    for (n, page) in same.iter().enumerate() {
        assert_ne!(*page, own, "{n}");
        assert_eq!(said(page), "", "{n}: {page}");
    }
    // Without boxes a place is where its texts are, and grey must come from elsewhere.
    let bare = own.replace("<rect width='60' height='32'/>", "").replace(".never rect{", ".never{");
    assert_eq!(said(&bare), "");
    places.reverse();
    assert_eq!(said(&joined(&head, &places)), "");
}

/// Place 6: handle UP, doors OPENING, gears EXTENDED; all open makes a difference.
#[test]
fn damaged_places_are_refused_for_their_reason() {
    let at = "handle UP, doors OPENING, gears EXTENDED (96 on): ";
    let damage: &[(&str, &str, &str)] = &[
        // A wrong word.
        ("doors OPEN<", "doors CLOSED<", "8 of its 16 entries are told wrong; the first, 104, is doors OPEN"),
        ("gears EXTENDED<", "gears RETRACTED<", "8 of its 16 entries"),
        (">stays<", ">doors OPENING</text><text class='keeps' x='6' y='15'>gears EXTENDED<", "not say stays"),
        (">stays<", ">remains<", "what the gears do next is missing"),
        ("doors OPEN<", "doors open<", "'doors open', 'gears EXTENDED' is not understood"),
        ("doors OPEN<", "OPEN<", "is not understood"),
        // The fact.
        ("if all open", "if all closed", "all closed is named, and all open makes a difference"),
        ("if all open", "always", "no fact is named, and all open makes a difference"),
        ("if all open", "always", "else without a condition"),
        ("if all open", "if all open or all closed", "is not a condition"),
        ("if all open", "if not all open", "is not a condition"),
        ("if all open", "if some open", "is not a condition"),
        (">else<", ">or<", "'or' is not understood"),
        ("else</text>\n<text class='keeps' x='6' y='11'>stays", "else", "what comes next is missing"),
        (">stays<", ">stays</text><text x='6' y='15'>stays<", "one text too many"),
        // The numbers.
        ("96 to 111", "96 to 112", "are not the numbers of a place"),
        ("96 to 111", "97 to 112", "are not the numbers of a place"),
        ("96 to 111", "112 to 127", "it bears the numbers of handle UP, doors OPENING, gears RETRACTING"),
        ("96 to 111", "352 to 367", "it bears the numbers of handle DOWN, doors OPENING, gears EXTENDED"),
        ("class='numbers'", "class='small'", "are not the numbers of a place"),
        ("class='when'", "class='numbers'", "is not a condition"),
        // Moves and keeps, bold and not.
        ("class='moves'", "class='keeps'", "what changes is not what is told as a move"),
        ("class='keeps' x='6' y='15'", "class='moves' x='6' y='15'", "what changes is not"),
        ("class='moves'", "class='moves keeps'", "is not of one of moves and keeps"),
        ("class='moves'", "class='text'", "is not of one of moves and keeps"),
        ("class='keeps'", "class='keeps' font-weight='bold'", "is of keeps and bold"),
        (
            "<text class='keeps' x='6' y='11'>stays",
            "<text class='moves' x='6' y='11'>stays",
            "told as a move",
        ),
        // Grey.
        ("class='place'", "class='never'", "it is grey, yet it can be reached"),
        ("<rect", "<rect fill='#ddd'", "it is drawn grey"),
        // Where its texts stand.
        ("x='3' y='6'>if", "x='3' y='30'>if", "do not stand below each other"),
        ("translate(0 16)", "translate(0 -4)", "do not stand below each other"),
        ("translate(0 16)", "translate(62 16)", "'else' stands outside its box"),
        ("x='58'", "x='61'", "'96 to 111' stands outside its box"),
    ];
    for (from, to, reason) in damage {
        let said = said(&with(6, from, to));
        let found = said.lines().any(|line| line.starts_with(at) && line.contains(reason));
        assert!(found, "{from} -> {to}: {reason}\n{said}");
        // It is of that place alone.
        assert!(said.lines().all(|line| line.starts_with(at)), "{from} -> {to}\n{said}");
    }
    // Without a fact: one is named, with the same behind else.
    let always = with(0, "always", "if all open");
    assert!(said(&always).contains("a condition without else"));
    let stays = "stays</text>";
    let both = format!("{stays}<text x='3' y='20'>else</text><text x='3' y='24'>{stays}");
    let always = swap(&always, stays, &both);
    let wanted = "handle UP, doors CLOSED, gears RETRACTED (0 on): all open is named, and no fact makes a difference\n";
    assert_eq!(said(&always), wanted);
    // Grey is missing, as a class and as a colour.
    let at = "handle UP, doors CLOSED, gears EXTENDING (16 on): ";
    assert_eq!(
        said(&with(1, "'never'", "'place'")),
        format!("{at}it is not grey, yet it cannot be reached\n")
    );
    for style in ["", ".never rect{fill:#fff}", ".never text{fill:#ddd}", ".nevermore rect{fill:#ddd}"] {
        let page = page(&rules()).replace(".never rect{fill:#ddd}", style);
        assert!(said(&page).contains(&format!("{at}it is not drawn grey\n")), "{style}");
        assert_eq!(said(&page).lines().count(), 12, "{style}");
    }
    let all_grey = page(&rules()).replace(".never rect{", ".never rect, .place rect{");
    assert_eq!(said(&all_grey).matches("it is drawn grey").count(), 24);
    // Bold is missing, or is everywhere.
    for style in ["", ".moves{font-weight:normal}", ".move{font-weight:bold}"] {
        let page = page(&rules()).replace(".moves{font-weight:bold}", style);
        assert!(said(&page).contains("is of moves and not bold"), "{style}");
    }
    assert!(said(&page(&rules()).replace(".moves{", ".keeps,.moves{")).contains("is of keeps and bold"));
}

#[test]
fn damaged_pages_are_refused_for_their_reason() {
    let (head, places) = parts();
    let page = |edit: &dyn Fn(&mut Vec<String>)| {
        let mut places = places.clone();
        edit(&mut places);
        said(&joined(&head, &places))
    };
    // A place is missing, is there twice, or stands elsewhere.
    for (n, place) in places.iter().take(IN_AIR).enumerate() {
        let name = format!("{} ({} on): ", place_words(n), 16 * n);
        assert_eq!(page(&|all| drop(all.remove(n))), format!("{name}it is not there\n"));
        assert_eq!(page(&|all| all.push(place.clone())), format!("{name}it is there 2 times\n"));
        let corner =
            |place: &str| place.split_once("translate(").unwrap().1.split_once(')').unwrap().0.to_string();
        // The next column or row.
        for other in [n ^ 1, n ^ 4, n ^ 16] {
            let there = page(&|all| all[n] = swap(place, &corner(place), &corner(&places[other])));
            let wanted = format!("{} ({} on): ", place_words(other), 16 * other);
            assert!(
                there.contains(&format!("{wanted}it bears the numbers of {}\n", place_words(n))),
                "{there}"
            );
            assert!(there.contains(&format!("{wanted}it is there 2 times\n")), "{there}");
            assert!(there.contains(&format!("{name}it is not there\n")), "{there}");
        }
        // Between the columns, between the rows, above them all.
        for (at, reason) in [
            ("44 30", "is in the column of no one heading"),
            ("40 49", "is in the row of no one heading"),
            ("102 12", "is headed by no one handle"),
        ] {
            let there = page(&|all| all[n] = swap(place, &corner(place), at));
            assert!(there.contains(&format!("{name}the place at {at} {reason}\n")), "{there}");
        }
        // Two that stand in each other's place.
        let swapped = page(&|all| {
            all[n] = swap(place, &corner(place), &corner(&places[n ^ 2]));
            all[n ^ 2] = swap(&places[n ^ 2], &corner(&places[n ^ 2]), &corner(place));
        });
        assert!(swapped.contains("it bears the numbers of") && !swapped.contains("times"), "{swapped}");
    }
    // The headings.
    let own = joined(&head, &places);
    for (from, to, reason) in [
        ("Handle UP", "Handle DOWN", "the headings are handle DOWN, handle DOWN, handle UP on ground, not handle UP"),
        ("Handle UP", "Handle up", "the heading 'Handle up' is not understood"),
        (
            "<text class='handle' x='40' y='18'>Handle UP</text>",
            "",
            "the headings are handle DOWN, handle UP on ground, not handle UP, handle DOWN, handle UP on ground",
        ),
        (">EXTENDING<", ">RETRACTING<", "it bears the numbers of"),
        (">EXTENDING<", ">EXTENDED<", "it bears the numbers of"),
        (">CLOSED<", ">OPENING<", "it bears the numbers of"),
        (">CLOSED<", ">SHUT<", "the heading 'SHUT' is not understood"),
        ("class='head' x='10' y='48'", "class='head' x='10' y='82'", "is in the row of no one heading"),
        ("class='head' x='43' y='27'", "class='head' x='105' y='27'", "is in the column of no one"),
    ] {
        let said = said(&swap(&own, from, to));
        assert!(said.contains(reason), "{from} -> {to}: {said}");
    }
    // What a handle aims at, and the table's number.
    let number = "<text class='table' x='40' y='415'>table number 4087680</text>\n";
    for (from, to, reason) in [
        ("aims at RETRACTED", "aims at EXTENDED", "handle UP: it is not so that it aims at EXTENDED"),
        ("aims at EXTENDED", "aims at RETRACTED", "handle DOWN: it is not so that it aims at RETRACTED"),
        ("aims at EXTENDED", "aims at extended", "'aims at extended' is not understood"),
        ("class='aim' x='164' y='18'", "class='aim' x='164' y='178'", "0 aims beside handle UP, not 1"),
        ("class='aim' x='164' y='18'", "x='164' y='18'", "0 aims beside handle UP, not 1"),
        (number, "", "0 table numbers, not 1"),
        (number, &number.repeat(2), "2 table numbers, not 1"),
        ("number 4087680", "number 1016708", "the table number is 1016708, and the table's is 4087680"),
        ("number 4087680", "number 04087680", "'table number 04087680' is not understood"),
    ] {
        assert_eq!(said(&swap(&own, from, to)), format!("{reason}\n"), "{from} -> {to}");
    }
    // Entries that no place shows by itself.
    for entry in [0, 17, 136, 300, 511] {
        let fault = by_name(&format!("entry_{entry}_wrong")).unwrap();
        assert!(said(&peer::wall::page(&fault)).contains("the table number is "), "{entry}");
    }
    // Places and headings moved together, so that each agrees, but in another order.
    let (a, b, c) = ("translate(40 ", "translate(102 ", "translate(9999 ");
    let heads = head
        .replace(">RETRACTED<", ">X<")
        .replace(">EXTENDING<", ">RETRACTED<")
        .replace(">X<", ">EXTENDING<");
    let moved = places[..IN_AIR].iter().map(|place| place.replace(a, c).replace(b, a).replace(c, b));
    let moved: Vec<String> = moved.chain(places[IN_AIR..].iter().cloned()).collect();
    let order = said(&joined(&heads, &moved));
    assert!(order.contains("stand in the wrong order") && order.lines().count() == 1, "{order}");
}

#[test]
fn what_is_not_understood_is_refused() {
    let own = page(&rules());
    for (from, to) in [
        ("</svg>\n", ""),
        ("</svg>\n", "</svg>\n<svg/>"),
        ("</svg>\n", "</g>\n"),
        ("<svg ", "<SVG "),
        ("<svg ", "<!DOCTYPE svg><svg "),
        ("xmlns='http://www.w3.org/2000/svg' ", ""),
        ("297mm", "210mm"),
        ("width='297mm' height='420mm'", "width='420mm' height='297mm'"),
        ("0 0 297 420", "0 0 420 297"),
        ("0 0 297 420", "0 0 148.5 210"),
        ("<title>", "<script>1</script><title>"),
        ("<title>", "<image href='x.png'/><title>"),
        ("<title>", "<use href='#a'/><title>"),
        ("<title>", "words<title>"),
        ("<title>", "&unknown;<title>"),
        ("<title>", "<text class='moves' x='1' y='9'>doors OPEN</text><title>"),
        ("<style>", "<style>@import 'x.css';"),
        ("<style>", "<style>.when{display:none}"),
        ("<rect ", "<rect opacity='0' "),
        ("<rect ", "<rect style='visibility:hidden' "),
        ("<rect ", "<rect transform='scale(2)' "),
        ("<rect width='60'", "<rect width='60' width='60'"),
        ("<rect width='60'", "<rect width='60mm'"),
        ("<rect width='60'", "<rect width=60"),
        ("<rect width='60'", "<rect width='999'"),
        ("translate(40 30)", "translate(40 30) rotate(5)"),
        ("translate(40 30)", "translate(40 30 60)"),
        ("translate(40 30)", "translate(40,,30)"),
        ("translate(40 30)", "translate(-40 30)"),
        ("always", "<tspan>always</tspan>"),
        ("always", "alw\u{e4}ys"),
        ("<g class='place'", "<g class='place'><g class='place'"),
        ("<g class='place'", "<g onclick='x()' class='place'"),
    ] {
        assert_ne!(said(&swap(&own, from, to)), "", "{from} -> {to}");
    }
    assert_ne!(said(""), "");
    assert!(!check(&rules(), b"<svg>\xff</svg>").is_empty());
    // However it is cut, it is refused, and the reader ends.
    for end in (0..own.len() - 1).step_by(7).chain(own.len() - 9..own.len() - 1) {
        assert_ne!(said(&own[..end]), "", "{end}");
    }
    assert_ne!(said(&"<g>".repeat(100_000)), "");
    assert_ne!(said(&format!("<svg xmlns='http://www.w3.org/2000/svg'>{}", "<g>".repeat(100_000))), "");
}

#[test]
fn every_fault_is_caught_by_the_csv_or_the_page() {
    let all = all_faults();
    for (name, fault) in &all {
        let page = check(&rules(), page(fault).as_bytes());
        assert!(check_csv(&rules(), &csv(fault)).is_some() || !page.is_empty(), "{name}");
        assert!(by_name(name).is_some_and(|found| found.slip == fault.slip), "{name}");
    }
    let names: HashSet<&String> = all.iter().map(|fault| &fault.0).collect();
    assert_eq!(names.len(), all.len());
    // Those of the sequence: an anomaly is not in the table, nor is what holds a move back.
    let sequence = [
        "closing_never_reopened",
        "opening_never_reclosed",
        "two_moves_in_a_step",
        "gears_wrong_way_kept",
        "some_door_open_enough",
        "some_door_closed_enough",
        "some_gear_there_enough",
        "aim_swapped",
    ];
    let own = peer::rules::wall_faults().len();
    let of_ground: HashSet<String> = ground_faults().into_iter().map(|fault| fault.0).collect();
    let found = all[..all.len() - own].iter().filter(|fault| !of_ground.contains(&fault.0));
    assert_eq!(found.map(|fault| &fault.0[..]).collect::<Vec<_>>(), sequence);
    assert_eq!(changed_rows(&rules()), 0);
}

fn ran(program: &str, args: &[&Path]) -> Output {
    Command::new(program).args(args).output().unwrap()
}

/// A folder of this test's own.
fn folder(name: &str) -> PathBuf {
    let folder = std::env::temp_dir().join(format!("peer-request-k4-{name}-{}", std::process::id()));
    std::fs::create_dir_all(&folder).unwrap();
    folder
}

#[test]
fn the_program_with_its_words_and_files() {
    let program = |args: &[&Path]| {
        let Output { status, stdout, stderr } = ran(env!("CARGO_BIN_EXE_peer-wall"), args);
        (status.code(), String::from_utf8(stdout).unwrap(), String::from_utf8(stderr).unwrap())
    };
    let folder = folder("words");
    let [good_csv, good_page, bad_csv, bad_page, none] =
        ["good.csv", "good.svg", "bad.csv", "bad.svg", "none"].map(|name| folder.join(name));
    let [csv, page, check, other] = ["csv", "page", "check", "poster"].map(Path::new);
    let silent = |text: String| (Some(0), text, String::new());
    assert_eq!(program(&[csv]), silent(text()));
    assert_eq!(program(&[page]), silent(peer::wall::page(&rules())));
    std::fs::write(&good_csv, text()).unwrap();
    std::fs::write(&good_page, peer::wall::page(&rules())).unwrap();
    std::fs::write(&bad_csv, text().replacen(",1\r\n", ",0\r\n", 1)).unwrap();
    std::fs::write(&bad_page, with(6, "doors OPEN<", "doors CLOSED<")).unwrap();
    assert_eq!(program(&[check, &good_csv, &good_page]).0, Some(0));
    let (status, said, _) = program(&[check, &bad_csv, &good_page]);
    assert!(status == Some(1) && said.contains("line 2 of the CSV, the first of 1 that differ"), "{said}");
    let (status, said, _) = program(&[check, &good_csv, &bad_page]);
    assert!(status == Some(1) && said.contains("handle UP, doors OPENING, gears EXTENDED"), "{said}");
    assert_eq!(program(&[check, &bad_csv, &bad_page]).1.matches("DIFFERENT: ").count(), 2);
    assert_eq!(program(&[check, &good_csv, &none]).0, Some(2));
    let fault = [Path::new("--fault"), Path::new("aim_swapped")];
    let faulty = String::from_utf8(peer::wall::csv(&by_name("aim_swapped").unwrap())).unwrap();
    assert_eq!(program(&[fault[0], fault[1], csv]), silent(faulty));
    let uses: [&[&Path]; 6] =
        [&[], &[other], &[csv, page], &[page, page], &[check, &good_csv], &[csv, csv, csv]];
    for args in uses {
        let (status, out, line) = program(args);
        assert_eq!((status, out), (Some(0), String::new()));
        assert!(line.starts_with("wall: ") && line.find('\n') == Some(line.len() - 1), "{line}");
    }
    std::fs::remove_dir_all(&folder).unwrap();
}

/// `compare` with the peer's own program in place of the other side's, sound and faulty.
#[cfg(unix)]
#[test]
fn compare_runs_the_wall() {
    use std::os::unix::fs::PermissionsExt;
    let folder = folder("compare");
    // As in bin/, the status is the program's own, or 1 where that is 0 and something was said.
    let status = r#"own=$?; cat "$0.said" >&2; [ $own = 0 ] && [ -s "$0.said" ] && exit 1; exit $own"#;
    let put = |name: &str, text: &str| {
        let path = folder.join(name);
        std::fs::write(&path, format!("#!/bin/sh\n(\n{text}\n) 2>\"$0.said\"\n{status}\n")).unwrap();
        std::fs::set_permissions(&path, std::fs::Permissions::from_mode(0o755)).unwrap();
    };
    let wall = env!("CARGO_BIN_EXE_peer-wall");
    // It takes no words.
    let replay = env!("CARGO_BIN_EXE_peer-replay");
    let replay = |bad_use: &str| format!("[ $# = 0 ] || {bad_use}\nexec {replay}");
    put("replay", &replay("{ echo 'replay: use: replay < TRACE' >&2; exit; }"));
    let compare = |more: &[&str]| {
        let without = ["--without", "waves", "--without", "sheet", "--without", "handover"];
        let args = [&["1", "2", "--bin", folder.to_str().unwrap()], &without[..], more].concat();
        let args: Vec<&Path> = args.into_iter().map(Path::new).collect();
        let Output { status, stdout, stderr } = ran(env!("CARGO_BIN_EXE_peer-compare"), &args);
        (status.code(), String::from_utf8([stdout, stderr].concat()).unwrap())
    };
    // It is not there.
    let (status, said) = compare(&[]);
    assert!(status == Some(2) && said.contains("wall is not there (--without wall leaves it out"), "{said}");
    let (status, said) = compare(&["--without", "wall"]);
    assert!(status == Some(0) && said.contains("wall         left out"), "{said}");
    // It is sound.
    put("wall", &format!("exec {wall} \"$@\""));
    let (status, said) = compare(&[]);
    assert!(status == Some(0) && said.contains("page: 32 places and 4 of the ground agree"), "{said}");
    // It is not: what it writes, what it says, its status.
    let sound = format!("exec {wall} \"$@\"");
    for (text, reason) in [
        (format!("exec {wall} --fault entry_300_wrong \"$@\""), "wall csv: line 302 of the CSV"),
        (format!("exec {wall} --fault page_without_grey \"$@\""), "wall page: the page disagrees"),
        (format!("echo hm >&2\n{sound}"), "wall csv: on standard error"),
        (format!("[ \"$1\" = page ] && echo hm >&2\n{sound}"), "wall page: on standard error"),
        (format!("{wall} \"$@\"; exit 3"), "wall csv: status Some(3), not 0"),
        (format!("[ $# = 0 ] && exec {wall} csv\n{sound}"), "wall: something on standard output"),
        (format!("[ $# = 0 ] && exit 0\n{sound}"), "wall: no line on standard error"),
        (format!("[ \"$1\" = poster ] && exec {wall} csv\n{sound}"), "wall poster: something on"),
        (format!("exec {wall} $1"), "wall csv page: something on standard output"),
        (format!("[ $# = 2 ] && echo hm >&2\n{sound}"), "wall csv page: not one line `wall: ....`"),
        (format!("[ $# = 0 ] && printf 'wall: a\\nb' >&2 && exit 0\n{sound}"), "wall: not one line"),
    ] {
        put("wall", &text);
        let (status, said) = compare(&[]);
        assert!(status == Some(1) && said.contains("DIFFERENT: ") && said.contains(reason), "{text}\n{said}");
    }
    put("wall", &format!("echo hm >&2\n{sound}"));
    assert_eq!(compare(&["--stdout-only"]).0, Some(0));
    // Words that `replay` should not take: it does, says nothing, not how it is used, or has another status.
    put("wall", &sound);
    for (bad_use, reason) in [
        ("shift", "output line 1"),
        ("exit 0", "no line on standard error"),
        ("{ echo 'replay: hm' >&2; exit; }", "not one line `replay: ..use: ..`"),
        ("{ echo 'replay: use: hm' >&2; exit 3; }", "status Some(3), not 1"),
    ] {
        put("replay", &replay(bad_use));
        let (status, said) = compare(&[]);
        let told = said.contains("DIFFERENT: ") && said.contains(&format!("replay lesson.in: {reason}"));
        assert!(status == Some(1) && told, "{bad_use}\n{said}");
    }
    std::fs::remove_dir_all(&folder).unwrap();
}
