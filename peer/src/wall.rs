//! Requests K4 and K7: the sequence as a table of 1,024 entries, and what `wall` writes of it, the CSV and the page of
//! docs/WALL.md. No entry is stored: what comes next is what one step of the controller makes of it.

use crate::rig::{
    Doors, Gears, Rig, DOOR_CLOSED, DOOR_OPEN, GEAR_EXTENDED, GEAR_RETRACTED, HANDLE, ON_GROUND,
};
use crate::rules::{faults, wall_faults, Rules, Slip};
use std::fmt::Write;

pub const ENTRIES: usize = 1_024;
/// The places of ground, handle, doors and gears, of sixteen entries each; the first half is of the air, and each of
/// the ground stands so many behind its place in the air.
pub const PLACES: usize = ENTRIES / 16;
pub const IN_AIR: usize = PLACES / 2;

// By number.
pub const DOORS: [Doors; 4] = [Doors::Closed, Doors::Opening, Doors::Open, Doors::Closing];
pub const GEARS: [Gears; 4] = [Gears::Retracted, Gears::Extending, Gears::Extended, Gears::Retracting];
/// The facts in the order of the number, the first most significant, and the sensors of each.
pub const FACTS: [&str; 4] = ["all open", "all closed", "all extended", "all retracted"];
const SENSORS: [u32; 4] = [DOOR_OPEN, DOOR_CLOSED, GEAR_EXTENDED, GEAR_RETRACTED];

/// The header's names: those of the number and of the handle, and all behind them; `on_ground` stands between.
const HEADER: [&str; 3] = [
    "entry",
    "handle,handle_number",
    "doors,doors_number,gears,gears_number,all_open,all_closed,all_extended,all_retracted,\
next_doors,next_doors_number,next_gears,next_gears_number,possible",
];

/// The word for doors or gears, as on the output row.
pub fn word(state: impl std::fmt::Debug) -> String {
    format!("{state:?}").to_uppercase()
}

/// What an entry is asked with.
#[derive(Clone, Copy, PartialEq, Eq, Debug)]
pub struct Entry {
    pub ground: bool,
    pub down: bool,
    pub doors: Doors,
    pub gears: Gears,
    pub facts: [bool; 4],
}

impl Entry {
    /// 512 on ground + 256 handle + 64 doors + 16 gears + 8 all open + 4 all closed + 2 all extended + all retracted.
    pub fn of(number: usize) -> Entry {
        Entry {
            ground: number / 512 % 2 == 1,
            down: number / 256 % 2 == 1,
            doors: DOORS[number / 64 % 4],
            gears: GEARS[number / 16 % 4],
            facts: [8, 4, 2, 1].map(|bit| number & bit != 0),
        }
    }

    pub fn number(&self) -> usize {
        let facts = self.facts.iter().fold(0, |n, &fact| 2 * n + usize::from(fact));
        let place = 32 * usize::from(self.ground) + 16 * usize::from(self.down);
        16 * (place + 4 * self.doors as usize + self.gears as usize) + facts
    }

    /// The voted values that tell these facts: one that is not so lacks a single sensor, and on the ground is a single
    /// absorber, each in its turn.
    fn held(&self) -> u32 {
        let handle = if self.down { HANDLE } else { 0 };
        let seen = |(so, sensors): (bool, u32)| if so { sensors } else { sensors & sensors << 1 };
        let absorber = 1 << (ON_GROUND.trailing_zeros() as usize + self.number() % 3);
        let ground = if self.ground { absorber } else { 0 };
        handle | ground | self.facts.into_iter().zip(SENSORS).map(seen).sum::<u32>()
    }

    /// What comes next: one step without an anomaly, from a rig that stands there.
    pub fn next(&self, r: &Rules) -> (Doors, Gears) {
        let held = self.held();
        let mut rig = Rig { doors: self.doors, gears: self.gears, held, ..Rig::fresh(r, 0) };
        rig.step(r, 50, [held; 3]);
        (rig.doors, rig.gears)
    }

    /// The same, with the faults that look up another entry.
    fn looked_up(&self, r: &Rules) -> (Doors, Gears) {
        let (number, mut asked) = (self.number(), *self);
        match r.slip {
            Slip::FactsSwapped(a, b) => asked.facts.swap(a, b),
            Slip::FactsBackwards => asked.facts.reverse(),
            Slip::PlaceBackwards => asked = Entry::of(number ^ 15),
            Slip::HandleInIndex => asked.down ^= true,
            Slip::DoorsGearsInIndex => {
                (asked.doors, asked.gears) = (DOORS[self.gears as usize], GEARS[self.doors as usize]);
            }
            Slip::HandleLast => asked = Entry::of(number & 512 | (number & 511) >> 1 | (number & 1) << 8),
            Slip::GroundInIndex => asked.ground ^= true,
            Slip::GroundAndHandleInIndex => std::mem::swap(&mut asked.ground, &mut asked.down),
            Slip::GroundLast => asked = Entry::of(number >> 1 | (number & 1) << 9),
            Slip::IndexNext => asked = Entry::of((number + 1) % ENTRIES),
            _ => {}
        }
        let (doors, gears) = asked.next(r);
        match r.slip {
            Slip::EntryWrong(wrong) if wrong == number && wrong % 2 == 0 => {
                (DOORS[(doors as usize + 1) % 4], gears)
            }
            Slip::EntryWrong(wrong) if wrong == number => (doors, GEARS[(gears as usize + 1) % 4]),
            _ => (doors, gears),
        }
    }
}

/// Whether a reached state has these doors and gears: gears move with doors OPEN alone.
pub fn possible(doors: Doors, gears: Gears) -> bool {
    doors == Doors::Open || matches!(gears, Gears::Retracted | Gears::Extended)
}

/// One row of the table.
#[derive(Clone, Copy, PartialEq, Eq, Debug)]
pub struct Row {
    pub entry: Entry,
    pub next: (Doors, Gears),
    pub possible: bool,
}

/// The table, by number.
pub fn rows(r: &Rules) -> Vec<Row> {
    let row = |number| {
        let mut entry = Entry::of(number);
        let mut next = entry.looked_up(r);
        let (doors, gears) = (entry.doors, entry.gears);
        let rest = matches!(gears, Gears::Retracted | Gears::Extended);
        let possible = match r.slip {
            Slip::PossibleInverted => !possible(doors, gears),
            Slip::PossibleClosed => rest || doors == Doors::Closed,
            Slip::PossibleNotClosed => rest || doors != Doors::Closed,
            Slip::PossibleAlways => true,
            Slip::PossibleOfNext => possible(next.0, next.1),
            _ => possible(doors, gears),
        };
        match r.slip {
            Slip::NextAndPresent => {
                (entry.doors, entry.gears) = next;
                next = (doors, gears);
            }
            Slip::NextIsPresent => next = (doors, gears),
            _ => {}
        }
        Row { entry, next, possible }
    };
    (0..ENTRIES).map(row).collect()
}

/// The table as one number, which an exchange of two entries changes: the sum of each entry's number and one, times
/// four times the number of its next doors and that of its next gears.
pub fn table_number(rows: &[Row]) -> u64 {
    let entry = |row: &Row| 4 * row.next.0 as u64 + row.next.1 as u64;
    rows.iter().zip(1..).map(|(row, place)| place * entry(row)).sum()
}

/// Whether doors that are CLOSED stay so at these gears, whatever is seen.
fn stays_closed(r: &Rules, ground: bool, down: bool, gears: Gears) -> bool {
    let entry = |n| Entry { ground, down, doors: Doors::Closed, gears, facts: Entry::of(n).facts };
    (0..16).all(|n| entry(n).next(r) == (Doors::Closed, gears))
}

/// What a handle aims at: the gears at which doors that are CLOSED stay so, in the air.
pub fn aim(r: &Rules, down: bool) -> Option<Gears> {
    GEARS.into_iter().find(|&gears| stays_closed(r, false, down, gears))
}

/// The gears at which they stay so on the ground, but not in the air.
pub fn as_if_aim(r: &Rules, down: bool) -> Option<Gears> {
    let only_there = |gears| stays_closed(r, true, down, gears) && !stays_closed(r, false, down, gears);
    GEARS.into_iter().find(|&gears| only_there(gears))
}

/// The places of the ground that differ from those of the air, by a table of rows.
fn differing(rows: &[Row]) -> Vec<usize> {
    let next = |place: usize| rows[16 * place..16 * place + 16].iter().map(|row| row.next);
    (IN_AIR..PLACES).filter(|&place| !next(place).eq(next(place - IN_AIR))).collect()
}

/// The places of the ground that are to be shown on the page, since what comes next differs there from the same place
/// in the air.
pub fn shown_of_ground(r: &Rules) -> Vec<usize> {
    differing(&rows(r))
}

/// What `wall csv` writes.
pub fn csv(r: &Rules) -> Vec<u8> {
    let numbered = |word: String, number: usize| match r.slip {
        Slip::OpenAndClosingNumbers if word == "OPEN" => format!("{word},3"),
        Slip::OpenAndClosingNumbers if word == "CLOSING" => format!("{word},2"),
        Slip::NumbersFrom1 => format!("{word},{}", number + 1),
        _ => format!("{word},{number}"),
    };
    let doors = |doors: Doors| numbered(word(doors), doors as usize);
    let gears = |gears: Gears| numbered(word(gears), gears as usize);
    // The new field, or its name, between the others.
    let placed = |[number, handle, more]: [&str; 3], ground: &str| match r.slip {
        Slip::OnGroundUnwritten => format!("{number},{handle},{more}"),
        Slip::OnGroundBehindHandle => format!("{number},{handle},{ground},{more}"),
        Slip::OnGroundLast => format!("{number},{handle},{more},{ground}"),
        _ => format!("{number},{ground},{handle},{more}"),
    };
    let mut lines = Vec::new();
    for (number, Row { entry, next, possible }) in rows(r).into_iter().enumerate() {
        let up = entry.down == r.is(Slip::HandleWords);
        let handle = numbered(if up { "up" } else { "down" }.into(), usize::from(entry.down));
        let facts = entry.facts.map(|fact| if fact { "1" } else { "0" }).join(",");
        let ground = match r.slip {
            Slip::OnGroundInWords => ["air", "ground"][usize::from(entry.ground)],
            Slip::OnGroundAlways0 => "0",
            _ => ["0", "1"][usize::from(entry.ground != r.is(Slip::OnGroundInverted))],
        };
        let number = match r.slip {
            Slip::EntriesFrom1 => number + 1,
            Slip::WallGroundFrom0 => number % (ENTRIES / 2),
            _ => number,
        };
        let mut after = [doors(next.0), gears(next.1)];
        if r.is(Slip::NextGearsFirst) {
            after.reverse();
        }
        let more = format!(
            "{},{},{facts},{},{}",
            doors(entry.doors),
            gears(entry.gears),
            after.join(","),
            u8::from(possible)
        );
        lines.push(placed([&number.to_string(), &handle, &more], ground));
    }
    match r.slip {
        Slip::WallAirOnly => lines.truncate(ENTRIES / 2),
        Slip::WallGroundFirst => lines.rotate_left(ENTRIES / 2),
        _ => {}
    }
    lines.insert(0, placed(HEADER, "on_ground"));
    let mut text = match r.slip {
        Slip::WallNoHeader => lines[1..].join("\r\n"),
        Slip::WallLf => lines.join("\n"),
        Slip::WallLowerCase => lines.join("\r\n").to_lowercase(),
        _ => lines.join("\r\n"),
    };
    text.push_str(match r.slip {
        Slip::WallLf => "\n",
        Slip::WallNoLastCrLf => "",
        _ => "\r\n",
    });
    text.into_bytes()
}

/// How the other side's CSV differs: its first line that does, and how many do.
pub fn check_csv(r: &Rules, theirs: &[u8]) -> Option<String> {
    let ours = csv(r);
    if theirs == ours {
        return None;
    }
    let [a, b] = [theirs, &ours].map(|text| text.split_inclusive(|&b| b == b'\n').collect::<Vec<_>>());
    let differ: Vec<usize> = (0..a.len().max(b.len())).filter(|&n| a.get(n) != b.get(n)).collect();
    let show = |line: Option<&&[u8]>| line.map_or("(nothing)".into(), |l| l.escape_ascii().to_string());
    let first = differ.first().copied().unwrap_or_default();
    Some(format!(
        "line {} of the CSV, the first of {} that differ\n  program: {}\n  peer:    {}",
        first + 1,
        differ.len(),
        show(a.get(first)),
        show(b.get(first))
    ))
}

/// How many of the rows a fault changes: the header, if there is one, is no row.
pub fn changed_rows(fault: &Rules) -> usize {
    let [theirs, ours] = [fault, &Rules::default()].map(|r| {
        let text = csv(r);
        let rows = text.split_inclusive(|&b| b == b'\n').map(<[u8]>::to_vec);
        rows.filter(|row| !row.to_ascii_lowercase().starts_with(b"entry,")).collect::<Vec<_>>()
    });
    (0..ENTRIES).filter(|&n| theirs.get(n) != ours.get(n)).count()
}

/// In words: a place by its number.
pub fn place_words(place: usize) -> String {
    let Entry { ground, down, doors, gears, .. } = Entry::of(16 * place);
    let (ground, handle) = (if ground { "on ground, " } else { "" }, if down { "DOWN" } else { "UP" });
    format!("{ground}handle {handle}, doors {}, gears {}", word(doors), word(gears))
}

const STYLE: &str =
    "text{font:4px sans-serif} .head{font:bold 5px sans-serif} .handle{font:bold 8px sans-serif} \
.numbers{font-size:3px;text-anchor:end} .moves{font-weight:bold} rect{fill:#fff;stroke:#000;stroke-width:.3} \
.never rect{fill:#ddd}";

/// What `wall page` writes, in one of the forms that docs/WALL.md allows: A3 in millimetres. (With a fault there may be
/// more to show of the ground, and then a millimetre is less.)
pub fn page(r: &Rules) -> String {
    let mut out = String::new();
    put(&mut out, r).expect("a string takes everything");
    out
}

/// A handle's places: in the air the doors down the side and the gears along the top, on the ground the other way
/// round.
struct Block {
    ground: bool,
    down: bool,
    /// What stands down the side, by number.
    side: Vec<usize>,
    top: usize,
}

impl Block {
    /// Where the box of a place stands, by the numbers of what is on the side and along the top.
    fn corner(&self, side: usize, along: usize) -> Option<(usize, usize)> {
        let row = self.side.iter().position(|&n| n == side)?;
        Some((40 + 62 * along, self.top + 34 * row))
    }

    fn side_word(&self, n: usize) -> String {
        if self.ground {
            word(GEARS[n])
        } else {
            word(DOORS[n])
        }
    }

    fn along_word(&self, n: usize) -> String {
        if self.ground {
            word(DOORS[n])
        } else {
            word(GEARS[n])
        }
    }
}

/// The blocks below each other, and where they end; one of the ground only where it has a place to show.
fn blocks(r: &Rules, shown: &[usize]) -> (Vec<Block>, usize) {
    let mut order = [(false, false), (false, true), (true, false), (true, true)];
    if r.is(Slip::PageGroundFirst) {
        order.rotate_right(2);
    }
    let (mut all, mut top) = (Vec::new(), 30);
    for (ground, down) in order {
        let has = |gears: usize| {
            let of_gears = |place: &usize| Entry::of(16 * place).gears as usize == gears;
            let of_block = |place: &usize| Entry::of(16 * place).ground && Entry::of(16 * place).down == down;
            shown.iter().any(|place| of_gears(place) && of_block(place))
        };
        let side: Vec<usize> = (0..4).filter(|&n| !ground || has(n)).collect();
        if side.is_empty() {
            continue;
        }
        let below = top + 34 * side.len() + 24;
        all.push(Block { ground, down, side, top });
        top = below;
    }
    (all, top)
}

fn put(out: &mut String, r: &Rules) -> std::fmt::Result {
    let rows = rows(r);
    let shown: Vec<usize> = match r.slip {
        Slip::PageNoGround => (0..IN_AIR).collect(),
        Slip::PageGroundAll => (0..PLACES).collect(),
        Slip::PageGroundMore(more) => (0..IN_AIR).chain([more]).chain(differing(&rows)).collect(),
        _ => (0..IN_AIR).chain(differing(&rows)).collect(),
    };
    let (blocks, end) = blocks(r, &shown);
    let high = 420.max(end + 12);
    let wide = high as f64 * 297.0 / 420.0;
    writeln!(
        out,
        "<svg xmlns='http://www.w3.org/2000/svg' width='297mm' height='420mm' viewBox='0 0 {wide} {high}'>"
    )?;
    writeln!(out, "<title>The sequence</title>\n<style>{STYLE}</style>")?;
    for block in &blocks {
        put_heads(out, r, block)?;
    }
    let number = match r.slip {
        Slip::PageTableNumberUnweighed => rows.iter().map(|row| table_number(&[*row])).sum(),
        Slip::PageTableNumberOfAir => table_number(&rows[..ENTRIES / 2]),
        _ => table_number(&rows),
    };
    if !r.is(Slip::PageNoTableNumber) {
        writeln!(out, "<text class='table' x='40' y='{}'>table number {number}</text>", high - 5)?;
    }
    for place in shown {
        let times = match r.slip {
            Slip::PageLacks(lacks) if lacks == place => 0,
            Slip::PageTwice(twice) if twice == place => 2,
            _ => 1,
        };
        // The place that is told: with a fault it may be the one in the air, or the one on the ground.
        let told = match r.slip {
            Slip::PageGroundOfAir => place % IN_AIR,
            Slip::PageGroundMirrored if differing(&rows).contains(&(place | IN_AIR)) => place ^ IN_AIR,
            _ => place,
        };
        for _ in 0..times {
            put_place(out, r, place, &blocks, &rows[16 * told..16 * told + 16])?;
        }
    }
    writeln!(out, "</svg>")
}

/// The headings of a block: its handle, what that aims at, what stands along the top and down the side.
fn put_heads(out: &mut String, r: &Rules, block: &Block) -> std::fmt::Result {
    let &Block { ground, down, top, .. } = block;
    let swapped = if ground { r.is(Slip::PageGroundHandle) } else { r.is(Slip::PageHandles) };
    let handle = if down != swapped { "DOWN" } else { "UP" };
    let on_ground = if ground && !r.is(Slip::PageGroundInAir) { ", on ground" } else { "" };
    if !(ground && r.is(Slip::PageGroundUnheaded)) {
        writeln!(out, "<text class='handle' x='40' y='{}'>Handle {handle}{on_ground}</text>", top - 12)?;
    }
    let aims = match r.slip {
        Slip::PageGroundNoAims if ground => None,
        Slip::PageGroundAims if ground => Some("acts as if gears RETRACTED were at the aim".into()),
        _ if ground => {
            as_if_aim(r, down).map(|gears| format!("acts as if gears {} were at the aim", word(gears)))
        }
        _ => Some(format!("aims at {}", aim(r, down != r.is(Slip::PageAims)).map_or("nothing".into(), word))),
    };
    if let Some(aims) = aims {
        writeln!(out, "<text class='aim' x='164' y='{}'>{aims}</text>", top - 12)?;
    }
    for n in 0..4 {
        let (x, y) = (43 + 62 * n, top - 3);
        writeln!(out, "<text class='head' x='{x}' y='{y}'>{}</text>", block.along_word(n))?;
    }
    for (row, &n) in block.side.iter().enumerate() {
        let n = if ground && r.is(Slip::PageGroundRow) { (n + 1) % 4 } else { n };
        writeln!(out, "<text class='head' x='10' y='{}'>{}</text>", top + 34 * row + 18, block.side_word(n))?;
    }
    Ok(())
}

/// One place: of its sixteen entries those without a fact and with a single one are looked at.
fn put_place(out: &mut String, r: &Rules, place: usize, blocks: &[Block], rows: &[Row]) -> std::fmt::Result {
    let Entry { ground, down, doors, gears, .. } = Entry::of(16 * place);
    let (mut side, mut along) = (doors as usize, gears as usize);
    match r.slip {
        Slip::PageColumns if !ground && matches!(along, 1 | 2) => along = 3 - along,
        Slip::PageRows if !ground && side < 2 => side = 1 - side,
        _ if ground => (side, along) = (along, side),
        _ => {}
    }
    if ground && r.is(Slip::PageGroundColumns) {
        along = 3 - along;
    }
    let block = blocks.iter().find(|block| (block.ground, block.down) == (ground, down));
    let Some((x, y)) = block.and_then(|block| block.corner(side, along)) else { return Ok(()) };
    let moving = matches!(gears, Gears::Extending | Gears::Retracting);
    let never = match r.slip {
        Slip::PageNoGrey => false,
        Slip::PageGreyMoved => moving,
        _ => !rows[0].possible,
    };
    let class = if never { "never" } else { "place" };
    writeln!(out, "<g class='{class}' transform='translate({x} {y})'><rect width='60' height='32'/>")?;
    let first = match r.slip {
        Slip::PageNumbers => (place + 1) % PLACES * 16,
        Slip::PageGroundNumbers => place % IN_AIR * 16,
        _ => place * 16,
    };
    writeln!(out, "<text class='numbers' x='58' y='30'>{first} to {}</text>", first + 15)?;
    let with = |fact: usize| rows[8 >> fact].next;
    let mut fact = (0..4).find(|&fact| with(fact) != rows[0].next);
    let [mut then, mut other] = [fact.map_or(rows[0].next, with), rows[0].next];
    match r.slip {
        Slip::PageThenElse => (then, other) = (other, then),
        Slip::PageFactUnnamed => fact = None,
        Slip::PageFactTooMany => fact = fact.or(Some(0)),
        Slip::PageOtherFact => fact = fact.map(|fact| (fact + 1) % 4),
        _ => {}
    }
    let when = fact.map_or("always".into(), |fact| format!("if {}", FACTS[fact]));
    writeln!(out, "<text class='when' x='3' y='6'>{when}</text>")?;
    put_next(out, r, (doors, gears), then)?;
    if fact.is_some() && !r.is(Slip::PageNoElse) {
        writeln!(out, "<g transform='translate(0 16)'><text class='else' x='3' y='6'>else</text>")?;
        put_next(out, r, (doors, gears), other)?;
        writeln!(out, "</g>")?;
    }
    writeln!(out, "</g>")
}

fn put_next(out: &mut String, r: &Rules, now: (Doors, Gears), next: (Doors, Gears)) -> std::fmt::Result {
    if now == next && !r.is(Slip::PageStaysSpelt) {
        return writeln!(out, "<text class='keeps' x='6' y='11'>stays</text>");
    }
    let class = |moves| if moves != r.is(Slip::PageMovesKeeps) { "moves" } else { "keeps" };
    let [doors, gears] = [class(now.0 != next.0), class(now.1 != next.1)];
    writeln!(out, "<text class='{doors}' x='6' y='11'>doors {}</text>", word(next.0))?;
    writeln!(out, "<text class='{gears}' x='6' y='15'>gears {}</text>", word(next.1))
}

/// The faults of the sequence that the table shows, found by trying all of them, and those of the wall.
pub fn all_faults() -> Vec<(String, Rules)> {
    let mut all = faults();
    all.retain(|fault| changed_rows(&fault.1) > 0);
    all.extend(wall_faults());
    all
}
