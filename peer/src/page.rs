//! The page of K4 and K7 read by what it shows, and held to the peer's own sequence: which place stands under which
//! handle, in which row and column, and what is told there. A place of the ground that is not shown is read off its
//! place in the air.

use crate::rig::{Doors, Gears};
use crate::rules::Rules;
use crate::svg::{number, numbers, read, Node};
use crate::wall::{aim, as_if_aim, place_words, possible, rows, shown_of_ground, table_number, word};
use crate::wall::{Entry, DOORS, FACTS, GEARS, IN_AIR, PLACES};

/// What disagrees, and at which place, if it is of one.
#[derive(Clone, PartialEq, Eq, Debug)]
pub struct Wrong {
    pub place: Option<usize>,
    pub reason: String,
}

impl std::fmt::Display for Wrong {
    fn fmt(&self, f: &mut std::fmt::Formatter<'_>) -> std::fmt::Result {
        match self.place {
            Some(place) => write!(f, "{} ({} on): {}", place_words(place), 16 * place, self.reason),
            None => write!(f, "{}", self.reason),
        }
    }
}

#[derive(Clone, Copy, PartialEq, Debug)]
struct Point {
    x: f64,
    y: f64,
}

/// A rectangle of the page.
#[derive(Clone, Copy, Debug)]
struct Area {
    low: Point,
    high: Point,
}

impl Area {
    fn at(low: Point, width: f64, height: f64) -> Area {
        Area { low, high: Point { x: low.x + width, y: low.y + height } }
    }

    fn with(self, other: Area) -> Area {
        let low = Point { x: self.low.x.min(other.low.x), y: self.low.y.min(other.low.y) };
        Area { low, high: Point { x: self.high.x.max(other.high.x), y: self.high.y.max(other.high.y) } }
    }

    fn holds(&self, p: Point) -> bool {
        (self.low.x..=self.high.x).contains(&p.x) && (self.low.y..=self.high.y).contains(&p.y)
    }
}

struct Text {
    class: String,
    words: String,
    at: Point,
    bold: bool,
}

/// A place as it is drawn.
struct Drawn {
    never: bool,
    /// Its box, if it has one, and whether something in it has a fill of its own.
    area: Option<Area>,
    filled: bool,
    texts: Vec<Text>,
}

/// What a heading is of.
#[derive(Clone, Copy, PartialEq, Debug)]
enum Head {
    Handle(Handle),
    Doors(Doors),
    Gears(Gears),
}

/// A handle, in the air or on the ground.
#[derive(Clone, Copy, PartialEq, Eq, PartialOrd, Ord, Debug)]
struct Handle {
    ground: bool,
    down: bool,
}

impl std::fmt::Display for Handle {
    fn fmt(&self, f: &mut std::fmt::Formatter<'_>) -> std::fmt::Result {
        let ground = if self.ground { " on ground" } else { "" };
        write!(f, "handle {}{ground}", if self.down { "DOWN" } else { "UP" })
    }
}

/// What is said beside a handle.
#[derive(Clone, Copy, PartialEq, Debug)]
enum Aim {
    At(Gears),
    AsIf(Gears),
}

impl std::fmt::Display for Aim {
    fn fmt(&self, f: &mut std::fmt::Formatter<'_>) -> std::fmt::Result {
        match *self {
            Aim::At(gears) => write!(f, "aims at {}", word(gears)),
            Aim::AsIf(gears) => write!(f, "acts as if gears {} were at the aim", word(gears)),
        }
    }
}

/// A page as it is drawn.
#[derive(Default)]
struct Page {
    heads: Vec<(Head, Point)>,
    /// What is said of an aim, and of the table's number.
    aims: Vec<(Aim, Point)>,
    numbers: Vec<(u64, Point)>,
    places: Vec<Drawn>,
    style: String,
}

/// Where a point or a group goes by `transform`: shifts, and for a heading a turn about its own point.
fn moved(node: &Node, mut p: Point, may_turn: bool) -> Result<Point, String> {
    let Some(transform) = node.get("transform") else { return Ok(p) };
    let unknown = || format!("transform='{transform}' is not understood");
    let mut steps = Vec::new();
    for part in transform.split_inclusive(')') {
        let part = part.trim_matches([' ', ',', '\n', '\t', '\r']);
        if part.is_empty() {
            continue;
        }
        let (name, list) = part.strip_suffix(')').and_then(|p| p.split_once('(')).ok_or_else(unknown)?;
        steps.push((name.trim_end(), numbers(list).ok_or_else(unknown)?));
    }
    for (name, list) in steps.into_iter().rev() {
        match (name, &list[..]) {
            ("translate", [x]) => p.x += x,
            ("translate", [x, y]) => p = Point { x: p.x + x, y: p.y + y },
            ("rotate", [_]) if may_turn && p == ZERO => {}
            ("rotate", [_, x, y]) if may_turn && p == (Point { x: *x, y: *y }) => {}
            _ => return Err(unknown()),
        }
    }
    Ok(p)
}

fn shifted(origin: Point, by: Point) -> Point {
    Point { x: origin.x + by.x, y: origin.y + by.y }
}

const ZERO: Point = Point { x: 0.0, y: 0.0 };
/// The classes of texts that belong in a place.
const INSIDE: [&str; 4] = ["numbers", "when", "moves", "keeps"];

impl Page {
    fn read(page: &[u8]) -> Result<Page, String> {
        let page = std::str::from_utf8(page).map_err(|_| "the page is not UTF-8".to_string())?;
        let root = read(page)?;
        let sheet = sheet(&root)?;
        let mut shown = Page::default();
        shown.outside(&root, ZERO)?;
        let areas = shown.places.iter().filter_map(|place| place.area);
        let texts = shown.heads.iter().map(|head| head.1);
        let texts = texts.chain(shown.aims.iter().map(|aim| aim.1));
        let texts = texts.chain(shown.numbers.iter().map(|number| number.1));
        let mut points = texts.chain(areas.flat_map(|area| [area.low, area.high]));
        match points.find(|&p| !sheet.holds(p)) {
            Some(p) => Err(format!("something stands at {} {}, off the page", p.x, p.y)),
            None => Ok(shown),
        }
    }

    /// What stands in a group that is no place.
    fn outside(&mut self, group: &Node, origin: Point) -> Result<(), String> {
        for node in &group.nodes {
            match &node.name[..] {
                "style" => self.style += &node.text,
                "g" => {
                    let origin = shifted(origin, moved(node, ZERO, false)?);
                    if node.has_class("place") || node.has_class("never") {
                        let (never, texts) = (node.has_class("never"), Vec::new());
                        let mut place = Drawn { never, area: None, filled: false, texts };
                        place.inside(node, origin)?;
                        self.places.push(place);
                    } else {
                        self.outside(node, origin)?;
                    }
                }
                "text" => {
                    let at = Point { x: node.number("x")?, y: node.number("y")? };
                    let at = shifted(origin, moved(node, at, true)?);
                    if node.has_class("handle") || node.has_class("head") {
                        self.heads.push((head(node)?, at));
                    } else if node.has_class("aim") {
                        self.aims.push((told(node, aim_words)?, at));
                    } else if node.has_class("table") {
                        let number = |text: &str| text.strip_prefix("table number ").and_then(plain_number);
                        self.numbers.push((told(node, number)?, at));
                    } else if let Some(class) = INSIDE.iter().find(|class| node.has_class(class)) {
                        return Err(format!("a text of class {class} stands in no place: {}", node.words()));
                    }
                }
                _ => {}
            }
        }
        Ok(())
    }

    /// Whether the style says something of a class, in a rule for one of these elements ("" for any).
    fn styled(&self, class: &str, elements: &[&str], says: fn(&str) -> bool) -> bool {
        let of_class = |part: &str| part.split('.').skip(1).any(|name| name == class);
        let selects = |selector: &str| {
            let parts: Vec<&str> = selector.split([' ', '>', '\n', '{']).filter(|p| !p.is_empty()).collect();
            let element = parts.last().and_then(|last| last.split('.').next());
            parts.iter().any(|part| of_class(part)) && element.is_some_and(|e| elements.contains(&e))
        };
        let mut rules = self.style.split('}').filter_map(|rule| rule.rsplit_once('{'));
        rules.any(|(selectors, rule)| selectors.split(',').any(selects) && says(rule))
    }
}

fn says_bold(rule: &str) -> bool {
    let rule: String = rule.split_whitespace().collect();
    rule.contains("bold")
        || ["600", "700", "800", "900"].iter().any(|n| rule.contains(&format!("weight:{n}")))
}

/// A fill that is neither nothing nor white.
fn says_filled(rule: &str) -> bool {
    let rule: String = rule.to_lowercase().split_whitespace().collect();
    let mut fills = rule.split(';').filter_map(|part| part.strip_prefix("fill:"));
    fills.next_back().is_some_and(|fill| !["none", "white", "#fff", "#ffffff"].contains(&fill))
}

impl Drawn {
    fn inside(&mut self, group: &Node, origin: Point) -> Result<(), String> {
        for node in &group.nodes {
            let at = Point { x: node.number("x")?, y: node.number("y")? };
            match &node.name[..] {
                "g" if node.has_class("place") || node.has_class("never") => {
                    return Err("a place stands in a place".into());
                }
                "g" => self.inside(node, shifted(origin, moved(node, ZERO, false)?))?,
                "rect" => {
                    let at = shifted(origin, moved(node, at, false)?);
                    let area = Area::at(at, node.number("width")?, node.number("height")?);
                    self.area = Some(self.area.map_or(area, |all| all.with(area)));
                    let fill = node.get("fill").map(|fill| format!("fill:{fill}"));
                    let own = [fill.as_deref(), node.get("style")];
                    self.filled |= own.into_iter().flatten().any(says_filled);
                }
                "text" => {
                    let weight = node.get("font-weight").map(|weight| format!("font-weight:{weight}"));
                    let own = [weight.as_deref(), node.get("style")];
                    self.texts.push(Text {
                        class: node.get("class").unwrap_or_default().into(),
                        words: node.words(),
                        at: shifted(origin, moved(node, at, false)?),
                        bold: own.into_iter().flatten().any(says_bold),
                    });
                }
                "title" | "desc" => {}
                _ if node.is_shape() => {}
                name => return Err(format!("<{name}> in a place is not understood")),
            }
        }
        Ok(())
    }

    /// Where it stands: its box, else all of its texts.
    fn extent(&self) -> Option<Area> {
        let texts = self.texts.iter().map(|text| Area { low: text.at, high: text.at });
        self.area.or_else(|| texts.reduce(Area::with))
    }
}

/// The sheet in the page's own units: A3, upright.
fn sheet(root: &Node) -> Result<Area, String> {
    if root.get("xmlns") != Some("http://www.w3.org/2000/svg") {
        return Err("<svg> lacks xmlns='http://www.w3.org/2000/svg', so no browser draws it".into());
    }
    let millimetres = |name: &str| {
        let text = root.get(name)?;
        let units = [("mm", 1.0), ("cm", 10.0), ("in", 25.4), ("px", 25.4 / 96.0), ("", 25.4 / 96.0)];
        units.iter().find_map(|(unit, by)| Some(number(text.strip_suffix(unit)?)? * by))
    };
    let is = |length: Option<f64>, wanted: f64| length.is_some_and(|l| (l - wanted).abs() < 0.5);
    if !is(millimetres("width"), 297.0) || !is(millimetres("height"), 420.0) {
        return Err("the page is not 297 mm wide and 420 mm high".into());
    }
    let Some(text) = root.get("viewBox") else {
        return Ok(Area::at(ZERO, 297.0 / 25.4 * 96.0, 420.0 / 25.4 * 96.0));
    };
    match numbers(text).as_deref() {
        Some(&[x, y, width, height]) if (height / width - 420.0 / 297.0).abs() < 0.01 => {
            Ok(Area::at(Point { x, y }, width, height))
        }
        _ => Err(format!("viewBox='{text}' is not that of a sheet of A3")),
    }
}

fn doors_word(text: &str) -> Option<Doors> {
    DOORS.into_iter().find(|&doors| word(doors) == text)
}

fn gears_word(text: &str) -> Option<Gears> {
    GEARS.into_iter().find(|&gears| word(gears) == text)
}

fn head(node: &Node) -> Result<Head, String> {
    let words = node.words();
    let known = match (node.has_class("handle"), &words[..]) {
        (true, text) => {
            let (text, ground) = text.strip_suffix(", on ground").map_or((text, false), |text| (text, true));
            let handles = [("Handle UP", false), ("Handle DOWN", true)];
            let handle = handles.into_iter().find(|handle| handle.0 == text);
            handle.map(|(_, down)| Head::Handle(Handle { ground, down }))
        }
        (false, text) => doors_word(text.strip_prefix("doors ").unwrap_or(text))
            .map(Head::Doors)
            .or_else(|| gears_word(text.strip_prefix("gears ").unwrap_or(text)).map(Head::Gears)),
    };
    known.ok_or_else(|| format!("the heading '{words}' is not understood"))
}

/// A number in decimal, with nothing before it that could be left out.
fn plain_number(text: &str) -> Option<u64> {
    text.parse().ok().filter(|n: &u64| n.to_string() == text)
}

fn aim_words(text: &str) -> Option<Aim> {
    let as_if = |text: &str| text.strip_suffix(" were at the aim").and_then(gears_word).map(Aim::AsIf);
    match text.strip_prefix("aims at ") {
        Some(text) => gears_word(text).map(Aim::At),
        None => text.strip_prefix("acts as if gears ").and_then(as_if),
    }
}

/// What a text tells, by those who know.
fn told<T>(node: &Node, known: impl Fn(&str) -> Option<T>) -> Result<T, String> {
    let words = node.words();
    known(&words).ok_or_else(|| format!("'{words}' is not understood"))
}

/// What a place tells of doors and gears: nothing for `stays`, else each with whether it is told as a move.
type Told = Option<((Doors, bool), (Gears, bool))>;

/// What is written at a place.
struct Read {
    /// The place that its numbers are of.
    place: usize,
    fact: Option<usize>,
    then: Told,
    other: Option<Told>,
}

/// The place whose entries are called so.
fn numbers_of(text: &str) -> Option<usize> {
    (0..PLACES).find(|place| text == format!("{} to {}", 16 * place, 16 * place + 15))
}

/// The next text of a place, which must be there.
fn next<'a>(texts: &mut std::slice::Iter<'a, Text>, wanted: &str) -> Result<&'a Text, String> {
    texts.next().ok_or_else(|| format!("{wanted} is missing"))
}

impl Text {
    fn is_of(&self, class: &str) -> bool {
        self.class.split_whitespace().any(|c| c == class)
    }
}

impl Page {
    fn is_bold(&self, text: &Text) -> bool {
        text.bold || text.class.split_whitespace().any(|class| self.styled(class, &["", "text"], says_bold))
    }

    fn is_grey(&self, drawn: &Drawn) -> bool {
        drawn.filled
            || match drawn.never {
                true => self.styled("never", &["", "g", "rect"], says_filled),
                false => self.styled("place", &["rect"], says_filled),
            }
    }

    /// `stays`, or doors and gears.
    fn outcome(&self, texts: &mut std::slice::Iter<Text>) -> Result<Told, String> {
        let first = next(texts, "what comes next")?;
        if first.words == "stays" {
            return match first.is_of("moves") || self.is_bold(first) {
                true => Err("stays is told as a move".into()),
                false => Ok(None),
            };
        }
        let second = next(texts, "what the gears do next")?;
        let moves = |text: &Text| match (text.is_of("moves"), text.is_of("keeps"), self.is_bold(text)) {
            (true, false, true) => Ok(true),
            (false, true, false) => Ok(false),
            (true, false, _) => Err(format!("'{}' is of moves and not bold", text.words)),
            (false, true, _) => Err(format!("'{}' is of keeps and bold", text.words)),
            _ => Err(format!("'{}' is not of one of moves and keeps", text.words)),
        };
        let doors = first.words.strip_prefix("doors ").and_then(doors_word);
        let gears = second.words.strip_prefix("gears ").and_then(gears_word);
        let (Some(doors), Some(gears)) = (doors, gears) else {
            return Err(format!("'{}', '{}' is not understood", first.words, second.words));
        };
        Ok(Some(((doors, moves(first)?), (gears, moves(second)?))))
    }

    /// All that is written at a place, in its order.
    fn told(&self, drawn: &Drawn) -> Result<Read, String> {
        let mut texts = drawn.texts.iter();
        let numbers = next(&mut texts, "the text with its numbers")?;
        let place = numbers_of(&numbers.words).filter(|_| numbers.is_of("numbers"));
        let place = place.ok_or_else(|| format!("'{}' are not the numbers of a place", numbers.words))?;
        let when = next(&mut texts, "its condition")?;
        let fact = match &when.words[..] {
            "always" => Some(None),
            words => FACTS.iter().position(|fact| words == format!("if {fact}")).map(Some),
        };
        let fact = fact.filter(|_| when.is_of("when"));
        let fact = fact.ok_or_else(|| format!("'{}' is not a condition", when.words))?;
        let then = self.outcome(&mut texts)?;
        let other = match texts.next() {
            None => None,
            Some(text) if text.words == "else" => Some(self.outcome(&mut texts)?),
            Some(text) => return Err(format!("'{}' is not understood", text.words)),
        };
        if let Some(text) = texts.next() {
            return Err(format!("'{}' is one text too many", text.words));
        }
        // What is told later stands lower, and nothing outside its box.
        if drawn.texts[1..].windows(2).any(|two| two[1].at.y < two[0].at.y) {
            return Err("its texts do not stand below each other in their order".into());
        }
        if let Some(text) =
            drawn.texts.iter().find(|text| drawn.area.is_some_and(|area| !area.holds(text.at)))
        {
            return Err(format!("'{}' stands outside its box", text.words));
        }
        Ok(Read { place, fact, then, other })
    }

    /// The place where it stands: the nearest handle above, and below that the headings of its column and of its row,
    /// one of doors and one of gears.
    fn stands(&self, drawn: &Drawn) -> Result<usize, String> {
        let area = drawn.extent().ok_or("a place is empty")?;
        let at = format!("the place at {} {}", area.low.x, area.low.y);
        let above = |p: Point| (p.y <= area.low.y).then_some(area.low.y - p.y);
        let left = |p: Point| (p.x <= area.low.x).then_some(area.low.x - p.x);
        let handles = self.handles().into_iter();
        let handles: Vec<((Handle, f64), f64)> =
            handles.filter_map(|(handle, p)| Some(((handle, p.y), above(p)?))).collect();
        let (handle, top) = nearest(&handles).ok_or_else(|| format!("{at} is headed by no one handle"))?;
        let mut columns: Vec<(Head, f64)> = Vec::new();
        let mut rows: Vec<(Head, f64)> = Vec::new();
        for &(head, p) in &self.heads {
            if matches!(head, Head::Handle(_)) || p.y < top {
                continue;
            }
            if (area.low.x..area.high.x).contains(&p.x) {
                columns.extend(above(p).map(|far| (head, far)));
            }
            if (area.low.y..area.high.y).contains(&p.y) {
                rows.extend(left(p).map(|far| (head, far)));
            }
        }
        let column = nearest(&columns).ok_or_else(|| format!("{at} is in the column of no one heading"))?;
        let row = nearest(&rows).ok_or_else(|| format!("{at} is in the row of no one heading"))?;
        let Handle { ground, down } = handle;
        match (column, row) {
            (Head::Gears(gears), Head::Doors(doors)) | (Head::Doors(doors), Head::Gears(gears)) => {
                Ok(Entry { ground, down, doors, gears, facts: [false; 4] }.number() / 16)
            }
            _ => Err(format!("{at} is in the column of {column:?} and in the row of {row:?}")),
        }
    }

    /// The headings of the handle.
    fn handles(&self) -> Vec<(Handle, Point)> {
        let handle = |head: &(Head, Point)| match head.0 {
            Head::Handle(handle) => Some((handle, head.1)),
            _ => None,
        };
        self.heads.iter().filter_map(handle).collect()
    }

    /// Handle UP above DOWN, below them those of the ground that have a place to show; the headings of each line and of
    /// each side in the order of their numbers.
    fn order(&self, r: &Rules) -> Option<String> {
        let of_ground = shown_of_ground(r).into_iter().map(|place| Entry::of(16 * place));
        let mut wanted: Vec<Handle> =
            of_ground.map(|Entry { ground, down, .. }| Handle { ground, down }).collect();
        wanted.extend([false, true].map(|down| Handle { ground: false, down }));
        wanted.sort();
        wanted.dedup();
        let mut handles = self.handles();
        handles.sort_by(|a, b| a.1.y.total_cmp(&b.1.y));
        let found: Vec<Handle> = handles.iter().map(|handle| handle.0).collect();
        if found != wanted {
            let list =
                |handles: &[Handle]| handles.iter().map(Handle::to_string).collect::<Vec<_>>().join(", ");
            return Some(format!("the headings are {}, not {}", list(&found), list(&wanted)));
        }
        let block = |p: &Point| handles.iter().filter(|handle| handle.1.y <= p.y).count();
        for (a, p) in &self.heads {
            for (b, q) in &self.heads {
                let rising = match (a, b) {
                    (Head::Gears(a), Head::Gears(b)) => (*a as u8) < *b as u8,
                    (Head::Doors(a), Head::Doors(b)) => (*a as u8) < *b as u8,
                    _ => false,
                };
                let behind = if p.y == q.y { p.x >= q.x } else { p.y > q.y };
                if rising && behind && block(p) == block(q) {
                    return Some(format!("the headings {a:?} and {b:?} stand in the wrong order"));
                }
            }
        }
        None
    }
}

impl Page {
    /// Beside each handle, at its height, stands what it aims at, or on the ground acts as if, and nowhere else.
    fn aimed(&self, r: &Rules) -> Option<String> {
        for (handle, p) in self.handles() {
            let own = match handle.ground {
                false => aim(r, handle.down).map(Aim::At),
                true => as_if_aim(r, handle.down).map(Aim::AsIf),
            };
            let beside = self.aims.iter().filter(|(_, q)| q.y == p.y && q.x > p.x);
            match (&beside.map(|told| told.0).collect::<Vec<_>>()[..], own) {
                ([], None) => {}
                ([told], Some(own)) if *told == own => {}
                ([told], _) => return Some(format!("{handle}: it is not so that it {told}")),
                (told, _) => return Some(format!("{} aims beside {handle}, not 1", told.len())),
            }
        }
        let (aims, handles) = (self.aims.len(), self.handles().len());
        (aims > handles).then(|| format!("{aims} aims, not {handles}"))
    }

    /// The table's number is there once, and is that of the peer's own sequence.
    fn numbered(&self, r: &Rules) -> Option<String> {
        let own = table_number(&rows(r));
        match self.numbers[..] {
            [(told, _)] if told == own => None,
            [(told, _)] => Some(format!("the table number is {told}, and the table's is {own}")),
            ref told => Some(format!("{} table numbers, not 1", told.len())),
        }
    }
}

/// The nearest, if there is just one.
fn nearest<T: Copy>(all: &[(T, f64)]) -> Option<T> {
    let least = all.iter().map(|one| one.1).fold(f64::INFINITY, f64::min);
    let mut near = all.iter().filter(|one| one.1 == least);
    near.next().filter(|_| near.next().is_none()).map(|one| one.0)
}

/// The facts that make a difference at a place, for some set of the others.
pub fn differences(r: &Rules, place: usize) -> Vec<usize> {
    let next = |n: usize| Entry::of(16 * place + n).next(r);
    (0..4).filter(|fact| (0..16).any(|n| next(n) != next(n ^ 8 >> fact))).collect()
}

/// What the page tells at a place that is not the rule there.
fn disagrees(r: &Rules, place: usize, read: &Read) -> Vec<String> {
    let mut wrong = Vec::new();
    let Entry { doors, gears, .. } = Entry::of(16 * place);
    if read.place != place {
        wrong.push(format!("it bears the numbers of {}", place_words(read.place)));
    }
    let named: Vec<usize> = read.fact.into_iter().collect();
    let wanted = differences(r, place);
    if named != wanted {
        let list = |facts: &[usize]| match facts {
            [] => "no fact".to_string(),
            _ => facts.iter().map(|&fact| FACTS[fact]).collect::<Vec<_>>().join(", "),
        };
        wrong.push(format!("{} is named, and {} makes a difference", list(&named), list(&wanted)));
    }
    if read.fact.is_some() != read.other.is_some() {
        let what = if read.fact.is_some() { "a condition without else" } else { "else without a condition" };
        wrong.push(what.into());
    }
    // Words, and how they are told.
    for told in [Some(read.then), read.other].into_iter().flatten().flatten() {
        let ((next_doors, doors_move), (next_gears, gears_move)) = told;
        let changes = (next_doors != doors, next_gears != gears);
        if changes == (false, false) {
            wrong.push("neither doors nor gears change, and it does not say stays".into());
        }
        if changes != (doors_move, gears_move) {
            let (a, b) = (word(next_doors), word(next_gears));
            wrong.push(format!("of doors {a} and gears {b}, what changes is not what is told as a move"));
        }
    }
    // Sets of facts.
    let differ = told_wrong(r, place, read);
    if let Some(first) = differ.first() {
        let (doors, gears) = Entry::of(*first).next(r);
        let (doors, gears) = (word(doors), word(gears));
        let count = differ.len();
        let first = format!("the first, {first}, is doors {doors}, gears {gears}");
        wrong.push(format!("{count} of its 16 entries are told wrong; {first}"));
    }
    wrong
}

/// The entries of a place of which something else is told than the rule there.
fn told_wrong(r: &Rules, place: usize, read: &Read) -> Vec<usize> {
    let wrong = |&number: &usize| {
        let entry = Entry::of(number);
        let holds = read.fact.is_none_or(|fact| entry.facts[fact]);
        let told = if holds { Some(read.then) } else { read.other };
        let stays = (entry.doors, entry.gears);
        told.map(|told| told.map_or(stays, |(doors, gears)| (doors.0, gears.0))) != Some(entry.next(r))
    };
    (16 * place..16 * place + 16).filter(wrong).collect()
}

/// All that the page of the other side has wrong.
pub fn check(r: &Rules, page: &[u8]) -> Vec<Wrong> {
    let page = match Page::read(page) {
        Ok(page) => page,
        Err(reason) => return vec![Wrong { place: None, reason }],
    };
    let mut wrong = Vec::new();
    let mut times = [0usize; PLACES];
    let mut reads: [Option<Read>; PLACES] = std::array::from_fn(|_| None);
    let of_all = [page.order(r), page.aimed(r), page.numbered(r)];
    wrong.extend(of_all.into_iter().flatten().map(|reason| Wrong { place: None, reason }));
    for drawn in &page.places {
        let (place, read) = (page.stands(drawn), page.told(drawn));
        let (place, read) = match (place, read) {
            (Ok(place), Ok(read)) => (place, read),
            (place, read) => {
                let at = place.as_ref().ok().copied();
                at.into_iter().for_each(|place| times[place] += 1);
                let of = at.or(read.as_ref().ok().map(|read| read.place));
                for reason in [place.err(), read.err()].into_iter().flatten() {
                    wrong.push(Wrong { place: of, reason });
                }
                continue;
            }
        };
        times[place] += 1;
        let mut reasons = disagrees(r, place, &read);
        let Entry { doors, gears, .. } = Entry::of(16 * place);
        if drawn.never == possible(doors, gears) {
            let be = if drawn.never { "is grey, yet it can be" } else { "is not grey, yet it cannot be" };
            reasons.push(format!("it {be} reached"));
        } else if drawn.never != page.is_grey(drawn) {
            reasons.push(if drawn.never { "it is not drawn grey" } else { "it is drawn grey" }.into());
        }
        wrong.extend(reasons.into_iter().map(|reason| Wrong { place: Some(place), reason }));
        reads[place] = Some(read);
    }
    let shown = shown_of_ground(r);
    for (place, &times) in times.iter().enumerate() {
        let reason = match (times, place < IN_AIR || shown.contains(&place)) {
            (0, true) => "it is not there".into(),
            (1.., false) => "it is there, yet what comes next is as in the air".into(),
            (2.., true) => format!("it is there {times} times"),
            (1, true) => continue,
            // What is told of it is what its place in the air tells.
            (0, false) => match reads[place - IN_AIR].as_ref().map(|read| told_wrong(r, place, read)) {
                Some(told) if !told.is_empty() => {
                    format!("{} of its 16 entries are told wrong by its place in the air", told.len())
                }
                _ => continue,
            },
        };
        wrong.push(Wrong { place: Some(place), reason });
    }
    wrong
}
