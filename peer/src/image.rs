//! Requests K3 and K6: the controller as an image of XDR items of four bytes each, in the old form or the new one, the
//! taking of an image, the same image in the other form, and an image in words.
//!
//! An image holds numbers as they stand in its bytes, in or out of range; one of the old form has no odd channel and no
//! count, so both are 0. The controller has no ages: they are worked out when an image is made, and put back as times
//! of last change when one starts a lesson. Likewise it has no counts, but a past.

use crate::dump::WIRES;
use crate::rig::{Doors, Gears, Rig, CLOSE, EXTEND, GENERAL, HANDLE_CLOCK, OPEN, RETRACT, SENSORS};
use crate::rules::{Rules, Slip};
use std::fmt::Write;

pub const SENSOR_COUNT: usize = 18;
const INVALID: u32 = 4;

/// The form of K3, and that of K6 with an odd channel and a count behind each held value.
#[derive(Clone, Copy, PartialEq, Eq, Debug)]
#[rustfmt::skip]
pub enum Form { Old, New }

impl Form {
    /// How many items a sensor has.
    const fn of_a_sensor(self) -> usize {
        match self {
            Form::Old => 2,
            Form::New => 4,
        }
    }

    pub const fn items(self) -> usize {
        15 + SENSOR_COUNT * self.of_a_sensor()
    }

    pub const fn bytes(self) -> usize {
        4 * self.items()
    }

    /// The form that a length tells.
    pub fn of(r: &Rules, length: usize) -> Option<Form> {
        let [old, new] = [Form::Old, Form::New].map(Form::bytes);
        match r.slip {
            Slip::LengthInFours if !length.is_multiple_of(4) => None,
            Slip::LongerTaken | Slip::LengthInFours if length > new => Some(Form::New),
            Slip::LongerTaken | Slip::LengthInFours if (old..new).contains(&length) => Some(Form::Old),
            Slip::ShorterTaken if length < old => Some(Form::Old),
            Slip::ShorterTaken if length < new => Some(Form::New),
            Slip::OldUntaken if length == old => None,
            Slip::NewUntaken if length == new => None,
            _ => [Form::Old, Form::New].into_iter().find(|form| form.bytes() == length),
        }
    }
}

/// What an item is of: a sensor as in the sample, an order as in the output row, the handle's clock.
#[derive(Clone, Copy, PartialEq, Eq, Debug)]
#[rustfmt::skip]
pub enum Item {
    Stamp, Voter(usize), Held(usize), Odd(usize), Count(usize), On(usize), Age(usize), Doors, Gears, Cause,
}

/// The items in their order.
pub fn layout(r: &Rules, form: Form) -> Vec<Item> {
    let mut all = vec![Item::Stamp];
    for sensor in 0..SENSOR_COUNT {
        all.extend([Item::Voter(sensor), Item::Held(sensor)]);
        if form == Form::New {
            all.extend([Item::Odd(sensor), Item::Count(sensor)]);
        }
    }
    all.extend((GENERAL..=EXTEND).flat_map(|order| [Item::On(order), Item::Age(order)]));
    all.extend([Item::Age(HANDLE_CLOCK), Item::Doors, Item::Gears, Item::Cause]);
    misplace(r, form, &mut all);
    if form == Form::New {
        misplace_counts(r, &mut all);
    }
    all
}

/// Faults only: items of either form in other places.
fn misplace(r: &Rules, form: Form, all: &mut [Item]) {
    let at = |item| all.iter().position(|&i| i == item).unwrap_or(0);
    let (stamp, voters, orders) = (0, 1..at(Item::On(GENERAL)), at(Item::On(GENERAL))..at(Item::Doors) - 1);
    let (handle, doors, cause) = (orders.end, at(Item::Doors), at(Item::Cause));
    let each = form.of_a_sensor();
    match r.slip {
        Slip::HeldBeforeVoter => all[voters].chunks_exact_mut(each).for_each(|one| one.swap(0, 1)),
        Slip::AgeBeforeOn => all[orders].chunks_exact_mut(2).for_each(<[Item]>::reverse),
        Slip::VotersFirst => all[voters].sort_by_key(|item| !matches!(item, Item::Voter(_))),
        Slip::SensorsBackwards => {
            all[voters.clone()].reverse();
            all[voters].chunks_exact_mut(each).for_each(<[Item]>::reverse);
        }
        Slip::LeftRightItems => {
            all[voters].chunks_exact_mut(3 * each).for_each(|three| three.rotate_left(each));
        }
        Slip::OpenCloseItems => all[orders][2..6].rotate_left(2),
        Slip::RetractExtendItems => all[orders][6..10].rotate_left(2),
        Slip::GeneralLast => all[orders].rotate_left(2),
        Slip::HandleAgeFirst => all[orders.start..=handle].rotate_right(1),
        Slip::DoorsGearsItems => all.swap(doors, doors + 1),
        Slip::CauseFirst => all[stamp + 1..=cause].rotate_right(1),
        Slip::StampLast => all.rotate_left(1),
        _ => {}
    }
}

/// Faults only: odd channels and counts in other places.
fn misplace_counts(r: &Rules, all: &mut [Item]) {
    let sensors = 1..1 + SENSOR_COUNT * Form::New.of_a_sensor();
    let counted = |item: &Item| matches!(item, Item::Odd(_) | Item::Count(_));
    match r.slip {
        Slip::CountBeforeOdd => all[sensors].chunks_exact_mut(4).for_each(|one| one.swap(2, 3)),
        Slip::CountsBeforeHeld => all[sensors].chunks_exact_mut(4).for_each(|one| one[1..].rotate_left(1)),
        Slip::CountsBeforeVoter => all[sensors].chunks_exact_mut(4).for_each(|one| one.rotate_left(2)),
        Slip::CountsBehindSensors => all[sensors].sort_by_key(counted),
        Slip::CountsLast => all.sort_by_key(counted),
        _ => {}
    }
}

/// The doors by number.
fn doors(r: &Rules) -> [Doors; 4] {
    use Doors::*;
    match r.slip {
        Slip::DoorsRenumbered => [Closed, Open, Opening, Closing],
        Slip::DoorsMovesSwapped => [Closed, Closing, Open, Opening],
        _ => [Closed, Opening, Open, Closing],
    }
}

/// The gears by number.
fn gears(r: &Rules) -> [Gears; 4] {
    use Gears::*;
    match r.slip {
        Slip::GearsEndsSwapped => [Extended, Extending, Retracted, Retracting],
        Slip::GearsMovesSwapped => [Retracted, Retracting, Extended, Extending],
        _ => [Retracted, Extending, Extended, Retracting],
    }
}

/// Voters by number: 0 all channels valid, 1 to 3 that channel struck, 4 invalid.
fn voters(r: &Rules) -> [u32; 5] {
    match r.slip {
        Slip::VotersFrom0 => [1, 2, 3, 0, INVALID],
        Slip::VotersBackwards => [0, 3, 2, 1, INVALID],
        _ => [0, 1, 2, 3, INVALID],
    }
}

/// The number that something has in a list.
fn number<T: PartialEq>(list: &[T], of: T) -> u32 {
    list.iter().position(|one| *one == of).unwrap_or(0) as u32
}

/// Why an image is not taken, or not converted.
#[derive(Clone, PartialEq, Eq, Debug)]
pub struct Untaken {
    pub refusal: u8,
    pub why: String,
}

impl std::fmt::Display for Untaken {
    fn fmt(&self, f: &mut std::fmt::Formatter<'_>) -> std::fmt::Result {
        write!(f, "refusal {}: {}", self.refusal, self.why)
    }
}

#[derive(Clone, PartialEq, Eq, Debug, Default)]
pub struct Image {
    pub stamp: u32,
    pub voter: [u32; SENSOR_COUNT],
    pub held: [u32; SENSOR_COUNT],
    /// The channel that was odd in the last samples, 0 for none; in how many they were, or in how many two differed.
    pub odd: [u32; SENSOR_COUNT],
    pub count: [u32; SENSOR_COUNT],
    pub on: [u32; 5],
    /// Of the five orders and of the handle.
    pub age: [u32; 6],
    pub doors: u32,
    pub gears: u32,
    pub cause: u32,
}

/// The clock of a controller that goes on from an image: no age is more.
const LOADED_AT: u64 = 60_000;

/// The sensors of which something holds.
fn bits(holds: impl Fn(usize) -> bool) -> u32 {
    (0..SENSOR_COUNT).filter(|&sensor| holds(sensor)).fold(0, |all, sensor| all | 1 << sensor)
}

/// What a sensor's voter has come to.
fn voter(r: &Rules, rig: &Rig, sensor: usize) -> u32 {
    let struck = |channel: usize| rig.ok[channel] >> sensor & 1 == 0;
    let first = (0..3).find(|&channel| struck(channel)).map_or(0, |channel| channel as u32 + 1);
    match (rig.invalid >> sensor & 1 == 1, first) {
        (true, _) if !r.is(Slip::InvalidAsStruck) => INVALID,
        (_, 1..) if r.is(Slip::StruckUnwritten) => 0,
        (_, 1..) if r.is(Slip::StruckAsInvalid) => INVALID,
        _ => first,
    }
}

/// What a sensor's voter has counted: the odd channel and the count.
fn counted(r: &Rules, rig: &Rig, sensor: usize) -> (u32, u32) {
    let (odd, count) = rig.counted(sensor);
    match r.slip {
        Slip::CountsUnsaved => (0, 0),
        Slip::OddUnsaved => (0, count),
        Slip::CountUnsaved => (odd, 0),
        Slip::SplitUnsaved if odd == 0 => (0, 0),
        Slip::OddSavedOnlyTwice if count == 1 => (0, 0),
        Slip::CountSavedAs1 => (odd, count.min(1)),
        Slip::CountSavedFrom0 => (odd, count.saturating_sub(1)),
        Slip::OddSavedFrom0 => (odd.saturating_sub(1), count),
        Slip::SplitSavedAsOdd if odd == 0 && count > 0 => (voter(r, rig, sensor) % 3 + 1, count),
        _ => (odd, count),
    }
}

impl Image {
    pub fn of(r: &Rules, rig: &Rig) -> Image {
        let held = if r.is(Slip::InvalidHeld0) { rig.held & !rig.invalid } else { rig.held };
        let on = [GENERAL, CLOSE, OPEN, RETRACT, EXTEND].map(|order| u32::from(rig.is_on(order)));
        let age = |clock: usize| match r.slip {
            Slip::AgesUncapped => (rig.now - rig.since[clock]) as u32,
            Slip::AgeOfOff0 if clock < HANDLE_CLOCK && on[clock] == 0 => 0,
            Slip::HandleAgeOfGeneral if clock == HANDLE_CLOCK => rig.age_at(r, rig.now, GENERAL) as u32,
            _ => rig.age_at(r, rig.now, clock) as u32,
        };
        Image {
            stamp: rig.stamp,
            voter: std::array::from_fn(|sensor| number(&voters(r), voter(r, rig, sensor))),
            held: std::array::from_fn(|sensor| held >> sensor & 1),
            odd: std::array::from_fn(|sensor| counted(r, rig, sensor).0),
            count: std::array::from_fn(|sensor| counted(r, rig, sensor).1),
            on,
            age: std::array::from_fn(age),
            doors: number(&doors(r), rig.doors),
            gears: number(&gears(r), rig.gears),
            cause: if r.is(Slip::CauseIsOne) { rig.cause.min(1).into() } else { rig.cause.into() },
        }
    }

    /// The controller that goes on from this image, at a new start stamp.
    pub fn start(&self, r: &Rules, stamp: u32) -> Rig {
        let is = |sensor: usize, number: u32| self.voter_to_load(r, sensor) == number;
        // An invalid sensor has no channel that counts.
        let struck = |channel: u32| bits(|sensor| is(sensor, channel) || is(sensor, INVALID));
        let held = match r.slip {
            Slip::HeldLost => Rig::fresh(r, stamp).held,
            _ => bits(|sensor| self.held[sensor] != 0),
        };
        let on = (GENERAL..=EXTEND).fold(0, |all, order| all | u8::from(self.on[order] != 0) << order);
        Rig {
            stamp: if r.is(Slip::StampKept) { self.stamp } else { stamp },
            now: LOADED_AT,
            since: std::array::from_fn(|clock| LOADED_AT.saturating_sub(self.age_to_load(r, clock, stamp))),
            on: if r.is(Slip::OrdersLost) { 0 } else { on },
            ok: [1, 2, 3].map(|channel| SENSORS & !struck(channel)),
            invalid: bits(|sensor| is(sensor, INVALID)),
            past: Rig::past_of(|sensor| self.counted_to_load(r, sensor)),
            held,
            doors: self.doors(r),
            gears: self.gears(r),
            cause: if r.is(Slip::CauseLost) { 0 } else { self.cause as u8 },
            aside: held,
            stood: false,
        }
    }

    fn age_to_load(&self, r: &Rules, clock: usize, stamp: u32) -> u64 {
        match r.slip {
            Slip::AgesLost => 60_000,
            Slip::AgesFrom0 => 0,
            Slip::AgeLost(lost) if lost == clock => 60_000,
            Slip::AgesSinceImage => u64::from(self.age[clock]) + u64::from(stamp.wrapping_sub(self.stamp)),
            _ => self.age[clock].into(),
        }
    }

    fn voter_to_load(&self, r: &Rules, sensor: usize) -> u32 {
        match self.voter(r, sensor) {
            INVALID if r.is(Slip::InvalidLost) => 0,
            1..INVALID if r.is(Slip::StruckLost) => 0,
            struck @ 1..INVALID if r.is(Slip::StruckNext) => struck % 3 + 1,
            other => other,
        }
    }

    fn counted_to_load(&self, r: &Rules, sensor: usize) -> (u32, u32) {
        let (odd, count) = (self.odd[sensor], self.count[sensor]);
        match r.slip {
            Slip::CountsUnloaded => (0, 0),
            Slip::OddUnloaded => (0, count),
            Slip::CountUnloaded => (odd, 0),
            Slip::SplitUnloaded if odd == 0 => (0, 0),
            Slip::CountLoadedAs1 => (odd, count.min(1)),
            Slip::CountLoadedOneMore if count > 0 => (odd, count + 1),
            Slip::OddLoadedNext if odd > 0 => (odd % 3 + 1, count),
            _ => (odd, count),
        }
    }

    fn voter(&self, r: &Rules, sensor: usize) -> u32 {
        voters(r)[self.voter[sensor].min(INVALID) as usize]
    }

    fn doors(&self, r: &Rules) -> Doors {
        doors(r)[self.doors as usize % 4]
    }

    fn gears(&self, r: &Rules) -> Gears {
        gears(r)[self.gears as usize % 4]
    }

    /// The number that an item has.
    pub fn item(&mut self, item: Item) -> &mut u32 {
        match item {
            Item::Stamp => &mut self.stamp,
            Item::Voter(sensor) => &mut self.voter[sensor],
            Item::Held(sensor) => &mut self.held[sensor],
            Item::Odd(sensor) => &mut self.odd[sensor],
            Item::Count(sensor) => &mut self.count[sensor],
            Item::On(order) => &mut self.on[order],
            Item::Age(clock) => &mut self.age[clock],
            Item::Doors => &mut self.doors,
            Item::Gears => &mut self.gears,
            Item::Cause => &mut self.cause,
        }
    }

    fn number(&self, item: Item) -> u32 {
        *self.clone().item(item)
    }

    /// As it is saved: in the new form.
    pub fn bytes(&self, r: &Rules) -> Vec<u8> {
        let old = r.is(Slip::SavesOld) || r.is(Slip::SavesOldUncounted) && self.count == [0; SENSOR_COUNT];
        self.bytes_in(r, if old { Form::Old } else { Form::New })
    }

    /// Most significant byte first.
    pub fn bytes_in(&self, r: &Rules, form: Form) -> Vec<u8> {
        let numbers = layout(r, form).into_iter().map(|item| self.number(item));
        match r.slip {
            Slip::LittleEndian => numbers.flat_map(u32::to_le_bytes).collect(),
            _ => numbers.flat_map(u32::to_be_bytes).collect(),
        }
    }

    /// The numbers that the bytes hold, of whatever size they are; bytes that are missing are 0.
    fn numbers(r: &Rules, form: Form, bytes: &[u8]) -> Image {
        let mut image = Image::default();
        let bytes: Vec<u8> = bytes.iter().copied().chain(std::iter::repeat(0)).take(form.bytes()).collect();
        for (item, four) in layout(r, form).into_iter().zip(bytes.chunks_exact(4)) {
            let four = [four[0], four[1], four[2], four[3]];
            *image.item(item) = match r.slip {
                Slip::LittleEndian => u32::from_le_bytes(four),
                _ => u32::from_be_bytes(four),
            };
        }
        if form == Form::Old {
            image.count_wrongly(r);
        }
        image
    }

    /// Faults only: odd channels and counts that the old form does not have.
    fn count_wrongly(&mut self, r: &Rules) {
        for sensor in 0..SENSOR_COUNT {
            match (r.slip, self.voter[sensor]) {
                (Slip::OldOdd, 0) => (self.odd[sensor], self.count[sensor]) = (1, 1),
                (Slip::OldSplit, 1..INVALID) => self.count[sensor] = 1,
                _ => {}
            }
        }
    }

    /// Takes an image of either form, or refuses it: 10 for its length or a number out of range, then 11 for a rule.
    pub fn take(r: &Rules, bytes: &[u8]) -> Result<Image, Untaken> {
        let (length, rule) = if r.is(Slip::RefusalsSwapped) { (11, 10) } else { (10, 11) };
        if bytes.is_empty() && r.is(Slip::EmptyIsFresh) {
            return Ok(Image::of(r, &Rig::fresh(r, 0)));
        }
        let Some(form) = Form::of(r, bytes.len()) else {
            let [old, new] = [Form::Old, Form::New].map(Form::bytes);
            let why = format!("neither {old} nor {new} bytes but {}", bytes.len());
            return Err(Untaken { refusal: length, why });
        };
        let image = Image::numbers(r, form, bytes);
        let ranged = !r.is(Slip::RangesUnchecked(form));
        let ruled = !r.is(Slip::RulesUnchecked(form));
        let outside = image.outside(r, form).filter(|_| ranged).map(|why| Untaken { refusal: length, why });
        let broken = image.broken(r).filter(|_| ruled).or_else(|| image.broken_count(r));
        let broken = broken.map(|why| Untaken { refusal: rule, why });
        let first = if r.is(Slip::RuleBeforeRange) { broken.or(outside) } else { outside.or(broken) };
        first.map_or(Ok(image), Err)
    }

    /// The first item that is out of range, if there is one.
    fn outside(&self, r: &Rules, form: Form) -> Option<String> {
        (1..).zip(layout(r, form)).find_map(|(place, item)| {
            let (value, top) = (self.number(item), top(r, item)?);
            (!within(r, item, value, top)).then(|| format!("item {place} is {value}, over {top}"))
        })
    }

    /// The rule of K3 that is broken, if there is one.
    fn broken(&self, r: &Rules) -> Option<String> {
        let moving = matches!(self.gears(r), Gears::Extending | Gears::Retracting);
        let checked = !r.is(Slip::MovingUnchecked)
            && r.slip != Slip::MovingTakes(self.doors)
            && r.slip != Slip::MovingForgets(self.gears);
        if moving && self.doors(r) != Doors::Open && checked {
            return Some("the gears move and the doors are not OPEN".into());
        }
        if r.is(Slip::OpenOnlyMoving) && self.doors(r) == Doors::Open && !moving {
            return Some("the doors are OPEN and the gears rest".into());
        }
        self.broken_order(r).or_else(|| self.broken_general(r)).or_else(|| self.broken_voter(r))
    }

    /// Document 01: when each of the four orders is wanted.
    fn wanted(&self, r: &Rules, order: usize) -> bool {
        let place = match order {
            OPEN if r.is(Slip::OpenWantedOpen) => matches!(self.doors(r), Doors::Opening | Doors::Open),
            OPEN => self.doors(r) == Doors::Opening,
            CLOSE => self.doors(r) == Doors::Closing,
            RETRACT => self.gears(r) == Gears::Retracting,
            _ => self.gears(r) == Gears::Extending,
        };
        let red = self.cause != 0 && !r.is(Slip::RedOrdersTaken) && !r.is(Slip::RedOrder(order));
        place && !red
    }

    /// Any of the four that is on is wanted and has general_EV on.
    fn broken_order(&self, r: &Rules) -> Option<String> {
        for (order, name) in WIRES.iter().enumerate().take(EXTEND + 1).skip(CLOSE) {
            let (on, wanted) = (self.on[order] != 0, self.wanted(r, order));
            if on && !wanted && !r.is(Slip::UnwantedTaken) && !r.is(Slip::UnwantedOrder(order)) {
                return Some(format!("{name} is on and not wanted"));
            }
            if on && self.on[GENERAL] == 0 && !r.is(Slip::OrdersWithoutGeneral) {
                return Some(format!("{name} is on and general_EV is off"));
            }
            if !on && wanted && r.is(Slip::WantedMustBeOn) {
                return Some(format!("{name} is wanted and off"));
            }
        }
        None
    }

    /// Doors not CLOSED without a cause has general_EV on.
    fn broken_general(&self, r: &Rules) -> Option<String> {
        let closed = self.doors(r) == Doors::Closed;
        let checked = !r.is(Slip::GeneralOffTaken) && r.slip != Slip::GeneralOffWith(self.doors);
        let red = self.cause != 0 && !r.is(Slip::GeneralOffRed);
        if !closed && !red && self.on[GENERAL] == 0 && checked {
            return Some("the doors are not CLOSED, there is no cause, and general_EV is off".into());
        }
        if r.is(Slip::GeneralOnClosed) && closed && self.on[GENERAL] != 0 {
            return Some("general_EV is on and the doors are CLOSED".into());
        }
        None
    }

    /// An invalid sensor has a cause.
    fn broken_voter(&self, r: &Rules) -> Option<String> {
        let needs_cause = |sensor: &usize| match self.voter[*sensor] {
            INVALID => !r.is(Slip::InvalidTaken) && !r.is(Slip::InvalidSensor(*sensor)),
            0 => false,
            _ => r.is(Slip::StruckNeedsCause),
        };
        let found = (0..SENSOR_COUNT).find(needs_cause);
        if let (Some(sensor), 0) = (found, self.cause) {
            return Some(format!("{} is invalid and there is no cause", WIRES[8 + sensor]));
        }
        let odd = match r.slip {
            Slip::InvalidOnly13 => found.is_some() && self.cause != 13,
            Slip::Cause13OnlyInvalid => found.is_none() && self.cause == 13,
            _ => false,
        };
        odd.then(|| "cause and sensors do not agree".into())
    }

    /// K6: the sensor whose odd channel or count its voter cannot have, if there is one. With all channels valid both
    /// are 0 or neither; with one struck there is no odd channel; with none valid there is neither.
    fn broken_count(&self, r: &Rules) -> Option<String> {
        let breaks = |sensor: &usize| {
            let (voter, odd, count) =
                (self.voter(r, *sensor), self.odd[*sensor] != 0, self.count[*sensor] != 0);
            match voter {
                0 => odd != count && !self.valid_taken(r, *sensor),
                INVALID => (odd || count) && !self.invalid_taken(r, *sensor),
                _ => odd && !self.struck_taken(r, *sensor) || count && r.is(Slip::StruckUncounted),
            }
        };
        let refused = |sensor: &usize| match r.slip {
            Slip::CountsNeedNoCause => self.cause != 0 && self.count[*sensor] != 0,
            Slip::CountOnlyFirst => *sensor > 0 && self.count[*sensor] != 0,
            _ => false,
        };
        let sensor = (0..SENSOR_COUNT).find(|sensor| breaks(sensor) || refused(sensor))?;
        let (name, odd, count) = (WIRES[8 + sensor], self.odd[sensor], self.count[sensor]);
        let voter = voter_words(r, self.voter(r, sensor));
        Some(format!("{name} is `{voter}`, its odd channel is {odd} and its count {count}"))
    }

    /// Faults only: the rule for all channels valid is not asked.
    fn valid_taken(&self, r: &Rules, sensor: usize) -> bool {
        match r.slip {
            Slip::ValidUnchecked => true,
            Slip::ValidForgets(forgotten) => forgotten == sensor,
            Slip::OddAloneTaken => self.odd[sensor] != 0,
            Slip::CountAloneTaken => self.count[sensor] != 0,
            _ => false,
        }
    }

    /// Faults only: the rule for one channel struck is not asked.
    fn struck_taken(&self, r: &Rules, sensor: usize) -> bool {
        match r.slip {
            Slip::StruckUnchecked => true,
            Slip::StruckForgets(forgotten) => forgotten == sensor,
            Slip::StruckForgetsChannel(channel) => channel == self.voter[sensor],
            Slip::StruckOddAloneTaken => self.count[sensor] == 0,
            Slip::StruckOddCountTaken => self.count[sensor] != 0,
            Slip::StruckOddSelfTaken => self.odd[sensor] == self.voter[sensor],
            _ => false,
        }
    }

    /// Faults only: the rule for an invalid sensor is not asked.
    fn invalid_taken(&self, r: &Rules, sensor: usize) -> bool {
        match r.slip {
            Slip::InvalidUnchecked => true,
            Slip::InvalidForgets(forgotten) => forgotten == sensor,
            Slip::InvalidOddTaken => self.count[sensor] == 0,
            Slip::InvalidCountTaken => self.odd[sensor] == 0,
            Slip::InvalidBothTaken => self.odd[sensor] != 0 && self.count[sensor] != 0,
            _ => false,
        }
    }

    /// Whether some count runs, for which the old form has no place.
    fn counting(&self, r: &Rules) -> bool {
        (0..SENSOR_COUNT).any(|sensor| match (r.slip, self.odd[sensor], self.count[sensor]) {
            (Slip::TwelveNever, ..) => false,
            (Slip::TwelveForOdd, odd, _) => odd != 0,
            (Slip::TwelveForSplit, odd, count) => odd == 0 && count != 0,
            (Slip::TwelveAt(at), _, count) => count == at,
            (Slip::TwelveForgets(forgotten), _, count) => forgotten != sensor && count != 0,
            (Slip::TwelveForStruck, _, count) => count != 0 || self.voter[sensor] != 0,
            (_, _, count) => count != 0,
        })
    }

    /// An image in the form asked for, into a buffer of so many bytes, or a refusal: 8 for the buffer, 10 and 11 as in
    /// taking it, 12 where the old form has no place for a count. Nothing is loaded.
    pub fn convert(r: &Rules, to: Form, room: usize, bytes: &[u8]) -> Result<Vec<u8>, Untaken> {
        let form = Form::of(r, bytes.len());
        let short = too_short(r, to, room);
        if r.is(Slip::SameUnchecked) && form == Some(to) {
            return short.map_or(Ok(bytes.to_vec()), Err);
        }
        let asked = |untaken: &Untaken| !r.is(Slip::ConvertsUnruled) || untaken.refusal != 11;
        let untaken = Image::take(r, bytes).err().filter(asked);
        let form = form.unwrap_or(to);
        let image = Image::numbers(r, form, bytes);
        let lost = image.has_no_place(r, form, to);
        first_refusal(r, short, untaken, lost).map_or_else(|| Ok(image.written(r, form, to)), Err)
    }

    /// 12: the old form has no place for what this image has counted.
    fn has_no_place(&self, r: &Rules, from: Form, to: Form) -> Option<Untaken> {
        let lost = match r.slip {
            Slip::OldGets12 if from == Form::Old => to == Form::Old,
            Slip::NewGets12 => self.counting(r),
            _ => to == Form::Old && self.counting(r),
        };
        lost.then(|| Untaken { refusal: 12, why: "a count runs, and the old form has none".into() })
    }

    /// The bytes of an image of one form in the other.
    fn written(mut self, r: &Rules, from: Form, to: Form) -> Vec<u8> {
        let other = Rules { slip: Slip::CountsBeforeHeld, ..r.clone() };
        match (r.slip, from, to) {
            (Slip::ConvertedStamp0, ..) => self.stamp = 0,
            (Slip::ConvertedAges0, ..) => self.age = [0; 6],
            (Slip::WidenedBeforeHeld, Form::Old, Form::New) => return self.bytes_in(&other, to),
            (Slip::WidenedOdd1, Form::Old, Form::New) => self.odd = [1; SENSOR_COUNT],
            (Slip::WidenedCount1, Form::Old, Form::New) => self.count = [1; SENSOR_COUNT],
            (Slip::NarrowedHeld, Form::New, Form::Old) => self.held = self.odd,
            (Slip::SameUncounted, Form::New, Form::New) => {
                (self.odd, self.count) = Default::default();
            }
            _ => {}
        }
        self.bytes_in(r, to)
    }

    /// The image in plain words, 28 lines.
    pub fn words(&self, r: &Rules) -> String {
        let mut text = String::new();
        // Writing to a string does not fail.
        let _ = self.write_words(r, &mut text);
        if r.is(Slip::ShownCrLf) {
            text = text.replace('\n', "\r\n");
        }
        if r.is(Slip::ShownNoLastLf) {
            text.pop();
        }
        text
    }

    fn write_words(&self, r: &Rules, text: &mut String) -> std::fmt::Result {
        let (names, sensors) = (&WIRES[..5], &WIRES[8..]);
        match r.slip {
            Slip::ShownStampSigned => writeln!(text, "last stamp: {}", self.stamp as i32)?,
            _ => writeln!(text, "last stamp: {}", plain(r, self.stamp))?,
        }
        for (sensor, name) in sensors.iter().enumerate() {
            let voter = voter_words(r, self.voter(r, sensor));
            let counted = counted_words(r, self.odd[sensor], self.count[sensor]);
            writeln!(text, "{name}: {voter}, held {}{counted}", self.held[sensor])?;
        }
        for (order, name) in names.iter().enumerate() {
            let on = if (self.on[order] != 0) != r.is(Slip::ShownOnOff) { "on" } else { "off" };
            writeln!(text, "{name}: {on}, age {} ms", plain(r, self.age[order]))?;
        }
        writeln!(text, "handle age: {} ms", plain(r, self.age[HANDLE_CLOCK]))?;
        // The names of doors and gears are those of the output rows.
        writeln!(text, "doors: {}", format!("{:?}", self.doors(r)).to_uppercase())?;
        writeln!(text, "gears: {}", format!("{:?}", self.gears(r)).to_uppercase())?;
        match self.cause {
            0 => writeln!(text, "cause: none"),
            n => writeln!(text, "cause: {n}, {}", cause_words(r, n)),
        }
    }
}

/// 8: a buffer of so many bytes is too short for a form.
fn too_short(r: &Rules, to: Form, room: usize) -> Option<Untaken> {
    let needed = match r.slip {
        Slip::EightNever => 0,
        Slip::EightForNew => Form::New.bytes(),
        Slip::EightForOld => Form::Old.bytes(),
        Slip::EightOneMore => to.bytes() + 1,
        Slip::EightOneLess => to.bytes() - 1,
        _ => to.bytes(),
    };
    let why = || format!("{room} bytes are no room for {needed}");
    (room < needed).then(|| Untaken { refusal: 8, why: why() })
}

/// The first that applies: 8, 10 or 11, 12.
fn first_refusal(
    r: &Rules,
    short: Option<Untaken>,
    untaken: Option<Untaken>,
    lost: Option<Untaken>,
) -> Option<Untaken> {
    let only = |n: u8| untaken.clone().filter(|untaken| untaken.refusal == n);
    match r.slip {
        Slip::EightAfterTen => only(10).or(short).or(only(11)).or(lost),
        Slip::EightAfterEleven => untaken.or(short).or(lost),
        Slip::EightLast => untaken.or(lost).or(short),
        Slip::TwelveBeforeEleven => short.or(only(10)).or(lost).or(only(11)),
        Slip::TwelveBeforeTen => short.or(lost).or(untaken),
        Slip::TwelveBeforeEight => lost.or(short).or(untaken),
        _ => short.or(untaken).or(lost),
    }
}

/// The highest number of an item; the stamp has none.
fn top(r: &Rules, item: Item) -> Option<u32> {
    let top = match item {
        Item::Stamp => return None,
        Item::Voter(sensor) | Item::Held(sensor) if r.is(Slip::SensorUnranged(sensor)) => return None,
        Item::Odd(sensor) if r.is(Slip::OddUnranged(sensor)) => return None,
        Item::Count(sensor) if r.is(Slip::CountUnranged(sensor)) => return None,
        Item::Age(clock) if r.is(Slip::AgeUnranged(clock)) => return None,
        Item::Voter(_) => r.top.voter,
        Item::Held(_) => r.top.held,
        Item::Odd(_) => r.top.odd,
        Item::Count(_) => r.top.count,
        Item::On(_) => r.top.on,
        Item::Age(HANDLE_CLOCK) => r.top.handle_age,
        Item::Age(_) => r.top.age,
        Item::Doors => r.top.doors,
        Item::Gears => r.top.gears,
        Item::Cause => r.top.cause,
    };
    Some(top)
}

fn within(r: &Rules, item: Item, value: u32, top: u32) -> bool {
    let counted = matches!(item, Item::Odd(_) | Item::Count(_));
    match r.slip {
        Slip::CountsSigned if counted => value as i32 <= top as i32,
        Slip::CountsLow16 if counted => value & 0xFFFF <= top,
        Slip::ItemsSigned => value as i32 <= top as i32,
        Slip::ItemsLow16 => value & 0xFFFF <= top,
        _ => value <= top,
    }
}

/// A number without separators.
fn plain(r: &Rules, n: u32) -> String {
    match r.slip {
        Slip::ShownThousands if n >= 1_000 => format!("{},{:03}", n / 1_000, n % 1_000),
        _ => n.to_string(),
    }
}

fn voter_words(r: &Rules, voter: u32) -> String {
    match voter {
        0 => "all channels valid".into(),
        INVALID => "invalid".into(),
        channel => format!("channel {} struck", channel - u32::from(r.is(Slip::ShownChannels0))),
    }
}

/// What is said of a voter that has counted something.
fn counted_words(r: &Rules, odd: u32, count: u32) -> String {
    let many = match (r.slip, count) {
        (Slip::ShownPlural, _) => format!("{count} samples"),
        (Slip::ShownSingular, _) | (_, 1) => format!("{count} sample"),
        _ => format!("{count} samples"),
    };
    match (r.slip, odd, count) {
        (Slip::ShownUncounted, ..) => String::new(),
        (Slip::ShownCount0, 0, 0) => ", count 0".into(),
        (_, 0, 0) => String::new(),
        (Slip::ShownSplitAsOdd, ..) => format!(", channel {odd} odd in {many}"),
        (Slip::ShownOddAsSplit, ..) | (_, 0, _) => format!(", the two differed in {many}"),
        (Slip::ShownOddFrom0, ..) => format!(", channel {} odd in {many}", odd - 1),
        (Slip::ShownOddCountSwapped, ..) => format!(", channel {count} odd in {odd} samples"),
        _ => format!(", channel {odd} odd in {many}"),
    }
}

fn cause_words(r: &Rules, cause: u32) -> &'static str {
    const WORDS: [&str; 13] = [
        "open_EV on for 7,000 ms or more, some door seen closed",
        "open_EV on for 7,000 ms or more, not all doors seen open",
        "close_EV on for 7,000 ms or more, some door seen open",
        "close_EV on for 7,000 ms or more, not all doors seen closed",
        "retract_EV on for 7,000 ms or more, some gear seen extended",
        "retract_EV on for 10,000 ms or more, not all gears seen retracted",
        "extend_EV on for 7,000 ms or more, some gear seen retracted",
        "extend_EV on for 10,000 ms or more, not all gears seen extended",
        "general_EV on for 2,000 ms or more, circuit not pressurized",
        "general_EV off for 10,000 ms or more, circuit pressurized",
        "handle age 1,000 to 19,999 ms, switch open",
        "handle age 21,500 ms or more, switch closed",
        "some sensor invalid",
    ];
    let next = u32::from(r.is(Slip::ShownCauseNext));
    WORDS[(cause.clamp(1, 13) - 1 + next) as usize % WORDS.len()]
}
