//! The controller: "One accepted step, in this order" of document 01, with the lamps of K1, the votes of K5 and what
//! K7 has of the ground.
//!
//! Sensors are bits of a `u32` in the order of the sample, one word per channel; orders are bits
//! of a `u8` in the order of the output row. An age is not stored: `since` holds the time of the
//! last change, on a clock that starts at 60,000, so a fresh age is 60,000 and the cap is a `min`. Nor is a count
//! of a voter: `past` holds what was odd in the last accepted samples, so that three in a row are three masks with
//! a bit in common, and nothing has to be set to 0.

use crate::rules::{Rules, Slip};

// "The sample": bit of each sensor; three bits where there is front, left, right.
pub const HANDLE: u32 = 1;
pub const SWITCH: u32 = 1 << 1;
pub const GEAR_EXTENDED: u32 = 0b111 << 2;
pub const GEAR_RETRACTED: u32 = 0b111 << 5;
pub const ON_GROUND: u32 = 0b111 << 8;
pub const DOOR_CLOSED: u32 = 0b111 << 11;
pub const DOOR_OPEN: u32 = 0b111 << 14;
pub const PRESSURIZED: u32 = 1 << 17;
pub const SENSORS: u32 = (1 << 18) - 1;

// The orders, as in the output row; `HANDLE_CLOCK` is the sixth thing that has an age.
pub const GENERAL: usize = 0;
pub const CLOSE: usize = 1;
pub const OPEN: usize = 2;
pub const RETRACT: usize = 3;
pub const EXTEND: usize = 4;
pub const HANDLE_CLOCK: usize = 5;
const FOUR: u8 = 0b11110;
const OPPOSITE: [usize; 5] = [GENERAL, OPEN, CLOSE, EXTEND, RETRACT];
const SWAPPED: [usize; 5] = [GENERAL, EXTEND, RETRACT, OPEN, CLOSE]; // a fault

/// The three sensors of a kind in the low bits: front, left, right.
fn three(held: u32, sensors: u32) -> u32 {
    (held & sensors) >> sensors.trailing_zeros()
}
const ALL: u32 = 0b111;

/// What two channels or more say.
pub(crate) fn majority([a, b, c]: [u32; 3]) -> u32 {
    a & b | a & c | b & c
}

#[derive(Clone, Copy, PartialEq, Eq, Debug)]
#[rustfmt::skip]
pub enum Doors { Closed, Opening, Open, Closing }

#[derive(Clone, Copy, PartialEq, Eq, Debug)]
#[rustfmt::skip]
pub enum Gears { Retracted, Extending, Extended, Retracting }

/// What is odd in a sample: by channel, the sensors with three valid channels of which it alone says otherwise; and
/// the sensors of which the two that are left differ.
pub(crate) type Odd = [u32; 4];
const SPLIT: usize = 3;

#[derive(Clone, Debug)]
pub struct Rig {
    pub stamp: u32,
    pub(crate) now: u64,
    pub(crate) since: [u64; 6],
    pub on: u8,
    /// Per channel, the sensors for which it is not struck.
    pub(crate) ok: [u32; 3],
    pub(crate) invalid: u32,
    /// What was odd in the last accepted samples, the latest first, without what then led to a strike or made a
    /// sensor invalid. (The third is for faults.)
    pub(crate) past: [Odd; 3],
    pub held: u32,
    pub doors: Doors,
    pub gears: Gears,
    pub cause: u8,
    /// What a fault makes the lamps read in place of `held`.
    pub(crate) aside: u32,
    /// What a fault keeps of the ground.
    pub(crate) stood: bool,
}

impl Rig {
    /// A fresh start: the handle is held down, the gears extended, the doors closed.
    pub fn fresh(r: &Rules, stamp: u32) -> Rig {
        let held = match r.slip {
            Slip::FreshHandleUp => GEAR_EXTENDED | DOOR_CLOSED,
            Slip::FreshGears0 => HANDLE | DOOR_CLOSED,
            Slip::FreshDoors0 => HANDLE | GEAR_EXTENDED,
            Slip::FreshOthers1 => SENSORS,
            _ => HANDLE | GEAR_EXTENDED | DOOR_CLOSED,
        };
        Rig {
            stamp,
            now: if r.is(Slip::FreshAge0) { 0 } else { 60_000 },
            since: [0; 6],
            on: 0,
            ok: [SENSORS; 3],
            invalid: 0,
            past: Default::default(),
            held,
            doors: Doors::Closed,
            gears: Gears::Extended,
            cause: 0,
            aside: held,
            stood: false,
        }
    }

    /// The age of an order or of the handle at time `at`.
    #[inline]
    pub(crate) fn age_at(&self, r: &Rules, at: u64, clock: usize) -> u64 {
        let age = at.saturating_sub(self.since[clock]);
        if r.is(Slip::AgesGoRound) && at > 60_000 {
            age % 60_000
        } else {
            age.min(r.age_cap)
        }
    }

    pub fn age(&self, clock: usize) -> u64 {
        (self.now - self.since[clock]).min(60_000)
    }

    /// The sensors whose voter has counted one sample or two.
    pub fn counting(&self) -> u32 {
        self.past[0].iter().fold(0, |all, odd| all | odd)
    }

    /// What an image has of a voter's past: the odd channel, 0 for two that differ, and in how many samples.
    pub fn counted(&self, sensor: usize) -> (u32, u32) {
        let was = |past: &Odd, n: usize| past[n] >> sensor & 1 == 1;
        let Some(n) = (0..=SPLIT).find(|&n| was(&self.past[0], n)) else { return (0, 0) };
        let count = self.past.iter().take_while(|past| was(past, n)).count();
        (if n == SPLIT { 0 } else { n as u32 + 1 }, count as u32)
    }

    /// A past of which an image has the same.
    pub(crate) fn past_of(counted: impl Fn(usize) -> (u32, u32)) -> [Odd; 3] {
        let mut past = <[Odd; 3]>::default();
        for sensor in 0..18 {
            let (odd, count) = counted(sensor);
            let n = if odd == 0 { SPLIT } else { (odd as usize - 1).min(SPLIT) };
            past.iter_mut().take(count as usize).for_each(|past| past[n] |= 1 << sensor);
        }
        past
    }

    pub fn is_on(&self, order: usize) -> bool {
        self.on >> order & 1 == 1
    }

    /// One sample: 0, or refusal 3 or 4, which leaves everything as it was.
    #[inline]
    pub fn step(&mut self, r: &Rules, stamp: u32, sample: [u32; 3]) -> u8 {
        let elapsed = u64::from(stamp.wrapping_sub(self.stamp));
        let back = r.is(Slip::StampNotRound) && stamp < self.stamp;
        if elapsed == 0 || elapsed > r.elapsed_max || back {
            match r.slip {
                Slip::StampMoved => self.stamp = stamp,
                Slip::StampMovedOn3 if elapsed == 0 => self.stamp = stamp,
                Slip::AgesGrowRefused => self.now += elapsed,
                Slip::VoteRefused => self.vote(r, sample),
                Slip::RefusedCounts => self.count_only(r, sample),
                Slip::RefusedResets => self.past = Default::default(),
                Slip::LampsRefused => self.aside = majority(sample),
                _ => {}
            }
            return if (elapsed == 0) != r.is(Slip::CodesSwapped) { 3 } else { 4 };
        }
        self.stamp = stamp;

        // Ages.
        self.now += elapsed;
        let old = self.now - elapsed; // used by faults only

        // Voting, then the monitors over the orders as they stood before.
        let first = r.is(Slip::MonitorsFirst).then(|| self.monitors(r, self.now));
        let before = self.held;
        self.vote(r, sample);
        let moved = (self.held ^ before) & HANDLE != 0 && !r.is(Slip::HandleAgeKept);
        if moved && !r.is(Slip::HandleAgeLate) {
            self.since[HANDLE_CLOCK] = self.now;
        }
        let ground = match r.slip {
            Slip::None => self.on_ground(),
            _ => self.other_ground(r, before, sample),
        };
        if r.slip != Slip::None {
            self.handle_age_of_ground(r, before, elapsed);
        }
        let red_before = self.cause != 0;
        if self.cause == 0 || r.is(Slip::NotLatched) {
            let at = if r.is(Slip::MonitorsOldAge) { old } else { self.now };
            self.cause = first.unwrap_or_else(|| self.monitors(r, at));
        } else if r.is(Slip::CauseReplaced) || r.is(Slip::CauseLowered) {
            self.cause = self.later_cause(r);
        }
        if moved {
            self.since[HANDLE_CLOCK] = self.now;
        }

        // Sequence: with an anomaly, old or new, nothing moves.
        let red = if r.is(Slip::LatchingMove) { red_before } else { self.cause != 0 };
        if !red || r.is(Slip::RedMoves) {
            self.sequence(r, ground);
            if r.is(Slip::TwoMoves) {
                self.sequence(r, ground);
            }
        }

        self.orders(r, if r.is(Slip::WaitsOldAge) { old } else { self.now });

        // Lights are read off the state; this is for faults only.
        self.aside = match r.slip {
            Slip::LampsBeforeVote => before,
            Slip::LampsFrozenRed if red_before => self.aside,
            Slip::LampsLatchingKept if self.cause != 0 && !red_before => self.aside,
            Slip::LampsChannel1 => sample[0],
            Slip::LampsMajority => majority(sample),
            _ => self.held,
        };
        0
    }

    /// Voting, all 18 sensors at once.
    #[inline]
    pub fn vote(&mut self, r: &Rules, [a, b, c]: [u32; 3]) {
        let [ok_a, ok_b, ok_c] = self.ok;
        let three = ok_a & ok_b & ok_c;
        let majority = if r.is(Slip::FirstChannel) { a } else { majority([a, b, c]) };
        // With two valid channels `x` and `y` are those two.
        let x = ok_a & a | !ok_a & b;
        let y = ok_c & c | !ok_c & b;
        let two = SENSORS & !three & !self.invalid;
        let differ = if r.is(Slip::TwoDifferAgree) { 0 } else { two & (x ^ y) };
        let value = three & majority | two & x & !differ | (self.invalid | differ) & self.held;
        let odd =
            [three & (a ^ b) & !(b ^ c), three & (a ^ b) & !(a ^ c), three & (b ^ c) & !(a ^ b), differ];
        let third = self.third_in_a_row(r, odd);
        self.held = if r.slip == Slip::None { value } else { self.other_value(r, value, odd, third) };
        if !r.is(Slip::NeverStruck) {
            self.ok = [ok_a & !third[0], ok_b & !third[1], ok_c & !third[2]];
        }
        self.invalid |= third[SPLIT];
        self.remember(r, odd, third, three);
        match r.slip {
            Slip::LetBack => {
                let valid = !self.invalid;
                self.ok[0] |= valid & !(a ^ value);
                self.ok[1] |= valid & !(b ^ value);
                self.ok[2] |= valid & !(c ^ value);
            }
            Slip::InvalidBack => self.invalid &= a ^ b | b ^ c,
            _ => {}
        }
    }

    /// What is odd now and was so in the last two accepted samples.
    #[inline]
    fn third_in_a_row(&self, r: &Rules, odd: Odd) -> Odd {
        std::array::from_fn(|n| {
            let before = (if n == SPLIT { r.invalid_at } else { r.strike_at }) as usize - 1;
            self.past[..before].iter().fold(odd[n], |all, past| all & past[n])
        })
    }

    /// What is odd now becomes what was. A strike or becoming invalid leaves nothing of it.
    #[inline]
    fn remember(&mut self, r: &Rules, odd: Odd, third: Odd, three: u32) {
        let [last, before, _] = self.past;
        self.past = [std::array::from_fn(|n| odd[n] & !third[n]), last, before];
        if r.slip != Slip::None {
            self.remember_wrongly(r, [last, before], odd, third, three);
        }
    }

    /// Faults only: another value where a channel is odd or two differ.
    fn other_value(&self, r: &Rules, value: u32, odd: Odd, third: Odd) -> u32 {
        let struck = third[0] | third[1] | third[2];
        let until = (odd[0] | odd[1] | odd[2]) & !struck;
        let kept = |sensors: u32| value & !sensors | self.held & sensors;
        match r.slip {
            Slip::OddTaken => value ^ until,
            Slip::OddKeepsLast => kept(until),
            Slip::StrikeKeepsLast => kept(struck),
            Slip::SplitTakesNew => value ^ odd[SPLIT] & !third[SPLIT],
            Slip::InvalidTakesNew => value ^ third[SPLIT],
            _ => value,
        }
    }

    /// Faults only: another past.
    fn remember_wrongly(&mut self, r: &Rules, [last, before]: [Odd; 2], odd: Odd, third: Odd, three: u32) {
        let any = |of: Odd| of[0] | of[1] | of[2];
        for n in 0..3 {
            match r.slip {
                Slip::KeptOverAgreement => {
                    let agree = three & !any(odd);
                    self.past[0][n] |= last[n] & agree;
                    self.past[1][n] = last[n] & !agree | before[n] & agree;
                }
                // As if the odd channel of now had been the odd one before.
                Slip::KeptOverOther => {
                    self.past[0][n] = any(odd) & !any(third);
                    self.past[1][n] = any(last);
                }
                Slip::OtherFrom0 => self.past[0][n] &= !(any(last) & !last[n]),
                _ => {}
            }
        }
        match r.slip {
            Slip::TwoKeptOverAgreement => {
                let agree = !three & !odd[SPLIT];
                self.past[0][SPLIT] |= last[SPLIT] & agree;
                self.past[1][SPLIT] = last[SPLIT] & !agree | before[SPLIT] & agree;
            }
            Slip::TwoFromCount => {
                self.past[0][SPLIT] |= any(third);
                self.past[1][SPLIT] |= any(third);
            }
            Slip::OneCountForAll => {
                for past in self.past.iter_mut().flatten().filter(|past| **past != 0) {
                    *past = SENSORS;
                }
            }
            _ => {}
        }
    }

    /// Faults only: a sample that is not voted on, but remembered.
    pub(crate) fn count_only(&mut self, r: &Rules, sample: [u32; 3]) {
        let mut voted = self.clone();
        voted.vote(r, sample);
        self.past = voted.past;
    }

    /// Monitors: the lowest cause that holds, or 0.
    fn monitors(&self, r: &Rules, at: u64) -> u8 {
        let late = |order, cause: usize| self.is_on(order) && self.age_at(r, at, order) >= r.cause[cause];
        let some = |sensors| self.held & sensors != 0;
        let not_all = |sensors| self.held & sensors != sensors;
        let off = self.age_at(r, at, GENERAL);
        let handle = self.age_at(r, at, HANDLE_CLOCK);
        let end = if r.is(Slip::Cause11NoEnd) { r.cause[12] } else { r.cause_11_end };
        let holds = [
            late(OPEN, 1) && some(DOOR_CLOSED),
            late(OPEN, 2) && not_all(DOOR_OPEN),
            late(CLOSE, 3) && some(DOOR_OPEN),
            late(CLOSE, 4) && not_all(DOOR_CLOSED),
            late(RETRACT, 5) && some(GEAR_EXTENDED),
            late(RETRACT, 6) && not_all(GEAR_RETRACTED),
            late(EXTEND, 7) && some(GEAR_RETRACTED),
            late(EXTEND, 8) && not_all(GEAR_EXTENDED),
            late(GENERAL, 9) && not_all(PRESSURIZED),
            !self.is_on(GENERAL) && off >= r.cause[10] && some(PRESSURIZED),
            handle >= r.cause[11] && handle < end && not_all(SWITCH),
            handle >= r.cause[12] && some(SWITCH),
            self.invalid != 0 && !r.is(Slip::TwoDifferNoRed),
        ];
        let found = match r.slip {
            Slip::HighestCause => holds.iter().rposition(|&h| h),
            _ => holds.iter().position(|&h| h),
        };
        found.map_or(0, |n| n as u8 + 1)
    }

    /// Faults only: a cause that holds later, or only a lower one, in place of the one kept.
    fn later_cause(&self, r: &Rules) -> u8 {
        match self.monitors(r, self.now) {
            0 => self.cause,
            later if r.is(Slip::CauseReplaced) => later,
            later => later.min(self.cause),
        }
    }

    /// Some absorber is voted on ground.
    fn on_ground(&self) -> bool {
        self.held & ON_GROUND != 0
    }

    /// Faults only: another ground, from the votes before this sample, from its votes, or from its channels.
    fn other_ground(&mut self, r: &Rules, before: u32, sample: [u32; 3]) -> bool {
        use Slip::*;
        let on = three(self.held, ON_GROUND);
        let any = |values: u32| values & ON_GROUND != 0;
        let [a, b, c] = sample;
        let up = self.held & HANDLE == 0;
        match r.slip {
            GroundAtHandle if (self.held ^ before) & HANDLE != 0 => self.stood = on != 0,
            GroundLatched => self.stood = up && (self.stood || on != 0),
            _ => {}
        }
        match r.slip {
            GroundUnread => false,
            GroundAll => on == ALL,
            GroundTwo => on.count_ones() >= 2,
            GroundOnly(unit) => on >> unit & 1 == 1,
            GroundForgets(unit) => on & !(1 << unit) != 0,
            GroundInverted => on != ALL,
            GroundNone => on == 0,
            GroundChannel(channel) => any(sample[channel]),
            GroundAnyChannel => any(a | b | c),
            GroundAllChannels => any(a & b & c),
            GroundMajority => any(majority(sample)),
            GroundInvalid0 => any(self.held & !self.invalid),
            GroundInvalid1 => any(self.held | self.invalid),
            GroundBefore => any(before),
            GroundLiftLate => any(before | self.held),
            GroundTouchLate => any(before & self.held),
            GroundAtHandle | GroundLatched => self.stood,
            _ => on != 0,
        }
    }

    /// Faults only: a handle whose age the ground moves.
    fn handle_age_of_ground(&mut self, r: &Rules, before: u32, elapsed: u64) {
        let up = self.held & HANDLE == 0;
        match r.slip {
            Slip::LiftRestartsHandle if up && before & ON_GROUND != 0 && !self.on_ground() => {
                self.since[HANDLE_CLOCK] = self.now;
            }
            Slip::GroundStopsHandleAge if up && self.on_ground() => {
                self.since[HANDLE_CLOCK] = (self.since[HANDLE_CLOCK] + elapsed).min(self.now);
            }
            _ => {}
        }
    }

    /// Sequence: at most one move; `ground` is whether some absorber is voted on ground.
    fn sequence(&mut self, r: &Rules, ground: bool) {
        let up = (self.held & HANDLE == 0) != r.is(Slip::AimSwapped);
        let aim = if up { Gears::Retracted } else { Gears::Extended };
        // A rig that stands on its wheels acts as if gears were at the aim.
        let stands = up && self.gears == Gears::Extended && ground;
        if r.slip == Slip::None || !self.stands_wrongly(r, up, ground) {
            self.acts(r, up, self.gears == aim || stands);
        }
    }

    /// What a handle asks for, with gears at the aim or not.
    fn acts(&mut self, r: &Rules, up: bool, at_aim: bool) {
        use {Doors::*, Gears::*};
        let all = |sensors, any| match self.held & sensors {
            seen if r.is(any) => seen != 0,
            seen => seen == sensors,
        };
        let (aim, towards, there) = match up {
            true => (Retracted, Retracting, GEAR_RETRACTED),
            false => (Extended, Extending, GEAR_EXTENDED),
        };
        match (at_aim, self.doors) {
            (false, Closing) if r.is(Slip::ClosingKept) => {}
            (false, Closed | Closing) => self.doors = Opening,
            (false, Opening) if all(DOOR_OPEN, Slip::AnyDoorOpen) => self.doors = Open,
            (false, Open) if self.gears == towards && all(there, Slip::AnyGearThere) => self.gears = aim,
            (false, Open) if r.is(Slip::WrongWayKept) && matches!(self.gears, Extending | Retracting) => {}
            (false, Open) => self.gears = towards,
            (true, Opening) if r.is(Slip::OpeningKept) => {}
            (true, Open | Opening) => self.doors = Closing,
            (true, Closing) if all(DOOR_CLOSED, Slip::AnyDoorClosed) => self.doors = Closed,
            _ => {}
        }
    }

    /// Faults only: another move on the ground, or none; whether it is one of those.
    fn stands_wrongly(&mut self, r: &Rules, up: bool, ground: bool) -> bool {
        use {Doors::*, Gears::*, Slip::*};
        let stands = up && ground && self.gears == Extended;
        let seen_extended = self.held & GEAR_EXTENDED == GEAR_EXTENDED;
        match (r.slip, self.doors) {
            // As if at the aim, elsewhere.
            (GroundDownToo, _) if ground && !up && self.gears == Retracted => self.acts(r, up, true),
            (GroundDownInstead, _) if ground && !up => {
                self.acts(r, up, matches!(self.gears, Retracted | Extended));
            }
            (GroundDownInstead, _) if stands => self.acts(r, up, false),
            (GroundAnyGears, _) if ground && up => self.acts(r, up, true),
            (GroundSeenExtended, _) if ground && up => {
                self.acts(r, up, self.gears == Retracted || seen_extended);
            }
            // Another aim.
            (GroundAims, _) if ground && up => self.acts(r, false, self.gears == Extended),
            (GroundTurnsBack, _) if ground && up && self.gears != Retracted => {
                self.acts(r, false, self.gears == Extended);
            }
            (GroundKeepsExtending, _) if ground && up && self.gears == Extending => {
                self.acts(r, false, false)
            }
            (GroundHoldsRetracting, _) if ground && up && self.gears == Retracting => {}
            // Another move of the doors, or none: those of a rig in the air among them.
            (GroundNothingMoves, _) if stands => {}
            (GroundOpeningKept, Opening) | (GroundOpenKept, Open) | (GroundClosingKept, Closing)
                if stands => {}
            (GroundClosingUnseen, Closing) if stands => self.doors = Closed,
            (GroundHoldsGears, Open) if stands => {}
            (GroundHoldsGears, _)
            | (GroundHoldsClosed, Opening | Open | Closing)
            | (GroundClosedOpens, Closed)
            | (GroundOpeningGoesOn, Opening)
            | (GroundOpenRetracts, Open)
            | (GroundClosingOpens, Closing)
                if stands =>
            {
                self.acts(r, up, false);
            }
            (GroundIsRed, _) if stands => self.cause = 13,
            _ => return false,
        }
        true
    }

    /// Orders: `self.on` as it stood before, the new doors, gears and anomaly, ages grown.
    fn orders(&mut self, r: &Rules, at: u64) {
        let before = self.on;
        let red = self.cause != 0;
        let off = |order: usize| before >> order & 1 == 0;
        let age = |order| self.age_at(r, at, order);
        let wanted = match (self.doors, self.gears) {
            _ if red && !r.is(Slip::OrdersKeptRed) => 0,
            (Doors::Opening, _) => 1 << OPEN,
            (Doors::Closing, _) => 1 << CLOSE,
            (_, Gears::Retracting) if r.is(Slip::GroundStopsRetract) && self.on_ground() => 0,
            (_, Gears::Retracting) => 1 << RETRACT,
            (_, Gears::Extending) => 1 << EXTEND,
            _ => 0,
        };
        let mut after = before & wanted;
        let ready = (!off(GENERAL) || r.is(Slip::GeneralOnUnchecked)) && age(GENERAL) >= r.general_wait;
        if wanted & !before != 0 && ready {
            let opposite = if r.is(Slip::OppositesSwapped) { SWAPPED } else { OPPOSITE };
            let other = opposite[wanted.trailing_zeros() as usize];
            let free = match r.slip {
                Slip::OppositeUnchecked => true,
                Slip::OppositeAgeOnly => age(other) >= r.opposite_wait,
                Slip::OppositeAtStop => !off(other) || age(other) >= r.opposite_wait,
                _ => off(other) && age(other) >= r.opposite_wait,
            };
            if free {
                after |= wanted;
            }
        }
        // general_EV
        let needed = self.doors != Doors::Closed && (!red || r.is(Slip::GeneralKeptRed));
        let (four, last) = match r.slip {
            Slip::GeneralOnlyClosed => (0b00110, OPEN),
            _ => (FOUR, EXTEND),
        };
        let quiet = before & four == 0 && (CLOSE..=last).all(|order| age(order) >= r.general_stop);
        if needed || !(off(GENERAL) || quiet || r.is(Slip::GeneralWaitsNone)) {
            after |= 1 << GENERAL;
        }
        // Each order that changes gets age 0.
        for order in GENERAL..=EXTEND {
            let (was, is) = (before >> order & 1, after >> order & 1);
            let kept = is == 1 && r.is(Slip::StartKeepsAge) || is == 0 && r.is(Slip::StopKeepsAge);
            if was != is && !kept {
                self.since[order] = self.now;
            }
        }
        self.on = after;
    }

    /// The values that the lamps are read from: the voted ones.
    #[inline]
    fn lamp_values(&self, r: &Rules) -> u32 {
        use Slip::*;
        match r.slip {
            LampsBeforeVote | LampsFrozenRed | LampsLatchingKept | LampsChannel1 | LampsMajority
            | LampsRefused => self.aside,
            LampsInvalid0 => self.held & !self.invalid,
            LampsInvalid1 => self.held | self.invalid,
            _ => self.held,
        }
    }

    /// Lights: green, orange, red. Everything they can depend on is in `self`.
    #[inline]
    pub fn lights(&self, r: &Rules) -> [bool; 3] {
        use Slip::*;
        let held = self.lamp_values(r);
        let (extended, retracted) = (three(held, GEAR_EXTENDED), three(held, GEAR_RETRACTED));
        let (closed, open) = (three(held, DOOR_CLOSED), three(held, DOOR_OPEN));
        let red = self.cause != 0;
        let moving = matches!(self.gears, Gears::Extending | Gears::Retracting);
        // All three gears extended.
        let green = match r.slip {
            GreenSequence => self.gears == Gears::Extended,
            GreenSomeGear => extended != 0,
            GreenForgets(gear) => extended | 1 << gear == ALL,
            GreenNoneRetracted => extended == ALL && retracted == 0,
            GreenDoorsClosed => extended == ALL && closed == ALL,
            GreenOffRed => extended == ALL && !red,
            _ => extended == ALL,
        };
        // Some door not closed.
        let door = match r.slip {
            OrangeGearsOnly => false,
            OrangeDoorSequence => self.doors != Doors::Closed,
            OrangeAllDoors => closed == 0,
            OrangeDoorOpen => open != 0,
            OrangeDoorOpenToo => closed != ALL || open != 0,
            OrangeDoorBetween => closed | open != ALL,
            OrangeForgetsDoor(door) => closed | 1 << door != ALL,
            _ => closed != ALL,
        };
        // Some gear neither extended nor retracted.
        let gear = match r.slip {
            OrangeDoorsOnly => false,
            OrangeGearSequence => moving,
            OrangeGearsTogether => extended != ALL && retracted != ALL,
            OrangeAllGears => extended | retracted == 0,
            OrangeGearBoth => extended ^ retracted != ALL,
            OrangeForgetsGear(gear) => extended | retracted | 1 << gear != ALL,
            OrangePairs(by) => (extended | (retracted | retracted << 3) >> by) & ALL != ALL,
            _ => extended | retracted != ALL,
        };
        let orange = match r.slip {
            OrangeSequence => moving,
            OrangeDoorAndGear => door && gear,
            OrangeOffGreen => (door || gear) && !green,
            OrangeNotGreen => door || gear || !green,
            OrangeOffRed => (door || gear) && !red,
            _ => door || gear,
        };
        [green, orange, red && !r.is(NoRed)]
    }
}
