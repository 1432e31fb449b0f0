//! Seeded traces. The peer's own controller is in the loop, so that a plant can answer its orders.

use crate::rig::*;
use crate::rules::Rules;
use crate::trace::HEADER;

pub const KINDS: [&str; 6] = ["nominal", "adversarial", "channels", "stalls", "edges", "damaged"];

/// splitmix64
pub struct Rng(u64);

impl Rng {
    pub fn new(seed: u64) -> Rng {
        Rng(seed.wrapping_mul(0x9E37_79B9_7F4A_7C15) ^ 0x5851_F42D_4C95_7F2D)
    }
    pub fn draw(&mut self) -> u64 {
        self.0 = self.0.wrapping_add(0x9E37_79B9_7F4A_7C15);
        let z = (self.0 ^ self.0 >> 30).wrapping_mul(0xBF58_476D_1CE4_E5B9);
        let z = (z ^ z >> 27).wrapping_mul(0x94D0_49BB_1331_11EB);
        z ^ z >> 31
    }
    pub fn below(&mut self, n: u64) -> u64 {
        ((u128::from(self.draw()) * u128::from(n)) >> 64) as u64
    }
    /// From `a` to `b`, both included.
    pub fn range(&mut self, a: u64, b: u64) -> u64 {
        a + self.below(b - a + 1)
    }
    /// True `n` times in a thousand.
    pub fn permille(&mut self, n: u64) -> bool {
        self.below(1000) < n
    }
    pub fn pick<T: Clone>(&mut self, list: &[T]) -> T {
        list[self.below(list.len() as u64) as usize].clone()
    }
    pub fn index(&mut self, n: usize) -> usize {
        self.below(n as u64) as usize
    }
    fn stamp(&mut self) -> u32 {
        match self.below(4) {
            0 => 0,
            1 => self.draw() as u32,
            2 => u32::MAX - self.below(20_000) as u32,
            _ => 1000,
        }
    }
}

/// A trace in the making, and the controller as it stands after its last row.
pub struct Tape {
    pub text: Vec<u8>,
    pub rig: Rig,
    pub rows: u64,
    pub(crate) rules: Rules,
}

pub fn same(seen: u32) -> [u32; 3] {
    [seen; 3]
}

impl Tape {
    /// Header and row 0.
    pub fn new(stamp: u32, sample: [u32; 3]) -> Tape {
        Tape::onward(Rig::fresh(&Rules::default(), stamp), sample)
    }
    /// Header and row 0 of a trace that goes on with a controller, from its stamp.
    pub fn onward(rig: Rig, sample: [u32; 3]) -> Tape {
        let stamp = rig.stamp;
        let mut tape = Tape { text: HEADER.to_vec(), rig, rows: 0, rules: Rules::default() };
        tape.text.extend_from_slice(b"\r\n");
        tape.write(stamp, sample);
        tape
    }
    fn write(&mut self, stamp: u32, sample: [u32; 3]) {
        self.text.extend_from_slice(format!("{},{}", self.rows, stamp).as_bytes());
        for sensor in 0..18 {
            let digit = |channel: usize| b'0' + (sample[channel] >> sensor & 1) as u8;
            self.text.extend([b',', digit(0), digit(1), digit(2)]);
        }
        self.text.extend_from_slice(b"\r\n");
        self.rows += 1;
    }
    pub fn at(&mut self, stamp: u32, sample: [u32; 3]) -> u8 {
        self.write(stamp, sample);
        self.rig.step(&self.rules, stamp, sample)
    }
    /// A row `elapsed` ms after the last accepted stamp.
    pub fn after(&mut self, elapsed: u64, sample: [u32; 3]) -> u8 {
        self.at(self.rig.stamp.wrapping_add(elapsed as u32), sample)
    }
    /// The same sample so many times.
    pub fn rows_of(&mut self, times: usize, elapsed: u64, sample: [u32; 3]) {
        for _ in 0..times {
            self.after(elapsed, sample);
        }
    }
    pub fn red(&self) -> bool {
        self.rig.cause != 0
    }
    /// Would this sample latch the anomaly?
    fn would_be_red(&self, elapsed: u64, sample: [u32; 3]) -> bool {
        let mut rig = self.rig.clone();
        rig.step(&self.rules, rig.stamp.wrapping_add(elapsed as u32), sample);
        rig.cause != 0
    }
}

/// What the absorbers do in a trace.
#[derive(Clone, Copy, PartialEq)]
enum Story {
    /// The rig is in the air.
    Flies,
    /// It stands, lifts and touches, after a while or where the sequence comes to a stage.
    Lands,
    /// It stands, on some wheels or on all, now and then for long.
    Stands,
    /// It touches and lifts again and again, and then rests.
    Bounces,
    /// They are drawn with all else.
    Drawn,
}

/// What a turn of the story waits for.
#[derive(Clone, Copy)]
enum Until {
    Later,
    Handle(bool),
    Doors(Doors),
    Gears(Gears),
}

/// The absorbers of a trace. They are drawn from a seed of their own, so that all else is drawn as if there were none.
pub struct Wheels {
    r: Rng,
    story: Story,
    /// Those that say ground: front, left, right from the lowest bit.
    on: u32,
    until: Until,
    /// How many ms it is waited at most.
    left: u64,
    bounces: u64,
}

impl Wheels {
    /// Of a trace that is drawn from here on, in flight so many times in a thousand.
    fn of(r: &Rng, flies: u64) -> Wheels {
        let mut wheels = Wheels { r: Rng::new(r.0 ^ 0x6B37), ..Wheels::in_flight() };
        if !wheels.r.permille(flies) {
            let stories =
                [Story::Lands, Story::Lands, Story::Lands, Story::Stands, Story::Bounces, Story::Drawn];
            wheels.story = wheels.r.pick(&stories);
            wheels.turn();
        }
        wheels
    }

    /// Of a trace without ground: what is stored from before K7, and long lessons.
    pub fn in_flight() -> Wheels {
        Wheels { r: Rng::new(0), story: Story::Flies, on: 0, until: Until::Later, left: 0, bounces: 0 }
    }

    /// Some wheels: all, one, or any.
    fn some(&mut self) -> u32 {
        match self.r.below(5) {
            0 | 1 => 0b111,
            2 | 3 => 1 << self.r.below(3),
            _ => self.r.range(1, 7) as u32,
        }
    }

    /// The story goes on.
    fn turn(&mut self) {
        use {Doors::*, Gears::*};
        let stood = self.on != 0;
        self.on = match self.story {
            Story::Flies | Story::Drawn => return,
            // Often one wheel after the other.
            Story::Lands if stood && self.r.permille(300) => self.on & self.r.below(8) as u32,
            Story::Lands if !stood && self.r.permille(300) => 0,
            Story::Stands if self.r.permille(700) => self.some(),
            _ if stood => 0,
            _ => self.some(),
        };
        self.bounces = match (self.story, self.bounces) {
            (Story::Bounces, 0) => self.r.range(2, 60),
            (Story::Bounces, more) => more - 1,
            _ => 0,
        };
        // Those that are soon over stand here more often.
        let stages = [
            Until::Handle(true),
            Until::Handle(false),
            Until::Doors(Opening),
            Until::Doors(Opening),
            Until::Doors(Open),
            Until::Doors(Open),
            Until::Doors(Open),
            Until::Doors(Closing),
            Until::Doors(Closed),
            Until::Gears(Retracting),
            Until::Gears(Retracting),
            Until::Gears(Retracted),
            Until::Gears(Extending),
        ];
        (self.until, self.left) = match self.story {
            Story::Bounces if self.bounces > 0 => (Until::Later, self.r.pick(&[1, 1, 50, 150, 300, 800])),
            Story::Bounces => (Until::Later, self.r.range(2_000, 30_000)),
            Story::Stands => (Until::Later, self.r.range(1_000, 30_000)),
            _ if self.r.permille(300) => (Until::Later, self.r.range(1, 1_500)),
            _ => (self.r.pick(&stages), self.r.range(500, if self.on == 0 { 20_000 } else { 5_000 })),
        };
    }

    /// What the absorbers say `elapsed` ms after the last step; `drawn` is what they would, were there no story.
    fn see(&mut self, rig: &Rig, elapsed: u64, drawn: u32) -> u32 {
        if self.story == Story::Drawn {
            return drawn & ON_GROUND;
        }
        let there = match self.until {
            Until::Later => false,
            Until::Handle(down) => (rig.held & HANDLE != 0) == down,
            Until::Doors(doors) => rig.doors == doors,
            Until::Gears(gears) => rig.gears == gears,
        };
        self.left = self.left.saturating_sub(elapsed);
        if there || self.left == 0 {
            self.turn();
        }
        self.on << ON_GROUND.trailing_zeros()
    }
}

/// Doors and gears that move at a speed while their order is on and there is pressure.
struct Plant {
    /// Three doors (0 closed), three gears (0 retracted), in ms of travel.
    pos: [u64; 6],
    travel: [u64; 6],
    pressed: bool,
    rise: u64,
    fall: u64,
    switch: (u64, u64),
    /// The absorbers by their story, and as they are drawn with all else.
    wheels: Wheels,
    ground: u32,
    down: bool,
    next_move: i64,
}

impl Plant {
    fn new(r: &mut Rng) -> Plant {
        let wheels = Wheels::of(r, 400);
        let mut travel = [0; 6];
        travel[..3].fill_with(|| r.range(600, 3_000));
        travel[3..].fill_with(|| r.range(1_500, 5_500));
        let mut pos = travel;
        pos[..3].fill(0);
        Plant {
            pos,
            travel,
            pressed: false,
            rise: r.range(50, 1_500),
            fall: r.range(100, 6_000),
            switch: (r.range(0, 800), r.range(20_000, 21_300)),
            wheels,
            ground: 0,
            down: true,
            next_move: r.range(50, 4_000) as i64,
        }
    }

    fn damage(&mut self, r: &mut Rng) {
        match r.below(6) {
            0 => self.travel[r.index(3)] = r.range(4_000, 9_000),
            1 => {
                let gear = 3 + r.index(3);
                self.travel[gear] = r.range(7_000, 12_000);
                self.pos[gear] = self.travel[gear];
            }
            2 => self.rise = r.range(1_800, 2_300),
            3 => self.fall = r.range(9_000, 12_000),
            4 => self.switch.0 = r.range(800, 1_200),
            _ => self.switch.1 = r.range(19_800, 21_700),
        }
    }

    /// The instructor, and then what the sensors see `elapsed` ms after the last step.
    fn see(&mut self, r: &mut Rng, rig: &Rig, elapsed: u64) -> u32 {
        self.next_move -= elapsed as i64;
        if self.next_move <= 0 {
            self.down = !self.down;
            self.next_move = if r.permille(350) { r.range(20, 4_000) } else { r.range(4_000, 45_000) } as i64;
        }
        if r.permille(1) {
            self.ground = r.below(8) as u32;
        }
        if rig.is_on(GENERAL) && rig.age(GENERAL) + elapsed >= self.rise {
            self.pressed = true;
        } else if !rig.is_on(GENERAL) && rig.age(GENERAL) + elapsed >= self.fall {
            self.pressed = false;
        }
        let ground = self.wheels.see(rig, elapsed, self.ground << ON_GROUND.trailing_zeros());
        let mut seen = ground | u32::from(self.down);
        for unit in 0..6 {
            let (out, back, zero, full) = match unit {
                0..=2 => (OPEN, CLOSE, 11, 14),
                _ => (EXTEND, RETRACT, 5 - 3, 2 - 3),
            };
            let pos = &mut self.pos[unit];
            if self.pressed && rig.is_on(out) {
                *pos = (*pos + elapsed).min(self.travel[unit]);
            } else if self.pressed && rig.is_on(back) {
                *pos = pos.saturating_sub(elapsed);
            }
            let bit = |base: i32| 1 << (base + unit as i32);
            if *pos == 0 {
                seen |= bit(zero);
            } else if *pos == self.travel[unit] {
                seen |= bit(full);
            }
        }
        let moved = self.down != (rig.held & HANDLE != 0);
        let handle_age = if moved { 0 } else { rig.age(HANDLE_CLOCK) + elapsed };
        if handle_age >= self.switch.0 && handle_age < self.switch.1 {
            seen |= SWITCH;
        }
        if self.pressed {
            seen |= PRESSURIZED;
        }
        seen
    }
}

/// How long steps are, drawn once for a trace.
struct Pace(u64, u64);

impl Pace {
    fn new(r: &mut Rng) -> Pace {
        r.pick(&[(10, 10), (20, 20), (16, 17), (5, 25), (40, 60), (1, 100), (90, 100), (100, 100)]).into()
    }
    fn next(&self, r: &mut Rng) -> u64 {
        r.range(self.0, self.1)
    }
}

impl From<(u64, u64)> for Pace {
    fn from(p: (u64, u64)) -> Pace {
        Pace(p.0, p.1)
    }
}

const AT_REST: u32 = HANDLE | GEAR_EXTENDED | DOOR_CLOSED;

/// Lessons with a plausible plant; `rows` given, the plant is sound, it is in the air, and nothing latches.
pub fn nominal(r: &mut Rng, rows: Option<u64>) -> Tape {
    let mut plant = Plant::new(r);
    let pace = Pace::new(r);
    let count = rows.unwrap_or_else(|| r.range(100, 2_500));
    if rows.is_some() {
        plant.wheels = Wheels::in_flight();
    } else if r.permille(200) {
        plant.damage(r);
    }
    let mut tape = Tape::new(r.stamp(), same(AT_REST));
    let mut after_red = r.range(5, 60);
    while tape.rows < count && after_red > 0 {
        let elapsed = pace.next(r);
        let seen = plant.see(r, &tape.rig, elapsed);
        tape.after(elapsed, same(seen));
        after_red -= u64::from(tape.red());
    }
    tape
}

/// `lesson`: one retraction, one extension, no red.
pub fn lesson(rows: u64) -> Tape {
    let mut r = Rng::new(2014);
    let mut plant = Plant::new(&mut r);
    plant.next_move = 2_000;
    plant.wheels = Wheels::in_flight();
    let mut tape = Tape::new(4_294_950_000, same(AT_REST));
    let mut moves = 0;
    while tape.rows < rows {
        let elapsed = r.range(10, 20);
        let was = plant.down;
        let seen = plant.see(&mut r, &tape.rig, elapsed);
        if plant.down != was {
            moves += 1;
            plant.next_move = if moves == 1 { 25_000 } else { i64::MAX };
        }
        tape.after(elapsed, same(seen));
    }
    tape
}

/// Sensors that say anything; most samples that would latch the anomaly are drawn again. From a fresh
/// start, or from a controller as it stands but for its stamp.
pub fn adversarial(r: &mut Rng, from: Option<&Rig>) -> Tape {
    let mut wheels = Wheels::of(r, 400);
    let count = r.range(20, 600);
    let pace = Pace::new(r);
    let patience = r.pick(&[0, 900, 990, 998, 1000]);
    let flips = r.range(1, 4);
    let at_rest = from.map_or(AT_REST, |rig| rig.held);
    let mut seen = if r.permille(500) { at_rest } else { r.draw() as u32 & SENSORS };
    let stamp = r.stamp();
    let rig = from.map_or_else(|| Rig::fresh(&Rules::default(), stamp), |rig| Rig { stamp, ..rig.clone() });
    let mut tape = Tape::onward(rig, std::array::from_fn(|_| r.draw() as u32 & SENSORS));
    let mut after_red = r.range(3, 40);
    let mut bounce = Bounce { channel: 0, sensors: 0, rows: 0 };
    let on = if from.is_some() { r.range(1, 4) } else { 0 };
    while tape.rows < count && after_red > 0 {
        let elapsed = pace.next(r);
        if from.is_some() {
            bounce.next(r);
        }
        let (mut next, mut sample) = (seen, same(seen));
        let ground = wheels.see(&tape.rig, elapsed, 0);
        for attempt in 0..30 {
            next = seen;
            for _ in 0..r.below(flips + 1) {
                next ^= match r.below(8) {
                    0 => DOOR_OPEN,
                    1 => DOOR_CLOSED,
                    2 => GEAR_EXTENDED,
                    3 => GEAR_RETRACTED,
                    4 if r.permille(100) => HANDLE,
                    5 => 0b111 << r.below(15),
                    _ => SENSORS & 1 << r.below(18) & !HANDLE,
                };
            }
            if r.permille(30) {
                next = next & HANDLE | r.draw() as u32 & SENSORS & !HANDLE;
            }
            if attempt > 3 {
                next = repair(&tape.rig, elapsed, next, attempt > 15);
            }
            if wheels.story != Story::Drawn {
                next = next & !ON_GROUND | ground;
            }
            sample = match from {
                Some(_) if tape.rows < on => bounced(&tape.rig, next),
                Some(_) => bounce.of(r, &tape.rig, next),
                None => same(next),
            };
            if !tape.would_be_red(elapsed, sample) || !r.permille(patience) {
                break;
            }
        }
        seen = next;
        tape.after(elapsed, sample);
        after_red -= u64::from(tape.red());
    }
    tape
}

/// A sample in which the channels that are counted say otherwise once more.
fn bounced(rig: &Rig, seen: u32) -> [u32; 3] {
    let mut sample = same(seen);
    for sensor in (0..18).filter(|sensor| rig.counting() >> sensor & 1 == 1) {
        let valid = (0..3).find(|&n| rig.ok[n] >> sensor & 1 == 1).unwrap_or(0);
        let channel = rig.counted(sensor).0.checked_sub(1).map_or(valid, |odd| odd as usize);
        sample[channel] ^= 1 << sensor;
    }
    sample
}

/// A channel that counts and says otherwise of some sensors, for some rows.
struct Bounce {
    channel: usize,
    sensors: u32,
    rows: u64,
}

impl Bounce {
    /// A row is over; now and then there is a new bounce.
    fn next(&mut self, r: &mut Rng) {
        self.rows = self.rows.saturating_sub(1);
        if self.rows == 0 && r.permille(60) {
            *self = Bounce {
                channel: r.index(3),
                sensors: 1 << r.below(18) | 1 << r.below(18),
                rows: r.range(1, 4),
            };
        }
    }

    /// Channels that do not count say anything.
    fn of(&self, r: &mut Rng, rig: &Rig, seen: u32) -> [u32; 3] {
        let mut sample = same(seen);
        for (channel, says) in sample.iter_mut().enumerate() {
            *says ^= r.draw() as u32 & SENSORS & (!rig.ok[channel] | rig.invalid);
        }
        if self.rows > 0 {
            sample[self.channel] ^= self.sensors;
        }
        sample
    }
}

/// The sample with switch and pressure (and doors and gears) as no monitor minds them.
fn repair(rig: &Rig, elapsed: u64, seen: u32, all: bool) -> u32 {
    let moved = (seen ^ rig.held) & HANDLE != 0;
    let handle_age = if moved { 0 } else { rig.age(HANDLE_CLOCK) + elapsed };
    let mut seen = seen & !(SWITCH | PRESSURIZED);
    if (700..20_700).contains(&handle_age) {
        seen |= SWITCH;
    }
    if rig.is_on(GENERAL) {
        seen |= PRESSURIZED;
    }
    let pairs = [
        (OPEN, DOOR_OPEN, DOOR_CLOSED),
        (CLOSE, DOOR_CLOSED, DOOR_OPEN),
        (RETRACT, GEAR_RETRACTED, GEAR_EXTENDED),
        (EXTEND, GEAR_EXTENDED, GEAR_RETRACTED),
    ];
    for (order, there, away) in pairs {
        if all && rig.is_on(order) && rig.age(order) + elapsed >= 6_900 {
            seen = seen & !away | there;
        }
    }
    seen
}

/// What a channel says in place of the truth.
#[derive(Clone, Copy)]
enum Says {
    Zero,
    One,
    Anything,
    Otherwise,
}

/// A channel of a sensor that goes wrong, from a row until another.
struct Spell {
    sensor: u64,
    channel: usize,
    rows: std::ops::Range<u64>,
    says: Says,
}

/// Some for each sensor: bounces, two rows or three, dead channels; often one close behind another, or at the start. And
/// of a few sensors a channel goes wrong for long, and then a second one.
fn spells(r: &mut Rng, count: u64) -> Vec<Spell> {
    let most = r.pick(&[1, 2, 4, 8]);
    let mut all = Vec::new();
    for sensor in 0..18 {
        let mut first = if r.permille(100) { 1 } else { r.below(count) };
        for _ in 0..r.below(most + 1) {
            let length = match r.below(16) {
                0..=12 => r.pick(&[1, 2, 2, 3, 3, 4]),
                13 | 14 => r.range(4, 30),
                _ => count,
            };
            let says = r.pick(&[Says::Zero, Says::One, Says::Anything, Says::Otherwise, Says::Otherwise]);
            all.push(Spell { sensor, channel: r.index(3), rows: first..first + length, says });
            first = if r.permille(600) { first + length + r.below(3) } else { r.below(count) };
        }
    }
    for _ in 0..r.below(4) {
        let (sensor, channel, first, says) = (r.below(18), r.index(3), r.below(count), Says::Otherwise);
        let second = first + r.range(3, 40);
        all.push(Spell { sensor, channel, rows: first..first + count, says });
        all.push(Spell { sensor, channel: (channel + 1) % 3, rows: second..second + r.range(3, 20), says });
    }
    all
}

/// The truth as channels tell it; `spared` times in a thousand one that goes wrong does not.
fn told(r: &mut Rng, spells: &[Spell], row: u64, truth: u32, spared: u64) -> [u32; 3] {
    let mut sample = same(truth);
    for spell in spells.iter().filter(|spell| spell.rows.contains(&row)) {
        let bit = 1 << spell.sensor;
        let said = &mut sample[spell.channel];
        match spell.says {
            _ if r.permille(spared) => {}
            Says::Zero => *said &= !bit,
            Says::One => *said |= bit,
            Says::Anything => *said ^= bit & r.draw() as u32,
            Says::Otherwise => *said ^= bit,
        }
    }
    sample
}

/// Channels that bounce, die and come back, alone or two of a sensor; refused samples between.
pub fn channels(r: &mut Rng) -> Tape {
    let count = r.range(40, 900);
    let pace = Pace::new(r);
    let mut plant = Plant::new(r);
    let bounce = r.pick(&[0, 1, 5, 20, 60]);
    let refused = r.pick(&[0, 20, 150, 400]);
    let patience = r.pick(&[0, 0, 900, 1000]);
    let spells = spells(r, count);
    let noise: [u32; 3] = std::array::from_fn(|_| r.draw() as u32 & SENSORS);
    let mut tape = Tape::new(r.stamp(), if r.permille(500) { noise } else { same(AT_REST) });
    let mut after_red = r.range(3, 40);
    while tape.rows < count && after_red > 0 {
        let elapsed = pace.next(r);
        let truth = plant.see(r, &tape.rig, elapsed);
        while r.permille(refused) {
            // Whatever it says, it neither adds to a count nor sets it to 0.
            let sample = match r.below(3) {
                0 => same(truth),
                1 => told(r, &spells, tape.rows, truth, 0),
                _ => std::array::from_fn(|_| r.draw() as u32 & SENSORS),
            };
            tape.after(r.pick(&[0, 101, 200, 1 << 31]), sample);
        }
        let mut sample = same(truth);
        for attempt in 0..10 {
            sample = told(r, &spells, tape.rows, truth, 125 * attempt);
            for sensor in 0..18 {
                if attempt < 8 && r.permille(bounce) {
                    sample[r.index(3)] ^= 1 << sensor;
                }
            }
            if !tape.would_be_red(elapsed, sample) || !r.permille(patience) {
                break;
            }
        }
        tape.after(elapsed, sample);
        after_red -= u64::from(tape.red());
    }
    tape
}

/// Elapsed at and past its ends, far stalls, the stamp going round.
pub fn stalls(r: &mut Rng) -> Tape {
    let count = r.range(20, 500);
    let often = r.pick(&[20, 100, 300, 600]);
    let pace = Pace::new(r);
    let mut plant = Plant::new(r);
    let start = if r.permille(600) { u32::MAX - r.below(5_000) as u32 } else { r.stamp() };
    let mut tape = Tape::new(start, same(AT_REST));
    let mut shown = start; // the host's stamp, refused or not
    while tape.rows < count {
        let odd = [
            0,
            0,
            1,
            2,
            99,
            100,
            101,
            101,
            102,
            150,
            200,
            250,
            251,
            255,
            256,
            257,
            1_000,
            65_535,
            65_536,
            65_636,
            1 << 31,
            (1 << 31) + 50,
            (1 << 32) - 1,
            (1 << 32) - 50,
            (1 << 32) - 100,
            (1 << 32) - 101,
        ];
        let (elapsed, from) = if r.permille(often) {
            (r.pick(&odd), if r.permille(500) { shown } else { tape.rig.stamp })
        } else if r.permille(100) {
            (pace.next(r), shown)
        } else if r.permille(20) {
            (u64::from(r.pick(&[0u32, 1, 99, 100, u32::MAX, u32::MAX - 1, u32::MAX - 99])), 0)
        } else {
            (pace.next(r), tape.rig.stamp)
        };
        shown = from.wrapping_add(elapsed as u32);
        let real = u64::from(shown.wrapping_sub(tape.rig.stamp)).min(100);
        let mut seen = plant.see(r, &tape.rig, real);
        let mut sample = same(seen);
        if real == 100 || real == 0 || r.permille(20) {
            // What a refused sample says must not count.
            let refused = !(1..=100).contains(&u64::from(shown.wrapping_sub(tape.rig.stamp)));
            if refused && r.permille(500) {
                seen = r.draw() as u32 & SENSORS;
                sample = [seen, if r.permille(500) { seen } else { !seen & SENSORS }, seen];
            }
        }
        tape.at(shown, sample);
    }
    tape
}

/// When, by the age of the order that moves it, a unit stops being seen at the one end and is
/// first seen at the other.
#[derive(Clone, Copy)]
pub struct Travel {
    pub leave: u64,
    pub arrive: u64,
}

/// A rig told by ages: what the sensors see is a function of the ages of the orders.
pub struct Script {
    pub tape: Tape,
    /// By order less 1 (close, open, retract, extend) and unit.
    pub travel: [[Travel; 3]; 4],
    pub rise: u64,
    pub fall: u64,
    pub switch: (u64, u64),
    pub down: bool,
    pub seen: u32,
}

/// Per order: where its doors or gears leave and where they arrive (lowest bit of the three).
const ENDS: [(u32, u32); 4] = [(14, 11), (11, 14), (2, 5), (5, 2)];

impl Script {
    pub fn new(stamp: u32) -> Script {
        Script::onward(Rig::fresh(&Rules::default(), stamp))
    }

    /// Goes on with a controller; what it holds is what is seen.
    pub fn onward(rig: Rig) -> Script {
        let seen = rig.held;
        Script {
            tape: Tape::onward(rig, same(seen)),
            travel: [[Travel { leave: 100, arrive: 300 }; 3]; 4],
            rise: 100,
            fall: 1_000,
            switch: (0, 20_500),
            down: seen & HANDLE != 0,
            seen,
        }
    }

    pub fn age(&self, clock: usize) -> u64 {
        self.tape.rig.age(clock)
    }

    /// What is seen `elapsed` ms after the last accepted step.
    pub fn look(&mut self, elapsed: u64) -> u32 {
        let rig = &self.tape.rig;
        for (n, (from, to)) in ENDS.into_iter().enumerate() {
            for unit in 0..3 {
                let (travel, age) = (self.travel[n][unit], rig.age(n + 1) + elapsed);
                if rig.is_on(n + 1) && age >= travel.leave {
                    self.seen &= !(1 << (from + unit as u32));
                }
                if rig.is_on(n + 1) && age >= travel.arrive {
                    self.seen |= 1 << (to + unit as u32);
                }
            }
        }
        let general = rig.age(GENERAL) + elapsed;
        if rig.is_on(GENERAL) && general >= self.rise {
            self.seen |= PRESSURIZED;
        } else if !rig.is_on(GENERAL) && general >= self.fall {
            self.seen &= !PRESSURIZED;
        }
        let moved = self.down != (rig.held & HANDLE != 0);
        let handle = if moved { 0 } else { rig.age(HANDLE_CLOCK) + elapsed };
        self.seen = self.seen & !(HANDLE | SWITCH) | u32::from(self.down);
        if handle >= self.switch.0 && handle < self.switch.1 {
            self.seen |= SWITCH;
        }
        self.seen
    }

    pub fn step(&mut self, elapsed: u64) {
        let seen = self.look(elapsed);
        self.tape.after(elapsed, same(seen));
    }

    /// Moves the handle and takes a step.
    pub fn handle(&mut self, down: bool, elapsed: u64) {
        self.down = down;
        self.step(elapsed);
    }

    /// Steps of at most 100 until the age is exactly `target`.
    pub fn land(&mut self, clock: usize, target: u64) {
        while self.age(clock) < target {
            let gap = target - self.age(clock);
            self.step(gap.min(100));
        }
        assert_eq!(self.age(clock), target);
    }

    /// Steps of 100 until something holds of the controller.
    pub fn until(&mut self, holds: impl Fn(&Rig) -> bool) {
        for _ in 0..2_000 {
            if holds(&self.tape.rig) {
                return;
            }
            self.step(100);
        }
        panic!("the script waits for something that does not come");
    }
}

const MARKS: [u64; 11] = [100, 200, 1_000, 2_000, 7_000, 10_000, 20_000, 21_500, 60_000, 300, 500];

/// Ages driven to both sides of every threshold, with steps that land there exactly.
pub fn edges(r: &mut Rng, wheels: Wheels) -> Tape {
    if r.permille(500) {
        focused(r, wheels)
    } else {
        wandering(r, wheels)
    }
}

/// One threshold: everything is brisk but what that one is about.
fn focused(r: &mut Rng, mut wheels: Wheels) -> Tape {
    let mut s = Script::new(r.stamp());
    let focus = r.below(13);
    let (clock, mark) = [
        (OPEN, 7_000),
        (OPEN, 7_000),
        (CLOSE, 7_000),
        (CLOSE, 7_000),
        (RETRACT, 7_000),
        (RETRACT, 10_000),
        (EXTEND, 7_000),
        (EXTEND, 10_000),
        (GENERAL, 2_000),
        (GENERAL, 10_000),
        (HANDLE_CLOCK, 1_000),
        (HANDLE_CLOCK, 20_000),
        (HANDLE_CLOCK, 21_500),
    ][focus as usize];
    let near = |r: &mut Rng| r.range(mark - 2, mark + 3);
    let slow = r.index(3); // the unit that is late
    let count = r.range(230, 560);
    let mut next_move = r.range(1, 4);
    let mut after_red = r.range(3, 30);
    while s.tape.rows < count && after_red > 0 {
        next_move -= 1;
        if next_move == 0 {
            s.down = !s.down;
            next_move = if focus >= 11 { r.range(218, 250) } else { r.range(140, 260) };
            let unit = &mut s.travel[clock.clamp(1, 4) - 1][slow];
            match focus {
                0 | 2 => *unit = Travel { leave: near(r), arrive: near(r) },
                1 | 3 | 5 | 7 => unit.arrive = near(r),
                4 | 6 => *unit = Travel { leave: near(r), arrive: mark + 500 },
                8 => s.rise = near(r),
                9 => s.fall = near(r),
                10 => s.switch.0 = near(r),
                _ => s.switch.1 = near(r),
            }
        }
        let lands: Vec<u64> = [mark - 1, mark, mark + 1]
            .into_iter()
            .filter_map(|target| target.checked_sub(s.age(clock)))
            .filter(|gap| (1..=100).contains(gap))
            .collect();
        let elapsed = match lands[..] {
            [] if r.permille(100) => r.range(50, 100),
            [] => 100,
            _ => r.pick(&lands),
        };
        let ground = wheels.see(&s.tape.rig, elapsed, 0);
        let seen = s.look(elapsed) | ground;
        s.tape.after(elapsed, same(seen));
        after_red -= u64::from(s.tape.red());
    }
    s.tape
}

fn wandering(r: &mut Rng, mut wheels: Wheels) -> Tape {
    let count = r.range(100, 900);
    let risk = r.pick(&[20, 60, 150]);
    let mut script = Script::new(r.stamp());
    let mut started = 0u8;
    let mut after_red = r.range(5, 40);
    let mut next_move = r.range(1, 30);
    // Around a mark; past it only where the risk is taken.
    fn around(r: &mut Rng, risk: u64, calm: (u64, u64), mark: u64) -> u64 {
        match r.below(10) {
            0..=4 => r.range(calm.0, calm.1),
            _ if r.permille(risk) => mark + r.below(3) + 1,
            _ => mark - r.below(3),
        }
    }
    while script.tape.rows < count && after_red > 0 {
        // Draw anew what a newly started order will do.
        let on = script.tape.rig.on;
        for n in 0..4 {
            if (on & !started) >> (n + 1) & 1 == 1 {
                let (leave, arrive) = if n < 2 { (7_000, 7_000) } else { (7_000, 10_000) };
                let brisk = r.permille(400);
                for unit in 0..3 {
                    script.travel[n][unit] = if brisk {
                        Travel { leave: r.range(1, 200), arrive: r.range(100, 400) }
                    } else {
                        Travel {
                            leave: around(r, risk, (1, 2_000), leave),
                            arrive: around(r, risk, (1_000, 4_000), arrive),
                        }
                    };
                }
            }
        }
        if (on & !started) & 1 == 1 {
            script.rise = around(r, risk, (1, 1_500), 2_000);
        }
        if (!on & started) & 1 == 1 {
            script.fall = around(r, risk, (1, 8_000), 10_000);
        }
        started = on;
        // The instructor.
        next_move -= 1;
        if next_move == 0 {
            script.down = !script.down;
            script.switch.0 = around(r, risk, (0, 800), 1_000);
            script.switch.1 = match r.below(10) {
                0..=3 => r.range(20_000, 21_400),
                4..=6 if r.permille(risk) => 20_000 - r.range(1, 3),
                4..=6 => 20_000 + r.below(3),
                _ if r.permille(risk) => 21_500 + r.range(1, 3),
                _ => 21_500 - r.below(3),
            };
            next_move = match r.below(10) {
                0..=2 => r.range(1, 8),
                3..=6 => r.range(5, 150),
                7 | 8 => r.range(100, 400),
                _ => r.range(600, 800),
            };
        }
        // A step that lands at a mark, or just before or after one.
        let mut lands = Vec::new();
        for clock in 0..6 {
            let age = script.age(clock);
            for mark in MARKS {
                for target in [mark - 1, mark, mark + 1] {
                    if target > age && target - age <= 100 {
                        lands.push(target - age);
                    }
                }
            }
        }
        let elapsed = match r.below(20) {
            0..=14 if !lands.is_empty() => r.pick(&lands),
            0..=17 => 100,
            _ => r.range(1, 100),
        };
        let ground = wheels.see(&script.tape.rig, elapsed, 0);
        let mut seen = script.look(elapsed) | ground;
        if r.permille(10) {
            let odd = seen ^ 1 << r.range(2, 17);
            if !script.tape.would_be_red(elapsed, same(odd)) {
                seen = odd;
            }
        }
        script.tape.after(elapsed, same(seen));
        after_red -= u64::from(script.tape.red());
    }
    script.tape
}

/// A trace cut into its rows (the header first), without line breaks.
pub fn cut(text: &[u8]) -> Vec<Vec<u8>> {
    let text = text.strip_suffix(b"\r\n").unwrap_or(text);
    text.split(|&b| b == b'\n').map(|row| row.strip_suffix(b"\r").unwrap_or(row).to_vec()).collect()
}

/// A short trace with something wrong in it.
pub fn damaged(r: &mut Rng) -> Vec<u8> {
    let mut rows = cut(&short(r));
    let mut breaks: Vec<Vec<u8>> = vec![b"\r\n".to_vec(); rows.len()];
    let mut raw = None;
    for _ in 0..if r.permille(250) { 2 } else { 1 } {
        let at = r.index(rows.len());
        let row = at.max(1).min(rows.len() - 1);
        match r.below(19) {
            0 => rows[0] = odd_header(r),
            1 | 16 => {
                let whole: [&[u8]; 9] =
                    [b"", b"\r\n", b"\n", b"\r", b"\r\n\r\n", b"\r\r\n", b"0", b"step", b",,"];
                raw = Some(r.pick(&whole).to_vec());
            }
            2 | 3 => {
                pad(r, &mut rows[at]);
                if r.permille(500) {
                    breaks[at] = odd_break(r);
                }
            }
            4 => {
                let (place, byte) = (r.index(rows[at].len() + 1), r.pick(b"\r\n"));
                rows[at].insert(place, byte);
            }
            5 => breaks[at] = odd_break(r),
            6 => {
                let kind = odd_break(r);
                breaks.fill(kind);
            }
            7 | 17 => {
                let ends: [&[u8]; 8] =
                    [b"", b"\r", b"\n", b"\r\n\r\n", b"\r\n\n", b"\r\n\r", b"\r\r\n", b"\r\n\r\n\r\n"];
                *breaks.last_mut().unwrap() = r.pick(&ends).to_vec();
            }
            8 | 9 => {
                let which = if r.permille(600) { 0 } else { 1 };
                let text = odd_number(r, row as u64 - 1);
                field(&mut rows[row], which, text);
            }
            10 => {
                let texts: [&[u8]; 12] = [
                    b"", b"0", b"11", b"1111", b"112", b"011 ", b" 11", b"0x1", b"\"1\"", b"11\r", b"\n11",
                    b"-11",
                ];
                let (which, text) = (r.index(19) + 1, r.pick(&texts).to_vec());
                field(&mut rows[row], which, text);
            }
            11 => {
                let mut fields: Vec<Vec<u8>> = rows[row].split(|&b| b == b',').map(<[u8]>::to_vec).collect();
                let place = r.index(fields.len());
                match r.below(5) {
                    0 => drop(fields.remove(place)),
                    1 => fields.insert(place, b"000".to_vec()),
                    2 => fields.insert(place, Vec::new()),
                    3 => fields.push(r.pick(&[b"".to_vec(), b"000".to_vec(), b"0".to_vec()])),
                    _ => fields.truncate(place),
                }
                rows[row] = fields.join(&b',');
            }
            12 => {
                let byte = r.pick(&[0, 9, 32, 44, 45, 46, 47, 48, 49, 50, 58, 127, 128, 176, 177, 255]);
                let place = r.index(rows[at].len().max(1));
                if place < rows[at].len() && r.permille(600) {
                    rows[at][place] = byte;
                } else {
                    rows[at].insert(place, byte);
                }
            }
            13 => match r.below(4) {
                0 => drop((rows.remove(at), breaks.remove(at))),
                1 => {
                    let copy = rows[at].clone();
                    rows.insert(at, copy);
                    breaks.push(b"\r\n".to_vec());
                }
                2 => rows.swap(at, row),
                _ => rows[at].clear(),
            },
            14 => {
                // An over-long row with a wrong label, or a broken one.
                let text = odd_number(r, row as u64 - 1);
                field(&mut rows[row], 0, text);
                let length = r.range(511, 515) as usize;
                rows[row].resize(length, b'0');
            }
            15 => {
                let text = odd_number(r, row as u64 - 1);
                field(&mut rows[row], 0, text);
                let which = r.index(19) + 1;
                field(&mut rows[row], which, b"21".to_vec());
            }
            _ => {
                let mut text = join(&rows, &breaks);
                if r.permille(500) {
                    text.truncate(r.index(text.len() + 1));
                } else if !text.is_empty() {
                    for _ in 0..r.range(1, 3) {
                        let place = r.index(text.len());
                        text[place] ^= 1 << r.below(8);
                    }
                }
                raw = Some(text);
            }
        }
        if rows.is_empty() {
            break;
        }
    }
    raw.unwrap_or_else(|| join(&rows, &breaks))
}

/// A sound trace of a few rows.
fn short(r: &mut Rng) -> Vec<u8> {
    let mut plant = Plant::new(r);
    plant.next_move = r.range(1, 400) as i64;
    let mut tape = Tape::new(r.stamp(), same(AT_REST));
    for _ in 0..if r.permille(50) { r.range(90, 120) } else { r.below(13) } {
        let elapsed = r.range(0, 103);
        let seen = plant.see(r, &tape.rig, elapsed);
        tape.after(elapsed, same(seen));
    }
    tape.text
}

fn join(rows: &[Vec<u8>], breaks: &[Vec<u8>]) -> Vec<u8> {
    rows.iter().zip(breaks).flat_map(|(row, end)| [row.clone(), end.clone()].concat()).collect()
}

pub fn field(row: &mut Vec<u8>, which: usize, text: Vec<u8>) {
    let mut fields: Vec<Vec<u8>> = row.split(|&b| b == b',').map(<[u8]>::to_vec).collect();
    let which = which.min(fields.len() - 1);
    fields[which] = text;
    *row = fields.join(&b',');
}

fn odd_break(r: &mut Rng) -> Vec<u8> {
    let ends: [&[u8]; 10] =
        [b"\n", b"\r", b"\r\r\n", b"\n\r", b"\r\n\r\n", b"\r\n\n", b"\n\n", b"", b"\r\r", b"\r\n\r"];
    r.pick(&ends).to_vec()
}

fn odd_number(r: &mut Rng, due: u64) -> Vec<u8> {
    let text = match r.below(18) {
        0 => format!("{}", due + 1),
        1 => format!("{}", due.wrapping_sub(1)),
        2 => format!("0{due}"),
        3 => format!("+{due}"),
        4 => format!("-{due}"),
        5 => "4294967295".into(),
        6 => format!("{}", (1u64 << 32) + due),
        7 => format!("{}", (1u128 << 64) + u128::from(due)),
        8 => String::new(),
        9 => format!(" {due}"),
        10 => format!("{due} "),
        11 => format!("{due}.0"),
        12 => format!("00{due}"),
        13 => format!("\"{due}\""),
        14 => format!("{due}e0"),
        15 => format!("{}{due}", "0".repeat(r.range(8, 30) as usize)),
        16 => format!("{}", r.draw() >> r.below(64)),
        _ => format!("{:x}", due + 10),
    };
    text.into_bytes()
}

/// Brings a row to about 512 bytes, seldom to far more.
fn pad(r: &mut Rng, row: &mut Vec<u8>) {
    let length = match r.below(20) {
        0 => r.range(600, 3_000),
        1 if r.permille(300) => r.range(60_000, 300_000),
        _ => r.range(509, 516),
    } as usize;
    let fill = r.pick(b"0 1,,\r\nx\0\xff");
    let room = length.saturating_sub(row.len());
    let filler = std::iter::repeat_n(fill, room);
    match r.below(3) {
        0 => row.splice(0..0, filler).for_each(drop),
        1 => {
            let place = r.index(row.len() + 1);
            row.splice(place..place, filler).for_each(drop);
        }
        _ => row.extend(filler),
    }
    if r.permille(100) {
        let end = r.pick(b"\r\n");
        *row.last_mut().unwrap() = end;
    }
}

fn odd_header(r: &mut Rng) -> Vec<u8> {
    let mut header = HEADER.to_vec();
    let place = r.index(header.len());
    match r.below(12) {
        0 => header[place] ^= 32,
        1 => drop(header.remove(place)),
        2 => header.insert(place, r.pick(b" ,_ax\0")),
        3 => header.extend_from_slice(r.pick(&[&b","[..], b",step", b" ", b"\r", b"\n"])),
        4 => header = [&b"\xef\xbb\xbf"[..], HEADER].concat(),
        5 => header.truncate(place),
        6 => header.clear(),
        7 => header = HEADER.to_ascii_uppercase(),
        8 => header = [b"\"", HEADER, b"\""].concat(),
        9 => {
            let mut names: Vec<&[u8]> = HEADER.split(|&b| b == b',').collect();
            names.swap(r.index(20), r.index(20));
            header = names.join(&b',');
        }
        10 => pad(r, &mut header),
        _ => {
            let names: Vec<&[u8]> = HEADER.split(|&b| b == b',').collect();
            let skip = r.index(20);
            let kept: Vec<&[u8]> = names.iter().enumerate().filter(|n| n.0 != skip).map(|n| *n.1).collect();
            header = kept.join(&b',');
        }
    }
    header
}

/// The trace of a seed and a kind.
pub fn trace(seed: u64, kind: &str, rows: Option<u64>) -> Option<Vec<u8>> {
    let r = &mut Rng::new(seed);
    Some(match kind {
        "nominal" => nominal(r, rows).text,
        "adversarial" => adversarial(r, None).text,
        "channels" => channels(r).text,
        "stalls" => stalls(r).text,
        "edges" => {
            let wheels = Wheels::of(r, 600);
            edges(r, wheels).text
        }
        "damaged" => damaged(r),
        _ => return None,
    })
}

/// The trace of a seed that goes on from an image's controller.
pub fn onward(seed: u64, rig: &Rig) -> Vec<u8> {
    adversarial(&mut Rng::new(seed), Some(rig)).text
}
