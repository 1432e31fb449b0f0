//! The numbers of document 01 and, for tests, the faults that can be planted.
//! `Rules::default()` is document 01 with K1's lamps, K2's dumps, K3's images, K4's wall, K5's votes, K6's forms and
//! K7's ground; every fault moves one number or makes one `Slip`.

use crate::image::Form;
use crate::rig::{CLOSE, EXTEND, GENERAL, HANDLE_CLOCK, OPEN, RETRACT};

/// One way of getting document 01 or one of K1 to K7 wrong that is not a moved number. A number in it is a
/// unit: 0 front, 1 left, 2 right; for the ground also a channel from 0; for images a sensor, an order, a clock, a
/// count, or channels, doors and gears by number; for the wall a fact, an entry or a place.
#[derive(Clone, Copy, PartialEq, Eq, Debug)]
#[rustfmt::skip]
pub enum Slip {
    None,
    // The sample and its stamp
    StampMoved, StampNotRound, CodesSwapped, AgesGrowRefused, VoteRefused, Row0Used,
    // A fresh start
    FreshAge0, FreshHandleUp, FreshGears0, FreshDoors0,
    // Ages
    AgesGoRound, StartKeepsAge, StopKeepsAge, HandleAgeKept, HandleAgeLate,
    // Voting
    LetBack, NeverStruck, FirstChannel, TwoDifferAgree, TwoDifferNoRed, InvalidTakesNew, InvalidBack,
    // What is counted before a strike, or before a sensor is invalid
    KeptOverAgreement, TwoKeptOverAgreement, KeptOverOther, OtherFrom0, TwoFromCount, OneCountForAll,
    RefusedCounts, RefusedResets, Row0Counts,
    // The value until then
    OddTaken, OddKeepsLast, StrikeKeepsLast, SplitTakesNew,
    // Monitors
    MonitorsFirst, MonitorsOldAge, NotLatched, Cause11NoEnd,
    // Sequence
    LatchingMove, RedMoves, ClosingKept, OpeningKept, TwoMoves, WrongWayKept,
    AnyDoorOpen, AnyDoorClosed, AnyGearThere, AimSwapped,
    // What tells that the rig is on the ground
    GroundUnread, GroundAll, GroundTwo, GroundOnly(u8), GroundForgets(u8), GroundInverted, GroundNone,
    GroundChannel(usize), GroundAnyChannel, GroundAllChannels, GroundMajority, GroundInvalid0, GroundInvalid1,
    GroundBefore, GroundLiftLate, GroundTouchLate, GroundAtHandle, GroundLatched,
    // For which handle and gears it counts, and what then happens
    GroundDownToo, GroundDownInstead, GroundAnyGears, GroundSeenExtended, GroundAims, GroundTurnsBack,
    GroundKeepsExtending, GroundHoldsRetracting,
    GroundNothingMoves, GroundHoldsGears, GroundHoldsClosed, GroundClosedOpens, GroundOpeningGoesOn,
    GroundOpeningKept, GroundOpenRetracts, GroundOpenKept, GroundClosingOpens, GroundClosingKept,
    GroundClosingUnseen, GroundIsRed, GroundStopsRetract, LiftRestartsHandle, GroundStopsHandleAge,
    // Orders
    OppositeUnchecked, OppositeAgeOnly, OppositeAtStop, OppositesSwapped, WaitsOldAge,
    GeneralOnUnchecked, OrdersKeptRed, GeneralKeptRed, GeneralWaitsNone, GeneralOnlyClosed,
    // Lights
    GreenSequence, GreenSomeGear, GreenForgets(u8), GreenNoneRetracted, GreenDoorsClosed, GreenOffRed,
    OrangeSequence, OrangeGearSequence, OrangeDoorSequence, OrangeDoorsOnly, OrangeGearsOnly,
    OrangeDoorAndGear, OrangeOffGreen, OrangeNotGreen, OrangeOffRed,
    OrangeAllDoors, OrangeDoorOpen, OrangeDoorOpenToo, OrangeDoorBetween, OrangeForgetsDoor(u8),
    OrangeGearsTogether, OrangeAllGears, OrangeGearBoth, OrangeForgetsGear(u8),
    /// A gear's extended with the retracted of the one that is so many further.
    OrangePairs(u8),
    NoRed,
    // What the lamps read
    LampsBeforeVote, LampsFrozenRed, LampsLatchingKept, LampsChannel1, LampsMajority, LampsRefused,
    LampsInvalid0, LampsInvalid1,
    // The trace and its program
    FiveBeforeSix, SevenBeforeFive, SevenBeforeSix, LabelUnchecked, LabelKeptOnRefusal,
    LabelRound, StampRound, LeadingZero, PlusSign, EmptyNumber, DigitUnchecked, ExtraField,
    LfEndsRow, CrDropped, CrCrLf, EmptyLastRow, LastRowDropped, LastCrLfCopied,
    HeaderUnchecked, HeaderLong5, NoHeaderSilent, LineIsLabel, GoesOn, RefusedEmpty,
    // Not visible in the output rows
    HighestCause, StampMovedOn3,
    // Writing a dump: which values
    FreshOthers1, LampOrderSwapped, OpenCloseSwapped, OrangeRedSwapped, LeftRightSwapped,
    WiresMajority, WiresChannel1, WiresRefusedSample, WiresInvalid0,
    // Which times
    TimeModulo32, TimeIsStamp, TimeIsLabel, TimeNotRound, TimeBeforeStep, RefusedAddsTime,
    IdleTimeWritten, LastTimeWritten, RefusedRowEnds, WithheldOnRefusal, LastBlockLost,
    // Which bytes
    FirstStateMissing, FirstAfterStep, HeadAlways, DumpvarsOpen, CodesFromNext, AllWiresWritten,
    FirstChangeOnly, ChangesBackwards, ComparesWithFirst, NoLastLf, DumpCrLf,
    // Reading a dump: what is taken
    HeadUnchecked, AfterEndSkipped, UnknownTaken, CodePastTaken, OutOfOrderTaken, TwiceTaken,
    UnchangedTaken, LeadingZeroTaken, ZeroTimeTaken, EqualTimeTaken, FallingTimeTaken, TimeRound,
    ReadModulo32, LastTimeRefused, IdleTimeTaken, MissingLfTaken, CrLfTaken, BlankLineTaken,
    RubbishEndsDump,
    // What the sheet then shows
    LastRowLost, RowOnRefusal, RowAtNextTime, ValuesStartAgain, SheetLf, NoSheetHeader,
    // Not visible in the output rows, but in images
    CauseReplaced, CauseLowered,
    // Saving an image: of which state, with which values
    ImageBefore, StallNoImage, StampOfRefused, StampOfStart, TornNoImage, ImageWithoutRow0,
    AgesUncapped, AgeOfOff0, HandleAgeOfGeneral, InvalidAsStruck, StruckUnwritten, StruckAsInvalid,
    InvalidHeld0, HeldUnvoted, CauseIsOne,
    SavesOld, SavesOldUncounted, CountsUnsaved, OddUnsaved, CountUnsaved, SplitUnsaved, OddSavedOnlyTwice,
    CountSavedAs1, CountSavedFrom0, OddSavedFrom0, SplitSavedAsOdd,
    // Items and numbers, saved and loaded
    LittleEndian, AgeBeforeOn, HeldBeforeVoter, VotersFirst, OpenCloseItems, RetractExtendItems,
    GeneralLast, HandleAgeFirst, DoorsGearsItems, CauseFirst, StampLast, LeftRightItems, SensorsBackwards,
    DoorsRenumbered, DoorsMovesSwapped, GearsEndsSwapped, GearsMovesSwapped, VotersFrom0, VotersBackwards,
    CountBeforeOdd, CountsBeforeHeld, CountsBeforeVoter, CountsBehindSensors, CountsLast,
    // Taking an image: length, range, order
    LongerTaken, ShorterTaken, LengthInFours, EmptyIsFresh, RuleBeforeRange, RefusalsSwapped,
    ItemsSigned, ItemsLow16, SensorUnranged(usize), AgeUnranged(usize),
    OldUntaken, NewUntaken, RangesUnchecked(Form), RulesUnchecked(Form), OddUnranged(usize), CountUnranged(usize),
    CountsSigned, CountsLow16,
    // Its rules
    MovingUnchecked, MovingTakes(u32), MovingForgets(u32), OpenOnlyMoving,
    UnwantedTaken, UnwantedOrder(usize), WantedMustBeOn, OpenWantedOpen,
    RedOrdersTaken, RedOrder(usize), OrdersWithoutGeneral,
    GeneralOffTaken, GeneralOffWith(u32), GeneralOffRed, GeneralOnClosed,
    InvalidTaken, InvalidSensor(usize), InvalidOnly13, Cause13OnlyInvalid, StruckNeedsCause,
    ValidUnchecked, ValidForgets(usize), OddAloneTaken, CountAloneTaken,
    StruckUnchecked, StruckForgets(usize), StruckForgetsChannel(u32), StruckOddAloneTaken, StruckOddCountTaken,
    StruckOddSelfTaken, StruckUncounted,
    InvalidUnchecked, InvalidForgets(usize), InvalidOddTaken, InvalidCountTaken, InvalidBothTaken,
    CountsNeedNoCause, CountOnlyFirst,
    // Converting one
    EightNever, EightForNew, EightForOld, EightOneMore, EightOneLess, EightAfterTen, EightAfterEleven, EightLast,
    TwelveNever, TwelveForOdd, TwelveForSplit, TwelveAt(u32), TwelveForgets(usize), TwelveForStruck,
    TwelveBeforeEleven, TwelveBeforeTen, TwelveBeforeEight, OldGets12, NewGets12, SameUnchecked, ConvertsUnruled,
    ConvertedStamp0, ConvertedAges0, WidenedBeforeHeld, WidenedOdd1, WidenedCount1, NarrowedHeld, SameUncounted,
    // Starting from one
    StampKept, AgesLost, AgesFrom0, AgeLost(usize), AgesSinceImage, CauseLost, StruckLost, StruckNext,
    InvalidLost, HeldLost, OrdersLost, Row0Stepped, FreshInstead,
    CountsUnloaded, OddUnloaded, CountUnloaded, SplitUnloaded, CountLoadedAs1, CountLoadedOneMore, OddLoadedNext,
    OldOdd, OldSplit,
    // Showing one
    ShownCrLf, ShownNoLastLf, ShownThousands, ShownChannels0, ShownCauseNext, ShownOnOff, ShownStampSigned,
    ShownUncounted, ShownCount0, ShownPlural, ShownSingular, ShownSplitAsOdd, ShownOddAsSplit, ShownOddFrom0,
    ShownOddCountSwapped,
    // The wall: which entry is asked
    FactsSwapped(usize, usize), FactsBackwards, PlaceBackwards, HandleInIndex, DoorsGearsInIndex, HandleLast,
    IndexNext, EntryWrong(usize), GroundInIndex, GroundAndHandleInIndex, GroundLast,
    // What its row says
    PossibleInverted, PossibleClosed, PossibleNotClosed, PossibleAlways, PossibleOfNext,
    NextAndPresent, NextIsPresent, NextGearsFirst, HandleWords, OpenAndClosingNumbers, NumbersFrom1, EntriesFrom1,
    WallLf, WallNoHeader, WallNoLastCrLf, WallLowerCase,
    OnGroundInverted, OnGroundAlways0, OnGroundUnwritten, OnGroundBehindHandle, OnGroundLast, OnGroundInWords, WallAirOnly,
    WallGroundFirst, WallGroundFrom0,
    // What its page says
    PageNoGrey, PageGreyMoved, PageNoElse, PageThenElse, PageFactUnnamed, PageFactTooMany, PageOtherFact,
    PageMovesKeeps, PageStaysSpelt, PageColumns, PageRows, PageHandles, PageNumbers, PageLacks(usize), PageTwice(usize),
    PageAims, PageNoTableNumber, PageTableNumberUnweighed, PageTableNumberOfAir,
    // And of the ground
    PageNoGround, PageGroundAll, PageGroundMore(usize), PageGroundUnheaded, PageGroundHandle, PageGroundInAir,
    PageGroundColumns, PageGroundRow, PageGroundNumbers, PageGroundOfAir, PageGroundMirrored, PageGroundAims,
    PageGroundNoAims, PageGroundFirst,
}

/// The highest number of each sort of item in an image.
#[derive(Clone, Debug)]
pub struct Tops {
    pub voter: u32,
    pub held: u32,
    pub odd: u32,
    pub count: u32,
    pub on: u32,
    pub age: u32,
    pub handle_age: u32,
    pub doors: u32,
    pub gears: u32,
    pub cause: u32,
}

#[derive(Clone, Debug)]
pub struct Rules {
    pub elapsed_max: u64,
    pub age_cap: u64,
    pub general_wait: u64,
    pub opposite_wait: u64,
    pub general_stop: u64,
    /// The age from which causes 1 to 12 can hold (index 0 is not used).
    pub cause: [u64; 13],
    /// The age at which cause 11 holds no more.
    pub cause_11_end: u64,
    pub row_max: usize,
    /// At which accepted sample in a row an odd channel is struck, and a sensor whose two channels differ invalid.
    pub strike_at: u64,
    pub invalid_at: u64,
    pub top: Tops,
    pub slip: Slip,
}

impl Default for Rules {
    fn default() -> Self {
        Rules {
            elapsed_max: 100,
            age_cap: 60_000,
            general_wait: 200,
            opposite_wait: 100,
            general_stop: 1_000,
            cause: [
                0, 7_000, 7_000, 7_000, 7_000, 7_000, 10_000, 7_000, 10_000, 2_000, 10_000, 1_000, 21_500,
            ],
            cause_11_end: 20_000,
            row_max: 512,
            strike_at: 3,
            invalid_at: 3,
            top: Tops {
                voter: 4,
                held: 1,
                odd: 3,
                count: 2,
                on: 1,
                age: 60_000,
                handle_age: 60_000,
                doors: 3,
                gears: 3,
                cause: 13,
            },
            slip: Slip::None,
        }
    }
}

impl Rules {
    #[inline]
    pub fn is(&self, slip: Slip) -> bool {
        self.slip == slip
    }
}

fn slips(list: &[(&str, Slip)]) -> Vec<(String, Rules)> {
    list.iter().map(|&(name, slip)| (name.to_string(), Rules { slip, ..Rules::default() })).collect()
}

/// Every fault that the output rows can show.
pub fn faults() -> Vec<(String, Rules)> {
    use Slip::*;
    let mut all = slips(&[
        ("stamp_moved_on_refusal", StampMoved),
        ("stamp_not_modulo_2p32", StampNotRound),
        ("codes_3_4_swapped", CodesSwapped),
        ("ages_grow_on_refusal", AgesGrowRefused),
        ("vote_on_refusal", VoteRefused),
        ("row_0_sample_used", Row0Used),
        ("fresh_ages_0", FreshAge0),
        ("fresh_handle_up", FreshHandleUp),
        ("fresh_gear_sensors_0", FreshGears0),
        ("fresh_door_sensors_0", FreshDoors0),
        ("ages_go_round_at_60000", AgesGoRound),
        ("start_keeps_age", StartKeepsAge),
        ("stop_keeps_age", StopKeepsAge),
        ("handle_age_not_reset", HandleAgeKept),
        ("handle_age_reset_after_monitors", HandleAgeLate),
        ("struck_channel_let_back", LetBack),
        ("channel_never_struck", NeverStruck),
        ("first_channel_taken", FirstChannel),
        ("two_differ_first_taken", TwoDifferAgree),
        ("invalid_sensor_no_anomaly", TwoDifferNoRed),
        ("invalid_sensor_takes_new_value", InvalidTakesNew),
        ("invalid_sensor_let_back", InvalidBack),
        ("monitors_before_vote", MonitorsFirst),
        ("monitors_use_old_ages", MonitorsOldAge),
        ("anomaly_not_latched", NotLatched),
        ("cause_11_without_end", Cause11NoEnd),
        ("move_in_latching_step", LatchingMove),
        ("moves_with_anomaly", RedMoves),
        ("closing_never_reopened", ClosingKept),
        ("opening_never_reclosed", OpeningKept),
        ("two_moves_in_a_step", TwoMoves),
        ("gears_wrong_way_kept", WrongWayKept),
        ("some_door_open_enough", AnyDoorOpen),
        ("some_door_closed_enough", AnyDoorClosed),
        ("some_gear_there_enough", AnyGearThere),
        ("aim_swapped", AimSwapped),
        ("opposite_unchecked", OppositeUnchecked),
        ("opposite_age_only", OppositeAgeOnly),
        ("opposite_started_in_stopping_step", OppositeAtStop),
        ("opposites_swapped", OppositesSwapped),
        ("waits_use_old_ages", WaitsOldAge),
        ("general_age_only", GeneralOnUnchecked),
        ("orders_kept_on_anomaly", OrdersKeptRed),
        ("general_kept_on_anomaly", GeneralKeptRed),
        ("general_stops_without_wait", GeneralWaitsNone),
        ("general_stop_forgets_gear_orders", GeneralOnlyClosed),
        ("green_from_sequence", GreenSequence),
        ("green_with_some_gear_extended", GreenSomeGear),
        ("green_forgets_front_gear", GreenForgets(0)),
        ("green_forgets_left_gear", GreenForgets(1)),
        ("green_forgets_right_gear", GreenForgets(2)),
        ("green_only_with_none_retracted", GreenNoneRetracted),
        ("green_only_with_doors_closed", GreenDoorsClosed),
        ("green_off_with_anomaly", GreenOffRed),
        ("orange_from_sequence", OrangeSequence),
        ("orange_gears_from_sequence", OrangeGearSequence),
        ("orange_doors_from_sequence", OrangeDoorSequence),
        ("orange_from_doors_only", OrangeDoorsOnly),
        ("orange_from_gears_only", OrangeGearsOnly),
        ("orange_only_with_door_and_gear", OrangeDoorAndGear),
        ("orange_off_with_green", OrangeOffGreen),
        ("orange_where_not_green", OrangeNotGreen),
        ("orange_off_with_anomaly", OrangeOffRed),
        ("orange_only_with_no_door_closed", OrangeAllDoors),
        ("orange_from_door_open", OrangeDoorOpen),
        ("orange_from_door_open_too", OrangeDoorOpenToo),
        ("orange_only_with_door_between", OrangeDoorBetween),
        ("orange_forgets_front_door", OrangeForgetsDoor(0)),
        ("orange_forgets_left_door", OrangeForgetsDoor(1)),
        ("orange_forgets_right_door", OrangeForgetsDoor(2)),
        ("orange_unless_gears_all_at_one_end", OrangeGearsTogether),
        ("orange_only_with_no_gear_at_an_end", OrangeAllGears),
        ("orange_with_gear_at_both_ends", OrangeGearBoth),
        ("orange_forgets_front_gear", OrangeForgetsGear(0)),
        ("orange_forgets_left_gear", OrangeForgetsGear(1)),
        ("orange_forgets_right_gear", OrangeForgetsGear(2)),
        ("orange_pairs_next_gear", OrangePairs(1)),
        ("orange_pairs_gear_after_next", OrangePairs(2)),
        ("red_never_lit", NoRed),
        ("lamps_before_vote", LampsBeforeVote),
        ("lamps_frozen_with_anomaly", LampsFrozenRed),
        ("lamps_kept_in_latching_step", LampsLatchingKept),
        ("lamps_from_channel_1", LampsChannel1),
        ("lamps_from_raw_majority", LampsMajority),
        ("lamps_from_refused_sample", LampsRefused),
        ("lamps_take_invalid_as_0", LampsInvalid0),
        ("lamps_take_invalid_as_1", LampsInvalid1),
        ("row_5_before_6", FiveBeforeSix),
        ("row_7_before_5", SevenBeforeFive),
        ("row_7_before_6", SevenBeforeSix),
        ("label_unchecked", LabelUnchecked),
        ("label_kept_on_refusal", LabelKeptOnRefusal),
        ("label_modulo_2p32", LabelRound),
        ("stamp_text_modulo_2p32", StampRound),
        ("leading_zero_taken", LeadingZero),
        ("plus_sign_taken", PlusSign),
        ("empty_number_taken", EmptyNumber),
        ("digit_unchecked", DigitUnchecked),
        ("extra_field_taken", ExtraField),
        ("lone_lf_ends_row", LfEndsRow),
        ("final_cr_dropped", CrDropped),
        ("cr_cr_lf_ends_row", CrCrLf),
        ("empty_last_row_ignored", EmptyLastRow),
        ("last_row_without_crlf_dropped", LastRowDropped),
        ("last_crlf_copied_from_input", LastCrLfCopied),
        ("header_unchecked", HeaderUnchecked),
        ("header_over_512_is_5", HeaderLong5),
        ("empty_input_silent", NoHeaderSilent),
        ("refusal_row_bears_label", LineIsLabel),
        ("goes_on_after_refusal_row", GoesOn),
        ("fields_empty_on_3_4", RefusedEmpty),
    ]);
    let mut number = |name: &str, get: fn(&mut Rules) -> &mut u64| {
        for off in [-1, 1] {
            let mut rules = Rules::default();
            let n = get(&mut rules);
            *n = n.wrapping_add_signed(off);
            all.push((format!("{name}_{n}"), rules));
        }
    };
    number("elapsed_limit", |r| &mut r.elapsed_max);
    number("general_wait", |r| &mut r.general_wait);
    number("opposite_wait", |r| &mut r.opposite_wait);
    number("general_stop", |r| &mut r.general_stop);
    number("cause_1_at", |r| &mut r.cause[1]);
    number("cause_2_at", |r| &mut r.cause[2]);
    number("cause_3_at", |r| &mut r.cause[3]);
    number("cause_4_at", |r| &mut r.cause[4]);
    number("cause_5_at", |r| &mut r.cause[5]);
    number("cause_6_at", |r| &mut r.cause[6]);
    number("cause_7_at", |r| &mut r.cause[7]);
    number("cause_8_at", |r| &mut r.cause[8]);
    number("cause_9_at", |r| &mut r.cause[9]);
    number("cause_10_at", |r| &mut r.cause[10]);
    number("cause_11_at", |r| &mut r.cause[11]);
    number("cause_11_end", |r| &mut r.cause_11_end);
    number("cause_12_at", |r| &mut r.cause[12]);
    for n in 1..=12 {
        let mut rules = Rules::default();
        rules.cause[n] = u64::MAX;
        all.push((format!("cause_{n}_never"), rules));
    }
    for row_max in [511, 513] {
        all.push((format!("row_limit_{row_max}"), Rules { row_max, ..Rules::default() }));
    }
    all.push(("age_cap_21499".into(), Rules { age_cap: 21_499, ..Rules::default() }));
    all.push(("opposite_wait_0".into(), Rules { opposite_wait: 0, ..Rules::default() }));
    all.extend(count_faults());
    all.extend(ground_faults());
    all
}

/// Faults of K7.
pub fn ground_faults() -> Vec<(String, Rules)> {
    use Slip::*;
    let mut all = slips(&[
        ("ground_not_looked_at", GroundUnread),
        ("ground_needs_all_absorbers", GroundAll),
        ("ground_needs_two_absorbers", GroundTwo),
        ("absorbers_inverted", GroundInverted),
        ("ground_where_no_absorber_says_so", GroundNone),
        ("ground_from_any_channel", GroundAnyChannel),
        ("ground_needs_all_channels", GroundAllChannels),
        ("ground_from_raw_majority", GroundMajority),
        ("ground_before_vote", GroundBefore),
        ("lift_counts_a_sample_late", GroundLiftLate),
        ("touch_counts_a_sample_late", GroundTouchLate),
        ("ground_only_where_handle_moves", GroundAtHandle),
        ("ground_kept_until_handle_down", GroundLatched),
        ("handle_down_guarded_too", GroundDownToo),
        ("handle_down_guarded_instead", GroundDownInstead),
        ("gears_not_looked_at_on_ground", GroundAnyGears),
        ("gears_seen_extended_on_ground", GroundSeenExtended),
        ("ground_aims_at_extended", GroundAims),
        ("retracting_turned_back_on_ground", GroundTurnsBack),
        ("extending_goes_on_on_ground", GroundKeepsExtending),
        ("retracting_held_on_ground", GroundHoldsRetracting),
        ("nothing_moves_on_ground", GroundNothingMoves),
        ("only_gears_held_on_ground", GroundHoldsGears),
        ("only_doors_closed_held_on_ground", GroundHoldsClosed),
        ("doors_closed_open_on_ground", GroundClosedOpens),
        ("doors_opening_go_on_on_ground", GroundOpeningGoesOn),
        ("doors_left_opening_on_ground", GroundOpeningKept),
        ("gears_leave_doors_open_on_ground", GroundOpenRetracts),
        ("doors_left_open_on_ground", GroundOpenKept),
        ("doors_closing_open_on_ground", GroundClosingOpens),
        ("doors_left_closing_on_ground", GroundClosingKept),
        ("doors_closed_unseen_on_ground", GroundClosingUnseen),
        ("handle_up_on_ground_is_red", GroundIsRed),
        ("retract_order_stops_on_ground", GroundStopsRetract),
        ("handle_age_restarts_at_lift", LiftRestartsHandle),
        ("handle_age_waits_on_ground", GroundStopsHandleAge),
    ]);
    for (unit, name) in (0..).zip(["front", "left", "right"]) {
        all.extend(slips(&[
            (&format!("ground_from_{name}_absorber_only")[..], GroundOnly(unit)),
            (&format!("ground_forgets_{name}_absorber")[..], GroundForgets(unit)),
        ]));
    }
    for channel in 0..3 {
        all.extend(slips(&[(&format!("ground_from_channel_{}", channel + 1)[..], GroundChannel(channel))]));
    }
    all
}

/// Faults of K5: when a channel is struck or a sensor invalid, what is counted, and the value until then.
fn count_faults() -> Vec<(String, Rules)> {
    use Slip::*;
    let mut all = Vec::new();
    for n in [1, 2, 4] {
        all.push((format!("struck_at_sample_{n}"), Rules { strike_at: n, ..Rules::default() }));
        all.push((format!("invalid_at_sample_{n}"), Rules { invalid_at: n, ..Rules::default() }));
    }
    all.extend(slips(&[
        ("count_kept_over_agreement", KeptOverAgreement),
        ("count_of_two_kept_over_agreement", TwoKeptOverAgreement),
        ("count_kept_over_other_odd_channel", KeptOverOther),
        ("other_odd_channel_starts_at_0", OtherFrom0),
        ("two_left_begin_with_count_of_strike", TwoFromCount),
        ("one_count_for_all_sensors", OneCountForAll),
        ("refused_sample_counts", RefusedCounts),
        ("refused_sample_resets_count", RefusedResets),
        ("row_0_counts", Row0Counts),
        ("odd_channel_taken_until_struck", OddTaken),
        ("last_value_kept_until_struck", OddKeepsLast),
        ("last_value_kept_when_struck", StrikeKeepsLast),
        ("two_differ_new_value_taken", SplitTakesNew),
    ]));
    all
}

/// Faults that no output row can show: the cause is not written; on a refusal 3 both stamps are equal; with a sensor
/// invalid nothing moves, so that no ground counts; no threshold lies at the cap.
pub fn unseen() -> Vec<(String, Rules)> {
    let mut all = unseen_everywhere();
    all.extend(unseen_in_rows());
    all
}

/// Those of them that no image shows either.
fn unseen_everywhere() -> Vec<(String, Rules)> {
    slips(&[
        ("stamp_moved_on_3", Slip::StampMovedOn3),
        ("ground_takes_invalid_as_0", Slip::GroundInvalid0),
        ("ground_takes_invalid_as_1", Slip::GroundInvalid1),
    ])
}

/// Those of them that an image shows.
fn unseen_in_rows() -> Vec<(String, Rules)> {
    let mut all = slips(&[
        ("highest_cause_kept", Slip::HighestCause),
        ("later_cause_replaces", Slip::CauseReplaced),
        ("later_lower_cause_replaces", Slip::CauseLowered),
    ]);
    for age_cap in [59_999, 60_001, 21_500] {
        all.push((format!("age_cap_{age_cap}"), Rules { age_cap, ..Rules::default() }));
    }
    all
}

/// Faults that no image can show, nor what is loaded from one: on a refusal 3 both stamps are equal; with a sensor
/// invalid nothing moves; an order that is on and wanted has doors that are not CLOSED and no cause, so that general_EV
/// is asked for in any case.
pub fn unseen_in_images() -> Vec<(String, Rules)> {
    let mut all = unseen_everywhere();
    all.extend(slips(&[("orders_taken_without_general", Slip::OrdersWithoutGeneral)]));
    all
}

/// Faults that a dump can show, of its writer and of what a run hands to it.
pub fn wave_faults() -> Vec<(String, Rules)> {
    use Slip::*;
    slips(&[
        ("fresh_other_sensors_1", FreshOthers1),
        ("lamp_and_order_swapped", LampOrderSwapped),
        ("open_and_close_swapped", OpenCloseSwapped),
        ("orange_and_red_swapped", OrangeRedSwapped),
        ("left_and_right_swapped", LeftRightSwapped),
        ("wires_from_raw_majority", WiresMajority),
        ("wires_from_channel_1", WiresChannel1),
        ("wires_from_refused_sample", WiresRefusedSample),
        ("invalid_sensor_shown_as_0", WiresInvalid0),
        ("time_written_modulo_2p32", TimeModulo32),
        ("time_is_stamp", TimeIsStamp),
        ("time_is_label", TimeIsLabel),
        ("time_stands_when_stamp_goes_round", TimeNotRound),
        ("time_before_step", TimeBeforeStep),
        ("refused_row_adds_time", RefusedAddsTime),
        ("time_without_change_written", IdleTimeWritten),
        ("last_time_written", LastTimeWritten),
        ("refused_row_ends_dump", RefusedRowEnds),
        ("nothing_written_on_5_6_7", WithheldOnRefusal),
        ("last_block_lost", LastBlockLost),
        ("first_state_missing", FirstStateMissing),
        ("first_state_after_first_step", FirstAfterStep),
        ("head_without_row_0", HeadAlways),
        ("dumpvars_without_end", DumpvarsOpen),
        ("codes_off_by_one", CodesFromNext),
        ("unchanged_wires_written", AllWiresWritten),
        ("first_change_only", FirstChangeOnly),
        ("changes_backwards", ChangesBackwards),
        ("changes_against_first_state", ComparesWithFirst),
        ("no_last_lf", NoLastLf),
        ("dump_with_crlf", DumpCrLf),
    ])
}

/// Faults that a sheet can show, of the reader of dumps and of the sheet.
pub fn sheet_faults() -> Vec<(String, Rules)> {
    use Slip::*;
    slips(&[
        ("head_unchecked", HeadUnchecked),
        ("rubbish_after_end_taken", AfterEndSkipped),
        ("value_x_taken", UnknownTaken),
        ("code_past_last_taken", CodePastTaken),
        ("wire_out_of_order_taken", OutOfOrderTaken),
        ("wire_twice_taken", TwiceTaken),
        ("unchanged_wire_taken", UnchangedTaken),
        ("time_with_leading_zero_taken", LeadingZeroTaken),
        ("time_0_again_taken", ZeroTimeTaken),
        ("equal_time_taken", EqualTimeTaken),
        ("falling_time_taken", FallingTimeTaken),
        ("time_modulo_2p64", TimeRound),
        ("time_read_modulo_2p32", ReadModulo32),
        ("time_2p64_less_1_refused", LastTimeRefused),
        ("time_without_change_taken", IdleTimeTaken),
        ("missing_last_lf_taken", MissingLfTaken),
        ("crlf_taken", CrLfTaken),
        ("blank_line_taken", BlankLineTaken),
        ("rubbish_ends_dump", RubbishEndsDump),
        ("last_row_lost", LastRowLost),
        ("row_of_refused_block", RowOnRefusal),
        ("row_only_at_next_time", RowAtNextTime),
        ("values_start_again", ValuesStartAgain),
        ("sheet_with_lf", SheetLf),
        ("sheet_without_header", NoSheetHeader),
    ])
}

/// Faults that an image shows, or what is loaded from one.
pub fn image_faults() -> Vec<(String, Rules)> {
    let mut all = unseen_in_rows();
    all.extend(count_faults());
    all.extend(saving_faults());
    all.extend(form_faults());
    all.extend(range_faults());
    all.extend(rule_faults());
    all.extend(count_rule_faults());
    all.extend(convert_faults());
    all.extend(start_faults());
    all
}

/// Of which state an image is, and with which values.
fn saving_faults() -> Vec<(String, Rules)> {
    use Slip::*;
    slips(&[
        ("fresh_other_sensors_1", FreshOthers1),
        ("image_before_last_row", ImageBefore),
        ("stalled_last_row_gives_no_image", StallNoImage),
        ("image_stamp_of_refused_row", StampOfRefused),
        ("image_stamp_of_row_0", StampOfStart),
        ("torn_last_row_gives_no_image", TornNoImage),
        ("image_without_row_0", ImageWithoutRow0),
        ("image_ages_uncapped", AgesUncapped),
        ("image_age_0_when_off", AgeOfOff0),
        ("image_handle_age_of_general", HandleAgeOfGeneral),
        ("image_invalid_as_struck", InvalidAsStruck),
        ("image_struck_as_valid", StruckUnwritten),
        ("image_struck_as_invalid", StruckAsInvalid),
        ("image_invalid_held_0", InvalidHeld0),
        ("image_held_from_raw_majority", HeldUnvoted),
        ("image_cause_is_1", CauseIsOne),
        ("saved_in_old_form", SavesOld),
        ("saved_in_old_form_without_counts", SavesOldUncounted),
        ("counts_not_saved", CountsUnsaved),
        ("odd_not_saved", OddUnsaved),
        ("count_not_saved", CountUnsaved),
        ("count_of_two_not_saved", SplitUnsaved),
        ("count_of_1_not_saved", OddSavedOnlyTwice),
        ("count_saved_as_1", CountSavedAs1),
        ("count_saved_one_less", CountSavedFrom0),
        ("odd_saved_from_0", OddSavedFrom0),
        ("odd_saved_for_two", SplitSavedAsOdd),
    ])
}

/// Where items stand and how they are numbered.
fn form_faults() -> Vec<(String, Rules)> {
    use Slip::*;
    slips(&[
        ("items_little_endian", LittleEndian),
        ("age_before_on", AgeBeforeOn),
        ("held_before_voter", HeldBeforeVoter),
        ("voters_before_all_held", VotersFirst),
        ("open_before_close", OpenCloseItems),
        ("extend_before_retract", RetractExtendItems),
        ("general_after_the_four", GeneralLast),
        ("handle_age_before_orders", HandleAgeFirst),
        ("gears_before_doors", DoorsGearsItems),
        ("cause_before_sensors", CauseFirst),
        ("stamp_last", StampLast),
        ("left_and_right_items_swapped", LeftRightItems),
        ("sensors_backwards", SensorsBackwards),
        ("doors_numbered_by_place", DoorsRenumbered),
        ("opening_and_closing_swapped", DoorsMovesSwapped),
        ("gears_ends_swapped", GearsEndsSwapped),
        ("gears_moves_swapped", GearsMovesSwapped),
        ("voters_from_0", VotersFrom0),
        ("voters_backwards", VotersBackwards),
        ("count_before_odd", CountBeforeOdd),
        ("odd_and_count_before_held", CountsBeforeHeld),
        ("odd_and_count_before_voter", CountsBeforeVoter),
        ("odds_and_counts_behind_sensors", CountsBehindSensors),
        ("odds_and_counts_last", CountsLast),
    ])
}

/// Refusal 10, and what comes before what.
fn range_faults() -> Vec<(String, Rules)> {
    use Slip::*;
    let mut all = slips(&[
        ("longer_image_taken", LongerTaken),
        ("shorter_image_taken", ShorterTaken),
        ("two_images_taken", LengthInFours),
        ("empty_image_is_fresh_start", EmptyIsFresh),
        ("refusal_11_before_10", RuleBeforeRange),
        ("refusals_10_11_swapped", RefusalsSwapped),
        ("items_signed", ItemsSigned),
        ("items_of_16_bits", ItemsLow16),
        ("first_sensor_any_number", SensorUnranged(0)),
        ("last_sensor_any_number", SensorUnranged(17)),
        ("old_form_refused", OldUntaken),
        ("new_form_refused", NewUntaken),
        ("old_form_any_numbers", RangesUnchecked(Form::Old)),
        ("new_form_any_numbers", RangesUnchecked(Form::New)),
        ("counts_signed", CountsSigned),
        ("counts_of_16_bits", CountsLow16),
    ]);
    for (name, sensor) in SOME_SENSORS {
        all.extend(slips(&[
            (&format!("{name}_odd_any_number")[..], OddUnranged(sensor)),
            (&format!("{name}_count_any_number")[..], CountUnranged(sensor)),
        ]));
    }
    for (name, clock) in CLOCKS {
        all.extend(slips(&[(&format!("{name}_any_number")[..], AgeUnranged(clock))]));
    }
    let mut number = |name: &str, get: fn(&mut Tops) -> &mut u32| {
        for off in [-1, 1] {
            let mut rules = Rules::default();
            let n = get(&mut rules.top);
            *n = n.wrapping_add_signed(off);
            all.push((format!("{name}_to_{n}"), rules));
        }
    };
    number("voter", |t| &mut t.voter);
    number("held", |t| &mut t.held);
    number("odd", |t| &mut t.odd);
    number("count", |t| &mut t.count);
    number("on", |t| &mut t.on);
    number("order_age", |t| &mut t.age);
    number("handle_age", |t| &mut t.handle_age);
    number("doors", |t| &mut t.doors);
    number("gears", |t| &mut t.gears);
    number("cause", |t| &mut t.cause);
    all
}

const CLOCKS: [(&str, usize); 6] = [
    ("general_age", GENERAL),
    ("close_age", CLOSE),
    ("open_age", OPEN),
    ("retract_age", RETRACT),
    ("extend_age", EXTEND),
    ("handle_age", HANDLE_CLOCK),
];

const SOME_SENSORS: [(&str, usize); 3] = [("first", 0), ("middle", 8), ("last", 17)];

/// Refusal 11.
fn rule_faults() -> Vec<(String, Rules)> {
    use Slip::*;
    let mut all = slips(&[
        ("moving_gears_any_doors", MovingUnchecked),
        ("moving_gears_doors_closed", MovingTakes(0)),
        ("moving_gears_doors_opening", MovingTakes(1)),
        ("moving_gears_doors_closing", MovingTakes(3)),
        ("extending_any_doors", MovingForgets(1)),
        ("retracting_any_doors", MovingForgets(3)),
        ("doors_open_only_with_moving_gears", OpenOnlyMoving),
        ("unwanted_order_taken", UnwantedTaken),
        ("wanted_order_must_be_on", WantedMustBeOn),
        ("open_wanted_with_doors_open", OpenWantedOpen),
        ("orders_with_cause_taken", RedOrdersTaken),
        ("doors_without_general_taken", GeneralOffTaken),
        ("opening_without_general_taken", GeneralOffWith(1)),
        ("open_without_general_taken", GeneralOffWith(2)),
        ("closing_without_general_taken", GeneralOffWith(3)),
        ("doors_with_cause_need_general", GeneralOffRed),
        ("general_only_with_doors_not_closed", GeneralOnClosed),
        ("invalid_without_cause_taken", InvalidTaken),
        ("first_sensor_invalid_without_cause_taken", InvalidSensor(0)),
        ("last_sensor_invalid_without_cause_taken", InvalidSensor(17)),
        ("invalid_needs_cause_13", InvalidOnly13),
        ("cause_13_needs_invalid", Cause13OnlyInvalid),
        ("struck_needs_cause", StruckNeedsCause),
        ("old_form_any_rule_broken", RulesUnchecked(Form::Old)),
        ("new_form_any_rule_broken", RulesUnchecked(Form::New)),
    ]);
    for (name, order) in &CLOCKS[CLOSE..=EXTEND] {
        let name = name.trim_end_matches("_age");
        all.extend(slips(&[
            (&format!("unwanted_{name}_taken")[..], UnwantedOrder(*order)),
            (&format!("{name}_with_cause_taken")[..], RedOrder(*order)),
        ]));
    }
    all
}

/// Refusal 11 for odd channels and counts.
fn count_rule_faults() -> Vec<(String, Rules)> {
    use Slip::*;
    let mut all = slips(&[
        ("all_valid_any_count", ValidUnchecked),
        ("odd_without_count_taken", OddAloneTaken),
        ("count_without_odd_taken", CountAloneTaken),
        ("struck_any_odd", StruckUnchecked),
        ("struck_odd_without_count_taken", StruckOddAloneTaken),
        ("struck_odd_with_count_taken", StruckOddCountTaken),
        ("struck_odd_itself_taken", StruckOddSelfTaken),
        ("struck_count_refused", StruckUncounted),
        ("invalid_any_count", InvalidUnchecked),
        ("invalid_odd_taken", InvalidOddTaken),
        ("invalid_count_taken", InvalidCountTaken),
        ("invalid_odd_and_count_taken", InvalidBothTaken),
        ("count_with_cause_refused", CountsNeedNoCause),
        ("count_but_of_first_sensor_refused", CountOnlyFirst),
    ]);
    for (name, sensor) in SOME_SENSORS {
        all.extend(slips(&[
            (&format!("all_valid_{name}_any_count")[..], ValidForgets(sensor)),
            (&format!("struck_{name}_any_odd")[..], StruckForgets(sensor)),
            (&format!("invalid_{name}_any_count")[..], InvalidForgets(sensor)),
        ]));
    }
    for channel in 1..=3 {
        all.extend(slips(&[(
            &format!("channel_{channel}_struck_any_odd")[..],
            StruckForgetsChannel(channel),
        )]));
    }
    all
}

/// Refusals 8 and 12, and what is converted.
fn convert_faults() -> Vec<(String, Rules)> {
    use Slip::*;
    let mut all = slips(&[
        ("converted_without_8", EightNever),
        ("converted_8_under_348", EightForNew),
        ("converted_8_under_204", EightForOld),
        ("converted_8_one_more", EightOneMore),
        ("converted_8_one_less", EightOneLess),
        ("converted_8_after_10", EightAfterTen),
        ("converted_8_after_11", EightAfterEleven),
        ("converted_8_after_12", EightLast),
        ("converted_without_12", TwelveNever),
        ("converted_12_for_odd_only", TwelveForOdd),
        ("converted_12_for_two_only", TwelveForSplit),
        ("converted_12_at_count_1_only", TwelveAt(1)),
        ("converted_12_at_count_2_only", TwelveAt(2)),
        ("converted_12_for_struck_too", TwelveForStruck),
        ("converted_12_before_11", TwelveBeforeEleven),
        ("converted_12_before_10", TwelveBeforeTen),
        ("converted_12_before_8", TwelveBeforeEight),
        ("converted_12_for_old", OldGets12),
        ("converted_12_for_new", NewGets12),
        ("converted_unchecked_where_in_form", SameUnchecked),
        ("converted_without_11", ConvertsUnruled),
        ("converted_stamp_lost", ConvertedStamp0),
        ("converted_ages_lost", ConvertedAges0),
        ("widened_before_held", WidenedBeforeHeld),
        ("widened_with_odd_1", WidenedOdd1),
        ("widened_with_count_1", WidenedCount1),
        ("narrowed_to_voter_and_odd", NarrowedHeld),
        ("counts_lost_from_new_to_new", SameUncounted),
    ]);
    for (name, sensor) in SOME_SENSORS {
        all.extend(slips(&[(&format!("converted_12_forgets_{name}")[..], TwelveForgets(sensor))]));
    }
    all
}

/// What is loaded, and what is shown.
fn start_faults() -> Vec<(String, Rules)> {
    use Slip::*;
    let mut all = slips(&[
        ("loaded_stamp_kept", StampKept),
        ("loaded_ages_60000", AgesLost),
        ("loaded_ages_0", AgesFrom0),
        ("loaded_ages_since_image", AgesSinceImage),
        ("loaded_cause_lost", CauseLost),
        ("loaded_struck_lost", StruckLost),
        ("loaded_struck_next_channel", StruckNext),
        ("loaded_invalid_lost", InvalidLost),
        ("loaded_held_lost", HeldLost),
        ("loaded_orders_lost", OrdersLost),
        ("loaded_row_0_voted", Row0Used),
        ("loaded_row_0_is_a_step", Row0Stepped),
        ("fresh_start_instead_of_image", FreshInstead),
        ("loaded_counts_lost", CountsUnloaded),
        ("loaded_odd_lost", OddUnloaded),
        ("loaded_count_lost", CountUnloaded),
        ("loaded_count_of_two_lost", SplitUnloaded),
        ("loaded_count_as_1", CountLoadedAs1),
        ("loaded_count_one_more", CountLoadedOneMore),
        ("loaded_odd_next_channel", OddLoadedNext),
        ("old_form_with_odd_channels", OldOdd),
        ("old_form_with_counts_of_two", OldSplit),
    ]);
    for (name, clock) in CLOCKS {
        all.extend(slips(&[(&format!("loaded_{name}_lost")[..], AgeLost(clock))]));
    }
    all.extend(slips(&[
        ("shown_with_crlf", ShownCrLf),
        ("shown_without_last_lf", ShownNoLastLf),
        ("shown_with_thousands", ShownThousands),
        ("shown_channels_from_0", ShownChannels0),
        ("shown_next_cause", ShownCauseNext),
        ("shown_on_and_off_swapped", ShownOnOff),
        ("shown_stamp_signed", ShownStampSigned),
        ("shown_without_counts", ShownUncounted),
        ("shown_with_count_0", ShownCount0),
        ("shown_1_samples", ShownPlural),
        ("shown_2_sample", ShownSingular),
        ("shown_two_as_channel_0", ShownSplitAsOdd),
        ("shown_odd_as_two", ShownOddAsSplit),
        ("shown_odd_from_0", ShownOddFrom0),
        ("shown_odd_and_count_swapped", ShownOddCountSwapped),
    ]));
    all
}

/// Faults of the wall that are none of the sequence: its CSV shows them, or its page.
pub fn wall_faults() -> Vec<(String, Rules)> {
    use Slip::*;
    let mut all = Vec::new();
    for (a, b) in [(0, 1), (0, 2), (0, 3), (1, 2), (1, 3), (2, 3)] {
        let name = format!("{}_and_{}_swapped_in_index", FACTS[a], FACTS[b]);
        all.extend(slips(&[(&name[..], FactsSwapped(a, b))]));
    }
    all.extend(slips(&[
        ("facts_numbered_backwards", FactsBackwards),
        ("place_runs_backwards", PlaceBackwards),
        ("handle_swapped_in_index", HandleInIndex),
        ("doors_and_gears_swapped_in_index", DoorsGearsInIndex),
        ("handle_last_in_index", HandleLast),
        ("index_one_further", IndexNext),
    ]));
    all.extend(slips(&[
        ("ground_swapped_in_index", GroundInIndex),
        ("ground_and_handle_swapped_in_index", GroundAndHandleInIndex),
        ("ground_last_in_index", GroundLast),
    ]));
    for entry in [0, 17, 136, 300, 511, 512, 552, 687, 751, 1023] {
        all.extend(slips(&[(&format!("entry_{entry}_wrong")[..], EntryWrong(entry))]));
    }
    all.extend(slips(&[
        ("possible_inverted", PossibleInverted),
        ("possible_asks_doors_closed", PossibleClosed),
        ("possible_asks_doors_not_closed", PossibleNotClosed),
        ("possible_always", PossibleAlways),
        ("possible_of_next", PossibleOfNext),
        ("next_and_present_swapped", NextAndPresent),
        ("next_is_present", NextIsPresent),
        ("next_gears_before_next_doors", NextGearsFirst),
        ("handle_words_swapped", HandleWords),
        ("open_and_closing_numbers_swapped", OpenAndClosingNumbers),
        ("numbers_from_1", NumbersFrom1),
        ("entries_from_1", EntriesFrom1),
        ("wall_with_lf", WallLf),
        ("wall_without_header", WallNoHeader),
        ("wall_without_last_crlf", WallNoLastCrLf),
        ("wall_in_lower_case", WallLowerCase),
        ("on_ground_inverted", OnGroundInverted),
        ("on_ground_always_0", OnGroundAlways0),
        ("on_ground_unwritten", OnGroundUnwritten),
        ("on_ground_behind_handle", OnGroundBehindHandle),
        ("on_ground_last", OnGroundLast),
        ("on_ground_in_words", OnGroundInWords),
        ("wall_of_512_entries", WallAirOnly),
        ("wall_begins_with_ground", WallGroundFirst),
        ("wall_numbers_ground_from_0", WallGroundFrom0),
        ("page_without_grey", PageNoGrey),
        ("page_grey_where_gears_move", PageGreyMoved),
        ("page_without_else", PageNoElse),
        ("page_else_swapped", PageThenElse),
        ("page_names_no_fact", PageFactUnnamed),
        ("page_names_a_fact_everywhere", PageFactTooMany),
        ("page_names_another_fact", PageOtherFact),
        ("page_bold_swapped", PageMovesKeeps),
        ("page_spells_stays", PageStaysSpelt),
        ("page_columns_swapped", PageColumns),
        ("page_rows_swapped", PageRows),
        ("page_handles_swapped", PageHandles),
        ("page_numbers_of_next_place", PageNumbers),
        ("page_lacks_first_place", PageLacks(0)),
        ("page_lacks_last_place", PageLacks(31)),
        ("page_has_a_place_twice", PageTwice(9)),
        ("page_aims_swapped", PageAims),
        ("page_without_table_number", PageNoTableNumber),
        ("page_table_number_unweighed", PageTableNumberUnweighed),
        ("page_table_number_of_air", PageTableNumberOfAir),
        ("page_lacks_first_of_ground", PageLacks(34)),
        ("page_lacks_last_of_ground", PageLacks(46)),
        ("page_has_one_of_ground_twice", PageTwice(42)),
        ("page_without_ground", PageNoGround),
        ("page_has_all_of_ground", PageGroundAll),
        ("page_has_one_of_ground_too_many", PageGroundMore(32)),
        ("page_has_one_of_ground_down_too_many", PageGroundMore(50)),
        ("page_ground_without_heading", PageGroundUnheaded),
        ("page_ground_headed_handle_down", PageGroundHandle),
        ("page_ground_headed_as_air", PageGroundInAir),
        ("page_ground_columns_swapped", PageGroundColumns),
        ("page_ground_row_of_other_gears", PageGroundRow),
        ("page_ground_numbers_of_air", PageGroundNumbers),
        ("page_ground_tells_air", PageGroundOfAir),
        ("page_air_tells_ground", PageGroundMirrored),
        ("page_ground_aim_of_other_gears", PageGroundAims),
        ("page_ground_without_aim", PageGroundNoAims),
        ("page_ground_above_air", PageGroundFirst),
    ]));
    all
}

const FACTS: [&str; 4] = ["all_open", "all_closed", "all_extended", "all_retracted"];

pub fn by_name(name: &str) -> Option<Rules> {
    let dumps = wave_faults().into_iter().chain(sheet_faults());
    let images = image_faults().into_iter().chain(unseen_in_images());
    let mut all = faults().into_iter().chain(unseen()).chain(dumps).chain(images).chain(wall_faults());
    all.find(|f| f.0 == name).map(|f| f.1)
}
