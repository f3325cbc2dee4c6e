//! The slips of the wrong planners for tables with levels.

#[derive(Clone, Copy, Debug, PartialEq, Eq)]
pub enum Slip {
    /// No slip.
    Right,
    // Which tasks count as higher and lower under FP.
    /// A strictly smaller level is higher; an equal one is lower.
    StrictlySmaller,
    /// An equal level is neither higher nor lower.
    EqualIsNeither,
    /// An equal level is both: it is added, and it blocks.
    EqualIsBoth,
    /// Its level being equal to its own, a task is higher than itself.
    HigherThanItself,
    /// On one level the earlier place is higher.
    EqualByPlace,
    /// On one level the later place is higher.
    EqualByPlaceReversed,
    /// On one level the shorter deadline is higher.
    EqualByDeadline,
    /// The places in place of the levels.
    PlacesForLevels,
    /// 32 is the highest level.
    GreaterIsHigher,
    /// The levels are put in order, and handed out to the places.
    LevelsSorted,
    /// Level 32 becomes 0, as with five bits.
    FiveBits,
    /// Levels from 17 on become 1 and so on, as with four bits.
    FourBits,
    /// Levels past n are taken for n.
    CutAtN,
    /// Neighbouring levels are taken for one.
    Halved,
    /// A preemptive task goes by places.
    PlacesForPreemptive,
    /// A non-preemptive task goes by places.
    PlacesForNonPreemptive,
    /// The level of a non-preemptive task is not read: it is lower than all others.
    NonPreemptiveLowest,
    /// A forced task rises to the highest level.
    ForcedRises,
    // EDF.
    /// Under EDF lower preemptive tasks are left out.
    EdfLowerLeftOut,
    /// Under EDF the table is put in the order of its levels, and places are told.
    EdfOrderOfLevels,
    // One call alone does not read the levels.
    TestInPlaces,
    ForceInPlaces,
    Test2InPlaces,
    Force2InPlaces,
    FewestInPlaces,
    /// The fewest cores are searched for by levels, and the records are those in places.
    FewestRecordsInPlaces,
    // What forcing keeps from one test to the next.
    /// Bounds of tasks after the last place that was forced are kept.
    KeptByPlace,
    /// Bounds of tasks on or below the highest level that was forced are kept.
    KeptByHighestLevel,
    /// Bounds of tasks on the level just above the lowest that was forced are kept.
    KeptOneLevelMore,
    /// Under EDF too bounds of tasks on or below the lowest level that was forced are kept.
    KeptUnderEdf,
    /// Right: bounds of preemptive tasks on or below the lowest level that was forced are kept.
    KeptAsItMayBe,
    // Refusal 17.
    /// Level 0 is taken for the place.
    ZeroIsPlace,
    /// Level 0 is taken.
    ZeroTaken,
    ThirtyThreeTaken,
    ThirtyTwoRefused,
    /// The lowest byte counts.
    LowestByte,
    /// 17 under FP only.
    FpOnly17,
    /// Levels past n are refused.
    PastNRefused,
    /// Two tasks on one level are refused.
    SharedRefused,
    /// 17 before 11.
    Before11,
    /// 17 before 8 of its task.
    Before8,
    /// 17 after 8 to 11 of all tasks.
    AfterAllTasks,
    /// 17 after 13.
    After13,
    /// 17 with place 0.
    PlaceZero,
    /// 17 with the level as place.
    PlaceIsLevel,
    /// Only the first task's level is judged.
    OnlyFirstJudged,
    // Lists that are cut off.
    /// A last task that is cut off is left out.
    CutTaskLeftOut,
    /// A last task without its level alone has its place.
    CutLevelIsPlace,
    // Refusal 18.
    Never18,
    /// 18 before 16.
    Eighteen16,
    /// 18 before 17.
    Eighteen17,
    /// 18 with the task as place.
    EighteenAtTask,
    /// 18 under FP only.
    EighteenFpOnly,
    /// Any levels that rise are written.
    RisingWritten,
    /// Any levels that never fall are written.
    NeverFallingWritten,
    /// Levels 1 to n in any order are written.
    AnyOrderWritten,
    /// The head is written before 18 is given.
    HeadWritten,
    /// The first task's level is not looked at.
    FirstNotLookedAt,
    /// The last task's level is not looked at.
    LastNotLookedAt,
}

use Slip::*;

/// Those that the comparison must give away.
pub const WRONG: &[Slip] = &[
    StrictlySmaller,
    EqualIsNeither,
    EqualIsBoth,
    HigherThanItself,
    EqualByPlace,
    EqualByPlaceReversed,
    EqualByDeadline,
    PlacesForLevels,
    GreaterIsHigher,
    LevelsSorted,
    FiveBits,
    FourBits,
    CutAtN,
    Halved,
    PlacesForPreemptive,
    PlacesForNonPreemptive,
    NonPreemptiveLowest,
    ForcedRises,
    EdfLowerLeftOut,
    EdfOrderOfLevels,
    TestInPlaces,
    ForceInPlaces,
    Test2InPlaces,
    Force2InPlaces,
    FewestInPlaces,
    FewestRecordsInPlaces,
    KeptByPlace,
    KeptByHighestLevel,
    KeptOneLevelMore,
    KeptUnderEdf,
    ZeroIsPlace,
    ZeroTaken,
    ThirtyThreeTaken,
    ThirtyTwoRefused,
    LowestByte,
    FpOnly17,
    PastNRefused,
    SharedRefused,
    Before11,
    Before8,
    AfterAllTasks,
    After13,
    PlaceZero,
    PlaceIsLevel,
    OnlyFirstJudged,
    CutTaskLeftOut,
    CutLevelIsPlace,
    Never18,
    Eighteen16,
    Eighteen17,
    EighteenAtTask,
    EighteenFpOnly,
    RisingWritten,
    NeverFallingWritten,
    AnyOrderWritten,
    HeadWritten,
    FirstNotLookedAt,
    LastNotLookedAt,
];

/// What may be left out: under FP a forced task changes the sums of those tasks only that it is lower than,
/// and its own.
pub const SAME: &[Slip] = &[KeptAsItMayBe];
