//! The slips of the wrong versions of the second edition.

/// Those before `UsedAtOnce` change a bound under given slacks.
#[derive(Clone, Copy, Debug, PartialEq, Eq)]
pub enum Slip {
    /// No slip.
    Right,
    /// S in W only.
    SlackInWorkOnly,
    /// S in E only.
    SlackInCapOnly,
    /// S in the first place of W only.
    SlackInWholeJobsOnly,
    /// S in the second place of W only.
    SlackInPartOfAJobOnly,
    /// S_k for S_i in E.
    OwnSlackInCap,
    /// E of D_k - S_i, in both places.
    CapOfShorterDeadline,
    /// D_k mod T_i - S_i without the max(0, ..).
    CapBelowNought,
    /// No difference is added.
    DifferencesLeftOut,
    /// All differences are added.
    AllDifferences,
    /// Only the largest difference is added.
    OneDifference,
    /// E without slack in the difference.
    DifferencesWithoutSlack,
    /// min(W_i, C_i - 1, l) for the difference.
    DifferencesNotLessened,
    /// C_i for C_i - 1 in the difference.
    DifferencesOfWholeCost,
    /// Differences of preemptive i too.
    DifferencesOfPreemptive,
    /// S = D for a task without a bound, as if its bound were 0.
    AllSlackWithoutBound,
    /// Differences with D_i at least D_k.
    DifferencesOfTies,
    /// Differences with every D_i.
    DifferencesOfAll,
    /// Slacks of the present round are used at once.
    UsedAtOnce,
    /// No slack is gained while a task has no bound.
    LostWithAnyoneWithoutBound,
    /// Slacks are carried over a change of flags.
    CarriedOver,
    /// The bounds of the round before the last.
    OneRoundShort,
    /// The last round is left out of the count.
    LastRoundUncounted,
    /// Rounds until no bound changes.
    UntilBoundsStay,
    /// Rounds until every task has a bound.
    UntilItPasses,
    /// At most 2 rounds.
    TwoRounds,
    /// At most 100 rounds.
    HundredRounds,
    /// At most 10,000 rounds.
    TenThousandRounds,
    /// S = 0 for a task without a bound.
    LostWithoutBound,
    /// The least bound of all rounds.
    BestBoundKept,
    /// The highest-numbered preemptive task is forced for the lowest.
    HighestForced,
    /// All preemptive tasks are forced for the lowest.
    AllForcedAtOnce,
    /// Forcing ends where it should force a task with a bound.
    NoneForcedWithBound,
    /// The lowest preemptive task is forced with those without a bound.
    LowestForcedToo,
    /// Only the first task without a bound is forced.
    OneForcedAtATime,
    /// Forcing ends at a non-preemptive task without a bound.
    EndsAtNonPreemptive,
    /// 14 for 15.
    FourteenForFifteen,
    /// The highest-numbered task without a bound as place.
    HighestPlace,
    /// The rounds of all tests together.
    RoundsOfAllTests,
    /// The rounds of the first test.
    RoundsOfFirstTest,
    /// Rounds in a refusal.
    RoundsInRefusal,
    /// No rounds with a no.
    RoundsOfYesOnly,
    /// Edition 1 for edition 2.
    FirstEdition,
}

use Slip::*;

/// The wrong versions that some call of the short comparison must give away.
pub const WRONG: &[Slip] = &[
    SlackInWorkOnly,
    SlackInCapOnly,
    SlackInWholeJobsOnly,
    SlackInPartOfAJobOnly,
    OwnSlackInCap,
    CapBelowNought,
    DifferencesLeftOut,
    AllDifferences,
    OneDifference,
    DifferencesWithoutSlack,
    DifferencesNotLessened,
    DifferencesOfWholeCost,
    DifferencesOfPreemptive,
    AllSlackWithoutBound,
    UsedAtOnce,
    LostWithAnyoneWithoutBound,
    CarriedOver,
    OneRoundShort,
    LastRoundUncounted,
    UntilBoundsStay,
    UntilItPasses,
    TwoRounds,
    HundredRounds,
    HighestForced,
    AllForcedAtOnce,
    NoneForcedWithBound,
    LowestForcedToo,
    OneForcedAtATime,
    EndsAtNonPreemptive,
    FourteenForFifteen,
    HighestPlace,
    RoundsOfAllTests,
    RoundsOfFirstTest,
    RoundsInRefusal,
    RoundsOfYesOnly,
    FirstEdition,
];

/// This one needs the tables with the most rounds.
pub const WRONG_LONG: &[Slip] = &[TenThousandRounds];

/// Slips that no table gives away. Bounds never rise from round to round, so that a task without a bound has
/// had none before: its slack is 0 already, and no bound is below the last. With D_i at most D_k, E(k,i) is
/// at least C_i under every slack from 0 to D_i - C_i, and the difference is 0. Where D_k - S_i has one whole
/// job fewer than D_k, its rest is at least C_i, since S_i is at most T_i - C_i.
pub const SAME: &[Slip] =
    &[LostWithoutBound, BestBoundKept, DifferencesOfTies, DifferencesOfAll, CapOfShorterDeadline];
