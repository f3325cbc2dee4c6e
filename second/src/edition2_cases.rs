//! The tables made for the second edition, with what is to come of them.

use crate::edition2_hunt::{of_kinds, Kind};
use crate::hand::{case_a, case_d, case_e, case_g, case_h, case_j, table};
use crate::plan::{Table, EDF, FP};
use crate::random::Random;
use std::sync::OnceLock;

pub const SEED: u64 = 404;

/// A table under edition 2.
pub struct Case {
    pub name: &'static str,
    pub table: Table,
    /// What forcing says: (number, place, passes) of a refusal, or (0, forced, passes).
    pub says: (u32, u32, u32),
    /// The rounds of the test of the table as given.
    pub rounds: u32,
}

fn case(name: &'static str, table: Table, says: (u32, u32, u32), rounds: u32) -> Case {
    Case { name, table, says, rounds }
}

/// Small tables with their answers; the tests work some of them out on paper.
pub fn known() -> Vec<Case> {
    let mut cases = vec![
        case("newly-accepted", table(EDF, 1, &[(5, 1, 1, 'P'), (8, 2, 8, 'P')]), (0, 0, 1), 2),
        case("difference", table(EDF, 1, &[(10, 2, 5, 'N'), (20, 4, 20, 'N')]), (0, 0, 1), 2),
        case("lowest-forced", table(EDF, 1, &[(7, 2, 5, 'P'), (2, 1, 2, 'N')]), (0, 1, 2), 1),
        case("fifteen", table(EDF, 1, &[(1, 1, 1, 'P'), (1, 1, 1, 'P')]), (15, 1, 2), 1),
        case("a", case_a(), (0, 0, 1), 3),
        case("d", case_d(), (15, 1, 2), 2),
        case("e", case_e(), (15, 1, 3), 2),
        case("g", case_g(), (0, 0, 1), 3),
        case("h", case_h(), (0, 0, 1), 3),
        case("j", case_j(), (0, 0, 1), 2),
    ];
    cases.extend(lowest_forced());
    cases.extend(many_rounds());
    cases
}

/// The lowest-numbered preemptive task is forced though it has a bound.
fn lowest_forced() -> Vec<Case> {
    let one = [(12, 1, 5, 'P'), (14, 1, 14, 'N'), (4, 1, 2, 'N'), (13, 1, 5, 'P')];
    let three = [(8, 2, 8, 'P'), (13, 6, 12, 'P'), (10, 7, 10, 'P'), (7, 2, 7, 'N'), (14, 2, 14, 'N')];
    vec![
        case("lowest-of-two", table(EDF, 1, &one), (0, 1, 2), 2),
        case("lowest-after-another", table(EDF, 1, &[(5, 3, 5, 'P'), (14, 3, 14, 'P')]), (0, 2, 3), 2),
        case("lowest-fp", table(FP, 2, &[(8, 8, 8, 'N'), (5, 3, 5, 'P'), (6, 1, 6, 'N')]), (0, 1, 2), 1),
        case("lowest-three-cores", table(EDF, 3, &three), (0, 3, 3), 2),
    ]
}

/// Tables with many rounds for T up to 12, 30, 100 and 1,000.
fn many_rounds() -> Vec<Case> {
    let edf_12 = [(5, 1, 4, 'N'), (8, 2, 7, 'P'), (5, 2, 5, 'P'), (11, 2, 11, 'P')];
    let fp_30 = [(8, 4, 8, 'P'), (18, 3, 18, 'N'), (29, 8, 29, 'P'), (30, 10, 30, 'N')];
    let edf_100 = [(23, 1, 23, 'N'), (98, 51, 98, 'P'), (80, 11, 41, 'P')];
    let edf_1000 = [(1_000, 402, 1_000, 'P'), (801, 199, 598, 'P')];
    let cores_1000 = [(1_000, 399, 999, 'P'), (798, 199, 600, 'P'), (1_000, 604, 1_000, 'P')];
    let given_n = [(419, 145, 419, 'P'), (535, 138, 535, 'P'), (630, 133, 630, 'N'), (736, 161, 719, 'N')];
    let fp_1000 = [
        (555, 116, 555, 'P'),
        (274, 3, 271, 'N'),
        (574, 197, 574, 'N'),
        (420, 109, 420, 'N'),
        (249, 90, 249, 'N'),
        (680, 310, 667, 'N'),
    ];
    vec![
        case("edf-12", table(EDF, 2, &edf_12), (0, 0, 1), 12),
        case("fp-30", table(FP, 2, &fp_30), (0, 0, 1), 10),
        case("edf-100", table(EDF, 1, &edf_100), (0, 0, 1), 30),
        case("edf-1000", table(EDF, 1, &edf_1000), (0, 0, 1), 401),
        case("edf-1000-two-cores", table(EDF, 2, &cores_1000), (0, 0, 1), 402),
        case("fp-1000-two-cores", table(FP, 2, &given_n), (0, 0, 1), 173),
        case("fp-1000", table(FP, 3, &fp_1000), (15, 5, 2), 94),
    ]
}

/// Tables of each kind, drawn at random once.
pub fn kinds() -> &'static [Table] {
    static KINDS: OnceLock<Vec<Table>> = OnceLock::new();
    let rare = vec![(Kind::LowestForced, 20), (Kind::Rounds(8), 20), (Kind::BoundInLastRound, 40)];
    let common = vec![(Kind::Difference, 60), (Kind::NewlyAccepted, 60), (Kind::Refused, 30)];
    let wanted = [rare, common, vec![(Kind::BothAccept, 30)]].concat();
    KINDS.get_or_init(|| of_kinds(&mut Random::new(SEED), wanted, 20_000))
}

/// Tables with long periods and many rounds.
pub fn long() -> Vec<Case> {
    let fp = [
        (25_715, 5_894, 21_907, 'N'),
        (606_908, 182_379, 606_908, 'P'),
        (505_491, 204_487, 445_791, 'P'),
        (454_097, 51_959, 454_097, 'N'),
        (742_188, 72_082, 742_187, 'N'),
        (821_295, 3_772, 821_295, 'N'),
    ];
    let edf = [(1_000_000, 399_998, 999_998, 'P'), (799_997, 199_999, 600_000, 'P')];
    vec![
        case("fp-1000000", table(FP, 2, &fp), (15, 1, 3), 10_598),
        case("edf-1000000", table(EDF, 1, &edf), (0, 0, 1), 400_000),
    ]
}

/// More of these, for a long run.
pub fn longest() -> Vec<Case> {
    let two = [(708_000, 174_000, 649_000, 'P'), (1_000_000, 359_999, 1_000_000, 'P')];
    let most = [(1_000_000, 400_000, 1_000_000, 'P'), (799_999, 199_999, 600_000, 'P')];
    let most_two_cores = [
        (1_000_000, 399_999, 999_999, 'P'),
        (799_998, 199_999, 600_000, 'P'),
        (1_000_000, 600_004, 1_000_000, 'P'),
    ];
    let three = [
        (1_000_000, 249_999, 1_000_000, 'P'),
        (712_000, 137_000, 657_000, 'P'),
        (315_000, 47_000, 201_000, 'N'),
    ];
    let two_cores = [
        (956_000, 756_000, 956_000, 'P'),
        (681_000, 113_000, 681_000, 'P'),
        (1_000_000, 454_999, 936_000, 'P'),
    ];
    let four = [
        (397_000, 27_000, 362_000, 'P'),
        (622_001, 69_000, 622_000, 'P'),
        (1_000_000, 280_000, 934_000, 'P'),
        (409_000, 41_000, 228_000, 'N'),
    ];
    let fp = [
        (419_000, 145_000, 419_000, 'P'),
        (535_000, 138_000, 535_000, 'P'),
        (630_000, 133_000, 630_000, 'N'),
        (736_000, 161_000, 719_000, 'N'),
    ];
    let fp_most = [
        (592_000, 194_000, 591_000, 'P'),
        (468_000, 169_000, 468_000, 'P'),
        (375_999, 82_000, 375_000, 'N'),
        (710_000, 124_000, 709_000, 'N'),
    ];
    vec![
        case("edf-most", table(EDF, 1, &most), (0, 0, 1), 400_001),
        case("edf-most-two-cores", table(EDF, 2, &most_two_cores), (0, 0, 1), 400_002),
        case("edf-two", table(EDF, 1, &two), (0, 0, 1), 348_003),
        case("edf-three", table(EDF, 1, &three), (0, 0, 1), 224_005),
        case("edf-two-cores", table(EDF, 2, &two_cores), (0, 0, 1), 226_004),
        case("edf-four", table(EDF, 1, &four), (0, 0, 1), 138_009),
        case("fp-four", table(FP, 2, &fp), (0, 0, 1), 75_006),
        case("fp-most", table(FP, 2, &fp_most), (0, 0, 1), 96_004),
    ]
}
