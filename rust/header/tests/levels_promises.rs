//! What the header's functions promise of tasks with levels, by hand: rust/tests/levels_promises.rs has the
//! sums.

use eskihrum_header::levels::{fewest, lowest, tasks, write, LevelTask};
use eskihrum_header::{Record, Told};

const EDF: u32 = 0;
const FP: u32 = 1;
const KEPT: Record = [7, 8, 9];

/// (T,C,D) twice, with flags and levels.
fn pair([t, c, d]: [u32; 3], flags: [u32; 2], levels: [u32; 2]) -> [LevelTask; 2] {
    [[flags[0], t, c, d, levels[0]], [flags[1], t, c, d, levels[1]]]
}

fn refused(number: u32, place: u32, passes: u32) -> Told {
    Told { number, place, passes, ..Told::default() }
}

fn bounds(edition: i32, policy: u32, list: &[LevelTask]) -> (u32, [u32; 2], u32) {
    let mut room = [KEPT; 3];
    let (told, rounds) = tasks(false, edition, [1, policy], list, &mut room);
    assert_eq!((told.number, told.records, room[2]), (0, 2, KEPT));
    assert_eq!([room[0][0], room[1][0]], [list[0][0], list[1][0]]);
    (told.yes, [room[0][2], room[1][2]], rounds)
}

#[test]
fn levels_say_who_is_higher() {
    for (flags, first) in [([1, 1], 2), ([0, 0], 3)] {
        assert_eq!(bounds(1, FP, &pair([6, 2, 6], flags, [1, 1])), (1, [6, 6], 0));
        assert_eq!(bounds(1, FP, &pair([6, 2, 6], flags, [32, 32])), (1, [6, 6], 0));
        assert_eq!(bounds(1, FP, &pair([6, 2, 6], flags, [1, 2])), (1, [first, 6], 0));
        assert_eq!(bounds(1, FP, &pair([6, 2, 6], flags, [9, 32])), (1, [first, 6], 0));
        assert_eq!(bounds(1, FP, &pair([6, 2, 6], flags, [2, 1])), (1, [6, first], 0));
    }
    assert_eq!(bounds(2, FP, &pair([6, 2, 6], [1, 1], [3, 3])), (1, [6, 6], 1));
    assert_eq!(bounds(2, FP, &pair([6, 2, 6], [1, 1], [3, 4])), (1, [2, 4], 3));
}

#[test]
fn forcing_goes_by_levels() {
    for (levels, place, passes) in [([1, 1], 1, 2), ([1, 2], 2, 3), ([7, 3], 1, 3)] {
        let list = pair([6, 3, 5], [1, 1], levels);
        let mut room = [KEPT; 2];
        assert_eq!(tasks(true, 1, [1, FP], &list, &mut room), (refused(14, place, passes), 0));
        assert_eq!(tasks(true, 2, [1, FP], &list, &mut room).0.number, 15);
        assert_eq!(room, [KEPT; 2]);
        let (told, cores) = fewest([16, FP], &list, &mut room);
        assert_eq!((told.yes, told.forced, told.passes, told.records, cores), (1, 0, 1, 2, 2));
        assert_eq!(room, [[1, 0, 3]; 2]);
    }
}

#[test]
fn edf_ignores_levels_and_refuses_none() {
    for edition in [1, 2] {
        let places = bounds(edition, EDF, &pair([6, 2, 6], [1, 1], [1, 2]));
        for levels in [[1, 1], [2, 1], [32, 5]] {
            assert_eq!(bounds(edition, EDF, &pair([6, 2, 6], [1, 1], levels)), places);
        }
    }
    assert_eq!(lowest(), 32);
    for level in [0, 33, u32::MAX] {
        for policy in [EDF, FP] {
            let (mut room, head) = ([KEPT; 2], [1, policy]);
            let list = pair([6, 2, 6], [1, 1], [1, level]);
            for (force, edition) in [(false, 1), (true, 1), (false, 2), (true, 2)] {
                assert_eq!(tasks(force, edition, head, &list, &mut room[..1]), (refused(17, 2, 0), 0));
            }
            assert_eq!(fewest(head, &list, &mut room), (refused(17, 2, 0), 0));
            assert_eq!(write(head, &list, &mut [], 9), (refused(17, 2, 0), 0));
            let list = pair([6, 0, 6], [1, 1], [level, level]);
            assert_eq!(tasks(true, 1, head, &list, &mut room), (refused(11, 1, 0), 0));
            assert_eq!(room, [KEPT; 2]);
        }
    }
}

const TEXT: &[u8] = b"01010102FB\n02010000000C000000040000000CE1\n0201000000180000000900000012CA\n";

#[test]
fn places_are_written_and_nothing_else_is() {
    let list = |levels: [u32; 2]| [[1, 12, 4, 12, levels[0]], [1, 24, 9, 18, levels[1]]];
    let mut buffer = [b'#'; 80];
    for levels in [[1, 1], [2, 1], [1, 3], [2, 3]] {
        assert_eq!(write([1, FP], &list(levels), &mut buffer, 3), (refused(18, 0, 0), 0));
        assert_eq!(write([1, EDF], &list(levels), &mut buffer, 3), (refused(18, 0, 0), 0));
        assert_eq!(write([1, FP], &list(levels), &mut buffer[..72], 0), (refused(16, 0, 0), 0));
    }
    assert_eq!(buffer, [b'#'; 80]);
    let (told, end) = write([1, FP], &list([1, 2]), &mut buffer, 3);
    assert_eq!((told, end), (Told { yes: 1, ..Told::default() }, 76));
    assert_eq!(buffer[..], [b"###", TEXT, b"####"].concat());
}

/// All 32 tasks arrive, each with its level, and a 33rd is refused.
#[test]
fn the_tasks_arrive_whole() {
    let many: Vec<LevelTask> = (0..33).map(|i| [1, 1_000_000, 1, 1_000_000, 32 - i.min(31)]).collect();
    let mut room = [KEPT; 34];
    let (told, _) = tasks(false, 1, [1, FP], &many[..32], &mut room);
    assert_eq!((told.yes, told.records, room[0][2], room[31][2]), (1, 32, 63, 1));
    assert_eq!(room[32..], [KEPT; 2]);
    assert_eq!(tasks(true, 1, [1, FP], &many, &mut room), (refused(7, 0, 0), 0));
    assert_eq!(tasks(true, 1, [1, FP], &[], &mut []), (refused(7, 0, 0), 0));
    assert_eq!(tasks(true, 2, [1, 2], &many[..32], &mut room), (refused(6, 0, 0), 0));
    assert_eq!(fewest([17, FP], &many[..32], &mut room), (refused(5, 0, 0), 0));
    assert_eq!(fewest([1, FP], &many[..32], &mut room[..31]), (refused(13, 0, 0), 0));
}
