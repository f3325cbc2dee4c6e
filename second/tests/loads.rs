//! The loads of the listing, worked out in other ways than by dividing: 1000 * C / T to the next whole
//! number for each task, and the total of these.

use second::hand::table;
use second::listing::listing;
use second::plan::{write, Table, Task, EDF, FP, LONGEST_PERIOD};
use second::random::Random;
use second::tables::{next_edge_pair, small_table, spread_period};
use second::textbook;

// ---------------------------------------------------------------- the load in other ways

/// Whether x * T is at least 1000 * C.
fn enough(x: u64, task: &Task) -> bool {
    x * u64::from(task.period) >= 1000 * u64::from(task.cost)
}

/// The least x that is enough, by counting up from 0.
fn by_counting(task: &Task) -> u64 {
    let mut x = 0;
    while !enough(x, task) {
        x += 1;
    }
    x
}

/// The same by halving: `low` is never enough, `high` always is, since C is at most T.
fn by_halving(task: &Task) -> u64 {
    let (mut low, mut high) = (0, 1000);
    while high - low > 1 {
        let middle = (low + high) / 2;
        if enough(middle, task) {
            high = middle;
        } else {
            low = middle;
        }
    }
    high
}

/// The same on paper: C / T to three decimal places, digit by digit, and one more if anything is left over.
fn on_paper(task: &Task) -> u64 {
    let (period, mut left, mut load) = (u64::from(task.period), u64::from(task.cost), 0);
    for place in 0..4 {
        let mut digit = 0;
        while left >= period {
            left -= period;
            digit += 1;
        }
        load = 10 * load + digit;
        if place < 3 {
            left *= 10;
        }
    }
    load + u64::from(left > 0)
}

fn load(task: &Task) -> u64 {
    let load = by_counting(task);
    assert_eq!(by_halving(task), load, "{task:?}");
    assert_eq!(on_paper(task), load, "{task:?}");
    assert!((1..=1000).contains(&load) && enough(load, task) && !enough(load - 1, task), "{task:?}");
    load
}

// ---------------------------------------------------------------- the listing's loads

/// The number after a word of a line.
fn number_after(line: &str, word: &str) -> u64 {
    let words: Vec<&str> = line.split(' ').collect();
    let at = words.iter().position(|&other| other == word).unwrap();
    words[at + 1].parse().unwrap()
}

/// Compares the loads of an accepted table's listing; gives the number of tasks, and 0 where it is refused.
fn compare(table: &Table) -> usize {
    let text = listing(&write(table), textbook::bound_of);
    if text.starts_with("refused ") {
        return 0;
    }
    let n = table.tasks.len();
    let lines: Vec<&str> = text.lines().collect();
    assert_eq!(lines.len(), n + 2);
    let mut total = 0;
    for (k, task) in table.tasks.iter().enumerate() {
        let (line, load) = (lines[k + 1], load(task));
        assert!(line.starts_with(&format!("task {} ", k + 1)), "{line}");
        assert!(line.ends_with(&format!(" deadline {} load {load}", task.deadline)), "{line} for {task:?}");
        total += load;
    }
    assert!(lines[n + 1].starts_with(&format!("total load {total} forced ")), "{text}");
    assert_eq!(number_after(lines[n + 1], "load"), total);
    n
}

/// A table of up to 16 tasks on 16 cores: it passes, each bound being C.
fn roomy(policy: u32, tasks: &[Task]) -> Table {
    Table::in_places(16, policy, tasks)
}

/// Compares them 16 at a time, under both policies in turn; all are accepted.
fn compare_all(tasks: &[Task]) {
    let mut compared = 0;
    for (count, part) in tasks.chunks(16).enumerate() {
        compared += compare(&roomy(if count % 2 == 0 { EDF } else { FP }, part));
    }
    assert_eq!(compared, tasks.len());
}

/// A task with D between C and T, its flag by turns.
fn task(random: &mut Random, period: u32, cost: u32) -> Task {
    Task::of_four(random.small(0, 1), period, cost, random.small(cost, period))
}

// ---------------------------------------------------------------- tests

/// Document 01's listing with 334, 375 and 709.
#[test]
fn the_documents_listing() {
    let text = b"01010102FB\x0A02010000000C000000040000000CE1\x0A0201000000180000000900000012CA\x0A";
    let wanted = "plan FP cores 1 tasks 2\n\
                  task 1 N forced bound 12 deadline 12 load 334\n\
                  task 2 N forced bound 17 deadline 18 load 375\n\
                  total load 709 forced 2 passes 3\n";
    assert_eq!(listing(text, textbook::bound_of), wanted);
    assert_eq!(compare(&table(FP, 1, &[(12, 4, 12, 'P'), (24, 9, 18, 'P')])), 2);
}

/// (C, T, load), by hand.
#[test]
fn loads_by_hand() {
    for (cost, period, by_hand) in [
        (1, 1, 1000),
        (1, 2, 500),
        (1, 3, 334),
        (2, 3, 667),
        (3, 3, 1000),
        (1, 7, 143),
        (6, 7, 858),
        (1, 1_000, 1),
        (999, 1_000, 999),
        (1, 1_001, 1),
        (1_000, 1_001, 1000),
        (1, 999, 2),
        (1, 1_000_000, 1),
        (1_000, 1_000_000, 1),
        (1_001, 1_000_000, 2),
        (998_999, 1_000_000, 999),
        (999_000, 1_000_000, 999),
        (999_001, 1_000_000, 1000),
        (999_999, 1_000_000, 1000),
        (1_000_000, 1_000_000, 1000),
        (999_998, 999_999, 1000),
        (333_333, 999_999, 334),
    ] {
        let task = Task::of_four(1, period, cost, period);
        assert_eq!(load(&task), by_hand, "{cost} of {period}");
        let text = listing(&write(&roomy(EDF, &[task])), textbook::bound_of);
        let end = format!("load {by_hand}\ntotal load {by_hand} forced 0 passes 1\n");
        assert!(text.ends_with(&end), "{text}");
    }
}

/// Every C and T with T at most 120: 7,260 tasks.
#[test]
fn short_periods() {
    let mut random = Random::new(40);
    let mut tasks = Vec::new();
    for period in 1..=120 {
        tasks.extend((1..=period).map(|cost| task(&mut random, period, cost)));
    }
    assert_eq!(tasks.len(), 7_260);
    compare_all(&tasks);
}

/// Random tasks of all orders of magnitude.
#[test]
fn random_periods() {
    let mut random = Random::new(41);
    let mut tasks = Vec::new();
    for _ in 0..8_000 {
        let period = spread_period(&mut random, LONGEST_PERIOD);
        let cost = random.small(1, period);
        tasks.push(task(&mut random, period, cost));
    }
    compare_all(&tasks);
}

/// Costs on and beside each whole load: where x * T passes 1000 * C.
#[test]
fn beside_whole_loads() {
    let mut random = Random::new(42);
    let mut tasks = Vec::new();
    for period in [1_000, 2_000, 4_096, 65_536, 99_999, 500_000, 999_983, 999_999, 1_000_000] {
        for x in (1..=1000).step_by(3) {
            let whole = (u64::from(period) * x / 1000) as u32;
            for cost in [whole.saturating_sub(1), whole, whole + 1] {
                tasks.push(task(&mut random, period, cost.clamp(1, period)));
            }
        }
    }
    assert_eq!(tasks.len(), 9 * 334 * 3);
    compare_all(&tasks);
}

/// Tables that are not roomy: some are refused, some are forced, and forcing changes no load.
#[test]
fn tables_of_any_kind() {
    let mut random = Random::new(43);
    let mut compared = 0;
    for _ in 0..2_000 {
        compared += compare(&small_table(&mut random, 8, 8, 60));
    }
    for round in 0..100 {
        compared += compare(&next_edge_pair(&mut random, round % 2, 32, LONGEST_PERIOD).0);
    }
    assert!(compared >= 2_000, "{compared}");
}

/// The largest total: 16 tasks that take a whole core each.
#[test]
fn the_largest_roomy_total() {
    let full = Task::of_four(1, 1_000_000, 1_000_000, 1_000_000);
    let text = listing(&write(&roomy(FP, &[full; 16])), textbook::bound_of);
    assert!(text.ends_with(" load 1000\ntotal load 16000 forced 0 passes 1\n"), "{text}");
}

/// The total is never below the exact load, and above it by less than one for each task. The sums are over
/// one number that every T up to 40 divides.
#[test]
fn the_total_against_the_exact_load() {
    let whole = (1..=40).fold(1u128, |whole, t| (1..=t).map(|i| whole * i).find(|x| x % t == 0).unwrap());
    let mut random = Random::new(44);
    for _ in 0..500 {
        let list = small_table(&mut random, 16, 1, 40).tasks;
        let text = listing(&write(&roomy(EDF, &list)), textbook::bound_of);
        let total = u128::from(number_after(text.lines().last().unwrap(), "load"));
        let part = |task: &Task| 1000 * u128::from(task.cost) * (whole / u128::from(task.period));
        let exact: u128 = list.iter().map(part).sum();
        assert!(total * whole >= exact, "{text}");
        assert!(total * whole < exact + list.len() as u128 * whole, "{text}");
    }
}
