//! How the evaluations of a search grow: with the number of tasks, with the deadlines, and with the ratio of
//! the longest period to the shortest. As tables, and as a picture.

use crate::best::Count;
use crate::sides::Job;
use crate::steps::{of_best, of_textbook};
use crate::svg::{draw, Panel, Series};
use second::plan::{Table, Task, EDF, FP, LONGEST_PERIOD};
use second::random::Random;
use second::tables::{edge_pair, shares, Draw};
use std::io;
use std::path::Path;

/// Pairs of tables either side of acceptance for each point.
const PAIRS: usize = 24;
const SEED: u64 = 42;

/// What the tables of a point have in common.
#[derive(Clone, Copy)]
struct Kind {
    n: usize,
    longest: u32,
    ratio: u32,
}

const SIZES: [usize; 6] = [4, 8, 12, 16, 24, 32];
const LENGTHS: [u32; 5] = [100, 1_000, 10_000, 100_000, LONGEST_PERIOD];
const RATIOS: [u32; 6] = [1, 10, 100, 1_000, 10_000, 100_000];

/// A period from longest / ratio on, every order of magnitude being equally likely.
fn period(random: &mut Random, kind: Kind) -> u32 {
    let shortest = (kind.longest / kind.ratio).max(1);
    let mut period = shortest;
    for _ in 0..random.small(0, kind.ratio.ilog2()) {
        period = 2 * period;
    }
    random.small(period, (2 * period - 1).min(kind.longest).max(period))
}

/// All preemptive, D = T or within the upper half of T, half as many cores as tasks at most.
fn drawn(random: &mut Random, policy: u32, kind: Kind) -> Draw {
    let cores = random.small(1, (kind.n as u32 / 2).clamp(1, 16));
    let mut periods: Vec<u32> = (0..kind.n).map(|_| period(random, kind)).collect();
    periods.sort();
    let deadlines = match random.once_in(2) {
        true => periods.clone(),
        false => periods.iter().map(|&period| random.small(period.div_ceil(2), period)).collect(),
    };
    let shares = shares(random, kind.n, 1_000_000 * u64::from(cores));
    let levels = (1..).take(kind.n).collect();
    Draw { cores, policy, flags: vec![1; kind.n], periods, deadlines, shares, levels }
}

/// Evaluations a search of the best form, and of the textbook iteration, over tables near the edge.
fn measured(policy: u32, kind: Kind) -> (f64, f64) {
    let mut random = Random::new(SEED);
    let mut counts = [Count::default(); 2];
    let mut pairs = 0;
    while pairs < PAIRS {
        if let Some((inside, outside)) = edge_pair(&drawn(&mut random, policy, kind)) {
            pairs += 1;
            for table in [inside, outside] {
                counts[0] += of_best(Job::Force, &table);
                counts[1] += of_textbook(Job::Force, &table, u64::MAX).expect("there is no limit");
            }
        }
    }
    (counts[0].mean(), counts[1].mean())
}

/// What slow plans have in common: short tasks need all cores all the time, and light long ones are beside
/// them.
fn full_load(longest: u32) -> Table {
    let mut tasks = vec![Task::of_four(0, 2, 1, 1); 16];
    tasks.resize(32, Task::of_four(1, longest, 1, longest));
    Table::in_places(8, EDF, &tasks)
}

/// One table of figures, and its panel of the picture.
fn panel(title: &str, label: &str, points: &[(String, Kind)], with_full: bool) -> Panel {
    println!(
        "\n| {label} | best, EDF | best, FP | textbook, EDF | textbook, FP |{}",
        extra(with_full, " full load, best |")
    );
    println!("|---|---|---|---|---|{}", extra(with_full, "---|"));
    let mut columns = vec![Vec::new(); 5];
    for (name, kind) in points {
        let (edf, fp) = (measured(EDF, *kind), measured(FP, *kind));
        let mut row = vec![edf.0, fp.0, edf.1, fp.1];
        if with_full {
            row.push(of_best(Job::Test, &full_load(kind.longest)).mean());
        }
        let shown: Vec<String> = row.iter().map(|mean| format!("{mean:.1}")).collect();
        println!("| {name} | {} |", shown.join(" | "));
        for (column, mean) in columns.iter_mut().zip(row) {
            column.push(mean);
        }
    }
    let ticks = points.iter().map(|(name, _)| name.clone()).collect();
    let series = columns.into_iter().enumerate().filter(|(_, means)| !means.is_empty());
    let series = series.map(|(style, means)| Series { style, means }).collect();
    Panel { title: title.to_string(), label: label.to_string(), ticks, series }
}

fn extra(wanted: bool, text: &str) -> &str {
    if wanted {
        text
    } else {
        ""
    }
}

/// Prints the tables and writes the picture.
pub fn run(file: &Path) -> io::Result<()> {
    let most = Kind { n: 16, longest: LONGEST_PERIOD, ratio: 1_000 };
    let sizes = SIZES.map(|n| (n.to_string(), Kind { n, ..most }));
    let lengths = LENGTHS.map(|longest| (power(longest), Kind { longest, ratio: 100, ..most }));
    let ratios = RATIOS.map(|ratio| (power(ratio), Kind { ratio, ..most }));
    let panels = [
        panel("Number of tasks", "tasks", &sizes, false),
        panel("Longest period, 16 tasks", "longest T and D", &lengths, true),
        panel("Ratio of periods, 16 tasks", "longest T / shortest T", &ratios, false),
    ];
    let names = [
        "best form, EDF",
        "best form, FP",
        "textbook, EDF",
        "textbook, FP",
        "32 tasks at full load, best form",
    ];
    std::fs::write(file, draw("Evaluations of the sum in one search", &panels, &names))
}

/// With a comma between thousands.
fn power(number: u32) -> String {
    let digits = number.to_string();
    let mut shown = String::new();
    for (at, digit) in digits.chars().enumerate() {
        if at > 0 && (digits.len() - at) % 3 == 0 {
            shown.push(',');
        }
        shown.push(digit);
    }
    shown
}
