//! The tables of the benchmark: test, force, reading.

use crate::best;
use crate::clock::{in_turns, Side, KIND, TURNS};
use crate::plans::{workloads, Plan};
use crate::sides::{archive, best, compare, compare_text, textbook, Job, ROOM};
use crate::steps;
use std::hint::black_box;

/// Past so many evaluations of a plan the textbook iteration is left out, unless all is asked for.
const TOO_MANY: u64 = 10_000_000;

/// The last columns: ratios on flat numbers, and the first of them where both sides read the plan's text too.
const RATIOS: &str = "archive / best | textbook / archive | archive / best, on text |";

/// Every workload whose name holds `part`, for both jobs, then reading.
pub fn run(part: &str, all: bool) {
    println!("Times: µs a plan, {KIND}, the least of up to {TURNS} turns.");
    let mut chosen = workloads();
    chosen.retain(|(name, _)| name.contains(part));
    for (job, title) in [(Job::Test, "test"), (Job::Force, "force")] {
        println!("\n| {title} | plans | evaluations | best | archive | textbook | {RATIOS}");
        println!("|---|---|---|---|---|---|---|---|---|");
        chosen.iter().for_each(|(name, plans)| workload(job, name, plans, all));
    }
    reading();
}

fn few_steps(job: Job, plan: &Plan) -> bool {
    steps::of_textbook(job, &plan.table, TOO_MANY).is_some()
}

/// Compares the sides, then times them in turns.
fn workload(job: Job, name: &str, plans: &[Plan], all: bool) {
    let whole = all || plans.iter().all(|plan| few_steps(job, plan));
    plans.iter().for_each(|plan| compare(job, plan, whole));
    let number = job.number();
    let mut records = [[0; ROOM]; 4];
    let [r0, r1, r2, r3] = &mut records;
    let mut sides = vec![
        Side::new(|| each(plans, |plan| best(job, plan, r0))),
        Side::new(|| each(plans, |plan| archive(job, plan, r1))),
        Side::new(|| each(plans, |plan| best::plan(number, &plan.text, r2))),
        Side::new(|| each(plans, |plan| eskihrum::flat::plan(number, &plan.text, r3))),
    ];
    if whole {
        sides.push(Side::new(|| each(plans, |plan| textbook(job, plan).is_ok())));
    }
    let times = in_turns(&mut sides);
    let evaluations: u64 = plans.iter().map(|plan| steps::of_best(job, &plan.table).evaluations).sum();
    let shown = |time: f64| figure(time / plans.len() as f64);
    let (third, ratio) = match times.get(4) {
        Some(&time) => (shown(time), figure(time / times[1])),
        None => ("-".to_string(), "-".to_string()),
    };
    println!(
        "| {name} | {} | {} | {} | {} | {third} | {:.2} | {ratio} | {:.2} |",
        plans.len(),
        figure(evaluations as f64 / plans.len() as f64),
        shown(times[0]),
        shown(times[1]),
        times[1] / times[0],
        times[3] / times[2],
    );
}

/// One run over all plans. Neither the plan nor the answer is known to what is compiled.
fn each<A>(plans: &[Plan], mut call: impl FnMut(&Plan) -> A) {
    for plan in plans {
        black_box(call(black_box(plan)));
    }
}

/// Three digits, and whole numbers with all of theirs.
fn figure(number: f64) -> String {
    if number < 10.0 {
        format!("{number:.2}")
    } else if number < 100.0 {
        format!("{number:.1}")
    } else {
        format!("{number:.0}")
    }
}

/// Reading alone: texts that are refused at their very end, with refusal 12.
fn reading() {
    println!("\n| reading | bytes | best | archive | second program | archive / best |");
    println!("|---|---|---|---|---|---|");
    let all = workloads();
    for n in [8, 16, 32] {
        let name = format!("typical_edf_n{n}");
        let (_, plans) = all.iter().find(|(found, _)| *found == name).expect("the typical plans are there");
        let mut texts: Vec<Vec<u8>> = plans.iter().take(32).map(|plan| plan.text.clone()).collect();
        texts.iter_mut().for_each(|text| text.push(b'0'));
        texts.iter().for_each(|text| compare_text(Job::Test, text));
        let (mut r0, mut r1) = ([0; ROOM], [0; ROOM]);
        let mut sides = [
            Side::new(|| {
                for text in &texts {
                    black_box(best::plan(0, black_box(text), &mut r0));
                }
            }),
            Side::new(|| {
                for text in &texts {
                    black_box(eskihrum::flat::plan(0, black_box(text), &mut r1));
                }
            }),
            Side::new(|| texts.iter().for_each(|text| drop(black_box(second::plan::read(black_box(text)))))),
        ];
        let times = in_turns(&mut sides);
        let shown = |time: f64| figure(time / texts.len() as f64);
        println!(
            "| {n} tasks | {} | {} | {} | {} | {:.2} |",
            texts[0].len() - 1,
            shown(times[0]),
            shown(times[1]),
            shown(times[2]),
            times[1] / times[0],
        );
    }
}
