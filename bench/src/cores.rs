//! The fewest cores of each workload's plans, beside the cores in their heads.

use crate::plans::{workloads, Plan};
use eskihrum::flat;

/// What forcing says of a plan as sent, and the fewest cores.
struct Found {
    accepted: bool,
    /// 0 where 16 cores are too few.
    fewest: u32,
}

fn found(plan: &Plan) -> Found {
    let (mut records, mut answer) = ([0; 96], [0; flat::FIELDS]);
    let accepted = flat::force_plan(&plan.text, &mut records, &mut answer) == 1;
    flat::fewest_plan(&plan.text, &mut records, &mut answer);
    Found { accepted, fewest: answer[flat::CORES] }
}

/// A row for each workload whose name holds `part`.
pub fn run(part: &str) {
    println!(
        "| cores | plans | accepted | with so many | fewest | saved | refused | of these on more | on none |"
    );
    println!("|---|---|---|---|---|---|---|---|---|");
    let mut chosen = workloads();
    chosen.retain(|(name, _)| name.contains(part));
    let mut total = [0; 8];
    for (name, plans) in &chosen {
        let row = row(plans);
        total.iter_mut().zip(row).for_each(|(sum, one)| *sum += one);
        show(name, row);
    }
    show("all", total);
}

/// Plans, accepted ones with their cores, the fewest, the difference, refused ones and what becomes of them.
fn row(plans: &[Plan]) -> [u32; 8] {
    let mut row = [0; 8];
    for plan in plans {
        let Found { accepted, fewest } = found(plan);
        assert!(!accepted || (1..=plan.table.cores).contains(&fewest), "one core more never hurts");
        assert!(accepted || fewest == 0 || fewest > plan.table.cores, "nor one fewer helps");
        row[0] += 1;
        if accepted {
            row[1] += 1;
            row[2] += plan.table.cores;
            row[3] += fewest;
            row[4] += plan.table.cores - fewest;
        } else {
            row[5] += 1;
            row[6] += u32::from(fewest > 0);
            row[7] += u32::from(fewest == 0);
        }
    }
    row
}

fn show(name: &str, row: [u32; 8]) {
    println!("| {name} | {} |", row.map(|number| number.to_string()).join(" | "));
}
