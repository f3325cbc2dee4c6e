//! The stored files of `examples`, `corpus` and the batch program are what this program writes, and the
//! README tells the truth.

use second::corpus::{bad, examples, good, Plan};
use second::hand::case_d;
use second::plan_cases::expected;
use second::slips::{SAME, WRONG};
use second::wrong;
use second::wrong_reading::SLIPS;
use second::{batch, forcing, textbook};
use std::fs;
use std::io::Write;
use std::path::{Path, PathBuf};
use std::process::{Command, Stdio};

fn root() -> PathBuf {
    Path::new(env!("CARGO_MANIFEST_DIR")).parent().unwrap().to_path_buf()
}

/// The directory holds these plans with their listings, and no others.
fn same_plans(dir: &str, plans: Vec<Plan>) {
    let dir = root().join(dir);
    for (name, text) in &plans {
        let path = dir.join(name);
        assert_eq!(&fs::read(path.with_extension("plan")).unwrap(), text, "{name}");
        assert_eq!(fs::read_to_string(path.with_extension("listing")).unwrap(), expected(text), "{name}");
    }
    let is_plan = |path: &Path| path.extension().is_some_and(|ending| ending == "plan");
    let stored = fs::read_dir(dir).unwrap().filter(|entry| is_plan(&entry.as_ref().unwrap().path()));
    assert_eq!(stored.count(), plans.len());
}

#[test]
fn plans_and_listings() {
    same_plans("examples", examples());
    same_plans("corpus/good", good());
    same_plans("corpus/bad", bad());
}

#[test]
fn batches() {
    let dir = root().join("crates").join("text_cases");
    let (bytes, lines) = batch::all();
    assert!(fs::read(dir.join("stdin")).unwrap() == bytes);
    assert!(fs::read_to_string(dir.join("stdout")).unwrap() == lines);
}

/// Every row of the README's table of wrong planners: the plan gives the wrong planner away.
#[test]
fn rows_of_the_readme() {
    let readme = fs::read_to_string(root().join("corpus").join("README.md")).unwrap();
    for wrong in WRONG {
        let start = format!("| {} | {} | `", wrong.name, wrong.what);
        let row = readme.lines().find(|line| line.starts_with(&start)).expect(wrong.name);
        let name = row[start.len()..].trim_end_matches("` |");
        let path =
            if name.starts_with("examples") { root().join(name) } else { root().join("corpus").join(name) };
        let text = fs::read(path).unwrap();
        assert_ne!(wrong::listing(wrong.slip, &text), expected(&text), "{}", wrong.name);
    }
    for same in SAME {
        assert!(readme.contains(&format!("| {} | {} |\n", same.name, same.what)));
    }
    for (name, _) in good().iter().chain(&bad()) {
        assert!(readme.contains(&format!("| `{name}` | ")), "{name}");
    }
    assert!(readme.contains(&format!("give away {} wrong readers", SLIPS.len())));
}

#[test]
fn example_d_as_given() {
    let (yes, records) = forcing::test(&case_d(), textbook::bound_of);
    assert_eq!((yes, records[0].bound, records[1].bound), (false, 0, 13));
}

/// The plan printer itself, from standard input to standard output.
#[test]
fn the_command_prints_the_listing() {
    for (name, text) in examples() {
        let mut command = Command::new(env!("CARGO_BIN_EXE_second"));
        let command = command.arg("listing").stdin(Stdio::piped()).stdout(Stdio::piped());
        let mut child = command.spawn().unwrap();
        child.stdin.take().unwrap().write_all(&text).unwrap();
        let output = child.wait_with_output().unwrap();
        assert_eq!(String::from_utf8(output.stdout).unwrap(), expected(&text), "{name}");
    }
}
