//! The picture of the growth: a panel a table, and nothing of other tables.

use std::io::Write;
use std::process::{Command, Output, Stdio};

fn plot(text: &str) -> Output {
    let program = concat!(env!("CARGO_MANIFEST_DIR"), "/plot");
    let mut run = Command::new(program).stdin(Stdio::piped()).stdout(Stdio::piped()).stderr(Stdio::piped()).spawn().expect("python3 is there");
    run.stdin.take().expect("a pipe").write_all(text.as_bytes()).expect("it is read");
    run.wait_with_output().expect("it ends")
}

const OTHER: &str = "| call | ns | against | ns | ratio |\n|---|---|---|---|---|\n| BCNS, Offer | 1 | plain | 2 | 0.50 |\n\n";
const RISES: &str = "| calls | n | ns | slope | theory |\n|---|---|---|---|---|\n| Offer | 10 | 100 |  | 2 |\n| Offer | 20 | 410 | 2.04 | 2 |\n\n";
const FALLS: &str = "| by rows | part | ns | slope | theory |\n|---|---|---|---|---|\n| A < B | 1 | 90 |  | -1 to 0 |\n| A < B | 9 | 12 | -0.92 | -1 to 0 |\n";

/// Each point, and a dashed line for each slope of the theory.
#[test]
fn panels() {
    let drawn = plot(&format!("{OTHER}{RISES}{FALLS}"));
    assert!(drawn.status.success());
    let svg = String::from_utf8(drawn.stdout).expect("a text");
    assert!(svg.starts_with("<svg ") && svg.ends_with("</svg>\n"));
    assert_eq!(svg.matches("<circle ").count(), 4);
    assert_eq!(svg.matches("stroke-dasharray").count(), 1 + 2);
    assert!(svg.contains(">calls<") && svg.contains(">by rows<") && svg.contains("A &lt; B, slope -1 to 0"));
    assert!(!svg.contains("BCNS"));
}

#[test]
fn no_table_of_growth() {
    let drawn = plot(OTHER);
    assert!(!drawn.status.success() && drawn.stdout.is_empty());
}
