//! The table that docs/BENCH.md opens with, of the rows of the calls: a scheme a
//! line, against the quickest other code that gives the same bytes.

use crate::measure::Pair;
use crate::rows::WITH_AES;
use second::schemes::SIX;

pub const COLUMNS: [&str; 6] = ["scheme", "Offer", "Reply", "Finish", "by the best other code", "which is"];

/// The row of a call whose other side is the quickest.
pub fn best<'a>(pairs: &'a [Pair], scheme: &str, call: &str) -> Option<&'a Pair> {
    let what = format!("{scheme}, {call}");
    pairs.iter().filter(|row| row.what == what && row.peer != WITH_AES).min_by(|x, y| x.other.total_cmp(&y.other))
}

fn microseconds(ns: f64) -> String {
    let places = if ns < 99_950.0 { 1 } else { 0 };
    format!("{:.places$}", ns / 1000.0)
}

/// Offer's other code, and that of a later call where it is another.
fn which(calls: &[&str], rows: &[&Pair]) -> String {
    let first = &rows[0].peer;
    let others = calls.iter().zip(rows).filter(|(_, row)| row.peer != *first);
    others.fold(first.clone(), |told, (call, row)| format!("{told}; in {call} {}", row.peer))
}

fn line(pairs: &[Pair], scheme: &str) -> Option<Vec<String>> {
    let calls = &COLUMNS[1..4];
    let rows: Vec<&Pair> = calls.iter().map(|call| best(pairs, scheme, call)).collect::<Option<_>>()?;
    let ratios: Vec<String> = rows.iter().map(|row| format!("{:.2}", row.own / row.other)).collect();
    let mut cells = vec![scheme.to_string()];
    cells.extend(rows.iter().map(|row| microseconds(row.own)));
    cells.extend([ratios.join(", "), which(calls, &rows)]);
    Some(cells)
}

/// Of the schemes whose three calls are there.
pub fn lines(pairs: &[Pair]) -> Vec<Vec<String>> {
    SIX.iter().filter_map(|scheme| line(pairs, scheme.name)).collect()
}
