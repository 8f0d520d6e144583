//! The word that was meant by a misspelt one.

use std::ffi::OsStr;

/// ` (did you mean X?)` with the nearest of these, where one is near enough.
pub fn hint<'a>(word: &OsStr, known: impl IntoIterator<Item = &'a str>) -> String {
    let given = word.to_string_lossy().to_lowercase();
    let allowed = 1 + given.chars().count() / 4;
    let near = known.into_iter().map(|one| (distance(&given, one), one));
    match near.min_by_key(|(far, _)| *far) {
        Some((far, one)) if far <= allowed && far < one.len() => format!(" (did you mean {one}?)"),
        _ => String::new(),
    }
}

/// How many letters have to be added, left out, changed, or swapped with the next.
fn distance(one: &str, other: &str) -> usize {
    let (one, other): (Vec<char>, Vec<char>) = (one.chars().collect(), other.chars().collect());
    let mut rows = vec![(0..=other.len()).collect::<Vec<usize>>()];
    for i in 1..=one.len() {
        let mut row = vec![i];
        for j in 1..=other.len() {
            let changed = usize::from(one[i - 1] != other[j - 1]);
            let mut least = (rows[i - 1][j] + 1)
                .min(row[j - 1] + 1)
                .min(rows[i - 1][j - 1] + changed);
            if i > 1 && j > 1 && one[i - 1] == other[j - 2] && one[i - 2] == other[j - 1] {
                least = least.min(rows[i - 2][j - 2] + 1);
            }
            row.push(least);
        }
        rows.push(row);
    }
    rows[one.len()][other.len()]
}

#[cfg(test)]
mod tests {
    use super::*;

    #[test]
    fn the_nearest_is_named() {
        let known = ["offer", "reply", "finish", "link", "help"];
        let of = |word: &str| hint(OsStr::new(word), known);
        assert_eq!(of("fnish"), " (did you mean finish?)");
        assert_eq!(of("Offer"), " (did you mean offer?)");
        assert_eq!(of("repyl"), " (did you mean reply?)");
        assert_eq!(of("lnik"), " (did you mean link?)");
        for far in ["x", "", "exchange", "--"] {
            assert_eq!(of(far), "", "{far}");
        }
    }
}
