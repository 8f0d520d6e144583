//! Measures the proved code against other code for the same job in one run: the
//! tables in Markdown of each part that is named, of all if none is.
//! `count` runs each once, for `bench/count`.

use bench::count::Count;
use bench::measure::Measure;
use bench::rows::{Part, PARTS};

fn main() {
    let named: Vec<String> = std::env::args().skip(1).collect();
    if named == ["count"] {
        return Count::run();
    }
    let of = |name: &String| PARTS.iter().filter(|part| part.name == name).collect::<Vec<_>>();
    named.iter().for_each(|name| assert!(!of(name).is_empty(), "no part {name}"));
    let parts: Vec<&Part> = if named.is_empty() { PARTS.iter().collect() } else { named.iter().flat_map(of).collect() };
    Measure::run(&parts);
}
