//! What is compared with what, and what is measured alone.

mod blank;
mod by_rows;
mod calls;
pub mod growth;
mod kernels;
mod levels;
mod limits;
mod products;
mod seeds;
mod tests;

pub use calls::WITH_AES;

/// Takes each pair: measures it, counts it, or just numbers it.
pub trait Rows {
    fn row(&mut self, what: &str, peer: &str, ours: &mut dyn FnMut(), theirs: &mut dyn FnMut());

    /// One piece of code alone: its time, or 1 where none is taken.
    fn alone(&mut self, _what: &str, _code: &mut dyn FnMut()) -> f64 {
        1.0
    }

    /// A line that a part makes of such times.
    fn line(&mut self, _cells: &[String]) {}
}

/// One table.
pub struct Part {
    pub name: &'static str,
    pub columns: &'static [&'static str],
    pub rows: fn(&mut dyn Rows),
}

/// Those of one name are measured together.
pub static PARTS: [Part; 13] = [
    Part { name: "kernels", columns: &["kernel", "ns", "plain code", "ns", "ratio"], rows: kernels::rows },
    Part { name: "calls", columns: &["call", "ns", "against", "ns", "ratio"], rows: calls::rows },
    Part { name: "levels", columns: &["call for x86-64-v3", "ns", "against", "ns", "ratio"], rows: levels::rows },
    Part { name: "products", columns: &["product by halves", "ns", "against", "ns", "ratio"], rows: products::rows },
    Part { name: "seeds", columns: &["hash, or call from bytes", "ns", "against", "ns", "ratio"], rows: seeds::rows },
    Part { name: "tests", columns: &["call refused by its last range test", "ns", "against", "ns", "ratio"], rows: tests::rows },
    Part { name: "blank", columns: &["call on messages all but blank", "ns", "against", "ns", "ratio"], rows: blank::rows },
    Part { name: "rows", columns: &["Frodo by rows", "ns", "against", "ns", "ratio"], rows: by_rows::rows },
    Part { name: "growth", columns: &["Frodo's calls", "n, rows of A", "ns", "slope", "theory"], rows: growth::calls },
    Part { name: "growth", columns: &["product by halves", "L, numbers a factor", "ns", "slope", "theory"], rows: growth::products },
    Part { name: "growth", columns: &["hash", "bytes in", "ns", "slope", "theory"], rows: growth::hashes },
    Part { name: "growth", columns: &["Frodo Recommended by rows", "numbers a part", "ns", "slope", "theory"], rows: growth::parts },
    Part { name: "limits", columns: &["call", "bytes, ns", "products, ns", "permutations, ns", "bound by", "ns", "ratio"], rows: limits::rows },
];
