//! `told`: the lines of the last answer, and in front of them what the other files
//! do not say: which end this is, and by which rule.

use super::check::End;
use crate::calls::rules;

pub struct Told {
    pub end: End,
    pub rule: u32,
    pub lines: String,
}

impl Told {
    pub fn text(&self) -> String {
        let end = match self.end {
            End::Opener => "opener",
            End::Replier => "replier",
        };
        format!("{end} {}\n{}", self.rule, self.lines)
    }

    pub fn of(text: &[u8]) -> Option<Told> {
        let (head, lines) = std::str::from_utf8(text).ok()?.split_once('\n')?;
        let (end, rule) = head.split_once(' ')?;
        let rule = rule.parse().ok()?;
        let end = match end {
            "opener" => End::Opener,
            "replier" => End::Replier,
            _ => return None,
        };
        let known = rules().iter().any(|(number, _)| *number == rule);
        known.then(|| Told {
            end,
            rule,
            lines: lines.to_string(),
        })
    }
}

#[cfg(test)]
mod tests {
    use super::*;

    #[test]
    fn and_back() {
        let told = Told {
            end: End::Replier,
            rule: 16,
            lines: "stage=keyed\nsay=00\n".to_string(),
        };
        assert_eq!(told.text(), "replier 16\nstage=keyed\nsay=00\n");
        let back = Told::of(told.text().as_bytes()).unwrap();
        assert!(back.end == told.end && back.rule == 16 && back.lines == told.lines);
        for other in ["", "opener\n", "opener 15\n", "nobody 14\n", "opener 14"] {
            assert!(Told::of(other.as_bytes()).is_none(), "{other}");
        }
    }
}
