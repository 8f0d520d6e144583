//! What two people compare, and what the key is made of.

use crate::calls;
use crate::data::Wiped;

/// An exchange as both ends know it.
pub struct Exchange<'a> {
    pub scheme: u32,
    pub rule: u32,
    pub opening: &'a [u8],
    pub reply: &'a [u8],
}

/// Which half of the check an end says.
#[derive(Clone, Copy, PartialEq)]
pub enum End {
    Opener,
    Replier,
}

impl End {
    pub fn other(self) -> End {
        match self {
            End::Opener => End::Replier,
            End::Replier => End::Opener,
        }
    }
}

/// Hexadecimal digits that an end says, and how many stand together.
const SAID: usize = 16;
const GROUP: usize = 4;

impl Exchange<'_> {
    /// SHA3-256 of a text, the scheme and the rule, a byte each, and the rest; every
    /// part has a length that the scheme fixes.
    fn hash(&self, text: &str, secret: &[u8]) -> Wiped<u8> {
        let numbers = [self.scheme as u8, self.rule as u8];
        let parts = [text.as_bytes(), &numbers, secret, self.opening, self.reply];
        let all = parts.iter().flat_map(|part| part.iter().copied());
        let mut input = Wiped::zeros(parts.iter().map(|part| part.len()).sum());
        input.iter_mut().zip(all).for_each(|(to, byte)| *to = byte);
        calls::digest(&input)
    }

    /// The key that is used, of the raw key.
    pub fn key(&self, key: &[u8]) -> Wiped<u8> {
        self.hash("wimmostry key", key)
    }

    /// The digits that an end says: of the check's the first 16 or the next.
    fn digits(&self, key: &[u8], end: End) -> String {
        let check = self.hash("wimmostry check", &calls::digest(key));
        let digits: String = check.iter().map(|byte| format!("{byte:02x}")).collect();
        match end {
            End::Opener => digits[..SAID].to_string(),
            End::Replier => digits[SAID..2 * SAID].to_string(),
        }
    }

    /// The digits in groups, to be read aloud.
    pub fn said(&self, key: &[u8], end: End) -> String {
        let digits = self.digits(key, end);
        let groups = digits.as_bytes().chunks(GROUP).map(String::from_utf8_lossy);
        groups.collect::<Vec<_>>().join("-")
    }

    /// Whether what was heard is what this end says, in either case, with the marks
    /// or without.
    pub fn heard(&self, key: &[u8], end: End, heard: &str) -> bool {
        same(&plain(heard), self.digits(key, end).as_bytes())
    }
}

/// What was heard in small letters and without the marks.
fn plain(heard: &str) -> Vec<u8> {
    let plain = heard.bytes().filter(|&byte| byte != b'-');
    plain.map(|byte| byte.to_ascii_lowercase()).collect()
}

/// Whether what was heard is as many digits as an end says.
pub fn whole(heard: &str) -> bool {
    let plain = plain(heard);
    plain.len() == SAID && plain.iter().all(u8::is_ascii_hexdigit)
}

/// Whether two texts are the same, in a time that depends on their lengths alone.
fn same(one: &[u8], other: &[u8]) -> bool {
    let pairs = one.iter().zip(other);
    let differ = pairs.fold(0, |differ, (a, b)| std::hint::black_box(differ | (a ^ b)));
    one.len() == other.len() && std::hint::black_box(differ) == 0
}

#[cfg(test)]
mod tests {
    use super::*;

    const EXCHANGE: Exchange = Exchange {
        scheme: 1,
        rule: 14,
        opening: b"opening",
        reply: b"reply",
    };

    #[test]
    fn each_end_types_what_the_other_says() {
        let key = [7; 32];
        let said = EXCHANGE.said(&key, End::Opener);
        assert_eq!(said.len(), 19);
        assert!(said.split('-').all(|group| group.len() == 4));
        let heard = |text: &str| EXCHANGE.heard(&key, End::Opener, text);
        assert!(heard(&said) && heard(&said.to_uppercase()) && heard(&said.replace('-', "")));
        for other in [
            "",
            "-",
            &said[1..],
            &format!("{said}0"),
            &EXCHANGE.said(&key, End::Replier),
        ] {
            assert!(!heard(other), "{other}");
        }
        for k in (0..16).map(|k| k + k / 4) {
            let mut other = said.clone().into_bytes();
            other[k] ^= 1;
            assert!(!heard(&String::from_utf8_lossy(&other)), "{k}");
        }
    }

    #[test]
    fn all_of_it_counts() {
        let of = |x: &Exchange, key: &[u8]| (x.key(key).to_vec(), x.said(key, End::Opener));
        let first = of(&EXCHANGE, &[7; 32]);
        let others = [
            of(&EXCHANGE, &[8; 32]),
            of(
                &Exchange {
                    scheme: 2,
                    ..EXCHANGE
                },
                &[7; 32],
            ),
            of(
                &Exchange {
                    rule: 16,
                    ..EXCHANGE
                },
                &[7; 32],
            ),
            of(
                &Exchange {
                    opening: b"opened",
                    ..EXCHANGE
                },
                &[7; 32],
            ),
            of(
                &Exchange {
                    reply: b"replies",
                    ..EXCHANGE
                },
                &[7; 32],
            ),
        ];
        for other in others {
            assert!(other.0 != first.0 && other.1 != first.1);
        }
    }
}
