//! What explains a refusal: which input, what was there and what was expected,
//! looked up in the inputs afterwards.

use crate::bcns;
use crate::calls::{rules, Refused, Sizes, EXPAND_NUMBERS};
use crate::data::{Data, Kind};
use crate::files::Lent;
use crate::rows::Rows;
use crate::table::{By, Input, Length, OnFiles};

/// The words behind number and place, if what they say is found there. The call was
/// asked for this scheme or rule.
pub fn refusal(own: &OnFiles, asked: u32, refused: Refused, given: &[Lent]) -> Option<String> {
    let Refused { number, place } = refused;
    let sizes = own.by.sizes(asked);
    match number {
        1 | 12 => unknown(own.by, asked),
        2 => length(own, sizes.as_ref(), given),
        3 => room(own, sizes.as_ref()),
        18 => falls(own, place, given),
        4 | 11 if rows(own, given).is_some() => by_rows(own, sizes.as_ref(), refused, given),
        4..=6 => entry(own, sizes.as_ref(), refused, given),
        7 => ran_out(own),
        17 => blank(own, sizes.as_ref(), given),
        _ => None,
    }
}

/// The detail of refusals 1 and 12.
fn unknown(by: By, asked: u32) -> Option<String> {
    match by {
        By::Scheme(first, last) => Some(no_scheme(asked, first, last)),
        By::Rule => Some(no_rule(asked)),
        By::Length | By::Nothing => None,
    }
}

pub fn no_scheme(asked: u32, first: u32, last: u32) -> String {
    format!("scheme={asked} expected={first}..{last}")
}

pub fn no_rule(asked: u32) -> String {
    let known = rules().map(|(number, _)| number);
    format!("rule={asked} expected={}", listed(&known))
}

fn name(word: &str) -> String {
    word.to_lowercase()
}

/// 5632 or 128 as `5632,128`.
pub fn listed<T: ToString>(numbers: &[T]) -> String {
    let texts: Vec<String> = numbers.iter().map(T::to_string).collect();
    texts.join(",")
}

/// The first input that has not its length.
fn length(own: &OnFiles, sizes: Option<&Sizes>, given: &[Lent]) -> Option<String> {
    let mut pairs = own.inputs.iter().zip(given);
    let other = |x: &Input, lent: &Lent| !x.length.fits(sizes, lent.data.len());
    // rows have no length before they have come
    let (input, lent) = pairs.find(|(x, lent)| x.kind != Kind::Rows && other(x, lent))?;
    let wanted = match input.length {
        Length::AtMost(_) => "at-most",
        _ => "expected",
    };
    let expected = listed(&input.length.known(sizes));
    Some(format!(
        "input={} length={} {wanted}={expected}",
        name(input.word),
        lent.there()
    ))
}

/// An output has the room of its answer, so that this is never said.
fn room(own: &OnFiles, sizes: Option<&Sizes>) -> Option<String> {
    let output = own.outputs.first()?;
    let known = output.length.known(sizes);
    Some(format!(
        "output={} expected={}",
        name(output.word),
        listed(&known)
    ))
}

/// The stream or seed, which is the first input, and how many numbers it should
/// have held.
fn ran_out(own: &OnFiles) -> Option<String> {
    let input = own.inputs.first()?;
    Some(format!(
        "input={} expected={EXPAND_NUMBERS}",
        name(input.word)
    ))
}

/// The table's entry at the place and its forerunner, if it is not above that.
fn falls(own: &OnFiles, place: usize, given: &[Lent]) -> Option<String> {
    let mut pairs = own.inputs.iter().zip(given);
    let (input, lent) = pairs.find(|(x, _)| x.kind == Kind::Words)?;
    let value = bcns::number(lent.data.words(), place)?;
    let before = bcns::number(lent.data.words(), place.checked_sub(1)?)?;
    let detail = format!("input={} value={value} above={before}", name(input.word));
    Some(detail).filter(|_| value <= before)
}

/// The first input with a bad entry of the refusal's kind, if it stands where
/// the call says.
fn entry(own: &OnFiles, sizes: Option<&Sizes>, refused: Refused, given: &[Lent]) -> Option<String> {
    let sizes = sizes?;
    for (input, lent) in own.inputs.iter().zip(given) {
        let (found, limit) = match (&lent.data, refused.number) {
            (Data::Numbers(all), 4) => {
                let found = all.iter().position(|&n| n >= sizes.q);
                let found = found.map(|k| (k, i64::from(all[k])));
                (found, format!("below={}", sizes.q))
            }
            (Data::Bytes(all), 5) => {
                let packed = input.packed(sizes, all);
                let found = packed.and_then(|part| first_over(part, sizes.q));
                (found, format!("below={}", sizes.q))
            }
            (Data::Values(all), 6) => {
                let largest = sizes.noise.unsigned_abs();
                let found = all.iter().position(|v| v.unsigned_abs() > largest);
                let found = found.map(|k| (k, i64::from(all[k])));
                (found, format!("largest={}", sizes.noise))
            }
            _ => (None, String::new()),
        };
        let Some((place, value)) = found else {
            continue;
        };
        if place != refused.place {
            return None;
        }
        return Some(format!("input={} value={value} {limit}", name(input.word)));
    }
    None
}

/// The input that came by rows.
fn rows<'a>(own: &'a OnFiles, given: &'a [Lent]) -> Option<(&'a Input, &'a Rows)> {
    let mut pairs = own.inputs.iter().zip(given);
    pairs.find_map(|(input, lent)| match &lent.data {
        Data::Rows(rows) => Some((input, rows)),
        _ => None,
    })
}

/// The row and the column at which they were refused, by 4 or by 11.
fn by_rows(
    own: &OnFiles,
    sizes: Option<&Sizes>,
    refused: Refused,
    given: &[Lent],
) -> Option<String> {
    let (input, rows) = rows(own, given)?;
    let detail = match refused.number {
        4 => format!("{} below={}", rows.over(refused.place)?, sizes?.q),
        _ => rows.ended(),
    };
    Some(format!("input={} {detail}", name(input.word)))
}

/// The first packed number that is q or more, in BCNS and NewHope, where alone
/// there can be one. A number takes as many bits as q does.
fn first_over(packed: &[u8], q: u32) -> Option<(usize, i64)> {
    let width = (u32::BITS - q.leading_zeros()) as usize;
    let bit = |i: usize| u64::from(packed[i / 8] >> (i % 8) & 1);
    let number = |k: usize| (0..width).fold(0, |sum, i| sum | bit(k * width + i) << i);
    let mut all = (0..8 * packed.len() / width).map(|k| (k, number(k)));
    let (place, value) = all.find(|&(_, value)| value >= u64::from(q))?;
    Some((place, value as i64))
}

/// The message that was received and how many zero bytes its packed part is; or
/// else the one that was to be sent, and the secret and noise that are zero.
fn blank(own: &OnFiles, sizes: Option<&Sizes>, given: &[Lent]) -> Option<String> {
    let sizes = sizes?;
    let inputs = own.inputs.iter().zip(given);
    for (input, lent) in inputs.clone() {
        let Data::Bytes(all) = &lent.data else {
            continue;
        };
        let packed = input.packed(sizes, all);
        if let Some(part) = packed.filter(|part| part.iter().all(|&byte| byte == 0)) {
            return Some(format!("input={} zeros={}", name(input.word), part.len()));
        }
    }
    let sent = own.outputs.first();
    let sent = sent.map(|output| format!("output={}", name(output.word)));
    let values = |(input, lent): (&Input, &Lent)| match &lent.data {
        Data::Values(all) => Some((name(input.word), all.iter().all(|&value| value == 0))),
        _ => None,
    };
    // s and e, s' and e': a secret and, behind it, its noise; e'' is in no packed part
    let values: Vec<(String, bool)> = inputs.filter_map(values).collect();
    let mut pairs = values.chunks_exact(2);
    let zero = pairs.find(|pair| pair.iter().all(|(_, zero)| *zero));
    let zero = zero.map(|pair| format!("zero={},{}", pair[0].0, pair[1].0));
    let both: Vec<String> = [sent, zero].into_iter().flatten().collect();
    Some(both.join(" ")).filter(|detail| !detail.is_empty())
}

#[cfg(test)]
mod tests {
    use super::*;

    #[test]
    fn packed_numbers_are_read_lowest_bit_first() {
        // 01: NewHope's 1, 2, 3, 4 packs to 01 80 00 30 00 10 00
        let packed = [1, 0x80, 0, 0x30, 0, 0x10, 0];
        assert_eq!(first_over(&packed, 12289), None);
        let mut over = packed;
        over[5..].copy_from_slice(&[0xfc, 0xff]);
        assert_eq!(first_over(&over, 12289), Some((3, 16383)));
        assert_eq!(
            first_over(&[0xff; 4], u32::MAX),
            Some((0, i64::from(u32::MAX)))
        );
    }
}
