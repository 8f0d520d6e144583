//! 01, "The line program".

use crate::reconcile::{bcns, frodo};
use crate::schemes::{scheme, Family, Scheme};

/// The whole output for the whole input.
pub fn line(input: &[u8]) -> Vec<u8> {
    let text = match answer(input) {
        Ok([hint, key, peer]) => format!("hint={hint}\nkey={key}\npeer={peer}\n"),
        Err(number) => format!("refusal={number}\n"),
    };
    text.into_bytes()
}

/// Hint, key and peer, or the refusal's number.
fn answer(input: &[u8]) -> Result<[u32; 3], u32> {
    let [number, coin, v, w] = numbers(input).ok_or(8u32)?;
    let scheme = known(number).ok_or(1u32)?;
    if coin > 3 || scheme.family == Family::Frodo && coin != 0 {
        return Err(9);
    }
    let (v, w) = (i128::from(v), i128::from(w));
    if v >= scheme.q || w >= scheme.q {
        return Err(4);
    }
    Ok(reconciled(scheme, coin as u32, v, w))
}

/// Scheme 0 or 2 to 5.
fn known(number: u64) -> Option<&'static Scheme> {
    scheme(number).filter(|scheme| scheme.family != Family::NewHope)
}

fn reconciled(scheme: &Scheme, coin: u32, v: i128, w: i128) -> [u32; 3] {
    match scheme.family {
        Family::Bcns => {
            let rule = bcns::Rule::of(scheme);
            let z = rule.z(v, coin);
            let hint = rule.hint(z);
            [hint, rule.key(z), rule.peer(w, hint)]
        }
        Family::Frodo => {
            let rule = frodo::Rule::of(scheme);
            let hint = rule.hint(v);
            [hint, rule.key(v), rule.peer(w, hint)]
        }
        Family::NewHope => panic!("the line program has no NewHope"),
    }
}

/// The numbers of the four lines; none for other text.
fn numbers(input: &[u8]) -> Option<[u64; 4]> {
    let mut rest = input;
    let mut answer = [0; 4];
    for (at, name) in ["scheme=", "coin=", "v=", "w="].iter().enumerate() {
        let end = rest.iter().position(|&byte| byte == b'\n')?;
        let digits = rest[..end].strip_prefix(name.as_bytes())?;
        answer[at] = decimal(digits)?;
        rest = &rest[end + 1..];
    }
    if rest.is_empty() {
        Some(answer)
    } else {
        None
    }
}

/// Decimal, 1 to 10 digits, no leading zero unless 0.
pub fn decimal(digits: &[u8]) -> Option<u64> {
    if digits.is_empty() || digits.len() > 10 {
        return None;
    }
    if digits.len() > 1 && digits[0] == b'0' {
        return None;
    }
    let mut number = 0;
    for digit in digits {
        if !digit.is_ascii_digit() {
            return None;
        }
        number = 10 * number + u64::from(digit - b'0');
    }
    Some(number)
}
