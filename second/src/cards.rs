//! 01, "Bench cards", as amended by request d of 02 (docs/RULES.md): each
//! card's inputs and what this program gives for them. Cards that 01 marks begin
//! with `*`, the others with `-`.

use crate::calls;
use crate::packing::pack;
use crate::polynomial;
use crate::reconcile::{bcns, frodo, newhope};
use crate::refusal::Refusal;
use crate::schemes::{Scheme, BCNS, FRODO_RECOMMENDED, NEWHOPE};
use crate::{noise, transform};

/// All cards in 01's order, one line each.
pub fn cards() -> Vec<String> {
    [
        bcns_cards(),
        frodo_cards(),
        newhope_cards(),
        noise_cards(),
        transform_cards(),
        message_cards(),
        expand_cards(),
    ]
    .concat()
}

fn bcns_cards() -> Vec<String> {
    let rule = bcns::Rule::of(&BCNS);
    let card = |v, coin| {
        let z = rule.z(v, coin);
        let (hint, key) = (rule.hint(z), rule.key(z));
        format!("* bcns v={v} coin={coin} : hint={hint} bit={key}")
    };
    let peer = |w, hint| format!("* bcns w={w} hint={hint} : bit={}", rule.peer(w, hint));
    vec![
        card(1073741824, 2),
        peer(1610612735, 0),
        peer(1610612736, 0),
        card(1073741824, 0),
        card(0, 2),
    ]
}

fn frodo_cards() -> Vec<String> {
    let rule = frodo::Rule::of(&FRODO_RECOMMENDED);
    let card = |v| {
        let (hint, key) = (rule.hint(v), rule.key(v));
        format!("* frodo scheme=4 v={v} : hint={hint} key={key}")
    };
    let peer = |w, hint| {
        let key = rule.peer(w, hint);
        format!("* frodo scheme=4 w={w} hint={hint} : key={key}")
    };
    vec![
        card(1023),
        peer(1535, 0),
        peer(1536, 0),
        card(32767),
        peer(0, 1),
    ]
}

fn newhope_cards() -> Vec<String> {
    let card = |x: i128, coin| {
        let group = [x; 4];
        let hint = newhope::hint(group, coin);
        let bit = newhope::key(group, hint);
        let [h0, h1, h2, h3] = hint;
        format!("* newhope x={x},{x},{x},{x} coin={coin} : hint={h0},{h1},{h2},{h3} bit={bit}")
    };
    vec![card(0, 0), card(0, 1), card(6144, 0), card(1536, 0)]
}

fn noise_cards() -> Vec<String> {
    let four = |bytes: [u8; 4]| {
        let [a, b, c, d] = bytes;
        let value = noise::newhope(&bytes);
        format!("* noise scheme=1 bytes={a:02X}{b:02X}{c:02X}{d:02X} : value={value}")
    };
    let word = |word| {
        let value = noise::frodo(&FRODO_RECOMMENDED, word);
        format!("* noise scheme=4 word={word} : value={value}")
    };
    vec![
        four([0xFF, 0xFF, 0x00, 0x00]),
        four([0x01, 0x00, 0x03, 0x00]),
        word(1205),
        word(1206),
        word(4095),
    ]
}

fn transform_cards() -> Vec<String> {
    let (one, x, x_1023) = (unit(0), unit(1), unit(1023));
    let product = polynomial::product(&x_1023, &x, NEWHOPE.q);
    vec![
        format!("- transform of=1 : {}", list(&transform::transform(&one))),
        format!("- transform of=X : {}", list(&transform::transform(&x))),
        format!("- product of=X^1023,X : {}", list(&product)),
    ]
}

fn message_cards() -> Vec<String> {
    let mut lines = vec![];
    for number in [12288, 12289] {
        let answer = told(reply_to(number));
        lines.push(format!(
            "- reply scheme=1 index=0 number={number} : {answer}"
        ));
        let answer = told(finish_of(number));
        lines.push(format!(
            "- finish scheme=1 index=0 number={number} : {answer}"
        ));
    }
    lines
}

fn expand_cards() -> Vec<String> {
    let answer = told(calls::expand(14, &[], &mut [0; 1024]).map(|_| ()));
    vec![format!("- expand stream= : {answer}")]
}

/// Reply to an opening whose first number is the given one, all else zero but
/// one value of e', or the reply would be blank (02, request l).
fn reply_to(number: u32) -> Result<(), Refusal> {
    let fixed = &NEWHOPE;
    let opening = [packed(fixed, number), vec![0; fixed.seed_bytes()]].concat();
    let mut reply = vec![0; fixed.reply_bytes()];
    let mut key = vec![0; fixed.key_bytes];
    let (a, zeros, coins) = ([0; 1024], [0; 1024], [0; 32]);
    let mut e1 = zeros;
    e1[0] = 1;
    let mut digest = [0; 32];
    calls::reply(
        1,
        &opening,
        &a,
        &zeros,
        &e1,
        &zeros,
        &coins,
        &mut reply,
        &mut key,
        &mut digest,
    )?;
    Ok(())
}

/// Finish with a reply whose first number is the given one, all else zero.
fn finish_of(number: u32) -> Result<(), Refusal> {
    let fixed = &NEWHOPE;
    let reply = [packed(fixed, number), vec![0; fixed.hint_bytes()]].concat();
    calls::finish(1, &reply, &[0; 1024], &mut [0; 32], &mut [0; 32])?;
    Ok(())
}

fn packed(scheme: &Scheme, first: u32) -> Vec<u8> {
    let mut numbers = vec![0; scheme.packed_count()];
    numbers[0] = first;
    pack(&numbers, scheme.width)
}

fn told(answer: Result<(), Refusal>) -> String {
    match answer {
        Ok(()) => "passes".to_string(),
        Err(Refusal { number, place }) => format!("refusal={number} place={place}"),
    }
}

/// X to the given power.
fn unit(power: usize) -> Vec<i128> {
    let mut answer = vec![0; 1024];
    answer[power] = 1;
    answer
}

fn list(entries: &[i128]) -> String {
    let entries: Vec<String> = entries.iter().map(i128::to_string).collect();
    entries.join(",")
}
