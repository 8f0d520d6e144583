//! A whole exchange in memory, on random bytes of the system: what is drawn,
//! how long each call takes, the slack beside its margin, the two messages as a
//! picture, and the two keys.

use crate::calls::{self, Answer, Bench, Call, Refused, Sizes, Slack};
use crate::calls::{DIGEST, EXPAND_NUMBERS, LOW_BITS, SCHEMES};
use crate::data::{Data, Kind};
use crate::draw::{self, BCNS, NEWHOPE};
use crate::explain;
use crate::options;
use crate::random;
use crate::settings;
use crate::tell::{self, Done, Fault, Voice};
use crate::words;
use std::ffi::OsString;
use std::ops::Range;
use std::time::Instant;

pub const WORDS: &str = "\
\x20 SCHEME   one scheme; without it NewHope; all for the six
  FILE     in: the settings of a box, whose scheme and rule are taken
";

pub const MORE: &str = "\
It leaves no file. Keys are not shown, but the digest of each, its SHA3-256, which is the same where
the keys are. Whether they agree is what bench says of the same secrets. The slack is what finish
says; the margin is how far apart the two values may lie for keys that are proved to agree, in the
same unit. NewHope's public numbers grow by rule 14, or by that of FILE.";

const HEADING: &str = "A digest is the SHA3-256 of a key: the same where the keys are the same.\n";

const NEXT: &str = "\
Type next: wimmostry link open left newhope    (a link in the folder left; see help link)
           wimmostry demo all                  (all six schemes)
";

pub fn run(given: &[OsString]) -> Done {
    let (asked, rule) = match given {
        [] => (NEWHOPE..NEWHOPE + 1, LOW_BITS),
        [word] if word == "all" => (0..SCHEMES, LOW_BITS),
        [word] if word != "settings" => (one(words::scheme(word)?.scheme()?)?, LOW_BITS),
        [word, file] if word == "settings" => {
            let kept = settings::from(&words::place("FILE", file)?)?;
            (one(kept.scheme)?, kept.rule)
        }
        _ => {
            let line = "demo takes SCHEME, or all, or settings FILE, or no words";
            return Err(tell::words(line.to_string()));
        }
    };
    let plain = !options::given("--json") && !options::given("--quiet");
    if plain {
        tell::page(HEADING)?;
    }
    for scheme in asked {
        if let Some(sizes) = calls::sizes(scheme) {
            let made = Made::new(scheme, rule, &sizes)?;
            match plain {
                true => tell::page(&made.text(&sizes)).map(|_| ())?,
                false => tell::say(Voice::Output, &made.lines(&sizes))?,
            }
        }
    }
    match plain && given.is_empty() {
        true => tell::page(NEXT),
        false => Ok(tell::DONE),
    }
}

fn one(scheme: u32) -> Result<Range<u32>, Fault> {
    match calls::sizes(scheme) {
        Some(_) => Ok(scheme..scheme + 1),
        None => {
            let detail = explain::no_scheme(scheme, 0, SCHEMES - 1);
            Err(tell::refused(1, 0, Some(detail)))
        }
    }
}

/// A call on what was just drawn for it, and how many microseconds it took.
fn timed(call: Call, by: u32, given: &[&Data], out: &mut [Data]) -> (Answer, u128) {
    let start = Instant::now();
    match call(by, given, out) {
        Ok(answer) => (answer, start.elapsed().as_micros()),
        Err(Refused { number, place }) => unreachable!("refusal {number} at {place}"),
    }
}

fn bytes(n: usize) -> Data {
    Data::zeros(Kind::Bytes, n)
}

/// NewHope's public numbers.
fn grown(rule: u32, seed: &Data) -> Data {
    let mut out = [Data::zeros(Kind::Numbers, EXPAND_NUMBERS)];
    timed(calls::grow, rule, &[seed], &mut out);
    let [a] = out;
    a
}

/// An exchange that was made.
struct Made {
    scheme: u32,
    rule: u32,
    /// Microseconds that offer, reply and finish took.
    times: [u128; 3],
    slack: Slack,
    /// The replier's and the initiator's.
    digests: [Data; 2],
    keys: Bench,
}

impl Made {
    fn new(scheme: u32, rule: u32, sizes: &Sizes) -> Result<Made, Fault> {
        let (s, e) = (draw::secret(scheme, sizes)?, draw::secret(scheme, sizes)?);
        let (s1, e1) = (draw::secret(scheme, sizes)?, draw::secret(scheme, sizes)?);
        let e2 = draw::last(scheme, sizes)?;
        let seed = Data::Bytes(random::bytes(sizes.seed)?);
        let a = match scheme {
            NEWHOPE => grown(rule, &seed),
            _ => draw::public(sizes)?,
        };
        let coins = Data::Bytes(random::bytes(sizes.coins)?);

        let mut opened = [bytes(sizes.opening)];
        let offered = [&a, &s, &e, &seed];
        let (_, offer_time) = timed(calls::offer, scheme, &offered, &mut opened);
        let [opening] = opened;
        let mut replied = [bytes(sizes.reply), bytes(sizes.key), bytes(DIGEST)];
        let lent = [&opening, &a, &s1, &e1, &e2, &coins];
        let (_, reply_time) = timed(calls::reply, scheme, &lent, &mut replied);
        let [reply, _, replier] = replied;
        let mut finished = [bytes(sizes.key), bytes(DIGEST)];
        let (answer, finish_time) = timed(calls::finish, scheme, &[&reply, &s], &mut finished);
        let [_, initiator] = finished;
        let all = [&a, &s, &e, &seed, &s1, &e1, &e2, &coins];
        let (found, _) = timed(calls::bench, scheme, &all, &mut []);
        Ok(Made {
            scheme,
            rule,
            times: [offer_time, reply_time, finish_time],
            slack: answer.slack.unwrap_or_default(),
            digests: [replier, initiator],
            keys: found.keys.unwrap_or(Bench::Agree),
        })
    }

    /// As people read it.
    fn text(&self, sizes: &Sizes) -> String {
        let [offer, reply, finish] = self.times;
        let [replier, initiator] = &self.digests;
        let (scheme, rule) = (self.scheme, self.rule);
        let mut rows = vec![
            format!("public numbers: {}, {}", sizes.a, public(scheme, rule)),
            format!("secrets and noise: {}", noise(scheme, sizes)),
            format!("offer:  opening of {} bytes, {offer} us", sizes.opening),
            format!("reply:  message of {} bytes, {reply} us", sizes.reply),
            format!("        key of {} bytes", sizes.key),
            format!("finish: key of {} bytes, {finish} us", sizes.key),
            format!("        {}", near(self.slack, sizes)),
        ];
        rows.extend(picture(scheme, sizes));
        rows.push(format!("replier's key:   digest {}", hex(replier)));
        rows.push(format!("initiator's key: digest {}", hex(initiator)));
        rows.push(match self.keys {
            Bench::Differ(bit) => format!("keys differ at bit {bit}"),
            Bench::Agree => "keys agree".to_string(),
        });
        let name = calls::name(scheme).unwrap_or_default();
        let rows: String = rows.iter().map(|row| format!("  {row}\n")).collect();
        format!("scheme {scheme}, {name}\n{rows}")
    }

    /// As programs do.
    fn lines(&self, sizes: &Sizes) -> String {
        let [replier, initiator] = &self.digests;
        let keys = match self.keys {
            Bench::Differ(bit) => format!("differ={bit}\n"),
            Bench::Agree => "agree\n".to_string(),
        };
        let [scheme, opening, reply] = [self.scheme as usize, sizes.opening, sizes.reply];
        let slack = self.slack.largest;
        format!(
            "scheme={scheme}\nopening={opening}\nreply={reply}\nslack={slack}\n\
             replier_digest={}\ninitiator_digest={}\n{keys}",
            hex(replier),
            hex(initiator)
        )
    }
}

/// How near the exchange came to failing, beside what it bears.
fn near(slack: Slack, sizes: &Sizes) -> String {
    match sizes.margin {
        0 => "no slack: NewHope has none".to_string(),
        margin => {
            let Slack { largest, index } = slack;
            format!("slack {largest} of a margin of {margin}, at entry {index}")
        }
    }
}

fn public(scheme: u32, rule: u32) -> String {
    match scheme {
        NEWHOPE => format!("grown from the seed by rule {rule}"),
        _ => "random and below q".to_string(),
    }
}

fn noise(scheme: u32, sizes: &Sizes) -> String {
    let by = match scheme {
        BCNS => ", by the table of its paper",
        _ => "",
    };
    format!(
        "through noise, from {} random bytes each{by}",
        sizes.s_bytes
    )
}

/// The two messages with their parts, in bytes; and a, where it travels, since only
/// NewHope's grows at both ends.
fn picture(scheme: u32, sizes: &Sizes) -> Vec<String> {
    let packed = sizes.opening - sizes.seed;
    let numbers = format!("numbers {packed}");
    let opening = match scheme {
        BCNS => format!("[ {numbers} ]"),
        NEWHOPE => format!("[ {numbers} | seed {} ]", sizes.seed),
        _ => format!("[ seed {} | {numbers} ]", sizes.seed),
    };
    let reply = format!("[ {numbers} | hints {} ]", sizes.reply - packed);
    let right = |text: String| format!("    |  {text:-<48}>  |");
    let mut rows = vec![format!("{:<55}replier", "initiator")];
    if scheme != NEWHOPE {
        rows.push(right(format!("[ a {} ] public numbers ", 4 * sizes.a)));
    }
    rows.push(right(format!("{opening} opening ")));
    rows.push(format!("    |  <{:->48}  |", format!(" reply {reply}")));
    rows.push(format!("    |  {:49}  |", ""));
    rows.push(format!("   key{:51}key", ""));
    rows
}

/// Bytes in hexadecimal digits.
fn hex(data: &Data) -> String {
    let digits = data.bytes().iter().map(|byte| format!("{byte:02x}"));
    digits.collect()
}

#[cfg(test)]
mod tests {
    use super::*;

    #[test]
    fn the_pictures_are_straight() {
        for scheme in 0..SCHEMES {
            let rows = picture(scheme, &calls::sizes(scheme).unwrap());
            let inner = &rows[1..rows.len() - 1];
            assert!(inner.iter().all(|row| row.len() == inner[0].len()));
        }
    }
}
