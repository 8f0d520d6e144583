//! The commands. Each is one entry here: its words, its help and what it runs.
//! Parsing, help, man page, completions, the lines of refusals and the handling of
//! files follow from it.

pub use crate::shape::*;

use crate::calls::{self, DIGEST, EXPAND_NUMBERS, EXPAND_STREAM};
use crate::calls::{GROW_SEED, HASH_INPUT, IDLE, KEYED, OFFERED, SCHEMES, SESSION_KEY};
use crate::data::Kind;
use crate::{demo, draw, help, link, pages, rows, session, settings, trace, wipe};

pub const OPTIONS: &[Opt] = &[
    option(
        "--replace",
        "",
        "an output may stand in the place of a file that is there, which is overwritten",
    ),
    option("--any-mode", "", "secrets are taken that others may read"),
    option(
        "--quiet",
        "-q",
        "answers are not said; refusals and faults are",
    ),
    option(
        "--json",
        "",
        "answers, refusals and faults as JSON, one object a line",
    ),
    Opt {
        only: Some("trace"),
        ..option(
            "--margins",
            "",
            "the margin of each scheme beside its largest slack",
        )
    },
    option("--help", "-h", "the page of the command, or the overview"),
    option("--version", "-V", "the version of the program"),
];

// ---- the inputs

const A: Input = Input {
    word: "A",
    kind: Kind::Numbers,
    length: Length::By(|z| z.a),
    packed: None,
    secret: false,
    what: "the public numbers a, below q, known to both ends",
};

const A_BY_ROWS: Input = Input {
    kind: Kind::Rows,
    what: "the public numbers of A, below q, n rows of n",
    ..A
};

const fn values(word: &'static str, what: &'static str) -> Input {
    Input {
        word,
        kind: Kind::Values,
        length: Length::By(|z| z.s),
        packed: None,
        secret: true,
        what,
    }
}

const S: Input = values(
    "S",
    "the initiator's secret s, drawn for this exchange alone",
);
const E: Input = values("E", "the initiator's noise e");
const S1: Input = values(
    "S1",
    "the replier's secret s', drawn for this exchange alone",
);
const E1: Input = values("E1", "the replier's noise e'");
const E2: Input = Input {
    length: Length::By(|z| z.e2),
    ..values("E2", "the replier's noise e''")
};

const fn bytes(word: &'static str, length: Length, what: &'static str) -> Input {
    Input {
        word,
        kind: Kind::Bytes,
        length,
        packed: None,
        secret: false,
        what,
    }
}

pub const SEED: Input = bytes(
    "SEED",
    Length::By(|z| z.seed),
    "the seed, which travels in the opening unread; none in BCNS",
);
const COINS: Input = Input {
    secret: true,
    ..bytes(
        "COINS",
        Length::By(|z| z.coins),
        "random bytes for the hints; none in Frodo",
    )
};

const OPENING: Input = Input {
    // Frodo, which alone has no coins, puts the seed first
    packed: Some(|z| if z.coins == 0 { z.seed } else { 0 }),
    ..bytes("OPENING", Length::By(|z| z.opening), "the opening message")
};
const REPLY: Input = Input {
    packed: Some(|_| 0),
    ..bytes("REPLY", Length::By(|z| z.reply), "the reply message")
};

const HASHED: Input = bytes("INPUT", Length::AtMost(HASH_INPUT), "what is hashed");

// ---- the outputs

const fn output(word: &'static str, length: Length, what: &'static str) -> Output {
    Output {
        word,
        kind: Kind::Bytes,
        length,
        secret: false,
        label: "written",
        what,
    }
}

const KEY: Output = Output {
    secret: true,
    label: "key_written",
    ..output("KEY", Length::By(|z| z.key), "the raw key")
};

/// It can be the key that is used, so it is closed to others like one.
const DIGEST_OF_KEY: Output = Output {
    secret: true,
    label: "digest_written",
    ..output("DIGEST", Length::Fixed(DIGEST), "the key's SHA3-256")
};

const GROWN: Output = Output {
    kind: Kind::Numbers,
    ..output(
        "OUT",
        Length::Fixed(EXPAND_NUMBERS),
        "public numbers below 12289",
    )
};

// ---- the calls of the exchange, with a session and without

const ALL_SCHEMES: By = By::Scheme(0, SCHEMES - 1);
const FRODO: By = By::Scheme(2, SCHEMES - 1);

const OFFERED_MESSAGE: &[Output] = &[output(
    "MESSAGE",
    Length::By(|z| z.opening),
    "the opening message, for the replier",
)];

const REPLIED: &[Output] = &[
    Output {
        label: "message_written",
        ..output(
            "MESSAGE",
            Length::By(|z| z.reply),
            "the reply message, for the initiator",
        )
    },
    KEY,
    DIGEST_OF_KEY,
];

const OFFERS: OnFiles = OnFiles {
    by: ALL_SCHEMES,
    inputs: &[A, S, E, SEED],
    outputs: OFFERED_MESSAGE,
    call: calls::offer,
};

pub const REPLIES: OnFiles = OnFiles {
    by: ALL_SCHEMES,
    inputs: &[OPENING, A, S1, E1, E2, COINS],
    outputs: REPLIED,
    call: calls::reply,
};

pub const FINISHES: OnFiles = OnFiles {
    by: ALL_SCHEMES,
    inputs: &[REPLY, S],
    outputs: &[KEY, DIGEST_OF_KEY],
    call: calls::finish,
};

// ---- the commands

pub const COMMANDS: &[Command] = &[
    Command {
        name: "link open",
        brief: "begins a link in a folder: the opening, to be sent to the peer",
        form: Form::Words(OnWords {
            usage: "DIR [SCHEME [RULE]]",
            least: 1,
            most: 3,
            run: link::open,
            words: link::OPEN_WORDS,
        }),
        more: link::OPEN_MORE,
        example: "wimmostry link open left newhope",
    },
    Command {
        name: "link answer",
        brief: "answers an opening: the reply, to be sent back, and what to say",
        form: Form::Words(OnWords {
            usage: "DIR OPENING [RULE]",
            least: 2,
            most: 3,
            run: link::answer,
            words: link::ANSWER_WORDS,
        }),
        more: link::ANSWER_MORE,
        example: "wimmostry link answer right left/opening",
    },
    Command {
        name: "link finish",
        brief: "takes the reply: the link is keyed, and what to say",
        form: Form::Words(OnWords {
            usage: "DIR REPLY",
            least: 2,
            most: 2,
            run: link::finish,
            words: link::FINISH_WORDS,
        }),
        more: link::FINISH_MORE,
        example: "wimmostry link finish left right/reply",
    },
    Command {
        name: "link key",
        brief: "the key, where what the peer said is right",
        form: Form::Words(OnWords {
            usage: "DIR HEARD OUT",
            least: 3,
            most: 3,
            run: link::key,
            words: link::KEY_WORDS,
        }),
        more: link::KEY_MORE,
        example: "wimmostry link key left 03f1-9a2c-77d0-4be8 key",
    },
    Command {
        name: "link close",
        brief: "ends a link: its key and its secret are overwritten",
        form: Form::Words(OnWords {
            usage: "DIR",
            least: 1,
            most: 1,
            run: link::close,
            words: link::DIR_WORDS,
        }),
        more: link::CLOSE_MORE,
        example: "wimmostry link close left",
    },
    Command {
        name: "link status",
        brief: "where a link stands, and the command to type next",
        form: Form::Words(OnWords {
            usage: "DIR",
            least: 1,
            most: 1,
            run: link::status,
            words: link::DIR_WORDS,
        }),
        more: link::STATUS_MORE,
        example: "wimmostry link status left",
    },
    Command {
        name: "draw",
        brief: "secrets, noise, seed, coins or public numbers from the system's randomness",
        form: Form::Words(OnWords {
            usage: "SCHEME WHAT [seed=FILE] OUT",
            least: 3,
            most: 4,
            run: draw::run,
            words: draw::WORDS,
        }),
        more: draw::MORE,
        example: "wimmostry draw 1 s left/s",
    },
    Command {
        name: "offer",
        brief: "the initiator's first step: the opening message",
        form: Form::Files(OFFERS),
        more: "S is kept for finish and then wiped. E is wiped at once. Where both are zero the\n\
               message would be blank, and is refused by 17.",
        example: "wimmostry offer 1 a left/s left/e left/seed left/opening",
    },
    Command {
        name: "reply",
        brief: "the replier's step: the reply message, the replier's key and its digest",
        form: Form::Files(REPLIES),
        more: "S1, E1, E2 and COINS are wiped afterwards. DIGEST is as finish has it. A blank\n\
               opening is refused by 17; so are S1 and E1 that are both zero, whose reply would be\n\
               blank.",
        example:
            "wimmostry reply 1 right/opening a right/s1 right/e1 right/e2 right/coins \\\n      \
                  right/reply right/key right/digest",
    },
    Command {
        name: "finish",
        brief: "the initiator's second step: the initiator's key, its digest and the slack",
        form: Form::Files(FINISHES),
        more: "S is wiped afterwards. A blank reply is refused by 17. The key is raw: hash it,\n\
               together with both messages, and confirm it with the peer before use. Equal keys\n\
               have equal digests, so that both ends can show or compare DIGEST and never show a\n\
               key; a digest that is used as the key is not shown. slack= says how near the\n\
               exchange came to failing, and slack_index= the first entry where: the largest\n\
               distance from the own value to one with the hint that came. Near the margin, which\n\
               demo shows, it is a warning; a small one proves nothing. In NewHope both are 0. They\n\
               are made of S: keep them to this end.",
        example: "wimmostry finish 1 left/reply left/s left/key left/digest",
    },
    Command {
        name: "rows offer",
        brief: "offer in Frodo with A read row by row and never held",
        form: Form::Files(OnFiles {
            by: FRODO,
            inputs: &[A_BY_ROWS, S, E, SEED],
            outputs: OFFERED_MESSAGE,
            call: calls::rows_offer,
        }),
        more: rows::MORE,
        example: "wimmostry rows offer 4 a left/s left/e left/seed left/opening",
    },
    Command {
        name: "rows reply",
        brief: "reply in Frodo with A read row by row and never held",
        form: Form::Files(OnFiles {
            by: FRODO,
            inputs: &[OPENING, A_BY_ROWS, S1, E1, E2],
            outputs: REPLIED,
            call: calls::rows_reply,
        }),
        more: rows::MORE,
        example: "wimmostry rows reply 4 right/opening a right/s1 right/e1 right/e2 \\\n      \
                  right/reply right/key right/digest",
    },
    Command {
        name: "session FILE offer",
        brief: "offer on a session, which has to be idle and is then offered",
        form: Form::Session(OnSession {
            plain: OFFERS,
            allowed: IDLE,
            moves: true,
            call: calls::session_offer,
        }),
        more: session::OFFER_MORE,
        example: "wimmostry session left/link offer 1 left/a left/s left/e left/seed left/opening",
    },
    Command {
        name: "session FILE reply",
        brief: "reply on a session, which has to be idle and then holds the key",
        form: Form::Session(OnSession {
            plain: REPLIES,
            allowed: IDLE,
            moves: true,
            call: calls::session_reply,
        }),
        more: session::REPLY_MORE,
        example: "wimmostry session right/link reply 1 right/opening right/a right/s1 right/e1 \\\n      \
                  right/e2 right/coins right/reply right/key right/digest",
    },
    Command {
        name: "session FILE finish",
        brief: "finish on a session that has offered with this scheme, and then holds the key",
        form: Form::Session(OnSession {
            plain: FINISHES,
            allowed: OFFERED,
            moves: true,
            call: calls::session_finish,
        }),
        more: session::FINISH_MORE,
        example: "wimmostry session left/link finish 1 left/reply left/s left/key left/digest",
    },
    Command {
        name: "session FILE key",
        brief: "the key of a session and its digest, once more",
        form: Form::Session(OnSession {
            plain: OnFiles {
                by: By::Nothing,
                inputs: &[],
                outputs: &[
                    Output {
                        length: Length::AtMost(SESSION_KEY),
                        ..KEY
                    },
                    DIGEST_OF_KEY,
                ],
                call: calls::no_session,
            },
            allowed: KEYED,
            moves: false,
            call: calls::session_key,
        }),
        more: session::KEY_MORE,
        example: "wimmostry session left/link key left/key left/digest",
    },
    Command {
        name: "session FILE close",
        brief: "closes a session: it is idle, and its key is gone",
        form: Form::Kept(session::close),
        more: session::CLOSE_MORE,
        example: "wimmostry session left/link close",
    },
    Command {
        name: "session FILE show",
        brief: "the stage of a session and its scheme, never its key",
        form: Form::Kept(session::show),
        more: session::SHOW_MORE,
        example: "wimmostry session left/link show",
    },
    Command {
        name: "noise",
        brief: "secrets and noise from random bytes of your own",
        form: Form::Files(OnFiles {
            by: ALL_SCHEMES,
            inputs: &[
                Input {
                    secret: true,
                    ..bytes(
                        "BYTES",
                        Length::Either(|z| z.s_bytes, |z| z.e2_bytes),
                        "random bytes: as many as s, e, s1 or e1 take, or as e2 takes",
                    )
                },
                Input {
                    word: "TABLE",
                    kind: Kind::Words,
                    length: Length::By(|z| z.table),
                    packed: None,
                    secret: false,
                    what: "BCNS's table, as text; none in the other schemes",
                },
            ],
            outputs: &[Output {
                kind: Kind::Values,
                secret: true,
                ..output(
                    "OUT",
                    Length::Either(|z| z.s, |z| z.e2),
                    "the values that the bytes make",
                )
            }],
            call: calls::noise,
        }),
        more:
            "A table has 51 entries, a line each: three words of 16 hexadecimal digits, the highest\n\
               first. Lines that begin with # are comments. The entries must ascend, or the call is\n\
               refused by 18 at the first that does not. By BCNS's own table, which is installed as\n\
               share/wimmostry/bcns-table.txt and stands in data/, 25 bytes make a value: 24 of them\n\
               a number, whose size is how many entries are at most it, and the last its sign. draw\n\
               does both steps with that table and the system's randomness.",
        example: "head -c 25600 /dev/urandom | wimmostry noise 0 - bcns-table.txt left/s",
    },
    Command {
        name: "expand",
        brief: "NewHope's public numbers from a stream of bytes",
        form: Form::Files(OnFiles {
            by: By::Rule,
            inputs: &[bytes(
                "STREAM",
                Length::AtMost(EXPAND_STREAM),
                "a stream of bytes that both ends have",
            )],
            outputs: &[GROWN],
            call: calls::expand,
        }),
        more:
            "By rule 14 the low 14 bits of each 16-bit word are taken where they are below 12289,\n\
               by rule 16 the whole word where it is below 61445, reduced modulo 12289. Both ends\n\
               must use the same rule. 3,000 bytes are enough by rule 14, and 2,300 by rule 16, but\n\
               for one time in 10^8; 4096 are by either but for one in 10^100.",
        example: "wimmostry expand 14 stream a",
    },
    Command {
        name: "grow",
        brief: "NewHope's public numbers from its seed",
        form: Form::Files(OnFiles {
            by: By::Rule,
            inputs: &[bytes(
                "SEED",
                Length::Fixed(GROW_SEED),
                "NewHope's seed, the last bytes of the opening",
            )],
            outputs: &[GROWN],
            call: calls::grow,
        }),
        more: "What expand by the rule gives of the first 24 blocks of 168 bytes of SHAKE-128 of\n\
               the seed. Both ends grow the same numbers of one seed by one rule, so that no file\n\
               of numbers has to be carried: tail -c 32 right/opening >right/seed",
        example: "wimmostry grow 14 left/seed left/a",
    },
    Command {
        name: "hash sha3-256",
        brief: "the SHA3-256 of a file, by FIPS 202",
        form: Form::Files(OnFiles {
            by: By::Nothing,
            inputs: &[HASHED],
            outputs: &[Output {
                secret: true,
                ..output("OUT", Length::Fixed(DIGEST), "the hash")
            }],
            call: calls::sha3_256,
        }),
        more: "reply and finish give it of their key already.",
        example: "wimmostry hash sha3-256 left/opening left/hash",
    },
    Command {
        name: "hash shake128",
        brief: "as many bytes of the SHAKE-128 of a file as are asked for, by FIPS 202",
        form: Form::Files(OnFiles {
            by: By::Length,
            inputs: &[HASHED],
            outputs: &[Output {
                secret: true,
                ..output("OUT", Length::Asked, "the bytes")
            }],
            call: calls::shake128,
        }),
        more: "A longer output begins with a shorter one.",
        example: "wimmostry hash shake128 4032 left/seed left/stream",
    },
    Command {
        name: "bench",
        brief: "both ends on lent secrets: whether the two keys agree, and the slack",
        form: Form::Files(OnFiles {
            by: ALL_SCHEMES,
            inputs: &[A, S, E, SEED, S1, E1, E2, COINS],
            outputs: &[],
            call: calls::bench,
        }),
        more:
            "Says agree, or differ=I with the first key bit that differs, counted lowest first, and\n\
               slack= and slack_index= as finish does. BCNS's keys always agree: scheme 0 says agree\n\
               or is refused. Messages and keys stay inside.",
        example: "wimmostry bench 1 a left/s left/e left/seed \\\n      \
                  right/s1 right/e1 right/e2 right/coins",
    },
    Command {
        name: "trace",
        brief: "a recorded trace of slacks summed up by scheme",
        form: Form::Words(OnWords {
            usage: "FILE",
            least: 1,
            most: 1,
            run: trace::run,
            words: trace::WORDS,
        }),
        more: trace::MORE,
        example: "wimmostry trace slacks",
    },
    Command {
        name: "settings read",
        brief: "the settings of a box, from its text store",
        form: Form::Words(OnWords {
            usage: "FILE",
            least: 1,
            most: 1,
            run: settings::read,
            words: settings::READ_WORDS,
        }),
        more: settings::READ_MORE,
        example: "wimmostry settings read box.settings",
    },
    Command {
        name: "settings write",
        brief: "the settings of a box, into its text store",
        form: Form::Words(OnWords {
            usage: "SCHEME RULE [LABEL] OUT",
            least: 3,
            most: 4,
            run: settings::write,
            words: settings::WRITE_WORDS,
        }),
        more: settings::WRITE_MORE,
        example: "wimmostry settings write 4 16 STUDIO7 box.settings",
    },
    Command {
        name: "wipe",
        brief: "overwrites a file and removes it",
        form: Form::Words(OnWords {
            usage: "FILE",
            least: 1,
            most: 1,
            run: wipe::run,
            words: wipe::WORDS,
        }),
        more: wipe::MORE,
        example: "wimmostry wipe left/s",
    },
    Command {
        name: "demo",
        brief: "a whole exchange in memory, by NewHope, another scheme, that of a box, or all six",
        form: Form::Words(OnWords {
            usage: "[SCHEME | all | settings FILE]",
            least: 0,
            most: 2,
            run: demo::run,
            words: demo::WORDS,
        }),
        more: demo::MORE,
        example: "wimmostry demo 1",
    },
    Command {
        name: "help",
        brief: "this, or all about one command",
        form: Form::Words(OnWords {
            usage: "[COMMAND]",
            least: 0,
            most: 2,
            run: help::run,
            words: "  COMMAND  one of the commands, or hash for both; without it the overview\n",
        }),
        more: "wimmostry COMMAND --help is the same; -h and --help alone are the overview.",
        example: "wimmostry help offer",
    },
    Command {
        name: "version",
        brief: "the version of the program",
        form: Form::Words(OnWords {
            usage: "",
            least: 0,
            most: 0,
            run: help::version,
            words: "",
        }),
        more: "--version is the same.",
        example: "wimmostry version",
    },
];

/// Commands that no page lists.
pub const HIDDEN: &[Command] = &[Command {
    name: "page",
    brief: "the man page, or what completes words in a shell",
    form: Form::Words(OnWords {
        usage: "man | bash | zsh | fish",
        least: 1,
        most: 1,
        run: pages::run,
        words: "",
    }),
    more: "They are made from the table of commands, and installed.",
    example: "wimmostry page man",
}];

#[cfg(test)]
mod tests {
    use super::*;
    use crate::words;
    use std::ffi::OsString;

    #[test]
    fn every_example_has_the_words_of_its_command() {
        for command in COMMANDS {
            let text = command.example.replace("\\\n", " ");
            let (_, text) = text.split_once("wimmostry ").expect("the program");
            let words: Vec<OsString> = text.split_whitespace().map(OsString::from).collect();
            let Ok(found) = words::command(&words) else {
                panic!("{text}")
            };
            assert_eq!(found.command.name, command.name);
            let (least, most) = command.counts();
            assert!(
                (least..=most).contains(&found.rest.len()),
                "{}",
                command.name
            );
        }
    }

    #[test]
    fn names_are_their_own() {
        for (i, command) in COMMANDS.iter().enumerate() {
            assert!(COMMANDS[..i].iter().all(|other| other.name != command.name));
        }
    }

    #[test]
    fn the_largest_is_that_of_all_schemes() {
        assert_eq!(A.length.largest(), 864 * 864);
        assert_eq!(COINS.length.largest(), 256);
        assert_eq!(
            Length::Either(|z| z.s_bytes, |z| z.e2_bytes).largest(),
            25600
        );
        assert_eq!(Length::AtMost(EXPAND_STREAM).largest(), 65536);
        assert_eq!(HASHED.length.largest(), 65536);
    }
}
