//! The sizes in `include/wimmostry.h` and in this package are the second
//! program's.

use second::noise::{lengths, table_words};
use second::reconcile::{bcns, frodo};
use second::schemes::{Family, Scheme, SIX};
use std::collections::HashMap;

/// The header's numbers by name.
fn header() -> HashMap<&'static str, u64> {
    let text = include_str!("../../../include/wimmostry.h");
    let defined = |line: &'static str| {
        let (name, value) = line.strip_prefix("#define WIM_")?.split_once(' ')?;
        Some((name, value.trim_end_matches('u').parse().ok()?))
    };
    text.lines().filter_map(defined).collect()
}

/// Names in the header, and what the second program has for them.
fn expected(s: &Scheme) -> Vec<(&'static str, u64)> {
    let noise = lengths(s);
    vec![
        ("Q", s.q as u64),
        ("NOISE", s.largest_noise as u64),
        ("A", s.public_count() as u64),
        ("S", s.secret_count() as u64),
        ("S", s.noise_count() as u64),
        ("E2", s.last_noise_count() as u64),
        ("SEED", s.seed_bytes() as u64),
        ("COINS", s.coin_bytes() as u64),
        ("OPENING", s.opening_bytes() as u64),
        ("REPLY", s.reply_bytes() as u64),
        ("KEY", s.key_bytes as u64),
        ("S_BYTES", noise[0] as u64),
        ("E2_BYTES", noise[noise.len() - 1] as u64),
        ("TABLE", table_words(s) as u64),
        ("MARGIN", margin(s)),
        ("ROW", by_rows(s, |s| s.n)),
        ("STATE", by_rows(s, second::rows::state_count)),
        ("LENT_A", second::calls::lent_public(s) as u64),
        ("OPEN_BYTES", second::calls::open_bytes(s) as u64),
        ("ANSWER_BYTES", second::calls::answer_bytes(s) as u64),
    ]
}

/// In the unit of the slack: what the reconciliation bears.
fn margin(s: &Scheme) -> u64 {
    match s.family {
        Family::Bcns => bcns::Rule::of(s).reach as u64,
        Family::NewHope => 0,
        Family::Frodo => frodo::Rule::of(s).interval() as u64 / 4,
    }
}

/// A number that only Frodo has.
fn by_rows(s: &Scheme, count: fn(&Scheme) -> usize) -> u64 {
    match s.family {
        Family::Bcns | Family::NewHope => 0,
        Family::Frodo => count(s) as u64,
    }
}

#[test]
fn of_the_header() {
    let header = header();
    let mut most = HashMap::new();
    for s in &SIX {
        let prefix = s.name.to_uppercase().replace(' ', "_");
        assert_eq!(header[prefix.as_str()], s.number);
        for (name, value) in expected(s) {
            assert_eq!(header[format!("{prefix}_{name}").as_str()], value);
            let largest = most.entry(name).or_insert(value);
            *largest = value.max(*largest);
        }
    }
    for (name, largest) in most {
        if !["Q", "NOISE", "MARGIN"].contains(&name) {
            assert_eq!(header[format!("MAX_{name}").as_str()], largest);
        }
    }
    for (name, rule) in [
        ("RULE_LOW_BITS", second::expand::Rule::LowBits),
        ("RULE_WHOLE_WORD", second::expand::Rule::WholeWord),
    ] {
        assert_eq!(second::expand::Rule::of(header[name] as u32), Some(rule));
    }
    assert_eq!(header["EXPAND_NUMBERS"], second::expand::COUNT as u64);
    assert_eq!(header["EXPAND_STREAM"], second::expand::LONGEST as u64);
    assert_eq!(header["DIGEST"], second::hash::DIGEST as u64);
    assert_eq!(header["HASH_INPUT"], second::hash::LONGEST as u64);
    assert_eq!(header["SESSION"], second::session::BYTES as u64);
    assert_eq!(header["SESSION"], header["SESSION_KEY"] + header["MAX_KEY"]);
    let (stage, scheme) = (header["SESSION_STAGE"], header["SESSION_SCHEME"]);
    assert_eq!((stage, scheme, header["SESSION_KEY"]), (0, 1, 2));
    assert_eq!(header["STUDIOS"], second::rack::STUDIOS as u64);
    assert_eq!(header["RECORD"], second::rack::RECORD as u64);
    assert_eq!(
        header["RECORD"],
        header["RECORD_SESSION"] + header["SESSION"]
    );
    assert_eq!(header["RECORD_STUDIO"], 0);
    assert_eq!(header["RACK"], second::rack::BYTES as u64);
    for (name, stage) in [
        ("STAGE_IDLE", second::session::Stage::Idle),
        ("STAGE_OFFERED", second::session::Stage::Offered(&SIX[0])),
        ("STAGE_KEYED", second::session::Stage::Keyed(&SIX[0])),
    ] {
        let key = [0; second::session::KEY];
        let laid = second::session::lay(&second::session::Session { stage, key });
        assert_eq!(header[name], u64::from(laid[0]));
    }
}

/// What `wim_sizes` gives is this package's, and null for any other number.
#[test]
fn of_the_archive() {
    use wimmostry::raw::ffi;
    for scheme in wimmostry::Scheme::ALL {
        // SAFETY: any number is taken; a constant struct comes back, and in it a name
        // that ends with a zero.
        let (told, name) = unsafe {
            let told = ffi::wim_sizes(scheme.number()).as_ref().expect("a scheme");
            (told, std::ffi::CStr::from_ptr(told.name))
        };
        assert_eq!(name.to_str(), Ok(scheme.name()));
        assert_eq!(told.number, scheme.number());
        let sizes = wimmostry::Sizes {
            q: told.q,
            noise: told.noise,
            a: told.a,
            s: told.s,
            e2: told.e2,
            seed: told.seed,
            coins: told.coins,
            opening: told.opening,
            reply: told.reply,
            key: told.key,
            s_bytes: told.s_bytes,
            e2_bytes: told.e2_bytes,
            table: told.table,
            margin: told.margin,
            row: told.row,
            state: told.state,
            lent_a: told.lent_a,
            open_bytes: told.open_bytes,
            answer_bytes: told.answer_bytes,
        };
        assert_eq!(sizes, scheme.sizes());
    }
    for number in [6, 7, u32::MAX] {
        // SAFETY: any number is taken.
        assert!(unsafe { ffi::wim_sizes(number) }.is_null());
    }
}

/// BCNS's table in the archive is the one that the second program computes.
#[test]
fn table_of_the_archive() {
    assert_eq!(wimmostry::BCNS_TABLE[..], second::table::table());
}

#[test]
fn of_this_package() {
    let header = header();
    for scheme in wimmostry::Scheme::ALL {
        let prefix = scheme.name().to_uppercase().replace(' ', "_");
        let of = |name: &str| header[format!("{prefix}_{name}").as_str()];
        let sizes = scheme.sizes();
        assert_eq!(header[prefix.as_str()], u64::from(scheme.number()));
        assert_eq!(of("Q"), u64::from(sizes.q));
        assert_eq!(of("NOISE"), sizes.noise as u64);
        assert_eq!(of("MARGIN"), sizes.margin);
        let counts = [
            ("A", sizes.a),
            ("S", sizes.s),
            ("E2", sizes.e2),
            ("SEED", sizes.seed),
            ("COINS", sizes.coins),
            ("OPENING", sizes.opening),
            ("REPLY", sizes.reply),
            ("KEY", sizes.key),
            ("S_BYTES", sizes.s_bytes),
            ("E2_BYTES", sizes.e2_bytes),
            ("TABLE", sizes.table),
            ("ROW", sizes.row),
            ("STATE", sizes.state),
            ("LENT_A", sizes.lent_a),
            ("OPEN_BYTES", sizes.open_bytes),
            ("ANSWER_BYTES", sizes.answer_bytes),
        ];
        for (name, count) in counts {
            assert_eq!(of(name), count as u64, "{prefix}_{name}");
        }
    }
    for rule in wimmostry::Rule::ALL {
        let name = rule.name().to_uppercase().replace(' ', "_");
        let of = header[format!("RULE_{name}").as_str()];
        assert_eq!(of, u64::from(rule.number()));
    }
    assert_eq!(wimmostry::EXPAND_NUMBERS, second::expand::COUNT);
    assert_eq!(wimmostry::EXPAND_STREAM, second::expand::LONGEST);
    assert_eq!(wimmostry::HASH_INPUT, second::hash::LONGEST);
    assert_eq!(wimmostry::SESSION, second::session::BYTES);
    assert_eq!(wimmostry::Studio::ALL.len(), second::rack::STUDIOS);
    assert_eq!(wimmostry::RECORD, second::rack::RECORD);
    assert_eq!(wimmostry::RACK, second::rack::BYTES);
}
