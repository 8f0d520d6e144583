//! After a call of this package no secret stands on the stack below its caller.
//! `examples/c/residue.c` looks for everything in all schemes; here it is Frodo,
//! whose products keep s and s' as 16-bit words, and whether each call scrubs, and no
//! deeper than it has to.

use crate::generator::Generator;
use crate::inputs::Inputs;
use second::schemes::SIX;
use std::collections::HashMap;
use std::mem::MaybeUninit;
use wimmostry::raw;

const DEPTH: usize = 180_000;
const PATTERN: u8 = 0xa5;

/// The bytes that lie on the stack below the caller, as they were left there.
#[inline(never)]
fn left() -> Vec<u8> {
    let mut bytes = vec![0; DEPTH];
    let room = MaybeUninit::<[u8; DEPTH]>::uninit();
    let start = room.as_ptr().cast::<u8>();
    for (k, byte) in bytes.iter_mut().enumerate() {
        // SAFETY: inside a variable of this frame. What it holds is the very
        // question; a volatile read takes it as it is.
        *byte = unsafe { start.add(k).read_volatile() };
    }
    bytes
}

/// Lays the pattern on the stack below the caller, deeper than `left` looks.
#[inline(never)]
fn fill() {
    const ROOM: usize = DEPTH + 4096;
    let mut room = MaybeUninit::<[u8; ROOM]>::uninit();
    let start = room.as_mut_ptr().cast::<u8>();
    for k in 0..ROOM {
        // SAFETY: inside a variable of this frame.
        unsafe { start.add(k).write_volatile(PATTERN) };
    }
}

/// How deep a call and its scrub went, and how far from here the farthest byte lies
/// that they left other than zero.
fn depth(call: &mut dyn FnMut() -> bool) -> (usize, usize) {
    fill();
    let done = call();
    let after = left();
    assert!(done);
    // more than the compiler's probe of each page, which is a word
    let mut runs = after.windows(64);
    let touched = runs.position(|run| !run.contains(&PATTERN));
    let other = after.iter().position(|&byte| byte != PATTERN && byte != 0);
    (
        DEPTH - touched.unwrap_or(DEPTH),
        DEPTH - other.unwrap_or(DEPTH),
    )
}

/// Whether 16 values in a row stand there as 16-bit words.
fn stands(left: &[u8], values: &[i32]) -> bool {
    let words: Vec<u8> = values
        .iter()
        .flat_map(|&x| (x as i16).to_le_bytes())
        .collect();
    words
        .chunks_exact(32)
        .any(|run| left.windows(32).step_by(2).any(|at| at == run))
}

/// A matrix of rows of 8, by columns.
fn by_columns(s: &[i32]) -> Vec<i32> {
    (0..8)
        .flat_map(|k| s.iter().skip(k).step_by(8).copied())
        .collect()
}

#[test]
fn none_is_left() {
    let fixed = &SIX[2];
    let i = Inputs::random(fixed, &mut Generator::new(5));
    let opening = i.opening();
    let (reply, _) = i.reply_and_key(&opening);
    let number = fixed.number as u32;
    let columns = by_columns(&i.s);
    let (mut message, mut answer, mut key) = (opening.clone(), reply.clone(), [0; 8]);
    let mut digest = [0; 32];

    // The archive alone leaves s' there, which shows that it would be found.
    let (mut place, mut written, mut keyed, mut digested) = (0, 0, 0, 0);
    // SAFETY: as in `raw::reply`.
    let refusal = unsafe {
        raw::ffi::wim_reply(
            number,
            opening.as_ptr(),
            opening.len(),
            i.a.as_ptr(),
            i.a.len(),
            i.s1.as_ptr(),
            i.s1.len(),
            i.e1.as_ptr(),
            i.e1.len(),
            i.e2.as_ptr(),
            i.e2.len(),
            i.coins.as_ptr(),
            i.coins.len(),
            answer.as_mut_ptr(),
            answer.len(),
            key.as_mut_ptr(),
            key.len(),
            digest.as_mut_ptr(),
            digest.len(),
            &mut place,
            &mut written,
            &mut keyed,
            &mut digested,
        )
    };
    let after = left();
    assert_eq!(refusal, 0);
    assert!(stands(&after, &i.s1), "the search finds nothing");

    let done = raw::offer(number, &i.a, &i.s, &i.e, &i.seed, &mut message);
    let after = left();
    assert!(done.is_ok() && !stands(&after, &columns), "offer");

    let done = raw::reply(
        number,
        &opening,
        &i.a,
        &i.s1,
        &i.e1,
        &i.e2,
        &i.coins,
        &mut answer,
        &mut key,
        &mut digest,
    );
    let after = left();
    assert!(done.is_ok() && !stands(&after, &i.s1), "reply");

    let mut state = vec![0; second::rows::state_count(fixed)];
    let done = raw::rows::reply_begin(number, &opening, &i.s1, &i.e1, &i.e2, &mut state);
    let after = left();
    assert!(done.is_ok() && !stands(&after, &i.s1), "reply by rows");

    let done = raw::finish(number, &reply, &i.s, &mut key, &mut digest);
    let after = left();
    assert!(done.is_ok() && !stands(&after, &columns), "finish");

    // on a session the key is copied besides
    let stands_bytes = |after: &[u8], key: &[u8]| after.windows(key.len()).any(|at| at == key);
    let mut session = [0; 130];
    let done = raw::session::reply(
        &mut session,
        number,
        &opening,
        &i.a,
        &i.s1,
        &i.e1,
        &i.e2,
        &i.coins,
        &mut answer,
        &mut key,
        &mut digest,
    );
    let after = left();
    assert!(done.is_ok() && session[2..10] == key);
    assert!(!stands(&after, &i.s1), "reply on a session");
    assert!(!stands_bytes(&after, &key), "reply on a session");

    raw::session::close(&mut session);
    let after = left();
    assert!(session == [0; 130] && !stands_bytes(&after, &key), "close");

    session[..2].copy_from_slice(&[1, 2]);
    let done = raw::session::finish(&mut session, number, &reply, &i.s, &mut key, &mut digest);
    let after = left();
    assert!(done.is_ok() && session[2..10] == key);
    assert!(!stands(&after, &columns), "finish on a session");
    assert!(!stands_bytes(&after, &key), "finish on a session");

    let done = raw::bench(
        number, &i.a, &i.s, &i.e, &i.seed, &i.s1, &i.e1, &i.e2, &i.coins,
    );
    let after = left();
    assert!(done.is_ok(), "bench");
    assert!(!stands(&after, &columns) && !stands(&after, &i.s1), "bench");
}

/// The header's table of the stack that each call takes, in bytes.
fn table() -> HashMap<&'static str, usize> {
    let header = include_str!("../../../include/wimmostry.h");
    let (_, stack) = header.split_once(" * STACK\n").expect("a section STACK");
    let (stack, _) = stack.split_once("Measured").expect("its table");
    let words: Vec<_> = stack.split_whitespace().collect();
    let pairs = words.windows(2).filter(|pair| pair[0].starts_with("wim_"));
    let kib = |text: &str| text.parse::<usize>().expect("KiB");
    pairs.map(|pair| (pair[0], kib(pair[1]) << 10)).collect()
}

/// Each call that is lent secrets leaves zeros where it went, and touches no more of the
/// stack than the call takes and the scrub adds. Those that are not lent any do not
/// scrub at all.
#[test]
fn each_by_its_own_depth() {
    const MORE: usize = 8192; // WIM_SCRUB_MORE
    const NEAR: usize = 4096; // frames of this test and of the package, without secrets
    let fixed = &SIX[2];
    let i = Inputs::random(fixed, &mut Generator::new(6));
    let (number, opening) = (fixed.number as u32, i.opening());
    let (reply, _) = i.reply_and_key(&opening);
    let (mut message, mut answer) = (opening.clone(), reply.clone());
    let (mut key, mut digest) = ([0; 8], [0; 32]);
    let mut seen = HashMap::new();
    let mut look = |name: &'static str, call: &mut dyn FnMut() -> bool| {
        call(); // so that nothing is looked up for the first time
        seen.insert(name, depth(call));
    };
    look("wim_offer", &mut || {
        raw::offer(number, &i.a, &i.s, &i.e, &i.seed, &mut message).is_ok()
    });
    look("wim_reply", &mut || {
        let (m, k, d) = (&mut answer, &mut key, &mut digest);
        raw::reply(
            number, &opening, &i.a, &i.s1, &i.e1, &i.e2, &i.coins, m, k, d,
        )
        .is_ok()
    });
    look("wim_finish", &mut || {
        raw::finish(number, &reply, &i.s, &mut key, &mut digest).is_ok()
    });
    look("wim_bench", &mut || {
        let (s1, e1, e2) = (&i.s1, &i.e1, &i.e2);
        raw::bench(number, &i.a, &i.s, &i.e, &i.seed, s1, e1, e2, &i.coins).is_ok()
    });
    let (bytes, mut values) = (
        vec![5; fixed.secret_count() * 2],
        vec![0; fixed.secret_count()],
    );
    look("wim_noise", &mut || {
        raw::noise(number, &bytes, &[], &mut values).is_ok()
    });
    look("wim_shake128", &mut || {
        raw::shake128(&bytes, &mut digest).is_ok()
    });
    look("wim_sha3_256", &mut || {
        raw::sha3_256(&bytes, &mut digest).is_ok()
    });
    let (mut a, mut scratch, mut text) = ([0; 1024], [0; 6 * 32], [0; 49]);
    look("wim_product", &mut || {
        raw::product(&[1; 32], &[2; 32], &mut a, &mut scratch).is_ok()
    });
    let mut session = [0; 130];
    look("wim_session_close", &mut || {
        raw::session::close(&mut session);
        true
    });
    look("wim_grow", &mut || raw::grow(14, &[7; 32], &mut a).is_ok());
    look("wim_expand", &mut || {
        raw::expand(14, &[0; 2048], &mut a).is_ok()
    });
    look("wim_settings_write", &mut || {
        raw::settings_write(1, 14, b"A", &mut text).is_ok()
    });
    look("wim_settings_read", &mut || {
        raw::settings_read(2, b"format=1\nscheme=1\nrule=14\n", &mut []).is_ok()
    });

    let table = table();
    for (name, (touched, other)) in seen {
        let own = table[name];
        let public = [
            "wim_grow",
            "wim_expand",
            "wim_settings_write",
            "wim_settings_read",
        ];
        if public.contains(&name) {
            assert!(
                touched < own + NEAR,
                "{name} touches {touched} of the stack"
            );
        } else {
            let scrubbed = own + MORE..own + MORE + NEAR;
            assert!(
                scrubbed.contains(&touched),
                "{name} touches {touched} of the stack"
            );
            assert!(other < NEAR, "{name} leaves something at {other}");
        }
    }
}
