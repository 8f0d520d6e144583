//! Two typed sessions, one at each end of a link: the same bytes as the raw
//! calls, the key in the session and nowhere else, and nothing left of it once
//! the session is closed or dropped.

use crate::generator::Generator;
use crate::inputs::Inputs;
use second::schemes::SIX;
use std::error::Error;
use wimmostry::{
    Initiator, Offered, Refusal, Replier, Scheme, Secret, Session, Stage, Unfinished, SESSION,
};

fn scheme(inputs: &Inputs) -> Scheme {
    Scheme::try_from(inputs.scheme.number as u32).expect("one of six")
}

/// Good inputs of a scheme.
fn drawn(number: usize) -> Inputs {
    Inputs::random(&SIX[number], &mut Generator::new(90 + number as u64))
}

fn offer<'s, 'm>(
    session: &mut Session,
    i: &'s mut Inputs,
    room: &'m mut [u8],
) -> Result<Offered<'s, 'm>, Refusal> {
    let (scheme, s, e) = (scheme(i), Secret::new(&mut i.s), Secret::new(&mut i.e));
    session.offer(scheme, &i.a, s, e, &i.seed, room)
}

fn replier(i: &mut Inputs) -> Replier<'_> {
    Replier::new(
        scheme(i),
        Secret::new(&mut i.s1),
        Secret::new(&mut i.e1),
        Secret::new(&mut i.e2),
        Secret::new(&mut i.coins),
    )
}

#[test]
fn a_link_in_every_scheme() {
    for number in 0..6 {
        let (mut left, mut right) = (drawn(number), drawn(number));
        let (scheme, sizes, a) = (scheme(&left), scheme(&left).sizes(), left.a.clone());
        let expected_opening = left.opening();
        let (expected_reply, expected_key) = left.reply_and_key(&expected_opening);
        let expected_slack = left.slack(&expected_reply);

        let (mut one, mut other) = ([9; SESSION], [9; SESSION]);
        let mut initiator = Session::new(&mut one);
        let mut answering = Session::new(&mut other);
        assert_eq!(initiator.stage(), Some(Stage::Idle));
        assert_eq!(initiator.key(), None);

        let mut room = vec![9; sizes.opening + 3];
        let Offered {
            initiator: waiting,
            opening,
            ..
        } = offer(&mut initiator, &mut left, &mut room).expect("good inputs");
        assert_eq!(opening, expected_opening);
        assert_eq!(initiator.stage(), Some(Stage::Offered(scheme)));
        assert_eq!(initiator.key(), None);

        let mut message = vec![9; sizes.reply + 3];
        let answered = answering
            .reply(replier(&mut right), opening, &a, &mut message)
            .expect("good inputs");
        assert_eq!(answered.message, expected_reply);
        assert_eq!(answering.stage(), Some(Stage::Keyed(scheme)));
        assert_eq!(answering.key(), Some(&expected_key[..]));

        let linked = initiator
            .finish(waiting, answered.message)
            .expect("good inputs");
        assert_eq!(initiator.stage(), Some(Stage::Keyed(scheme)));
        assert_eq!(initiator.key(), answering.key());
        assert_eq!(linked.digest, answered.digest);
        assert_eq!(linked.digest.0[..], second::hash::sha3_256(&expected_key));
        let slack = (linked.slack.largest, linked.slack.index);
        assert_eq!(slack, (expected_slack.largest, expected_slack.index));

        let shown = format!("{initiator:?}");
        assert_eq!(shown, format!("Session(Some(Keyed({scheme:?})), ..)"));
        initiator.close();
        assert_eq!(
            (initiator.stage(), initiator.key()),
            (Some(Stage::Idle), None)
        );
        drop((initiator, answering));
        assert_eq!(
            (one, other),
            ([0; SESSION], [0; SESSION]),
            "closed, dropped"
        );
        let zero = |values: &[i32]| values.iter().all(|&value| value == 0);
        assert!(zero(&left.s) && zero(&left.e) && zero(&right.s1) && zero(&right.e1));
    }
}

/// What a refused finish says as an error, and the initiator that comes back.
fn told(unfinished: Unfinished) -> (String, Initiator) {
    let said = |error: &dyn Error| error.to_string();
    (said(&unfinished), unfinished.initiator)
}

/// Out of stage, a call wipes its secrets and leaves the session. A refused
/// finish gives the initiator back, and the next reply is taken.
#[test]
fn refused_calls_leave_the_session() {
    let (mut left, mut again, mut right) = (drawn(1), drawn(1), drawn(1));
    let mut peer = drawn(2);
    let (a, sizes) = (left.a.clone(), Scheme::NewHope.sizes());
    let reply = left.reply_and_key(&left.opening()).0;
    let (mut bytes, mut other) = ([0; SESSION], [0; SESSION]);
    let mut session = Session::resume(&mut bytes);
    let (mut room, mut second_room) = (vec![0; sizes.opening], vec![9; sizes.opening]);
    let offered = offer(&mut session, &mut left, &mut room).expect("good inputs");

    let refused = offer(&mut session, &mut again, &mut second_room);
    assert_eq!(refused.err(), Some(Refusal::OutOfStage));
    assert_eq!(second_room, vec![0; sizes.opening]);
    assert_eq!((again.s, again.e), (vec![0; 1024], vec![0; 1024]));
    let mut message = vec![9; sizes.reply];
    let refused = session.reply(replier(&mut right), offered.opening, &a, &mut message);
    assert_eq!(refused.err(), Some(Refusal::OutOfStage));
    assert_eq!((message, right.s1), (vec![0; sizes.reply], vec![0; 1024]));
    assert_eq!(session.stage(), Some(Stage::Offered(Scheme::NewHope)));

    // another session's initiator, of another scheme
    let mut others = Session::new(&mut other);
    let mut peer_room = vec![0; Scheme::FrodoChallenge.sizes().opening];
    let Offered { initiator, .. } =
        offer(&mut others, &mut peer, &mut peer_room).expect("good inputs");
    let refused = session.finish(initiator, &reply);
    let (said, initiator) = told(refused.expect_err("another scheme"));
    assert_eq!(said, Refusal::OutOfStage.to_string());
    assert_eq!(initiator.scheme(), Scheme::FrodoChallenge);
    drop(initiator);
    assert_eq!(peer.s, vec![0; 2816]);

    // a reply that was cut short, and then the whole of it
    let refused = session.finish(offered.initiator, &reply[1..]);
    let Unfinished {
        refusal, initiator, ..
    } = refused.expect_err("a short reply");
    assert_eq!(refusal, Refusal::Length);
    assert_eq!(session.stage(), Some(Stage::Offered(Scheme::NewHope)));
    session.finish(initiator, &reply).expect("the whole reply");
    assert_eq!(session.stage(), Some(Stage::Keyed(Scheme::NewHope)));
}

/// Bytes that were kept are a session again; such that no call leaves are in no
/// stage, until they are closed.
#[test]
fn kept_bytes() {
    let mut bytes = [0; SESSION];
    bytes[..3].copy_from_slice(&[2, 2, 7]);
    let session = Session::resume(&mut bytes);
    assert_eq!(session.stage(), Some(Stage::Keyed(Scheme::FrodoChallenge)));
    assert_eq!(session.key(), Some(&[7, 0, 0, 0, 0, 0, 0, 0][..]));
    drop(session);
    assert_eq!(bytes, [0; SESSION]);

    bytes[0] = 3;
    let mut session = Session::resume(&mut bytes);
    assert_eq!((session.stage(), session.key()), (None, None));
    assert_eq!(format!("{session:?}"), "Session(None, ..)");
    let (mut i, mut room) = (drawn(1), [9; 1824]);
    let refused = offer(&mut session, &mut i, &mut room);
    assert_eq!(refused.err(), Some(Refusal::OutOfStage));
    session.close();
    assert_eq!(session.stage(), Some(Stage::Idle));
}

#[test]
fn the_sentence() {
    assert_eq!(
        Refusal::OutOfStage.to_string(),
        "refusal 10: the session's stage does not allow this call with this scheme"
    );
}
