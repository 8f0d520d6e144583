//! The long list: every call in every scheme on good and on damaged inputs, some
//! 2,900 cases. The tests in rust/ run each through the archive and compare; the
//! program `vectors` runs a few of their kind (docs/VECTORS.md).

pub mod cases;
pub mod good;
pub mod input;
pub mod lines;
pub mod noise;
pub mod run;

use crate::schemes::{Scheme, SIX};
use cases::Case;
use good::{Call, Good, Lists};
use lines::line;
use run::run;
use std::thread;

/// Cases of one call on the same good inputs, each with its name.
pub type Group = (Good, Vec<(String, Case)>);

/// The cases of the calls of an exchange: counted from 0, then the blank ones and
/// in Finish those of the slack; then a wide one for each call.
pub fn of_scheme(scheme: &'static Scheme) -> Vec<Group> {
    let named = |kind: &str, cases: Vec<Case>| {
        let name = |(at, case)| (format!("{kind}{at}"), case);
        cases.into_iter().enumerate().map(name).collect::<Vec<_>>()
    };
    let narrow = exchange(&Lists::drawn(scheme)).map(|good| {
        let mut all = named("", cases::of_exchange(&good));
        all.extend(named("blank", cases::of_blank(&good)));
        if good.call == Call::Finish {
            all.extend(named("slack", cases::of_slack(&good)));
        }
        (good, all)
    });
    let wide = exchange(&Lists::wide(scheme)).map(|good| {
        let case = good.case();
        (good, vec![("wide".to_string(), case)])
    });
    narrow.into_iter().chain(wide).collect()
}

/// The cases of the calls without a scheme, counted from 0 in each call.
pub fn of_no_scheme() -> Vec<Group> {
    let calls = [
        cases::of_expand(),
        cases::of_grow(),
        cases::of_shake128(),
        cases::of_sha3_256(),
    ];
    let mut groups = vec![];
    for call in calls {
        let mut names = (0..).map(|at: usize| at.to_string());
        for (good, cases) in call {
            groups.push((good, names.by_ref().zip(cases).collect()));
        }
    }
    groups
}

/// A line for each case. The schemes run side by side.
pub fn lines() -> Vec<String> {
    let of_group = |(good, cases): &Group| {
        let line = |(name, case): &(String, Case)| line(good, name, &run(good, case));
        cases.iter().map(line).collect::<Vec<_>>()
    };
    let of = |groups: Vec<Group>| groups.iter().flat_map(of_group).collect::<Vec<_>>();
    thread::scope(|scope| {
        let schemes = SIX.each_ref().map(|scheme| {
            scope.spawn(move || [of(of_scheme(scheme)), noise::lines(scheme)].concat())
        });
        let lines = schemes.into_iter().flat_map(|lines| lines.join().unwrap());
        lines.chain(of(of_no_scheme())).collect()
    })
}

/// Offer, Reply, Finish and Bench, each message that of the call before.
pub fn exchange(lists: &Lists) -> [Good; 4] {
    let message = |good: &Good| run(good, &good.case()).outputs.swap_remove(0);
    let offer = lists.offer();
    let reply = lists.reply(message(&offer));
    let finish = lists.finish(message(&reply));
    [offer, reply, finish, lists.bench()]
}
