//! The proved calls over what is lent, through the package `wimmostry`.

use crate::lent::Lent;
use crate::plain::Calls;
use wimmostry::raw::Bench;

pub struct Ours<'a>(pub &'a Lent);

impl Ours<'_> {
    /// Whether both ends have one key.
    pub fn bench(&self) -> bool {
        let l = self.0;
        let done = wimmostry::raw::bench(l.number(), &l.a, &l.s, &l.e, &l.seed, &l.s1, &l.e1, &l.e2, &l.coins);
        matches!(done, Ok((Bench::Agree, _)))
    }
}

/// The digest of the key and the slack come beside it.
impl Calls for Ours<'_> {
    fn offer(&self, message: &mut [u8]) {
        let l = self.0;
        let done = wimmostry::raw::offer(l.number(), &l.a, &l.s, &l.e, &l.seed, message);
        assert!(done.is_ok());
    }

    fn reply(&self, opening: &[u8], message: &mut [u8], key: &mut [u8]) {
        let l = self.0;
        let done = wimmostry::raw::reply(l.number(), opening, &l.a, &l.s1, &l.e1, &l.e2, &l.coins, message, key, &mut [0; 32]);
        assert!(done.is_ok());
    }

    fn finish(&self, reply: &[u8], key: &mut [u8]) {
        let done = wimmostry::raw::finish(self.0.number(), reply, &self.0.s, key, &mut [0; 32]);
        assert!(done.is_ok());
    }
}
