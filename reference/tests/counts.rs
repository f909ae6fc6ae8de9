//! Random shifts with liars that see everything, checked against the three counts after every
//! call: at most one value is decided, and it is allowed; nobody is left undecided in a quiet
//! view of an honest primary; nobody posts twice the same kind and view to one party.

use reference::liar::random_shift;
use reference::message::{Content, Message, Round};
use reference::party::Proposal;
use reference::random::Random;
use reference::ring::{Ring, State};
use reference::run::set_up;
use reference::sheet::Call;
use reference::shift::{Shift, ShiftCall, apply_shift_call};
use reference::value::{Block, Value};
use std::collections::BTreeSet;

struct Check {
    ring: Ring<Block>,
    parties: i64,
    posted: BTreeSet<(i64, i64, i64, i64)>,
    decided: Vec<Block>,
    lost: bool,
    /// What the runs are to reach, so that the checks are not idle.
    waited: bool,
    opened: bool,
}

impl Check {
    /// Runs a whole shift, checking after the set-up and after each call.
    fn run(shift: &Shift<Block>) -> Check {
        let ring = set_up(&shift.start).expect("a set-up within the limits");
        let mut check = Check {
            parties: shift.start.parties as i64,
            posted: BTreeSet::new(),
            decided: Vec::new(),
            lost: false,
            waited: false,
            opened: false,
            ring,
        };
        check.posts(check.ring.wire().count());
        check.counts();
        for call in &shift.calls {
            if let ShiftCall::Call(Call::Lose(place)) = call {
                check.lost |= check.ring.wire().look(*place).is_ok_and(|m| check.is_between(&m));
            }
            let answer = apply_shift_call(&mut check.ring, call).unwrap_or(0);
            check.posts(answer as usize);
            check.counts();
        }
        check
    }

    fn is_honest(&self, party: i64) -> bool {
        self.ring.honest(party).is_some()
    }

    /// From an honest party to an honest one.
    fn is_between(&self, message: &Message<Block>) -> bool {
        self.is_honest(message.from) && self.is_honest(message.to)
    }

    /// Looks at what the last call posted.
    fn posts(&mut self, count: usize) {
        let skipped = self.ring.wire().count() - count;
        let posts: Vec<Message<Block>> =
            self.ring.wire().messages().skip(skipped).copied().collect();
        for post in posts.iter().filter(|post| self.ring.honest(post.from).is_some()) {
            let key = (post.from, post.to, post.content.kind(), post.content.view());
            assert!(self.posted.insert(key), "posted twice: {post:?}");
            self.opened |= self.opens(post);
        }
    }

    /// An echo of another value than its sender's lock: a voucher of proofs opened the lock.
    fn opens(&self, post: &Message<Block>) -> bool {
        let lock = self.ring.honest(post.from).map(|party| party.record().lock);
        match (lock, post.content) {
            (Some(lock), Content::Vote { round: Round::Echo, value, .. }) => {
                lock.view > 0 && lock.value != value
            }
            _ => false,
        }
    }

    fn counts(&mut self) {
        let mut open_views = BTreeSet::new();
        for party in 1..=self.parties {
            let shown = self.ring.show(party as u64).expect("a party of the ring");
            match shown.state {
                State::Decided if !self.decided.contains(&shown.value) => {
                    assert!(shown.value.allowed());
                    self.decided.push(shown.value);
                }
                State::Open => {
                    open_views.insert(shown.view);
                }
                _ => {}
            }
            let proposal = self.ring.honest(party).map(|party| party.proposal());
            self.waited |= matches!(proposal, Some(Proposal::Waiting(_)));
        }
        assert!(self.decided.len() <= 1, "two values decided: {:?}", self.decided);
        let quiet = !self.lost && !self.ring.wire().messages().any(|m| self.is_between(m));
        if quiet && open_views.len() == 1 {
            let primary = |view: i64| view % self.parties + 1;
            let honest = open_views.iter().all(|&view| self.is_honest(primary(view)));
            assert!(!honest, "undecided in a quiet view of an honest primary");
        }
    }

    fn all_decided(&self) -> bool {
        let shown = (1..=self.parties).filter_map(|party| self.ring.show(party as u64).ok());
        shown.into_iter().all(|shown| shown.state != State::Open)
    }
}

#[test]
fn the_three_counts_hold_against_liars() {
    let block = |first| Block { first, count: 1, party: 1 };
    let (mut waited, mut opened, mut finished) = (0, 0, 0);
    for seed in 0..300 {
        let mut random = Random::new(seed);
        let wishes: Vec<Block> = (0..=random.below(3)).map(block).collect();
        let shift = random_shift(&mut random, &wishes, &[block(9), Block::blank()]);
        let check = Check::run(&shift);
        waited += u64::from(check.waited);
        opened += u64::from(check.opened);
        finished += u64::from(check.all_decided());
        assert!(check.lost || check.all_decided());
    }
    println!("shifts with a waiting proposal: {waited}, with a lock opened by proofs: {opened}");
    println!("shifts in which everyone decided: {finished}");
    assert!(waited > 10 && opened > 5, "the liars of these shifts are too tame");
}
