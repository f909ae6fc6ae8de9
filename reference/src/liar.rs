//! Random shifts with liars that see every record and choose their words afterwards.

use crate::message::{Content, Message, Proof, ROUNDS, Suggest};
use crate::random::Random;
use crate::refusal::Refusal;
use crate::ring::{Ring, State};
use crate::run::set_up;
use crate::sheet::{Call, Sheet};
use crate::shift::{Shift, ShiftCall, apply_shift_call, frame_of};
use crate::value::{Block, Order, Value};

/// A shift in the making.
struct Plot<'a, V> {
    random: &'a mut Random,
    ring: Ring<V>,
    shift: Shift<V>,
    /// The values in play; some may not be allowed.
    values: Vec<V>,
}

/// A random shift whose honest parties wish some of the given values, which must be allowed.
/// Its liars speak of those and of others.
pub fn random_shift<V: Value>(random: &mut Random, wishes: &[V], others: &[V]) -> Shift<V> {
    let (parties, faults) = random.pick(&[(4, 1), (4, 1), (5, 1), (7, 2), (8, 2)]);
    let mut faulty = 0;
    for _ in 0..faults {
        faulty |= 1u64 << random.below(parties);
    }
    let own = (0..parties)
        .map(|index| if faulty >> index & 1 == 1 { V::blank() } else { random.pick(wishes) })
        .collect();
    let start = Sheet { parties, faults, faulty, own, calls: Vec::new() };
    let ring = set_up(&start).expect("a set-up within the limits");
    let values = [wishes, others].concat();
    let mut plot = Plot { random, ring, shift: Shift { start, calls: Vec::new() }, values };
    plot.run();
    plot.shift
}

/// The text of a random shift, of either kind of value.
pub fn random_shift_text(random: &mut Random) -> String {
    if random.chance(50) {
        let block = |first, count| Block { first, count, party: 1 };
        let wishes: Vec<Block> = (0..=random.below(3)).map(|first| block(first, 1)).collect();
        random_shift(random, &wishes, &[block(9, 1), block(9, 0)]).text()
    } else {
        let wishes = [Order::Hold, Order::Resume];
        let others = [Order::Blank, Order::pace(600).unwrap_or(Order::Hold)];
        random_shift(random, &wishes, &others).text()
    }
}

impl<V: Value> Plot<'_, V> {
    fn parties(&self) -> i64 {
        self.shift.start.parties as i64
    }

    fn honest(&self) -> Vec<i64> {
        (1..=self.parties()).filter(|&party| self.ring.honest(party).is_some()).collect()
    }

    fn liars(&self) -> Vec<i64> {
        (1..=self.parties()).filter(|&party| self.ring.honest(party).is_none()).collect()
    }

    fn call(&mut self, call: ShiftCall) -> Result<u64, Refusal> {
        let answer = apply_shift_call(&mut self.ring, &call);
        self.shift.calls.push(call);
        answer
    }

    fn send(&mut self, message: &Message<V>) {
        let mut frame = frame_of(message);
        if self.random.chance(2) {
            let at = self.random.below(frame.len() as u64) as usize;
            frame[at] ^= 1 << self.random.below(8);
        }
        let _ = self.call(ShiftCall::Send(frame));
    }

    /// Hands every such message, oldest first, as long as there is room.
    fn hand_where(&mut self, wanted: impl Fn(&Message<V>) -> bool) {
        let place = |plot: &Self| plot.ring.wire().messages().position(&wanted);
        while let Some(place) = place(self) {
            if self.call(ShiftCall::Call(Call::Hand(place as u64))).is_err() {
                return;
            }
        }
    }

    fn timers(&mut self) {
        for party in 1..=self.parties() as u64 {
            let _ = self.call(ShiftCall::Call(Call::Timer(party)));
        }
    }

    fn run(&mut self) {
        for _ in 0..self.random.below(10) {
            if self.random.chance(85) {
                self.help_along();
            } else {
                self.babble();
            }
            if self.random.chance(80) {
                self.timers();
                self.hand_where(|message| message.content.kind() == 11);
            }
        }
        self.finish();
    }

    /// The liars pick a value and help all parties but one along in the view up to some round;
    /// one party gets a round further.
    fn help_along(&mut self) {
        let honest = self.honest();
        let views = honest.iter().filter_map(|&party| self.ring.honest(party));
        let view = views.map(|party| party.record().view).max().unwrap_or(1);
        let proofs_first = self.random.chance(50);
        self.hand_where(|message| match message.content.kind() {
            1 | 2 | 11 => true,
            3 => proofs_first,
            _ => false,
        });
        let proposed = self.ring.wire().messages().find_map(|message| match message.content {
            Content::Propose { view: named, value, .. } if named == view => Some(value),
            _ => None,
        });
        let value = proposed.unwrap_or(self.random.pick(&self.values));
        let left_out = self.random.below(self.parties() as u64 + 1) as i64;
        let key = self.random.below(view as u64 + 1) as i64;
        let mut lies = vec![self.false_proof(view), Content::Propose { view, key, value }];
        lies.extend(ROUNDS.map(|round| Content::Vote { round, view, value }));
        for from in self.liars() {
            for &to in honest.iter().filter(|&&to| to != left_out) {
                for &content in &lies {
                    self.send(&Message { from, to, content });
                }
            }
        }
        let last_kind = self.random.pick(&[4, 5, 6, 7, 7, 7, 7, 8]);
        let ahead = self.random.below(self.parties() as u64) as i64 + 1;
        self.hand_where(|message| {
            let limit = if message.to == ahead { last_kind + 1 } else { last_kind };
            message.to != left_out && message.content.kind() <= limit
        });
    }

    /// A proof about any views up to this one; often it is near the lock of some party.
    fn false_proof(&mut self, view: i64) -> Content<V> {
        let honest = self.honest();
        let party = self.random.pick(&honest);
        let lock = self.ring.honest(party).map_or(0, |party| party.record().lock.view);
        let any = self.random.below(view as u64 + 1) as i64;
        let key1 = self.random.pick(&[lock, view, any]);
        let previous1 = self.random.pick(&[lock, any, -1]);
        let value1 = self.random.pick(&self.values);
        Content::Proof { view, proof: Proof { key1, value1, previous1 } }
    }

    /// Lies of every kind between hands in any order.
    fn babble(&mut self) {
        for _ in 0..self.random.below(200) {
            if self.random.chance(30) {
                self.lie();
            }
            let waiting = self.ring.wire().count() as u64;
            if waiting == 0 {
                return;
            }
            let place = self.random.below(waiting);
            let call = match self.random.below(40) {
                0 => Call::Lose(place),
                1 | 2 => Call::Repeat(place),
                _ => Call::Hand(place),
            };
            let _ = self.call(ShiftCall::Call(call));
        }
    }

    /// A message of a liar: mostly about the receiver's own view, with values in play.
    fn lie(&mut self) {
        let (liars, honest) = (self.liars(), self.honest());
        let from = self.random.pick(&liars);
        let to = self.random.pick(&honest);
        let now = self.ring.honest(to).map_or(1, |party| party.record().view);
        let view = if self.random.chance(90) { now } else { now + self.random.below(3) as i64 };
        let value = self.random.pick(&self.values);
        let other = self.random.pick(&self.values);
        let key = self.random.below(view as u64 + 1) as i64;
        let second = self.random.below(view as u64 + 1) as i64;
        let previous = self.random.below(view as u64 + 1) as i64 - 1;
        let suggest =
            Suggest { key3: key, value3: value, key2: second, value2: other, previous2: previous };
        let proof = Proof { key1: second, value1: other, previous1: previous };
        let round = self.random.pick(&ROUNDS);
        let content = match self.random.below(14) {
            0 => Content::Request { view },
            1 | 2 => Content::Suggest { view, suggest },
            3 => Content::Proof { view, proof },
            4 | 5 => Content::Propose { view, key, value },
            6 if self.random.chance(20) => Content::Done { value },
            7 if self.random.chance(30) => Content::Abort { view },
            _ => Content::Vote { round, view, value },
        };
        self.send(&Message { from, to, content });
    }

    /// Delivers everything and gives up views until everyone has decided.
    fn finish(&mut self) {
        for _ in 0..3 * self.parties() {
            while self.ring.wire().count() > 0 {
                let handed = self.call(ShiftCall::Call(Call::Hand(0)));
                if handed == Err(Refusal::Room) {
                    let _ = self.call(ShiftCall::Call(Call::Lose(0)));
                }
            }
            let shown = (1..=self.parties()).filter_map(|party| self.ring.show(party as u64).ok());
            if shown.into_iter().all(|shown| shown.state != State::Open) {
                return;
            }
            self.timers();
        }
    }
}
