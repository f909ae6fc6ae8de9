//! One party: what it keeps, and what it does when it hears something.
//!
//! Whatever is heard and not ignored goes into sets. Then every rule whose condition holds in
//! the sets is applied, in a fixed order, until no rule is left to apply.

use crate::message::{Content, LAST_VIEW, Message, Proof, ROUNDS, Round, Suggest};
use crate::value::Value;
use std::collections::{BTreeMap, BTreeSet};

/// How many parties there are, and how many of them may lie.
#[derive(Clone, Copy, PartialEq, Eq, Debug)]
pub struct Shape {
    pub parties: i64,
    pub faults: i64,
}

impl Shape {
    pub fn quorum(&self) -> usize {
        (self.parties - self.faults) as usize
    }

    /// So many parties that one of them is honest.
    pub fn voucher(&self) -> usize {
        (self.faults + 1) as usize
    }

    pub fn primary(&self, view: i64) -> i64 {
        view % self.parties + 1
    }
}

/// A view, and the value that was voted for in it.
#[derive(Clone, Copy, PartialEq, Eq, Debug)]
pub struct Mark<V> {
    pub view: i64,
    pub value: V,
}

/// What outlives views.
#[derive(Clone, Debug)]
pub struct Record<V> {
    pub view: i64,
    pub lock: Mark<V>,
    pub key1: Mark<V>,
    pub key2: Mark<V>,
    pub key3: Mark<V>,
    pub previous1: i64,
    pub previous2: i64,
    pub done: Option<V>,
    pub decision: Option<V>,
}

/// The proposal of a view.
#[derive(Clone, Copy, PartialEq, Eq, Debug)]
pub enum Proposal<V> {
    None,
    Waiting(V),
    Echoed,
    Dropped,
}

/// Something to be said to each listener as soon as it has joined the view.
#[derive(Clone, Debug)]
struct Speech<V> {
    content: Content<V>,
    told: BTreeSet<i64>,
}

/// What a party keeps for one view only.
#[derive(Clone, Debug)]
struct ViewMemory<V> {
    suggests: BTreeMap<i64, Suggest<V>>,
    proofs: BTreeMap<i64, Proof<V>>,
    votes: BTreeMap<(Round, i64), V>,
    proposal: Proposal<V>,
    /// By kind number.
    speeches: BTreeMap<i64, Speech<V>>,
}

#[derive(Clone, Debug)]
pub struct Party<V> {
    number: i64,
    shape: Shape,
    record: Record<V>,
    highest_request: BTreeMap<i64, i64>,
    highest_abort: BTreeMap<i64, i64>,
    dones: BTreeMap<i64, V>,
    memory: ViewMemory<V>,
    posts: Vec<Message<V>>,
}

/// A proof supports opening a lock if its party has since sent a key1 for another value.
pub fn opens_lock<V: Value>(proof: &Proof<V>, lock: &Mark<V>, view: i64) -> bool {
    let sound = proof.previous1 < proof.key1 && proof.key1 < view;
    sound
        && (lock.view <= proof.previous1 || (lock.view <= proof.key1 && proof.value1 != lock.value))
}

/// A suggest bears out a key3 if its party has since sent a key2 for that value, or two
/// key2 for different values.
pub fn bears_out<V: Value>(suggest: &Suggest<V>, key3: &Mark<V>, view: i64) -> bool {
    let sound = suggest.previous2 < suggest.key2 && suggest.key2 < view;
    sound
        && (key3.view <= suggest.previous2
            || (key3.view <= suggest.key2 && suggest.value2 == key3.value))
}

/// The rank-th largest of some numbers, counted from 1.
pub fn ranked(numbers: impl Iterator<Item = i64>, rank: usize) -> i64 {
    let mut sorted: Vec<i64> = numbers.collect();
    sorted.sort_unstable_by(|a, b| b.cmp(a));
    sorted[rank - 1]
}

/// The value that at least `least` of the given ones are, if there is one.
fn common<V: Value>(values: impl Iterator<Item = V>, least: usize) -> Option<V> {
    let mut counts: Vec<(V, usize)> = Vec::new();
    for value in values {
        match counts.iter_mut().find(|(counted, _)| *counted == value) {
            Some((_, count)) => *count += 1,
            None => counts.push((value, 1)),
        }
    }
    counts.into_iter().find(|(_, count)| *count >= least).map(|(value, _)| value)
}

impl<V: Value> ViewMemory<V> {
    fn new() -> Self {
        ViewMemory {
            suggests: BTreeMap::new(),
            proofs: BTreeMap::new(),
            votes: BTreeMap::new(),
            proposal: Proposal::None,
            speeches: BTreeMap::new(),
        }
    }
}

impl<V: Value> Party<V> {
    /// A party that has just entered view 1, and its first posts.
    pub fn new(number: i64, shape: Shape, own: V) -> (Self, Vec<Message<V>>) {
        let nothing = Mark { view: 0, value: own };
        let everyone = || (1..=shape.parties).map(|party| (party, 0)).collect();
        let mut party = Party {
            number,
            shape,
            record: Record {
                view: 0,
                lock: nothing,
                key1: nothing,
                key2: nothing,
                key3: nothing,
                previous1: -1,
                previous2: -1,
                done: None,
                decision: None,
            },
            highest_request: everyone(),
            highest_abort: everyone(),
            dones: BTreeMap::new(),
            memory: ViewMemory::new(),
            posts: Vec::new(),
        };
        party.enter(1);
        party.settle();
        let posts = std::mem::take(&mut party.posts);
        (party, posts)
    }

    pub fn record(&self) -> &Record<V> {
        &self.record
    }

    pub fn proposal(&self) -> Proposal<V> {
        self.memory.proposal
    }

    /// Takes a message in, and gives what the party posts on it, in order.
    pub fn hear(&mut self, message: &Message<V>) -> Vec<Message<V>> {
        if self.record.decision.is_none() {
            self.store(message.from, &message.content);
            self.settle();
        }
        std::mem::take(&mut self.posts)
    }

    /// The view has lasted too long for this party.
    pub fn time_out(&mut self) -> Vec<Message<V>> {
        assert!(self.record.decision.is_none() && self.record.view < LAST_VIEW);
        if self.highest_abort[&self.number] < self.record.view {
            self.abort(self.record.view);
        }
        self.settle();
        std::mem::take(&mut self.posts)
    }

    /// Puts what was heard into the sets, unless it is to be ignored.
    fn store(&mut self, from: i64, content: &Content<V>) {
        let current = content.view() == self.record.view;
        let primary = self.shape.primary(self.record.view);
        match *content {
            Content::Request { view } => raise(&mut self.highest_request, from, view),
            Content::Abort { view } => raise(&mut self.highest_abort, from, view),
            Content::Done { value } => {
                self.dones.entry(from).or_insert(value);
            }
            Content::Suggest { suggest, .. } if current && self.number == primary => {
                self.memory.suggests.entry(from).or_insert(suggest);
            }
            Content::Proof { proof, .. } if current => {
                self.memory.proofs.entry(from).or_insert(proof);
            }
            Content::Propose { key, value, .. }
                if current && from == primary && self.memory.proposal == Proposal::None =>
            {
                self.judge(key, value);
            }
            Content::Vote { round, value, .. } if current => {
                self.memory.votes.entry((round, from)).or_insert(value);
            }
            _ => {}
        }
    }

    /// Decides what becomes of the first proposal of the view.
    fn judge(&mut self, key: i64, value: V) {
        let Record { view, lock, .. } = self.record;
        if !value.allowed() {
            self.memory.proposal = Proposal::Dropped;
        } else if lock.view == 0 || value == lock.value {
            self.echo(value);
        } else if lock.view <= key && key < view {
            self.memory.proposal = Proposal::Waiting(value);
        } else {
            self.memory.proposal = Proposal::Dropped;
        }
    }

    /// Applies rules until none applies. A party that has decided stops.
    fn settle(&mut self) {
        while self.record.decision.is_none()
            && (self.join_abort()
                || self.leave_view()
                || self.join_done()
                || self.decide()
                || self.tell_joined()
                || self.propose()
                || self.count_votes()
                || self.echo_waiting())
        {}
    }

    /// A voucher has given up a later view than this party.
    fn join_abort(&mut self) -> bool {
        let view = ranked(self.highest_abort.values().copied(), self.shape.voucher());
        let applies = view > self.highest_abort[&self.number];
        if applies {
            self.abort(view);
        }
        applies
    }

    /// A quorum has given up this view.
    fn leave_view(&mut self) -> bool {
        let view = ranked(self.highest_abort.values().copied(), self.shape.quorum());
        let applies = view >= self.record.view;
        if applies {
            self.enter(view + 1);
        }
        applies
    }

    /// A voucher, or a quorum of locks, is done with one value.
    fn join_done(&mut self) -> bool {
        if self.record.done.is_some() {
            return false;
        }
        let locked = common(self.votes(Round::Lock), self.shape.quorum());
        let vouched = common(self.dones.values().copied(), self.shape.voucher());
        match locked.or(vouched) {
            Some(value) => {
                self.record.done = Some(value);
                self.send(Content::Done { value });
                true
            }
            None => false,
        }
    }

    /// A quorum is done with one value.
    fn decide(&mut self) -> bool {
        self.record.decision = common(self.dones.values().copied(), self.shape.quorum());
        self.record.decision.is_some()
    }

    /// Some listener has joined the view and has not been told everything.
    fn tell_joined(&mut self) -> bool {
        let before = self.posts.len();
        let kinds: Vec<i64> = self.memory.speeches.keys().copied().collect();
        for kind in kinds {
            self.tell(kind);
        }
        self.posts.len() > before
    }

    /// A quorum of suggests is accepted, and this primary has not proposed in the view.
    fn propose(&mut self) -> bool {
        let kind_of_propose = 4;
        if self.memory.speeches.contains_key(&kind_of_propose) {
            return false;
        }
        let view = self.record.view;
        let accepted: Vec<Mark<V>> = self
            .memory
            .suggests
            .values()
            .map(|suggest| Mark { view: suggest.key3, value: suggest.value3 })
            .filter(|key3| self.accepts(key3))
            .collect();
        if accepted.len() < self.shape.quorum() {
            return false;
        }
        let highest = accepted.iter().map(|key3| key3.view).max();
        let Some(chosen) = accepted.iter().find(|key3| Some(key3.view) == highest) else {
            return false;
        };
        self.make(Content::Propose { view, key: chosen.view, value: chosen.value });
        true
    }

    /// A key3 may be proposed: it is new, or a voucher of suggests bears it out.
    fn accepts(&self, key3: &Mark<V>) -> bool {
        let view = self.record.view;
        let supporters =
            || self.memory.suggests.values().filter(|other| bears_out(other, key3, view)).count();
        key3.value.allowed()
            && (key3.view == 0 || (key3.view < view && supporters() >= self.shape.voucher()))
    }

    /// A quorum votes for one value in a round that this party has not yet passed.
    fn count_votes(&mut self) -> bool {
        for (round, next) in ROUNDS.into_iter().zip(ROUNDS.into_iter().skip(1)) {
            let passed = self.mark_after(round).view == self.record.view;
            if passed {
                continue;
            }
            if let Some(value) = common(self.votes(round), self.shape.quorum()) {
                self.pass(round, value);
                self.make(Content::Vote { round: next, view: self.record.view, value });
                return true;
            }
        }
        false
    }

    /// The mark that a quorum in this round sets.
    fn mark_after(&mut self, round: Round) -> &mut Mark<V> {
        match round {
            Round::Echo => &mut self.record.key1,
            Round::Key1 => &mut self.record.key2,
            Round::Key2 => &mut self.record.key3,
            Round::Key3 | Round::Lock => &mut self.record.lock,
        }
    }

    fn pass(&mut self, round: Round, value: V) {
        let view = self.record.view;
        let mark = self.mark_after(round);
        let old = *mark;
        *mark = Mark { view, value };
        if old.value != value {
            match round {
                Round::Echo => self.record.previous1 = old.view,
                Round::Key1 => self.record.previous2 = old.view,
                _ => {}
            }
        }
    }

    /// A waiting proposal has the lock's value now, or a voucher of proofs opens the lock.
    fn echo_waiting(&mut self) -> bool {
        let Proposal::Waiting(value) = self.memory.proposal else {
            return false;
        };
        let Record { view, lock, .. } = self.record;
        let openers =
            self.memory.proofs.values().filter(|proof| opens_lock(proof, &lock, view)).count();
        let applies = value == lock.value || openers >= self.shape.voucher();
        if applies {
            self.echo(value);
        }
        applies
    }

    fn votes(&self, round: Round) -> impl Iterator<Item = V> {
        self.memory.votes.range((round, 0)..=(round, i64::MAX)).map(|(_, value)| *value)
    }

    fn echo(&mut self, value: V) {
        self.memory.proposal = Proposal::Echoed;
        self.make(Content::Vote { round: Round::Echo, view: self.record.view, value });
    }

    fn abort(&mut self, view: i64) {
        self.send(Content::Abort { view });
        self.highest_abort.insert(self.number, view);
    }

    /// Starts a view with an empty memory; suggest and proof tell what the party held then.
    fn enter(&mut self, view: i64) {
        self.memory = ViewMemory::new();
        self.record.view = view;
        self.send(Content::Request { view });
        let Record { key1, key2, key3, previous1, previous2, .. } = self.record;
        self.make(Content::Suggest {
            view,
            suggest: Suggest {
                key3: key3.view,
                value3: key3.value,
                key2: key2.view,
                value2: key2.value,
                previous2,
            },
        });
        self.make(Content::Proof {
            view,
            proof: Proof { key1: key1.view, value1: key1.value, previous1 },
        });
    }

    /// Says something to all parties at once, the party itself included.
    fn send(&mut self, content: Content<V>) {
        for to in 1..=self.shape.parties {
            self.posts.push(Message { from: self.number, to, content });
        }
    }

    /// Says something in this view to every listener that has joined or will join it.
    fn make(&mut self, content: Content<V>) {
        let kind = content.kind();
        let speech = Speech { content, told: BTreeSet::new() };
        let old = self.memory.speeches.insert(kind, speech);
        assert!(old.is_none(), "each kind is made once in a view");
        self.tell(kind);
    }

    /// Tells the listeners that have joined the view and have not heard this kind.
    /// A suggest is for the primary alone.
    fn tell(&mut self, kind: i64) {
        let view = self.record.view;
        let primary = self.shape.primary(view);
        let Some(speech) = self.memory.speeches.get_mut(&kind) else {
            return;
        };
        let for_primary = matches!(speech.content, Content::Suggest { .. });
        for (&to, &request) in &self.highest_request {
            if request == view && (to == primary || !for_primary) && speech.told.insert(to) {
                self.posts.push(Message { from: self.number, to, content: speech.content });
            }
        }
    }
}

fn raise(highest: &mut BTreeMap<i64, i64>, party: i64, view: i64) {
    let entry = highest.entry(party).or_insert(0);
    *entry = view.max(*entry);
}
