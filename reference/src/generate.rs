//! Random run sheets. The reference ring is run alongside, so that the calls have something
//! to act on: places lie mostly among the messages that wait.

use crate::message::Message;
use crate::random::Random;
use crate::ring::{Ring, State};
use crate::run::{apply, set_up};
use crate::sheet::{Call, PARTIES_LIMIT, SHEET_LIMIT, Sheet, head};
use crate::value::{Block, Order, Value};

/// Percentages of the calls that a stretch of a sheet is made of; hand has the rest.
#[derive(Clone, Copy)]
struct Habit {
    /// Of hands, how many take the oldest message.
    oldest: u64,
    repeat: u64,
    lose: u64,
    timer: u64,
    /// Places and parties that may not exist.
    astray: u64,
}

const IN_ORDER: Habit = Habit { oldest: 100, repeat: 0, lose: 0, timer: 0, astray: 0 };

const HABITS: [Habit; 7] = [
    Habit { oldest: 95, repeat: 2, lose: 0, timer: 0, astray: 1 },
    Habit { oldest: 0, repeat: 5, lose: 0, timer: 0, astray: 0 },
    Habit { oldest: 0, repeat: 10, lose: 5, timer: 2, astray: 2 },
    Habit { oldest: 30, repeat: 0, lose: 20, timer: 5, astray: 0 },
    Habit { oldest: 50, repeat: 85, lose: 0, timer: 5, astray: 1 },
    Habit { oldest: 20, repeat: 10, lose: 2, timer: 12, astray: 3 },
    Habit { oldest: 60, repeat: 2, lose: 1, timer: 1, astray: 0 },
];

/// A sheet in the making. The ring is none if the set-up is refused.
struct Draft<'a, V> {
    random: &'a mut Random,
    ring: Option<Ring<V>>,
    text: String,
    limit: usize,
}

/// A random sheet; about one in eight is damaged.
pub fn random_sheet(random: &mut Random) -> Vec<u8> {
    let sheet = if random.chance(50) {
        let pool = block_pool(random);
        whole_sheet(random, &pool)
    } else {
        let pool = order_pool(random);
        whole_sheet(random, &pool)
    };
    if random.chance(12) { damaged(random, sheet.into_bytes()) } else { sheet.into_bytes() }
}

/// A few blocks for the parties to choose from, now and then one that is not allowed.
fn block_pool(random: &mut Random) -> Vec<Block> {
    let size = random.below(4) + 1;
    let mut pool: Vec<Block> = (0..size)
        .map(|_| Block {
            first: if random.chance(10) { u64::MAX - random.below(3) } else { random.below(1_000) },
            count: if random.chance(10) { 1_000_000 } else { random.below(3) as u32 + 1 },
            party: if random.chance(10) { 64 } else { random.below(8) as u16 + 1 },
        })
        .collect();
    if random.chance(60) {
        pool.retain(Value::allowed);
    }
    if random.chance(3) {
        pool.push(random.pick(&[
            Block::blank(),
            Block { first: 1, count: 1_000_001, party: 1 },
            Block { first: 1, count: 1, party: 65 },
            Block { first: u64::MAX, count: 2, party: 1 },
            Block { first: 1, count: u32::MAX, party: u16::MAX },
        ]));
    }
    if pool.is_empty() {
        pool.push(Block { first: 7, count: 1, party: 1 });
    }
    pool
}

fn order_pool(random: &mut Random) -> Vec<Order> {
    let size = random.below(4) + 1;
    let paces = [Order::pace(1), Order::pace(600), Order::pace(random.below(600) + 1)];
    let mut choices = vec![Order::Hold, Order::Resume];
    choices.extend(paces.into_iter().flatten());
    (0..size).map(|_| random.pick(&choices)).collect()
}

fn whole_sheet<V: Value>(random: &mut Random, pool: &[V]) -> String {
    let parties = match random.below(20) {
        0 => random.below(2),
        1..9 => 4,
        _ => random.below(PARTIES_LIMIT) + 1,
    };
    let faults = match random.below(20) {
        0 => random.below(4),
        1 => random.pick(&[u64::MAX, u64::MAX / 3 + 1, 21, 22]),
        2..5 => 0,
        _ => parties.saturating_sub(1) / 3,
    };
    let faulty = faulty_parties(random, parties, faults);
    let own: Vec<V> = (0..parties)
        .map(|index| if faulty >> index & 1 == 1 { V::blank() } else { random.pick(pool) })
        .collect();
    let sheet = Sheet { parties, faults, faulty, own, calls: Vec::new() };
    let text = head(&sheet, faults == 0 && random.chance(50));
    let limit = match random.below(10) {
        0 => 200,
        1..8 => 12_000,
        _ => SHEET_LIMIT - 20,
    };
    let mut draft = Draft { ring: set_up(&sheet).ok(), random, text, limit };
    draft.fill();
    draft.text
}

/// Bits of the faulty parties: mostly as many as may be, sometimes too many or beyond n.
fn faulty_parties(random: &mut Random, parties: u64, faults: u64) -> u64 {
    let count = match random.below(30) {
        0 => faults.min(7) + 1,
        1..10 => 0,
        _ => faults.min(7),
    };
    let highest = if random.chance(2) { 64 } else { parties.max(1) };
    let mut bits: u64 = 0;
    for _ in 0..count {
        bits |= 1 << random.below(highest);
    }
    bits
}

impl<V: Value> Draft<'_, V> {
    fn fill(&mut self) {
        if self.ring.is_none() {
            for _ in 0..self.random.below(5) {
                self.astray();
            }
            return;
        }
        for _ in 0..self.random.below(4) {
            match self.random.below(20) {
                0 | 1 => self.hoard(),
                2..8 => self.stretch(),
                _ => self.failing_view(),
            }
        }
        if self.random.chance(80) {
            self.finish();
        }
        for _ in 0..self.random.below(4) {
            self.astray();
        }
    }

    /// Adds a call, unless the sheet is full.
    fn call(&mut self, call: Call) -> bool {
        let line = format!("{call}\n");
        if self.text.len() + line.len() > self.limit {
            return false;
        }
        self.text += &line;
        if let Some(ring) = &mut self.ring {
            let _ = apply(ring, call);
        }
        true
    }

    fn waiting(&self) -> u64 {
        self.ring.as_ref().map_or(0, |ring| ring.wire().count() as u64)
    }

    fn parties(&self) -> u64 {
        let shape = self.ring.as_ref().and_then(Ring::shape);
        shape.map_or(0, |shape| shape.parties as u64)
    }

    fn state(&self, party: u64) -> Option<State> {
        self.ring.as_ref()?.show(party).ok().map(|shown| shown.state)
    }

    /// A call that is often refused: a bad place, or a timer of any party.
    fn astray(&mut self) -> bool {
        let waiting = self.waiting();
        let place = self.random.pick(&[waiting, waiting + 1, 1_000, u64::MAX]);
        let party = self.random.below(self.parties() + 3);
        let call = match self.random.below(5) {
            0 => Call::Hand(place),
            1 => Call::Repeat(place),
            2 => Call::Lose(place),
            3 => Call::Timer(self.random.pick(&[0, 64, u64::MAX])),
            _ => Call::Timer(party),
        };
        self.call(call)
    }

    /// Some calls by one habit.
    fn stretch(&mut self) {
        let habit = self.random.pick(&HABITS);
        let length = self.random.below(600);
        for _ in 0..length {
            if !self.step(habit) {
                return;
            }
        }
    }

    fn step(&mut self, habit: Habit) -> bool {
        let waiting = self.waiting();
        let dice = self.random.below(100);
        if dice < habit.astray {
            return self.astray();
        }
        if waiting == 0 || dice < habit.astray + habit.timer {
            let party = self.random.below(self.parties()) + 1;
            return self.call(Call::Timer(party));
        }
        let oldest = self.random.chance(habit.oldest);
        let place = if oldest { 0 } else { self.random.below(waiting) };
        let dice = self.random.below(100);
        let call = match dice {
            _ if dice < habit.lose => Call::Lose(place),
            _ if dice < habit.lose + habit.repeat => Call::Repeat(self.random.below(waiting)),
            _ => Call::Hand(place),
        };
        self.call(call)
    }

    /// Goes on in a view up to some kind of message, for some receivers only, and then has
    /// the view fail: keys and locks are left behind at part of the ring.
    fn failing_view(&mut self) {
        let last_kind = self.random.below(7) as i64 + 4;
        let listeners = self.random.draw() | self.random.draw();
        let hears = |message: &Message<V>| {
            message.content.kind() < last_kind
                || (message.content.kind() == last_kind && listeners >> message.to & 1 == 1)
        };
        while let Some(place) = self.place_of(&hears) {
            if !self.call(Call::Hand(place)) {
                return;
            }
        }
        for party in 1..=self.parties() {
            let idle = self.state(party) != Some(State::Open) || self.random.chance(15);
            if !idle && !self.call(Call::Timer(party)) {
                return;
            }
        }
        let lost = self.random.chance(50);
        let is_abort = |message: &Message<V>| message.content.kind() == 11;
        while let Some(place) = self.place_of(&is_abort) {
            if !self.call(Call::Hand(place)) {
                return;
            }
        }
        while lost && self.waiting() > self.parties() * self.parties() {
            if !self.call(Call::Lose(0)) {
                return;
            }
        }
    }

    /// Steps every message once without taking it out, through some views that fail, until
    /// the wire is too full for a step or everyone has decided.
    fn hoard(&mut self) {
        let last_kind = self.random.below(4) as i64 + 7;
        let mut place = 0;
        for _ in 0..12 {
            while let Some(message) = self.look(place) {
                let kind = message.content.kind();
                let skipped = kind > last_kind && kind != 11;
                if !skipped && !self.call(Call::Repeat(place)) {
                    return;
                }
                place += 1;
            }
            for party in 1..=self.parties() {
                if self.state(party) == Some(State::Open) && !self.call(Call::Timer(party)) {
                    return;
                }
            }
        }
    }

    fn look(&self, place: u64) -> Option<Message<V>> {
        self.ring.as_ref()?.wire().look(place).ok()
    }

    fn place_of(&self, wanted: &dyn Fn(&Message<V>) -> bool) -> Option<u64> {
        let ring = self.ring.as_ref()?;
        ring.wire().messages().position(wanted).map(|place| place as u64)
    }

    /// Hands everything in order; where a view stands still, some more views.
    fn finish(&mut self) {
        for _ in 0..self.random.below(5) + 1 {
            while self.waiting() > 0 {
                if !self.step(IN_ORDER) {
                    return;
                }
            }
            for party in 1..=self.parties() {
                if self.state(party) == Some(State::Open) && !self.call(Call::Timer(party)) {
                    return;
                }
            }
        }
    }
}

/// Damages a sheet in one or two places.
fn damaged(random: &mut Random, mut sheet: Vec<u8>) -> Vec<u8> {
    for _ in 0..random.below(2) + 1 {
        let mut lines: Vec<Vec<u8>> =
            sheet.split_inclusive(|&byte| byte == b'\n').map(<[u8]>::to_vec).collect();
        if lines.is_empty() {
            return sheet;
        }
        // Mostly the lines before the calls, which have more to damage.
        let reach = if random.chance(70) { lines.len().min(14) } else { lines.len() };
        let at = random.below(reach as u64) as usize;
        match random.below(6) {
            0 => {
                lines.remove(at);
            }
            1 => lines.insert(at, lines[random.below(reach as u64) as usize].clone()),
            2 => lines.swap(at, random.below(reach as u64) as usize),
            3 => lines.truncate(at),
            4 => lines[at] = odd_line(random),
            _ => damage_line(random, &mut lines[at]),
        }
        sheet = lines.concat();
        if random.chance(5) {
            let filler = b"hand=18446744073709551615\n";
            while sheet.len() <= SHEET_LIMIT {
                sheet.extend(filler);
            }
            sheet.truncate(SHEET_LIMIT + random.below(3) as usize);
        }
    }
    sheet
}

fn damage_line(random: &mut Random, line: &mut Vec<u8>) {
    let at = random.below(line.len() as u64) as usize;
    let bytes = b"019 ,-=\r\tanhx\x00\xff\n";
    match random.below(4) {
        0 => {
            line.remove(at);
        }
        1 => line.insert(at, random.pick(bytes)),
        2 => line[at] = random.pick(bytes),
        _ => {
            let filler = random.below(130) as usize;
            line.splice(at..at, std::iter::repeat_n(b'1', filler));
        }
    }
}

/// Lines that are nearly readable, or just so.
fn odd_line(random: &mut Random) -> Vec<u8> {
    let line = random.pick(&[
        "hand=00",
        "hand=18446744073709551616",
        "hand=18446744073709551615",
        "hand=",
        "hand",
        "Hand=0",
        "show=1",
        "send=1",
        "",
        "parties=9",
        "parties=0",
        "faults=01",
        "faults=18446744073709551615",
        "faulty=",
        "faulty=0",
        "faulty=2,1",
        "faulty=1,1",
        "faulty=65",
        "faulty=64",
        "faulty=1,",
        "own=1,1",
        "own=1,4294967296,1",
        "own=1,1,65536",
        "own=1,4294967295,65535",
        "own=18446744073709551616,1,1",
        "own=pace,0",
        "own=pace,601",
        "own=pace,600",
        "own=pace,01",
        "own=blank",
        "own=hold,1",
        "own=-",
        "kind=Block",
        "kind=blocks",
    ]);
    let mut line = line.as_bytes().to_vec();
    if random.chance(90) {
        line.push(b'\n');
    }
    line
}
