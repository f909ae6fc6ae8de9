//! The ring's calls: their refusals in order, and a lock that proofs open.

use reference::message::{Content, Fields, Message, Round};
use reference::party::Proposal;
use reference::refusal::Refusal;
use reference::ring::{Ring, Shown, State};
use reference::value::{Order, Value};
use reference::wire::Wire;

const X: Order = Order::Hold;
const Y: Order = Order::Resume;

/// Four parties, the third faulty.
fn ring_of_four(capacity: usize) -> Ring<Order> {
    let mut ring = Ring::new(Wire::new(capacity));
    assert_eq!(ring.set_up(4, 1, 0b0100, &[X, Y, Order::Blank, Y]), Ok(0));
    ring
}

fn fields(from: i64, to: i64, content: Content<Order>) -> Fields<Order> {
    Message { from, to, content }.fields()
}

#[test]
fn set_up_refuses_in_order() {
    let set_up =
        |wire: Wire<Order>, n, f, faulty, own: &[Order]| Ring::new(wire).set_up(n, f, faulty, own);
    let wire = || Wire::new(16);
    let used = || {
        let mut wire = Wire::new(1);
        let request = Message { from: 1, to: 1, content: Content::Request { view: 1 } };
        assert_eq!(wire.post(request), Ok(()));
        assert_eq!(wire.post(request), Err(Refusal::Room));
        wire
    };
    let blank = Order::Blank;
    assert_eq!(set_up(used(), 3, 1, 0b1000, &[]), Err(Refusal::Shape));
    assert_eq!(set_up(used(), 4, 1, 0b1_0011, &[]), Err(Refusal::Party));
    assert_eq!(set_up(used(), 4, 1, 0b0011, &[]), Err(Refusal::Honesty));
    assert_eq!(set_up(used(), 4, 1, 0b0001, &[blank; 3]), Err(Refusal::Table));
    assert_eq!(set_up(used(), 4, 1, 0b0001, &[blank; 4]), Err(Refusal::OwnValue));
    assert_eq!(set_up(used(), 4, 1, 0b0001, &[blank, X, X, X]), Err(Refusal::WireInUse));
    assert_eq!(set_up(Wire::new(15), 4, 1, 0b0001, &[blank, X, X, X]), Err(Refusal::Room));
    assert_eq!(set_up(wire(), 4, 1, 0b0001, &[blank, X, X, X]), Ok(0));
}

#[test]
fn before_set_up_there_is_no_party() {
    let mut wire = Wire::new(30);
    let request = Message { from: 1, to: 1, content: Content::Request { view: 1 } };
    assert_eq!(wire.post(request), Ok(()));
    let mut ring: Ring<Order> = Ring::new(wire);
    assert_eq!(ring.hand(0), Err(Refusal::Party));
    assert_eq!(ring.repeat(1), Err(Refusal::Place));
    assert_eq!(ring.timer(1), Err(Refusal::Party));
    assert_eq!(ring.send(&request.fields()), Err(Refusal::Party));
    assert!(ring.show(1).is_err());
    assert_eq!(ring.lose(0), Ok(0));
}

#[test]
fn room_is_asked_before_taking_out() {
    // The set-up posts 12 messages; a step of four asks for 20.
    let mut tight = ring_of_four(31);
    assert_eq!(tight.hand(0), Err(Refusal::Room));
    assert_eq!(tight.timer(1), Err(Refusal::Room));
    assert_eq!(tight.hand(12), Err(Refusal::Place));
    assert_eq!(tight.wire().count(), 12);
    let mut enough = ring_of_four(32);
    assert!(enough.hand(0).is_ok());
}

#[test]
fn send_refuses_in_order() {
    let mut ring = ring_of_four(16);
    let good = fields(3, 1, Content::Done { value: X });
    assert_eq!(ring.send(&Fields { from: 5, kind: 99, ..good }), Err(Refusal::Party));
    assert_eq!(ring.send(&Fields { to: 0, kind: 99, ..good }), Err(Refusal::Party));
    assert_eq!(ring.send(&Fields { from: 1, kind: 99, ..good }), Err(Refusal::Honesty));
    assert_eq!(ring.send(&Fields { kind: 99, ..good }), Err(Refusal::Field));
    assert_eq!(ring.send(&Fields { view: 1, ..good }), Err(Refusal::Field));
    for _ in 0..4 {
        assert_eq!(ring.send(&good), Ok(1));
    }
    assert_eq!(ring.send(&good), Err(Refusal::Room));
}

#[test]
fn timers_and_show() {
    let mut ring = ring_of_four(1_000);
    assert_eq!(ring.timer(0), Err(Refusal::Party));
    assert_eq!(ring.timer(5), Err(Refusal::Party));
    assert_eq!(ring.timer(3), Err(Refusal::Honesty));
    assert_eq!(ring.timer(1), Ok(4));
    assert_eq!(ring.timer(1), Ok(0));
    let faulty = Shown { state: State::Faulty, view: 0, lock: 0, value: Order::blank() };
    assert_eq!(ring.show(3), Ok(faulty));
    assert_eq!(ring.show(5), Err(Refusal::Party));
}

/// Liars are no voucher: their aborts of a far view bring nobody there.
#[test]
fn liars_alone_end_no_view() {
    let mut ring = Ring::new(Wire::new(1_000));
    let own = [X, X, X, X, X, Order::Blank, Order::Blank];
    assert_eq!(ring.set_up(7, 2, 0b110_0000, &own), Ok(0));
    for party in 1..=3 {
        assert_eq!(ring.timer(party), Ok(7));
    }
    let last = Content::Abort { view: 1_999_999_999 };
    for (from, to) in [(6, 1), (7, 1)] {
        assert_eq!(ring.send(&fields(from, to, last)), Ok(1));
    }
    while ring.wire().count() > 0 {
        assert!(ring.hand(0).is_ok());
    }
    assert!((1..=5).all(|party| ring.show(party).is_ok_and(|shown| shown.view == 2)));
}

fn hand_all(ring: &mut Ring<Order>, wanted: impl Fn(&Message<Order>) -> bool) {
    let place = |ring: &Ring<Order>| ring.wire().messages().position(&wanted);
    while let Some(place) = place(ring) {
        assert!(ring.hand(place as u64).is_ok());
    }
}

/// The faulty party votes for a value in some rounds.
fn vote(ring: &mut Ring<Order>, view: i64, value: Order, receivers: &[i64], rounds: &[Round]) {
    for &to in receivers {
        for &round in rounds {
            let content = Content::Vote { round, view, value };
            assert_eq!(ring.send(&fields(3, to, content)), Ok(1));
        }
    }
}

fn give_up_view(ring: &mut Ring<Order>) {
    while ring.wire().count() > 0 {
        assert_eq!(ring.lose(0), Ok(0));
    }
    for party in [1, 2, 4] {
        assert_eq!(ring.timer(party), Ok(4));
    }
    hand_all(ring, |message| message.content.kind() == 11);
}

/// In view 1 only party 1 locks, on X. In view 2 the liar is primary and brings 2 and 4 to
/// key3 on Y. In view 3 party 1 gives up its lock by the proofs of 2 and 4.
#[test]
fn proofs_open_a_lock() {
    let mut ring = ring_of_four(1_000);
    let rounds = [Round::Echo, Round::Key1, Round::Key2];
    vote(&mut ring, 1, X, &[1, 2, 4], &rounds);
    vote(&mut ring, 1, X, &[1], &[Round::Key3]);
    hand_all(&mut ring, |message| message.content.kind() < 8 || message.to == 1);
    let lock = |ring: &Ring<Order>, party| ring.show(party).map(|shown| shown.lock);
    assert_eq!((lock(&ring, 1), lock(&ring, 2), lock(&ring, 4)), (Ok(1), Ok(0), Ok(0)));

    give_up_view(&mut ring);
    for to in [2, 4] {
        let propose = Content::Propose { view: 2, key: 0, value: Y };
        assert_eq!(ring.send(&fields(3, to, propose)), Ok(1));
    }
    vote(&mut ring, 2, Y, &[2, 4], &rounds);
    hand_all(&mut ring, |message| message.content.kind() < 8);
    let marks: Vec<(i64, Order)> = [2, 4]
        .into_iter()
        .filter_map(|party| ring.honest(party))
        .map(|party| (party.record().key3.view, party.record().key3.value))
        .collect();
    assert_eq!(marks, [(2, Y), (2, Y)]);

    give_up_view(&mut ring);
    hand_all(&mut ring, |message| message.content.kind() != 3);
    let proposal = |ring: &Ring<Order>| ring.honest(1).map(|party| party.proposal());
    assert_eq!(proposal(&ring), Some(Proposal::Waiting(Y)));
    hand_all(&mut ring, |message| message.content.kind() == 3);
    assert_eq!(proposal(&ring), Some(Proposal::Echoed));
    hand_all(&mut ring, |_| true);
    for party in [1, 2, 4] {
        let decided = Shown { state: State::Decided, view: 3, lock: 3, value: Y };
        assert_eq!(ring.show(party), Ok(decided));
    }
}
