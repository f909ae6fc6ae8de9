//! The worked figures of the rules.

use reference::frame::{frame_length, read_frame, write_frame};
use reference::message::{Content, Fields, Message, Proof, Round, Suggest};
use reference::party::{Mark, Party, Shape, bears_out, opens_lock, ranked};
use reference::refusal::Refusal;
use reference::ring::Ring;
use reference::value::{Block, Order, Value};
use reference::wire::Wire;

const X: Order = Order::Hold;
const Y: Order = Order::Resume;

fn block(first: u64, count: u32, party: u16) -> Block {
    Block { first, count, party }
}

#[test]
fn shapes_within_the_limits() {
    let set_up = |n: u64, f: u64| {
        let own = vec![X; 70];
        Ring::new(Wire::new(10_000)).set_up(n, f, 0, &own)
    };
    for (n, f) in [(4, 1), (64, 21), (1, 0), (2, 0)] {
        assert_eq!(set_up(n, f), Ok(0), "n = {n}, f = {f}");
    }
    for (n, f) in [(3, 1), (64, 22), (0, 0), (65, 0), (4, u64::MAX / 3 + 1)] {
        assert_eq!(set_up(n, f), Err(Refusal::Shape), "n = {n}, f = {f}");
    }
}

#[test]
fn a_proof_opens_locks() {
    let proof = Proof { key1: 5, value1: X, previous1: 2 };
    let opens = |view, value| opens_lock(&proof, &Mark { view, value }, 9);
    assert!(opens(2, X) && opens(3, Y));
    assert!(!opens(3, X) && !opens(6, Y));
    // The edges: a lock of key1's own view, and a key1 that is not of an earlier view.
    assert!(opens(5, Y) && !opens(5, X));
    let lock = Mark { view: 2, value: Y };
    assert!(opens_lock(&proof, &lock, 6) && !opens_lock(&proof, &lock, 5));
}

#[test]
fn a_suggest_bears_out_keys() {
    let suggest = Suggest { key3: 0, value3: X, key2: 5, value2: X, previous2: 2 };
    let bears = |view, value| bears_out(&suggest, &Mark { view, value }, 9);
    assert!(bears(2, Y) && bears(3, X));
    assert!(!bears(3, Y) && !bears(6, X));
    assert!(bears(5, X) && !bears(5, Y));
    let key3 = Mark { view: 2, value: X };
    assert!(bears_out(&suggest, &key3, 6) && !bears_out(&suggest, &key3, 5));
}

#[test]
fn ranks_of_aborts() {
    let aborts = [5, 3, 3, 0];
    let shape = Shape { parties: 4, faults: 1 };
    assert_eq!(ranked(aborts.into_iter(), shape.voucher()), 3);
    assert_eq!(ranked(aborts.into_iter(), shape.quorum()), 3);
}

/// Party 4 hears aborts 5, 3, 3 and joins with 3: view 3 becomes 4, and view 4 stays.
#[test]
fn a_quorum_of_aborts_ends_a_view() {
    let shape = Shape { parties: 4, faults: 1 };
    let abort = |from, view| Message { from, to: 4, content: Content::Abort { view } };
    let (mut party, first) = Party::new(4, shape, X);
    assert_eq!(first.len(), 4);
    assert_eq!(party.hear(&abort(1, 5)).len(), 0);
    let joined = party.hear(&abort(2, 3));
    assert_eq!(joined[0].content, Content::Abort { view: 3 });
    assert_eq!(joined[4].content, Content::Request { view: 4 });
    assert_eq!((joined.len(), party.record().view), (8, 4));
    assert_eq!(party.hear(&abort(3, 3)).len(), 0);
    assert_eq!(party.record().view, 4);
}

#[test]
fn allowed_values() {
    assert!(block(u64::MAX, 1, 1).allowed());
    assert!(!block(u64::MAX, 2, 1).allowed());
    assert!(block(0, 1_000_000, 64).allowed());
    assert!(!block(0, 1_000_001, 64).allowed());
    assert!(!block(0, 1, 65).allowed() && !block(0, 1, 0).allowed());
    assert!(!Block::blank().allowed() && !Order::blank().allowed());
    assert!(Order::pace(600).is_some_and(|order| order.allowed()));
    assert_eq!(Order::pace(601), None);
    assert_eq!(Order::from_bytes(&[3, 2, 0x59]), None);
    assert_eq!(Order::from_bytes(&[1, 0, 1]), None);
    assert_eq!(Order::from_bytes(&[4, 0, 0]), None);
}

fn pace_600() -> Order {
    Order::pace(600).expect("a pace")
}

fn proof_from_1_to_4() -> Message<Order> {
    let proof = Proof { key1: 0, value1: pace_600(), previous1: -1 };
    Message { from: 1, to: 4, content: Content::Proof { view: 3, proof } }
}

#[test]
fn a_frame_byte_for_byte() {
    let mut bytes = vec![0x55; frame_length::<Order>() + 1];
    assert_eq!(write_frame(&proof_from_1_to_4().fields(), &mut bytes), Ok(()));
    let expected = [
        3, 1, 4, 0, 0, 0, 0, 3, 0, 0, 0, 0, 0, 0, 0, 0, 255, 255, 255, 255, 3, 2, 0x58, 0, 0, 0,
        0x55,
    ];
    assert_eq!(bytes, expected);
    assert_eq!(read_frame(&bytes[..26]), Ok(proof_from_1_to_4()));
}

#[test]
fn frames_that_are_none() {
    let mut bytes = vec![0; frame_length::<Order>()];
    let _ = write_frame(&proof_from_1_to_4().fields(), &mut bytes);
    let damage = [
        (0, 12),
        (0, 0),
        (1, 0),
        (1, 65),
        (2, 0),
        (3, 1),
        (4, 0x80),
        (8, 0x78),
        (15, 1),
        (16, 0x7f),
        (19, 0xfe),
        (20, 4),
        (22, 0x59),
        (25, 1),
    ];
    for (at, byte) in damage {
        let mut damaged = bytes.clone();
        damaged[at] = byte;
        assert_eq!(read_frame::<Order>(&damaged), Err(Refusal::Frame), "byte {at}");
    }
    assert_eq!(read_frame::<Order>(&bytes[..25]), Err(Refusal::Frame));
    bytes.push(0);
    assert_eq!(read_frame::<Order>(&bytes), Err(Refusal::Frame));
}

#[test]
fn frames_that_are_not_written() {
    let good = proof_from_1_to_4().fields();
    let mut buffer = [7; 26];
    let bad: [Fields<Order>; 7] = [
        Fields { kind: 12, ..good },
        Fields { view: 0, ..good },
        Fields { view: 2_000_000_001, ..good },
        Fields { previous: -2, ..good },
        Fields { second_key: 1, ..good },
        Fields { second_value: X, ..good },
        Fields { to: 65, ..good },
    ];
    for fields in bad {
        assert_eq!(write_frame(&fields, &mut buffer), Err(Refusal::Field));
    }
    let bad_kind = Fields { kind: 12, ..good };
    assert_eq!(write_frame(&bad_kind, &mut buffer[..25]), Err(Refusal::Table));
    assert_eq!(buffer, [7; 26]);
}

#[test]
fn an_abort_never_names_the_last_view() {
    let fields = |view| Fields {
        kind: 11,
        from: 1,
        to: 1,
        view,
        key: 0,
        value: X,
        second_key: 0,
        second_value: X,
        previous: 0,
    };
    let blank = |view| Fields { value: Order::Blank, second_value: Order::Blank, ..fields(view) };
    assert!(Message::from_fields(&blank(1_999_999_999)).is_some());
    assert!(Message::from_fields(&blank(2_000_000_000)).is_none());
    assert!(Message::from_fields(&fields(1)).is_none());
}

/// A set of key3 that locks on the value of a waiting proposal echoes it: lock before echo.
#[test]
fn locking_on_the_waiting_value_echoes_it() {
    let shape = Shape { parties: 4, faults: 1 };
    let (mut party, _) = Party::new(1, shape, X);
    let said = |from, content| Message { from, to: 1, content };
    let key3 = |view, value| Content::Vote { round: Round::Key3, view, value };
    for from in 2..=4 {
        party.hear(&said(from, key3(1, X)));
    }
    for from in 2..=4 {
        party.hear(&said(from, Content::Abort { view: 1 }));
    }
    party.hear(&said(1, Content::Request { view: 2 }));
    let propose = Content::Propose { view: 2, key: 1, value: Y };
    assert_eq!(party.hear(&said(3, propose)).len(), 0);
    party.hear(&said(2, key3(2, Y)));
    party.hear(&said(3, key3(2, Y)));
    let kinds: Vec<i64> =
        party.hear(&said(4, key3(2, Y))).iter().map(|post| post.content.kind()).collect();
    assert_eq!(kinds, [9, 5]);
}
