//! Run sheets: the worked example, the edges of the format, the stored listings, and what the
//! random sheets reach.

use reference::generate::random_sheet;
use reference::random::Random;
use reference::refusal::Refusal;
use reference::ring::State;
use reference::run::{apply, listing, set_up};
use reference::sheet::{AnySheet, Sheet, read_sheet};
use reference::value::Value;
use std::collections::BTreeSet;

const HEAD: &str = "kind=block\nparties=1\nfaults=0\nfaulty=none\nown=100,50,1\n";

fn unreadable(sheet: &str, line: usize) {
    let expected = format!("stopped=8\nline={line}\n");
    assert_eq!(listing(sheet.as_bytes()), expected, "{sheet:?}");
}

fn refused_set_up(sheet: &str, number: u8) {
    assert_eq!(listing(sheet.as_bytes()), format!("stopped={number}\nline=0\n"), "{sheet:?}");
}

#[test]
fn one_party_decides_in_ten_hands() {
    let sheet = HEAD.to_string() + &"hand=0\n".repeat(11);
    let expected = "calls=11\nrefused=1\nwaiting=0\nparty=1\nstate=decided\nview=1\nlock=1\n\
                    value=100,50,1\n";
    assert_eq!(listing(sheet.as_bytes()), expected);
}

#[test]
fn lines_that_are_missing_or_cut() {
    unreadable("", 1);
    unreadable("kind=block", 1);
    unreadable("kind=block\n", 2);
    unreadable("kind=block\nparties=1\n", 3);
    unreadable("kind=block\nparties=1\nfaults=0\n", 4);
    unreadable("kind=block\nparties=1\nfaulty=none\n", 4);
    unreadable("kind=block\nparties=2\nfaulty=none\nown=1,1,1\n", 5);
    unreadable(&format!("{HEAD}hand=0"), 6);
    unreadable(&format!("{HEAD}\n"), 6);
}

#[test]
fn lines_that_are_wrong() {
    unreadable("kind=blocks\n", 1);
    unreadable("kind=block\nparties=9\n", 2);
    unreadable("kind=block\nparties=01\n", 2);
    unreadable("kind=block\nparties=1\nfaults=18446744073709551616\n", 3);
    unreadable("kind=block\nparties=1\nfaulty=2,1\nown=1,1,1\n", 3);
    unreadable("kind=block\nparties=1\nfaulty=65\nown=1,1,1\n", 3);
    unreadable("kind=block\nparties=1\nfaulty=none\nown=-\n", 4);
    unreadable("kind=block\nparties=1\nfaulty=1\nown=1,1,1\n", 4);
    unreadable("kind=block\nparties=1\nfaulty=none\nown=1,4294967296,1\n", 4);
    unreadable("kind=block\nparties=1\nfaulty=none\nown=1,1,65536\n", 4);
    unreadable("kind=order\nparties=1\nfaulty=none\nown=pace,601\n", 4);
    unreadable("kind=order\nparties=1\nfaulty=none\nown=pace,0\n", 4);
    unreadable(&format!("{HEAD}own=1,1,1\n"), 6);
    unreadable(&format!("{HEAD}show=1\n"), 6);
    unreadable(&format!("{HEAD}hand=0\r\n"), 6);
    // An unreadable line is told before a refused set-up.
    unreadable("kind=block\nparties=0\nfaulty=none\nhand\n", 4);
}

#[test]
fn set_ups_that_are_refused() {
    refused_set_up("kind=block\nparties=0\nfaulty=none\n", 1);
    refused_set_up(
        "kind=order\nparties=3\nfaults=1\nfaulty=none\nown=hold\nown=hold\nown=hold\n",
        1,
    );
    refused_set_up("kind=order\nparties=1\nfaulty=2\nown=hold\n", 2);
    refused_set_up("kind=order\nparties=1\nfaulty=1\nown=-\n", 3);
    refused_set_up("kind=block\nparties=1\nfaulty=none\nown=0,0,0\n", 5);
}

#[test]
fn long_lines_and_long_sheets() {
    let line = |length: usize| format!("hand={}\n", "1".repeat(length - 5));
    unreadable(&format!("{HEAD}{}", line(120)), 6);
    // A faulty line can be long and right: 1 to 43 takes 120 bytes.
    let faulty = |last: u64| {
        let numbers: Vec<String> = (1..=last).map(|party| party.to_string()).collect();
        format!("kind=order\nparties=0\nfaulty={}\n", numbers.join(","))
    };
    assert_eq!(faulty(43).lines().nth(2).map(str::len), Some(126));
    assert_eq!(faulty(41).lines().nth(2).map(str::len), Some(120));
    refused_set_up(&faulty(41), 1);
    unreadable(&faulty(42), 3);

    let mut sheet = HEAD.to_string();
    while sheet.len() + 7 <= 60_000 {
        sheet += "hand=0\n";
    }
    let rest = 60_000 - sheet.len();
    let full = sheet.clone().replacen("hand=0", &format!("hand={}0", "1".repeat(rest)), 1);
    assert_eq!(full.len(), 60_000);
    assert!(listing(full.as_bytes()).starts_with("calls="));
    let over = full.replacen("hand=1", "hand=11", 1);
    unreadable(&over, over.lines().count());
}

#[test]
fn stored_listings() {
    let directory = concat!(env!("CARGO_MANIFEST_DIR"), "/../sheets");
    let mut count = 0;
    for entry in std::fs::read_dir(directory).expect("the folder of sheets") {
        let path = entry.expect("an entry").path();
        if path.extension().is_some_and(|extension| extension == "sheet") {
            let sheet = std::fs::read(&path).expect("a sheet");
            let stored = std::fs::read_to_string(path.with_extension("listing"));
            assert_eq!(listing(&sheet), stored.expect("a listing"), "{}", path.display());
            count += 1;
        }
    }
    assert!(count >= 25);
}

/// What the random sheets have met.
#[derive(Default)]
struct Reached {
    set_up: BTreeSet<u8>,
    calls: BTreeSet<u8>,
    unreadable: usize,
    all_decided: usize,
    decided_later: usize,
    locked_open: usize,
}

fn follow<V: Value>(sheet: &Sheet<V>, reached: &mut Reached) {
    let mut ring = match set_up(sheet) {
        Ok(ring) => ring,
        Err(refusal) => {
            reached.set_up.insert(refusal.number());
            return;
        }
    };
    for &call in &sheet.calls {
        if let Err(refusal) = apply(&mut ring, call) {
            reached.calls.insert(refusal.number());
        }
    }
    let shown: Vec<_> = (1..=sheet.parties).filter_map(|party| ring.show(party).ok()).collect();
    let open = shown.iter().filter(|shown| shown.state == State::Open);
    reached.locked_open += usize::from(open.clone().any(|shown| shown.lock > 0));
    reached.all_decided += usize::from(open.count() == 0);
    let later = shown.iter().any(|shown| shown.state == State::Decided && shown.view > 2);
    reached.decided_later += usize::from(later);
}

#[test]
fn random_sheets_reach_what_they_should() {
    let mut reached = Reached::default();
    for seed in 0..1_000 {
        let sheet = random_sheet(&mut Random::new(seed));
        assert!(sheet.len() <= 70_000);
        match read_sheet(&sheet) {
            Ok(AnySheet::Blocks(sheet)) => follow(&sheet, &mut reached),
            Ok(AnySheet::Orders(sheet)) => follow(&sheet, &mut reached),
            Err(_) => reached.unreadable += 1,
        }
    }
    println!(
        "set-up {:?}, calls {:?}, unreadable {}, all decided {}, decided after view 2 {}, locked and open {}",
        reached.set_up,
        reached.calls,
        reached.unreadable,
        reached.all_decided,
        reached.decided_later,
        reached.locked_open
    );
    let numbers = |refusals: &[Refusal]| refusals.iter().map(|r| r.number()).collect();
    let set_up_refusals = [Refusal::Shape, Refusal::Party, Refusal::Honesty, Refusal::OwnValue];
    assert_eq!(reached.set_up, numbers(&set_up_refusals));
    let call_refusals =
        [Refusal::Party, Refusal::Honesty, Refusal::Place, Refusal::Room, Refusal::Decided];
    assert_eq!(reached.calls, numbers(&call_refusals));
    assert!(reached.unreadable > 50 && reached.all_decided > 200);
    assert!(reached.decided_later > 50 && reached.locked_open > 20);
}
