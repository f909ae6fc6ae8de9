//! bench_reference N ITER: one agreement of N honest parties, each message handed in the order
//! of posting, ITER times. Prints the posts of one agreement and the nanoseconds it takes.

use reference::ring::{Ring, State};
use reference::value::Block;
use reference::wire::Wire;
use std::error::Error;
use std::time::Instant;

/// More than an agreement of 64 ever has waiting at once.
const CAPACITY: usize = 100_000;

/// Runs one agreement to its end and counts the posts, those of the set-up included.
fn agreement(parties: u64) -> Result<u64, Box<dyn Error>> {
    let own: Vec<Block> =
        (1..=parties).map(|party| Block { first: 100, count: 50, party: party as u16 }).collect();
    let mut ring = Ring::new(Wire::new(CAPACITY));
    ring.set_up(parties, (parties - 1) / 3, 0, &own).map_err(|refusal| format!("{refusal:?}"))?;
    let mut posts = ring.wire().count() as u64;
    while ring.wire().count() > 0 {
        posts += ring.hand(0).map_err(|refusal| format!("{refusal:?}"))?;
    }
    for party in 1..=parties {
        let shown = ring.show(party).map_err(|refusal| format!("{refusal:?}"))?;
        if shown.state != State::Decided {
            return Err(format!("party {party} has not decided").into());
        }
    }
    Ok(posts)
}

fn main() -> Result<(), Box<dyn Error>> {
    let arguments: Vec<String> = std::env::args().skip(1).collect();
    let [parties, times] = &arguments[..] else {
        return Err("usage: bench_reference N ITER".into());
    };
    let parties: u64 = parties.parse()?;
    let times: u64 = times.parse::<u64>()?.max(1);
    let posts = agreement(parties)?;
    let start = Instant::now();
    for _ in 0..times {
        if agreement(parties)? != posts {
            return Err("two equal agreements had different posts".into());
        }
    }
    let nanoseconds = start.elapsed().as_nanos() / u128::from(times);
    println!("parties={parties}\nposts={posts}\nnanoseconds={nanoseconds}");
    Ok(())
}
