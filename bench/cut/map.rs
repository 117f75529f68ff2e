//! Times cutting and joining a BTreeMap of rows of `SIZE` bytes: `map KEYS ROUNDS WAY`, where the way is `split`
//! (split_off and append) or `insert` (both maps built anew by insertion, and then the whole one).
#[path = "../clock.rs"]
mod clock;

use clock::{mix, now};
use std::collections::BTreeMap;
use std::mem;

/// The bytes of a row.
const SIZE: usize = 80;

type Row = [u8; SIZE];
type Map = BTreeMap<u64, Row>;

fn key_of(number: u64) -> u64 {
    mix(number) / 2
}

fn row_of(key: u64) -> Row {
    [(key % 256) as u8; SIZE]
}

fn built<'a>(rows: impl Iterator<Item = (&'a u64, &'a Row)>) -> Map {
    let mut map = Map::new();
    for (key, row) in rows {
        map.insert(*key, *row);
    }
    map
}

fn main() {
    let mut args = std::env::args().skip(1);
    let mut number = || args.next().unwrap().parse::<u64>().unwrap();
    let (count, rounds) = (number(), number());
    let by_insertion = args.next().unwrap_or_default() == "insert";
    let mut map = Map::new();
    for index in 0..count {
        let key = key_of(index);
        map.insert(key, row_of(key));
    }
    let (mut slice, mut meld, mut clock) = (0, 0, 0);
    for turn in 0..rounds {
        let key = key_of(mix(turn.wrapping_add(1_000_000_000)));
        let start = now();
        clock += now() - start;
        if by_insertion {
            let start = now();
            let low = built(map.range(..key));
            let high = built(map.range(key..));
            slice += now() - start;
            let start = now();
            let whole = built(low.iter().chain(high.iter()));
            meld += now() - start;
            map = whole;
        } else {
            let start = now();
            let mut high = map.split_off(&key);
            slice += now() - start;
            let start = now();
            map.append(&mut high);
            meld += now() - start;
        }
    }
    println!(
        "slice {slice}\nmeld {meld}\nclock {clock}\nrows {}",
        map.len()
    );
    mem::forget(map);
}
