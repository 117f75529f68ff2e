//! Times the operations of a BTreeMap of rows of `SIZE` bytes: `map KEYS ROUNDS WORDS`, where the words are letters of `grdk`
//! (get, replace, remove, the drawing of keys alone). Built with `--cfg bytes24` or `bytes40`, and `rising`.
#![allow(unexpected_cfgs)]
#[path = "../clock.rs"]
mod clock;

use clock::{mix, now};
use std::collections::BTreeMap;
use std::mem;

/// The bytes of a row.
const SIZE: usize = if cfg!(bytes24) {
    24
} else if cfg!(bytes40) {
    40
} else {
    80
};

/// Whether the keys are put in and taken out in rising order, or drawn.
const RISING: bool = cfg!(rising);

type Row = [u8; SIZE];
type Map = BTreeMap<u64, Row>;

fn key_of(number: u64) -> u64 {
    if RISING {
        number
    } else {
        mix(number) / 2
    }
}

fn draw(turn: u64, count: u64) -> u64 {
    (mix(turn) >> 32).wrapping_mul(count) >> 32
}

fn row_of(key: u64) -> Row {
    [(key % 256) as u8; SIZE]
}

fn insert_all(map: &mut Map, base: u64, count: u64) -> u64 {
    let mut sum = 0u64;
    for index in 0..count {
        let key = key_of(base.wrapping_add(index));
        if map.insert(key, row_of(key)).is_none() {
            sum = sum.wrapping_add(1);
        }
    }
    sum
}

fn get_all(map: &Map, base: u64, count: u64) -> u64 {
    let mut sum = 0u64;
    for index in 0..count {
        let key = key_of(base.wrapping_add(draw(base.wrapping_add(index), count)));
        if let Some(row) = map.get(&key) {
            sum = sum.wrapping_add(row[SIZE - 1] as u64);
        }
    }
    sum
}

fn replace(map: &mut Map, key: u64, row: Row) -> Result<Row, Row> {
    match map.get_mut(&key) {
        Some(place) => Ok(mem::replace(place, row)),
        None => Err(row),
    }
}

fn replace_all(map: &mut Map, base: u64, count: u64) -> u64 {
    let mut sum = 0u64;
    for index in 0..count {
        let key = key_of(base.wrapping_add(draw(base.wrapping_add(index), count)));
        if let Ok(row) = replace(map, key, row_of(key)) {
            sum = sum.wrapping_add(row[SIZE - 1] as u64);
        }
    }
    sum
}

fn remove_all(map: &mut Map, base: u64, count: u64) -> u64 {
    let mut sum = 0u64;
    for index in 0..count {
        let key = key_of(base.wrapping_add(index));
        if let Some(row) = map.remove(&key) {
            sum = sum.wrapping_add(row[SIZE - 1] as u64);
        }
    }
    sum
}

fn keys_alone(base: u64, count: u64) -> u64 {
    let mut sum = 0u64;
    for index in 0..count {
        let key = key_of(base.wrapping_add(draw(base.wrapping_add(index), count)));
        sum = sum.wrapping_add(key);
    }
    sum
}

fn main() {
    let mut args = std::env::args().skip(1);
    let mut number = || args.next().unwrap().parse::<u64>().unwrap();
    let (count, rounds) = (number(), number());
    let words = args.next().unwrap_or_default();
    let (mut insert, mut get, mut replace, mut remove, mut keys, mut sum) = (0, 0, 0, 0, 0, 0u64);
    for turn in 0..rounds {
        let base = turn.wrapping_mul(count);
        let mut map = Map::new();
        let start = now();
        sum = sum.wrapping_add(insert_all(&mut map, base, count));
        insert += now() - start;
        if words.contains('g') {
            let start = now();
            sum = sum.wrapping_add(get_all(&map, base, count));
            get += now() - start;
        }
        if words.contains('r') {
            let start = now();
            sum = sum.wrapping_add(replace_all(&mut map, base, count));
            replace += now() - start;
        }
        if words.contains('k') {
            let start = now();
            sum = sum.wrapping_add(keys_alone(base, count));
            keys += now() - start;
        }
        if words.contains('d') {
            let start = now();
            sum = sum.wrapping_add(remove_all(&mut map, base, count));
            remove += now() - start;
        }
        sum = sum.wrapping_add(map.len() as u64);
        mem::forget(map);
    }
    println!(
        "insert {insert}\nget {get}\nreplace {replace}\nremove {remove}\nkeys {keys}\nsum {sum}"
    );
}
