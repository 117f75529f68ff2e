//! The commands of `hlr` on rows in plain Rust that is tuned by hand, to measure `hlr` beside.
//!
//!     rustc --edition 2021 -O bench/plain.rs -o /tmp/bench/plain                   tables in order, as `BTreeMap`s
//!     rustc --edition 2021 -O --cfg hash bench/plain.rs -o /tmp/bench/plain_hash   hash maps, which keep no order
//!     /tmp/bench/plain --zone W < in.csv > out.txt
//!
//! Records are read where they lie in a buffer, and answers are formatted into one other. Keys of two or three fields are packed
//! into one number. Subscribers are found by their numbers in a hash map, in both. There is one owner, and a field
//! may have no quotes. It answers all commands but those of parts, `regions`, `propose` and `recut`; `give` and `take` move
//! one loose piece, and nothing of them is refused.
#![allow(unexpected_cfgs)]
#[cfg(not(hash))]
use std::collections::btree_map::{BTreeMap, Entry};
#[cfg(hash)]
use std::collections::hash_map::Entry;
use std::collections::hash_map::{self, HashMap};
use std::hash::{BuildHasherDefault, Hasher};
use std::io::{self, Read, Write};
use std::ops::Range;

/// A hash of one number: both halves of its product with an odd constant.
#[derive(Default)]
struct Folded(u64);

impl Hasher for Folded {
    fn write(&mut self, _: &[u8]) {
        unreachable!("keys are numbers")
    }

    fn write_u32(&mut self, key: u32) {
        self.write_u64(key.into());
    }

    fn write_u64(&mut self, key: u64) {
        let product = u128::from(key) * 0xA076_1D64_78BD_642F;
        self.0 = product as u64 ^ (product >> 64) as u64;
    }

    fn finish(&self) -> u64 {
        self.0
    }
}

type Hashed<K, V> = HashMap<K, V, BuildHasherDefault<Folded>>;
#[cfg(hash)]
type Table<V> = Hashed<u32, V>;
#[cfg(not(hash))]
type Table<V> = BTreeMap<u32, V>;

/// Takes the rows from a key on out of a table.
fn cut<V>(table: &mut Table<V>, from: u32) -> Table<V> {
    #[cfg(not(hash))]
    return table.split_off(&from);
    #[cfg(hash)]
    return table.extract_if(|key, _| *key >= from).collect();
}

/// Puts rows back.
fn join<V>(table: &mut Table<V>, mut rows: Table<V>) {
    #[cfg(not(hash))]
    table.append(&mut rows);
    #[cfg(hash)]
    table.extend(rows.drain());
}

/// Calls `visit` with the start and the row of each forwarding of a facility that starts by an hour, by their starts.
#[inline(always)]
fn forwardings(table: &Table<Forwarding>, facility: u32, by: u8, mut visit: impl FnMut(u8, &Forwarding)) {
    for start in (0..=by).step_by(8) {
        if let Some(row) = table.get(&forwarding_key(facility, start)) {
            visit(start, row);
        }
    }
}

struct Subscriber {
    number: u64,
    msc: u32,
    vlr: u32,
    bits: u16,
    hexes: [u8; 5],
    bytes: [u8; 10],
}

struct Access {
    data: [u8; 2],
    letters: ([u8; 3], [u8; 5]),
}

#[allow(dead_code)]
struct Facility {
    active: bool,
    error: u8,
    data: u8,
    letters: [u8; 5],
}

struct Forwarding {
    end: u8,
    number: u64,
}

/// The key of a subscriber's row of a type.
fn typed_key(subscriber: u32, kind: u8) -> u32 {
    subscriber << 2 | u32::from(kind - 1)
}

fn forwarding_key(facility: u32, start: u8) -> u32 {
    facility << 2 | u32::from(start / 8)
}

/// Why a record isn't done: its code and name.
#[derive(Clone, Copy)]
enum Refusal {
    Field = 2,
    NoSubscriber = 3,
    NoNumber = 4,
    NoAccess = 5,
    NoFacility = 6,
    NoForwarding = 7,
    NoDestination = 8,
    Exists = 9,
    NumberTaken = 10,
    NoPart = 12,
    NoPiece = 13,
    Syntax = 19,
}

use Refusal::*;

const NAMES: [&str; 20] = [
    "",
    "",
    "Field",
    "NoSubscriber",
    "NoNumber",
    "NoAccess",
    "NoFacility",
    "NoForwarding",
    "NoDestination",
    "Exists",
    "NumberTaken",
    "",
    "NoPart",
    "NoPiece",
    "",
    "",
    "",
    "",
    "",
    "Syntax",
];

/// A decimal number in a range.
#[inline(always)]
fn decimal(text: &[u8], least: u64, most: u64) -> Result<u64, Refusal> {
    let mut value = 0u64;
    for byte in text {
        let digit = byte.wrapping_sub(b'0');
        if digit > 9 {
            return Err(Field);
        }
        // Only from the twentieth digit on can it be too great.
        value = if text.len() < 20 {
            value * 10 + u64::from(digit)
        } else {
            value
                .checked_mul(10)
                .and_then(|tens| tens.checked_add(digit.into()))
                .ok_or(Field)?
        };
    }
    if text.is_empty() || value < least || value > most {
        Err(Field)
    } else {
        Ok(value)
    }
}

fn subscriber_id(text: &[u8]) -> Result<u32, Refusal> {
    decimal(text, 1, 1 << 24).map(|value| value as u32)
}

fn kind(text: &[u8]) -> Result<u8, Refusal> {
    decimal(text, 1, 4).map(|value| value as u8)
}

fn small(text: &[u8]) -> Result<u8, Refusal> {
    decimal(text, 0, 255).map(|value| value as u8)
}

fn flag(text: &[u8]) -> Result<bool, Refusal> {
    decimal(text, 0, 1).map(|value| value == 1)
}

fn location(text: &[u8]) -> Result<u32, Refusal> {
    decimal(text, 1, u32::MAX.into()).map(|value| value as u32)
}

fn start_hour(text: &[u8]) -> Result<u8, Refusal> {
    let hour = decimal(text, 0, 16)? as u8;
    if hour % 8 == 0 {
        Ok(hour)
    } else {
        Err(Field)
    }
}

fn end_hour(text: &[u8]) -> Result<u8, Refusal> {
    decimal(text, 1, 24).map(|value| value as u8)
}

fn phone(text: &[u8]) -> Result<u64, Refusal> {
    let digits: &[u8; 15] = text.try_into().map_err(|_| Field)?;
    decimal(digits, 0, u64::MAX)
}

fn ten_bits(text: &[u8]) -> Result<u16, Refusal> {
    let digits: &[u8; 10] = text.try_into().map_err(|_| Field)?;
    digits.iter().try_fold(0, |bits, digit| match digit {
        b'0' | b'1' => Ok(bits << 1 | u16::from(digit & 1)),
        _ => Err(Field),
    })
}

/// The value of each byte as a hexadecimal digit, and 255 of those that are none.
const NIBBLES: [u8; 256] = {
    let mut nibbles = [255; 256];
    let mut value = 0;
    while value < 16 {
        let digit = b"0123456789abcdef"[value];
        nibbles[digit as usize] = value as u8;
        nibbles[digit.to_ascii_uppercase() as usize] = value as u8;
        value += 1;
    }
    nibbles
};

fn packed<const COUNT: usize>(text: &[u8]) -> Result<[u8; COUNT], Refusal> {
    let mut bytes = [0; COUNT];
    if text.len() != 2 * COUNT {
        return Err(Field);
    }
    for (byte, pair) in bytes.iter_mut().zip(text.chunks_exact(2)) {
        let (high, low) = (NIBBLES[pair[0] as usize], NIBBLES[pair[1] as usize]);
        if high | low > 15 {
            return Err(Field);
        }
        *byte = high << 4 | low;
    }
    Ok(bytes)
}

fn letters<const COUNT: usize>(text: &[u8]) -> Result<[u8; COUNT], Refusal> {
    let letters: [u8; COUNT] = text.try_into().map_err(|_| Field)?;
    if letters.iter().all(u8::is_ascii_uppercase) {
        Ok(letters)
    } else {
        Err(Field)
    }
}

/// The two digits of each number below 100.
const PAIRS: [[u8; 2]; 100] = {
    let mut pairs = [[0; 2]; 100];
    let mut value = 0;
    while value < 100 {
        pairs[value] = [b'0' + value as u8 / 10, b'0' + value as u8 % 10];
        value += 1;
    }
    pairs
};

/// The answers that aren't written yet.
struct Answers(Vec<u8>);

impl Answers {
    #[inline(always)]
    fn text(&mut self, text: &[u8]) {
        self.0.extend_from_slice(text);
    }

    /// A number with a byte in front.
    #[inline(always)]
    fn decimal(&mut self, front: u8, mut value: u64) {
        let mut digits = [0; 22];
        let mut place = digits.len();
        while value >= 100 {
            place -= 2;
            digits[place..place + 2].copy_from_slice(&PAIRS[(value % 100) as usize]);
            value /= 100;
        }
        if value >= 10 {
            place -= 2;
            digits[place..place + 2].copy_from_slice(&PAIRS[value as usize]);
        } else {
            place -= 1;
            digits[place] = b'0' + value as u8;
        }
        place -= 1;
        digits[place] = front;
        self.text(&digits[place..]);
    }

    /// A number that may be below 0, with a comma in front.
    fn signed(&mut self, value: i64) {
        if value < 0 {
            self.text(b",");
        }
        self.decimal(if value < 0 { b'-' } else { b',' }, value.unsigned_abs());
    }

    /// A number of 15 digits with a comma in front.
    #[inline(always)]
    fn phone(&mut self, number: u64) {
        let mut digits = [b','; 16];
        digits[1] = b'0' + (number / 100_000_000_000_000) as u8;
        let (high, low) = ((number / 100_000_000 % 1_000_000) as u32, (number % 100_000_000) as u32);
        for (place, pair) in [high / 10_000, high / 100 % 100, high % 100].into_iter().enumerate() {
            digits[2 + 2 * place..4 + 2 * place].copy_from_slice(&PAIRS[pair as usize]);
        }
        for (place, pair) in [low / 1_000_000, low / 10_000 % 100, low / 100 % 100, low % 100]
            .into_iter()
            .enumerate()
        {
            digits[8 + 2 * place..10 + 2 * place].copy_from_slice(&PAIRS[pair as usize]);
        }
        self.text(&digits);
    }

    /// Bytes in hexadecimal, with a comma in front.
    #[inline(always)]
    fn hexadecimal<const COUNT: usize>(&mut self, bytes: &[u8; COUNT]) {
        self.text(b",");
        let mut digits = [[0; 2]; COUNT];
        for (pair, byte) in digits.iter_mut().zip(bytes) {
            *pair = [
                b"0123456789abcdef"[usize::from(byte >> 4)],
                b"0123456789abcdef"[usize::from(byte & 15)],
            ];
        }
        self.text(digits.as_flattened());
    }

    /// The answer of a report: how many lines it has.
    fn listed(&mut self, name: &[u8], lines: u64) {
        self.text(name);
        self.decimal(b',', lines);
        self.text(b"\n");
    }
}

const CELLS: usize = 72;

/// The counts of all cells: the hours, from 24 on the areas, from 40 on the zones.
struct Counts([i64; CELLS]);

impl Counts {
    fn area(&mut self, location: u32, change: i64) {
        self.0[24 + (location >> 28) as usize] += change;
    }

    fn zone(&mut self, subscriber: u32, width: u32, change: i64) {
        self.0[40 + ((subscriber - 1) / width).min(31) as usize] += change;
    }

    fn hours(&mut self, hours: Range<u8>, change: i64) {
        for hour in hours {
            self.0[usize::from(hour)] += change;
        }
    }
}

#[derive(Default)]
struct Tables {
    subscribers: Table<Subscriber>,
    accesses: Table<Access>,
    facilities: Table<Facility>,
    forwardings: Table<Forwarding>,
}

struct Store {
    width: u32,
    rows: Tables,
    numbers: Hashed<u64, u32>,
    counts: Counts,
    published: [i64; CELLS],
    piece: Option<Tables>,
}

impl Store {
    fn new(width: u32) -> Store {
        Store {
            width,
            rows: Tables::default(),
            numbers: Hashed::default(),
            counts: Counts([0; CELLS]),
            published: [0; CELLS],
            piece: None,
        }
    }

    /// Answers a record.
    fn answer(&mut self, fields: &[&[u8]], answers: &mut Answers) -> Result<(), Refusal> {
        match *fields {
            [b"gsd", id] => return self.subscriber_data(id, answers),
            [b"gad", id, of] => return self.access_data(id, of, answers),
            [b"gnd", id, of, start, end] => return self.new_destination(id, of, start, end, answers),
            [b"ul", number, to] => self.update_location(number, to)?,
            [b"usd", id, of, bit, data] => self.update_subscriber(id, of, bit, data)?,
            [b"icf", number, of, start, end, to] => self.insert_forwarding(number, of, start, end, to)?,
            [b"dcf", number, of, start] => self.delete_forwarding(number, of, start)?,
            [b"sub", ref row @ ..] if row.len() == 7 => self.add_subscriber(row)?,
            [b"acc", ref row @ ..] if row.len() == 6 => self.add_access(row)?,
            [b"fac", ref row @ ..] if row.len() == 6 => self.add_facility(row)?,
            [b"active", id, of, on] => self.set_active(id, of, on)?,
            [b"number", id, number] => self.set_number(id, number)?,
            [b"post", part, limit] => return self.post(part, limit, answers),
            [b"views"] => return self.views(answers),
            [b"scan"] => return self.scan(answers),
            [b"index"] => return self.index(answers),
            [b"give", _, _, at] => return self.give(at, answers),
            [b"take", _, _] => return self.take(answers),
            _ => return Err(Syntax),
        }
        answers.text(b"ok\n");
        Ok(())
    }

    fn subscriber_data(&self, id: &[u8], answers: &mut Answers) -> Result<(), Refusal> {
        let id = subscriber_id(id)?;
        let row = self.rows.subscribers.get(&id).ok_or(NoSubscriber)?;
        let mut bits = *b",0000000000";
        for (place, digit) in bits[1..].iter_mut().enumerate() {
            *digit |= (row.bits >> (9 - place) & 1) as u8;
        }
        answers.text(b"subscriber");
        answers.decimal(b',', id.into());
        answers.phone(row.number);
        answers.text(&bits);
        answers.hexadecimal(&row.hexes);
        answers.hexadecimal(&row.bytes);
        answers.decimal(b',', row.msc.into());
        answers.decimal(b',', row.vlr.into());
        answers.text(b"\n");
        Ok(())
    }

    fn access_data(&self, id: &[u8], of: &[u8], answers: &mut Answers) -> Result<(), Refusal> {
        let key = typed_key(subscriber_id(id)?, kind(of)?);
        let row = self.rows.accesses.get(&key).ok_or(NoAccess)?;
        answers.text(b"access");
        answers.decimal(b',', row.data[0].into());
        answers.decimal(b',', row.data[1].into());
        answers.text(b",");
        answers.text(&row.letters.0);
        answers.text(b",");
        answers.text(&row.letters.1);
        answers.text(b"\n");
        Ok(())
    }

    fn new_destination(
        &self,
        id: &[u8],
        of: &[u8],
        start: &[u8],
        end: &[u8],
        answers: &mut Answers,
    ) -> Result<(), Refusal> {
        let (key, start, end) = (
            typed_key(subscriber_id(id)?, kind(of)?),
            start_hour(start)?,
            end_hour(end)?,
        );
        if !self.rows.facilities.get(&key).is_some_and(|row| row.active) {
            return Err(NoDestination);
        }
        let mut found = false;
        forwardings(&self.rows.forwardings, key, start, |_, row| {
            if end < row.end {
                if !found {
                    answers.text(b"numbers");
                }
                found = true;
                answers.phone(row.number);
            }
        });
        if !found {
            return Err(NoDestination);
        }
        answers.text(b"\n");
        Ok(())
    }

    fn update_location(&mut self, number: &[u8], to: &[u8]) -> Result<(), Refusal> {
        let (number, to) = (phone(number)?, location(to)?);
        let id = self.numbers.get(&number).ok_or(NoNumber)?;
        let row = self.rows.subscribers.get_mut(id).ok_or(NoSubscriber)?;
        self.counts.area(row.vlr, -1);
        self.counts.area(to, 1);
        row.vlr = to;
        Ok(())
    }

    fn update_subscriber(&mut self, id: &[u8], of: &[u8], bit: &[u8], data: &[u8]) -> Result<(), Refusal> {
        let (id, of, bit, data) = (subscriber_id(id)?, kind(of)?, flag(bit)?, small(data)?);
        let row = self.rows.subscribers.get_mut(&id).ok_or(NoSubscriber)?;
        let facility = self.rows.facilities.get_mut(&typed_key(id, of)).ok_or(NoFacility)?;
        row.bits = row.bits & 0x1FF | u16::from(bit) << 9;
        facility.data = data;
        Ok(())
    }

    fn insert_forwarding(
        &mut self,
        number: &[u8],
        of: &[u8],
        start: &[u8],
        end: &[u8],
        to: &[u8],
    ) -> Result<(), Refusal> {
        let (number, of, start, end, to) = (
            phone(number)?,
            kind(of)?,
            start_hour(start)?,
            end_hour(end)?,
            phone(to)?,
        );
        let id = *self.numbers.get(&number).ok_or(NoNumber)?;
        let key = typed_key(id, of);
        let active = self.rows.facilities.get(&key).ok_or(NoFacility)?.active;
        let Entry::Vacant(free) = self.rows.forwardings.entry(forwarding_key(key, start)) else {
            return Err(Exists);
        };
        free.insert(Forwarding { end, number: to });
        self.counts.zone(id, self.width, 1);
        if active {
            self.counts.hours(start..end, 1);
        }
        Ok(())
    }

    fn delete_forwarding(&mut self, number: &[u8], of: &[u8], start: &[u8]) -> Result<(), Refusal> {
        let (number, of, start) = (phone(number)?, kind(of)?, start_hour(start)?);
        let id = *self.numbers.get(&number).ok_or(NoNumber)?;
        let key = typed_key(id, of);
        let row = self
            .rows
            .forwardings
            .remove(&forwarding_key(key, start))
            .ok_or(NoForwarding)?;
        self.counts.zone(id, self.width, -1);
        if self.rows.facilities.get(&key).is_some_and(|row| row.active) {
            self.counts.hours(start..row.end, -1);
        }
        Ok(())
    }

    fn add_subscriber(&mut self, fields: &[&[u8]]) -> Result<(), Refusal> {
        let id = subscriber_id(fields[0])?;
        let row = Subscriber {
            number: phone(fields[1])?,
            bits: ten_bits(fields[2])?,
            hexes: packed(fields[3])?,
            bytes: packed(fields[4])?,
            msc: location(fields[5])?,
            vlr: location(fields[6])?,
        };
        let Entry::Vacant(free) = self.rows.subscribers.entry(id) else {
            return Err(Exists);
        };
        let hash_map::Entry::Vacant(number) = self.numbers.entry(row.number) else {
            return Err(NumberTaken);
        };
        number.insert(id);
        self.counts.area(row.vlr, 1);
        self.counts.zone(id, self.width, 1);
        free.insert(row);
        Ok(())
    }

    fn add_access(&mut self, fields: &[&[u8]]) -> Result<(), Refusal> {
        let (id, of) = (subscriber_id(fields[0])?, kind(fields[1])?);
        let data = [small(fields[2])?, small(fields[3])?];
        let row = Access {
            data,
            letters: (letters(fields[4])?, letters(fields[5])?),
        };
        if !self.rows.subscribers.contains_key(&id) {
            return Err(NoSubscriber);
        }
        let Entry::Vacant(free) = self.rows.accesses.entry(typed_key(id, of)) else {
            return Err(Exists);
        };
        free.insert(row);
        self.counts.zone(id, self.width, 1);
        Ok(())
    }

    fn add_facility(&mut self, fields: &[&[u8]]) -> Result<(), Refusal> {
        let (id, of, active) = (subscriber_id(fields[0])?, kind(fields[1])?, flag(fields[2])?);
        let row = Facility {
            active,
            error: small(fields[3])?,
            data: small(fields[4])?,
            letters: letters(fields[5])?,
        };
        if !self.rows.subscribers.contains_key(&id) {
            return Err(NoSubscriber);
        }
        let Entry::Vacant(free) = self.rows.facilities.entry(typed_key(id, of)) else {
            return Err(Exists);
        };
        free.insert(row);
        self.counts.zone(id, self.width, 1);
        Ok(())
    }

    fn set_active(&mut self, id: &[u8], of: &[u8], on: &[u8]) -> Result<(), Refusal> {
        let (id, of, on) = (subscriber_id(id)?, kind(of)?, flag(on)?);
        let key = typed_key(id, of);
        let row = self.rows.facilities.get_mut(&key).ok_or(NoFacility)?;
        if row.active != on {
            row.active = on;
            let change = if on { 1 } else { -1 };
            forwardings(&self.rows.forwardings, key, 16, |start, row| {
                self.counts.hours(start..row.end, change)
            });
        }
        Ok(())
    }

    fn set_number(&mut self, id: &[u8], number: &[u8]) -> Result<(), Refusal> {
        let (id, number) = (subscriber_id(id)?, phone(number)?);
        let row = self.rows.subscribers.get_mut(&id).ok_or(NoSubscriber)?;
        match self.numbers.entry(number) {
            hash_map::Entry::Occupied(owner) if *owner.get() == id => return Ok(()),
            hash_map::Entry::Occupied(_) => return Err(NumberTaken),
            hash_map::Entry::Vacant(free) => free.insert(id),
        };
        self.numbers.remove(&row.number);
        row.number = number;
        Ok(())
    }

    fn post(&mut self, part: &[u8], limit: &[u8], answers: &mut Answers) -> Result<(), Refusal> {
        let (part, limit) = (decimal(part, 0, u64::MAX)?, decimal(limit, 0, u64::MAX)?);
        if part != 0 {
            return Err(NoPart);
        }
        let mut posted = 0;
        for (published, count) in self.published.iter_mut().zip(self.counts.0) {
            if posted < limit && *published != count {
                *published = count;
                posted += 1;
            }
        }
        answers.listed(b"posted", posted);
        Ok(())
    }

    fn views(&self, answers: &mut Answers) -> Result<(), Refusal> {
        let mut lines = 0;
        for (cell, (published, count)) in self.published.into_iter().zip(self.counts.0).enumerate() {
            if (published, count) != (0, 0) {
                lines += 1;
                answers.text(b"cell");
                answers.decimal(b',', cell as u64);
                answers.signed(published);
                answers.signed(count - published);
                answers.text(b"\n");
            }
        }
        answers.listed(b"views", lines);
        Ok(())
    }

    fn scan(&self, answers: &mut Answers) -> Result<(), Refusal> {
        let mut lines = 0;
        for (cell, count) in self.counts.0.into_iter().enumerate().filter(|(_, count)| *count != 0) {
            lines += 1;
            answers.text(b"cell");
            answers.decimal(b',', cell as u64);
            answers.signed(count);
            answers.text(b"\n");
        }
        answers.listed(b"scan", lines);
        Ok(())
    }

    fn index(&self, answers: &mut Answers) -> Result<(), Refusal> {
        let mut owners: Vec<_> = self.numbers.iter().collect();
        owners.sort_unstable();
        for (number, id) in &owners {
            answers.text(b"number");
            answers.phone(**number);
            answers.decimal(b',', u64::from(**id));
            answers.text(b"\n");
        }
        answers.listed(b"index", owners.len() as u64);
        Ok(())
    }

    fn give(&mut self, at: &[u8], answers: &mut Answers) -> Result<(), Refusal> {
        let at = subscriber_id(at)?;
        let rows = &mut self.rows;
        self.piece = Some(Tables {
            subscribers: cut(&mut rows.subscribers, at),
            accesses: cut(&mut rows.accesses, typed_key(at, 1)),
            facilities: cut(&mut rows.facilities, typed_key(at, 1)),
            forwardings: cut(&mut rows.forwardings, forwarding_key(typed_key(at, 1), 0)),
        });
        answers.text(b"piece,1");
        answers.decimal(b',', at.into());
        answers.text(b",16777217\n");
        Ok(())
    }

    fn take(&mut self, answers: &mut Answers) -> Result<(), Refusal> {
        let piece = self.piece.take().ok_or(NoPiece)?;
        join(&mut self.rows.subscribers, piece.subscribers);
        join(&mut self.rows.accesses, piece.accesses);
        join(&mut self.rows.facilities, piece.facilities);
        join(&mut self.rows.forwardings, piece.forwardings);
        answers.text(b"taken,1,0\n");
        Ok(())
    }
}

/// The most fields that are kept of a record: one more than any command has.
const FIELDS: usize = 9;

/// How long a buffer becomes before it is written, or how much is read at once.
const BUFFER: usize = 1 << 16;

/// Answers the records in a buffer, and tells how many of its bytes they were; the last one may have no line's end.
fn answer_all(store: &mut Store, bytes: &[u8], answers: &mut Answers) -> usize {
    let mut fields: [&[u8]; FIELDS] = [b""; FIELDS];
    let (mut count, mut start, mut record) = (0, 0, 0);
    for (place, byte) in bytes.iter().enumerate() {
        if !matches!(byte, b',' | b'\n') {
            continue;
        }
        let mut field = &bytes[start..place];
        start = place + 1;
        if *byte == b'\n' {
            field = field.strip_suffix(b"\r").unwrap_or(field);
        }
        if count < FIELDS {
            fields[count] = field;
            count += 1;
        }
        if *byte == b'\n' {
            if count > 1 || !field.is_empty() {
                if let Err(refusal) = store.answer(&fields[..count], answers) {
                    answers.text(b"refused");
                    answers.decimal(b',', refusal as u64);
                    answers.text(b",");
                    answers.text(NAMES[refusal as usize].as_bytes());
                    answers.text(b"\n");
                }
            }
            (count, record) = (0, start);
        }
    }
    record
}

fn main() -> io::Result<()> {
    let words: Vec<_> = std::env::args().skip(1).collect();
    let width = match words.as_slice() {
        [] => 524_288,
        [option, width] if option == "--zone" => width.parse().expect("a width"),
        _ => panic!("the only option is --zone W"),
    };
    let mut store = Store::new(width);
    let mut answers = Answers(Vec::with_capacity(2 * BUFFER));
    let (mut input, mut output) = (io::stdin().lock(), io::stdout().lock());
    let (mut buffer, mut held) = (vec![0; BUFFER], 0);
    loop {
        if held == buffer.len() {
            buffer.resize(2 * held, 0);
        }
        let read = input.read(&mut buffer[held..])?;
        if read == 0 {
            break;
        }
        held += read;
        let done = answer_all(&mut store, &buffer[..held], &mut answers);
        buffer.copy_within(done..held, 0);
        held -= done;
        output.write_all(&answers.0)?;
        answers.0.clear();
    }
    buffer.truncate(held);
    buffer.push(b'\n');
    answer_all(&mut store, &buffer, &mut answers);
    output.write_all(&answers.0)
}
