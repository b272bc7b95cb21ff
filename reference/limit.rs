//! The limit that babel-dump is measured against: a plain Rust program of the same words and texts,
//! as fast as we can write one. Std alone, safe, single-threaded, one file.
//!
//!     rustc -O --edition 2021 limit.rs
//! Each command takes `--v4-via-v6` too.
//!
//!     limit show [--hold] --from A [FILE]
//!     limit lookup [--hold] --from A --to D --src S [FILE]
//!     limit lookup [--hold] --from A --each PAIRS [FILE]
//!     limit pairs [--hold] [--count] [--routes] --from A [FILE]
//!     limit normalise [--hold] [--hex] [--body N] [--routes] --from A [FILE]
//!     limit compare [--hold] [--routes] [--all] [--count] --from A --other-from B FILE OTHER
//!     limit diff [--hold] --from A --other-from B FILE OTHER
//!
//! With --short, of each but normalise, addresses have their short texts (RFC 5952, 4).
//!
//! It reads packets where they lie in one buffer into rows, which it sorts once. Sorted rows are a
//! tree whose brackets are the destination prefixes: one pass over them gives runs of destinations
//! with one function of the source. The canonical pairs are the largest aligned blocks of the runs,
//! and a comparison is two such passes side by side. Routes are the rows themselves, and those of
//! two tables are compared row by row.

use std::cmp::Ordering;
use std::collections::hash_map::RandomState;
use std::collections::HashMap;
use std::fmt;
use std::fs::{self, File};
use std::hash::{BuildHasher, Hasher};
use std::io::{self, Read, Write};
use std::mem;
use std::net::{Ipv4Addr, Ipv6Addr};
use std::ops::{BitAnd, BitOr, BitXor, Not, Range};
use std::process::ExitCode;

const MAX_BYTES: u64 = 33_554_432;
const MAX_ENTRIES: usize = 262_144;
const USUAL_BODY: usize = 1_024;
const LEAST_BODY: usize = 128;
const LONGEST_PACKET: usize = 65_539;
const INFINITY: u16 = 0xffff;
const INTERVAL: u16 = 1_600;

// ---- addresses and prefixes

/// An address of one family: `u32` or `u128`.
trait Address:
    Copy
    + Ord
    + BitAnd<Output = Self>
    + BitOr<Output = Self>
    + BitXor<Output = Self>
    + Not<Output = Self>
    + 'static
{
    const WIDTH: u32;
    const ENCODING: u8;
    const ZERO: Self;
    const MAX: Self;

    /// Orders rows: the address, then what a tag holds.
    type Order: Ord;
    fn order(self, tag: u32) -> Self::Order;

    /// The address that the octets begin with, and the octets that it begins.
    fn load(octets: &[u8; 16]) -> Self;
    fn octets(self) -> [u8; 16];

    /// Shifts, by at most the width.
    fn up(self, bits: u32) -> Self;
    fn down(self, bits: u32) -> Self;

    fn next(self) -> Self;
    fn previous(self) -> Self;
    fn distance_from(self, lower: Self) -> Self;
    fn leading_zeros(self) -> u32;
    fn trailing_zeros(self) -> u32;
    fn count_ones(self) -> u32;
    fn low_word(self) -> u64;
    fn hashed(self, seed: &Seed, tag: u32) -> u64;
    fn print<W: Write>(self, out: &mut Out<W>);
    fn of(addr: Addr) -> Option<Self>;

    /// The highest bits, at most the width.
    fn top(bits: u32) -> Self;

    /// The last address of the block of so many bits that begins here.
    fn last(self, bits: u32) -> Self {
        self | !Self::top(Self::WIDTH - bits)
    }
}

macro_rules! address_numbers {
    ($number:ty) => {
        const WIDTH: u32 = <$number>::BITS;
        const ZERO: Self = 0;
        const MAX: Self = <$number>::MAX;

        fn load(octets: &[u8; 16]) -> Self {
            let mut own = [0; mem::size_of::<$number>()];
            own.copy_from_slice(&octets[..mem::size_of::<$number>()]);
            <$number>::from_be_bytes(own)
        }

        fn octets(self) -> [u8; 16] {
            let mut octets = [0; 16];
            octets[..mem::size_of::<$number>()].copy_from_slice(&self.to_be_bytes());
            octets
        }

        fn next(self) -> Self {
            self.wrapping_add(1)
        }

        fn previous(self) -> Self {
            self.wrapping_sub(1)
        }

        fn distance_from(self, lower: Self) -> Self {
            self.wrapping_sub(lower)
        }

        fn leading_zeros(self) -> u32 {
            self.leading_zeros()
        }

        fn trailing_zeros(self) -> u32 {
            self.trailing_zeros()
        }

        fn count_ones(self) -> u32 {
            self.count_ones()
        }

        fn low_word(self) -> u64 {
            self as u64
        }
    };
}

impl Address for u32 {
    const ENCODING: u8 = 1;

    fn top(bits: u32) -> u32 {
        !(u64::from(u32::MAX) >> bits) as u32
    }

    fn up(self, bits: u32) -> u32 {
        (u64::from(self) << bits) as u32
    }

    fn down(self, bits: u32) -> u32 {
        (u64::from(self) >> bits) as u32
    }

    type Order = u64;
    address_numbers!(u32);

    fn order(self, tag: u32) -> u64 {
        u64::from(self) << 32 | u64::from(tag)
    }

    fn hashed(self, seed: &Seed, tag: u32) -> u64 {
        seed.mixed(0, self.order(tag))
    }

    fn print<W: Write>(self, out: &mut Out<W>) {
        for octet in self.to_be_bytes() {
            let (text, len) = OCTETS[usize::from(octet)];
            out.put(text, len);
        }
        out.at -= 1;
    }

    fn of(addr: Addr) -> Option<u32> {
        match addr {
            Addr::V4(bits) => Some(bits),
            Addr::V6(_) => None,
        }
    }
}

impl Address for u128 {
    const ENCODING: u8 = 2;

    fn top(bits: u32) -> u128 {
        TOPS[bits as usize]
    }

    fn up(self, bits: u32) -> u128 {
        self.checked_shl(bits).unwrap_or(0)
    }

    fn down(self, bits: u32) -> u128 {
        self.checked_shr(bits).unwrap_or(0)
    }

    type Order = (u128, u32);
    address_numbers!(u128);

    fn order(self, tag: u32) -> (u128, u32) {
        (self, tag)
    }

    fn hashed(self, seed: &Seed, tag: u32) -> u64 {
        let high = seed.mixed(0, (self >> 64) as u64);
        seed.mixed(seed.mixed(high, self as u64), tag.into())
    }

    fn print<W: Write>(self, out: &mut Out<W>) {
        let groups = Ipv6Addr::from(self).segments();
        match out.short.then(|| zero_run(&groups)).flatten() {
            Some(run) => {
                out.groups(&groups[..run.start]);
                out.text(b"::");
                out.groups(&groups[run.end..]);
            }
            None => out.groups(&groups),
        }
    }

    fn of(addr: Addr) -> Option<u128> {
        match addr {
            Addr::V4(_) => None,
            Addr::V6(bits) => Some(bits),
        }
    }
}

/// A next hop: of the family of its route, or of IPv6 for a route of IPv4 (RFC 9229).
#[derive(Clone, Copy, PartialEq, Eq)]
enum Hop {
    V4(u32),
    V6(u128),
}

impl Hop {
    fn tlv(self) -> ([u8; 20], usize) {
        let mut tlv = [0; 20];
        match self {
            Hop::V4(bits) => {
                tlv[..4].copy_from_slice(&[7, 6, 1, 0]);
                tlv[4..8].copy_from_slice(&bits.to_be_bytes());
                (tlv, 8)
            }
            Hop::V6(bits) if bits >> 64 == LINK_LOCAL >> 64 => {
                tlv[..4].copy_from_slice(&[7, 10, 3, 0]);
                tlv[4..12].copy_from_slice(&bits.to_be_bytes()[8..]);
                (tlv, 12)
            }
            Hop::V6(bits) => {
                tlv[..4].copy_from_slice(&[7, 18, 2, 0]);
                tlv[4..].copy_from_slice(&bits.to_be_bytes());
                (tlv, 20)
            }
        }
    }

    fn hashed(self, seed: &Seed) -> u64 {
        match self {
            Hop::V4(bits) => bits.hashed(seed, 0),
            Hop::V6(bits) => bits.hashed(seed, 0),
        }
    }

    fn print<W: Write>(self, out: &mut Out<W>) {
        match self {
            Hop::V4(bits) => bits.print(out),
            Hop::V6(bits) => bits.print(out),
        }
    }
}

const LINK_LOCAL: u128 = 0xfe80 << 112;

/// The first longest run of two or more zero groups.
fn zero_run(groups: &[u16; 8]) -> Option<Range<usize>> {
    let (mut longest, mut run) = (0..1, 0);
    for (place, group) in groups.iter().enumerate() {
        run = if *group == 0 { run + 1 } else { 0 };
        if run > longest.len() {
            longest = place + 1 - run..place + 1;
        }
    }
    (longest.len() > 1).then_some(longest)
}

/// The highest bits of an IPv6 address, by how many: a shift of so wide a number is slower.
static TOPS: [u128; 129] = {
    let mut tops = [0; 129];
    let mut bits = 1;
    while bits <= 128 {
        tops[bits] = u128::MAX << (128 - bits);
        bits += 1;
    }
    tops
};

/// An address of either family.
#[derive(Clone, Copy)]
enum Addr {
    V4(u32),
    V6(u128),
}

impl Addr {
    fn parse(text: &str) -> Option<Addr> {
        if let Ok(addr) = text.parse::<Ipv4Addr>() {
            return Some(Addr::V4(addr.into()));
        }
        let addr = text.parse::<Ipv6Addr>().ok()?;
        // RFC 4291, 2.2: forms 1 and 2 alone, so no dotted ending.
        (!text.contains('.')).then_some(Addr::V6(addr.into()))
    }

    fn print<W: Write>(self, out: &mut Out<W>) {
        match self {
            Addr::V4(addr) => addr.print(out),
            Addr::V6(addr) => addr.print(out),
        }
    }
}

#[derive(Clone, Copy, PartialEq, Eq, PartialOrd, Ord)]
struct Prefix<A> {
    bits: A,
    len: u8,
}

impl<A: Address> Prefix<A> {
    const WHOLE: Prefix<A> = Prefix {
        bits: A::ZERO,
        len: 0,
    };

    fn contains(self, addr: A) -> bool {
        (self.bits ^ addr) & A::top(self.len.into()) == A::ZERO
    }
}

/// The addresses of a prefix, by the number of their free bits.
#[derive(Clone, Copy)]
struct Block<A> {
    start: A,
    bits: u32,
}

impl<A: Address> Block<A> {
    const WHOLE: Block<A> = Block {
        start: A::ZERO,
        bits: A::WIDTH,
    };

    /// The block of so many bits around an address.
    fn around(addr: A, bits: u32) -> Block<A> {
        let start = addr & A::top(A::WIDTH - bits);
        Block { start, bits }
    }

    fn of(prefix: Prefix<A>) -> Block<A> {
        Block {
            start: prefix.bits,
            bits: A::WIDTH - u32::from(prefix.len),
        }
    }

    fn prefix(self) -> Prefix<A> {
        Prefix {
            bits: self.start,
            len: (A::WIDTH - self.bits) as u8,
        }
    }

    fn low(self) -> Block<A> {
        Block {
            start: self.start,
            bits: self.bits - 1,
        }
    }

    fn high(self) -> Block<A> {
        let bits = self.bits - 1;
        let start = self.start | A::ZERO.next().up(bits);
        Block { start, bits }
    }

    /// The least block with both.
    fn joined(self, other: Block<A>) -> Block<A> {
        let differing = A::WIDTH - (self.start ^ other.start).leading_zeros();
        Block::around(self.start, differing.max(self.bits).max(other.bits))
    }
}

// ---- numbers for what repeats, found by a hash that no dump knows

/// Keys of the hash, drawn for each run.
struct Seed {
    first: u64,
    factor: u64,
}

impl Seed {
    fn new() -> Seed {
        let drawn = || RandomState::new().build_hasher().finish();
        Seed {
            first: drawn(),
            factor: drawn() | 1,
        }
    }

    fn mixed(&self, state: u64, word: u64) -> u64 {
        let product = u128::from(self.first ^ state ^ word) * u128::from(self.factor);
        product as u64 ^ (product >> 64) as u64
    }
}

/// From hashes to numbers: each slot has a number and one more in its low bits, and some bits of
/// the hash above them.
struct Index {
    slots: Vec<u32>,
    seed: Seed,
}

const NUMBER: u32 = (1 << 22) - 1;

impl Index {
    fn new() -> Index {
        Index {
            slots: Vec::new(),
            seed: Seed::new(),
        }
    }

    fn is_built(&self) -> bool {
        !self.slots.is_empty()
    }

    /// The number with this hash that is the one, or else the slot where it belongs.
    fn find(&self, hash: u64, is_it: impl Fn(usize) -> bool) -> Result<usize, usize> {
        let slots = self.slots.as_slice();
        let last = slots.len() - 1;
        let mut place = (hash >> 32) as usize & last;
        loop {
            let slot = slots[place];
            if slot == 0 {
                return Err(place);
            }
            if (slot ^ hash as u32) & !NUMBER == 0 {
                let number = (slot & NUMBER) as usize - 1;
                if is_it(number) {
                    return Ok(number);
                }
            }
            place = (place + 1) & last;
        }
    }

    fn set(&mut self, slot: usize, hash: u64, number: usize) {
        self.slots[slot] = hash as u32 & !NUMBER | (number as u32 + 1);
    }

    /// Whether one more of so many needs a larger index.
    fn is_full(&self, count: usize) -> bool {
        count + 1 > self.slots.len() / 5 * 4
    }

    /// Makes the index anew for these numbers and as many more.
    fn rebuild(&mut self, count: usize, hash_of: impl Fn(&Seed, usize) -> u64) {
        let size = (2 * count).next_power_of_two().max(64);
        self.slots.clear();
        self.slots.shrink_to(0);
        self.slots = vec![0; size];
        for number in 0..count {
            let hash = hash_of(&self.seed, number);
            let slot = self.find(hash, |_| false).unwrap_or_else(|slot| slot);
            self.set(slot, hash, number);
        }
    }
}

/// Things that have numbers, in the order in which they came.
struct Numbered<T> {
    list: Vec<T>,
    index: Index,
    last: usize,
}

trait Hashed: Copy + Eq {
    fn hashed(&self, seed: &Seed) -> u64;
}

impl<T: Hashed> Numbered<T> {
    fn new() -> Numbered<T> {
        Numbered {
            list: Vec::new(),
            index: Index::new(),
            last: 0,
        }
    }

    /// The number of a thing that has one; the last one asked for is tried first.
    fn find(&mut self, item: &T) -> Option<usize> {
        if self.list.get(self.last) != Some(item) {
            self.last = self.search(item).ok()?;
        }
        Some(self.last)
    }

    /// The number of a thing, a new one if it has none.
    fn number(&mut self, item: T) -> usize {
        if self.list.get(self.last) == Some(&item) {
            return self.last;
        }
        self.last = match self.search(&item) {
            Ok(number) => number,
            Err(slot) => {
                let hash = item.hashed(&self.index.seed);
                self.index.set(slot, hash, self.list.len());
                self.list.push(item);
                self.list.len() - 1
            }
        };
        self.last
    }

    fn search(&mut self, item: &T) -> Result<usize, usize> {
        let list = &self.list;
        if self.index.is_full(list.len()) {
            self.index
                .rebuild(list.len(), |seed, number| list[number].hashed(seed));
        }
        let hash = item.hashed(&self.index.seed);
        self.index.find(hash, |number| list[number] == *item)
    }
}

/// Who announces a route: all of it that Updates do not repeat.
#[derive(Clone, Copy, PartialEq, Eq)]
struct Owner {
    router_id: u64,
    next_hop: Hop,
}

impl Hashed for Owner {
    fn hashed(&self, seed: &Seed) -> u64 {
        seed.mixed(self.next_hop.hashed(seed), self.router_id)
    }
}

/// What the left and the right table answer.
impl Hashed for (u64, u64) {
    fn hashed(&self, seed: &Seed) -> u64 {
        seed.mixed(self.0, self.1)
    }
}

impl<A: Address> Hashed for Prefix<A> {
    fn hashed(&self, seed: &Seed) -> u64 {
        self.bits.hashed(seed, self.len.into())
    }
}

// ---- the rows of one family

/// What is said of an unreachable key: no owner and no sequence number, and the metric that no
/// route has.
const UNREACHABLE: u64 = INFINITY as u64;

/// Where there is no row. No owner has so great a number.
const NOTHING: u64 = FORK - 1;

/// A route's destination and source. The tag has the destination's length above, the number of the
/// source below.
#[derive(Clone, Copy, PartialEq, Eq)]
struct Key<A> {
    bits: A,
    tag: u32,
}

const SOURCE_BITS: u32 = 24;
const SOURCE: u32 = (1 << SOURCE_BITS) - 1;

impl<A: Address> Key<A> {
    fn new(dst: Prefix<A>, source: usize) -> Key<A> {
        Key {
            bits: dst.bits,
            tag: u32::from(dst.len) << SOURCE_BITS | source as u32,
        }
    }

    fn dst(self) -> Prefix<A> {
        Prefix {
            bits: self.bits,
            len: (self.tag >> SOURCE_BITS) as u8,
        }
    }

    fn source(self) -> usize {
        (self.tag & SOURCE) as usize
    }
}

/// What was last said of a key: `stated` is the sequence number above the metric.
#[derive(Clone, Copy)]
struct Row<A> {
    key: Key<A>,
    epoch: u32,
    owner: u32,
    stated: u32,
}

/// The epoch of a key that was retracted.
const RETRACTED: u32 = u32::MAX;

impl<A: Address> Row<A> {
    fn value(&self) -> u64 {
        u64::from(self.owner) << 32 | u64::from(self.stated)
    }

    fn order(&self) -> A::Order {
        self.key.bits.order(self.key.tag)
    }
}

/// What all families of a dump being read share.
struct Shared {
    hold: bool,
    /// How often all was retracted.
    epoch: u32,
    /// How many rows there are, in both families.
    held: usize,
    router_id: Option<u64>,
    /// Whether encoding 4 is read.
    via_v6: bool,
}

struct TooManyRoutes;

/// The encoding of a family's own, and encoding 4 (RFC 9229), of IPv4: places in `Reading`.
const OWN: usize = 0;
const VIA_V6: usize = 1;

/// One family of a dump being read: its parser state in this packet, and its rows.
struct Reading<A> {
    sender: Option<A>,
    /// The default prefixes: of the family's own encoding, and of encoding 4.
    defaults: [Option<A>; 2],
    next_hop: Option<A>,
    /// The number of the router-id and the next hop, for this router-id; by encoding, too.
    owner: [Option<(u64, u32)>; 2],
    owners: Numbered<Owner>,
    sources: Numbered<Prefix<A>>,
    rows: Vec<Row<A>>,
    /// Made when a key comes that is neither the next nor beyond all others.
    index: Index,
    /// The row after the one found last.
    next: usize,
    /// Whether the rows came in order.
    rising: bool,
    /// How many rows are not retracted.
    live: usize,
}

impl<A: Address> Reading<A> {
    fn new(sender: Addr, owners: Numbered<Owner>) -> Reading<A> {
        let mut sources = Numbered::new();
        sources.number(Prefix::WHOLE);
        Reading {
            sender: A::of(sender),
            defaults: [None; 2],
            next_hop: None,
            owner: [None; 2],
            owners,
            sources,
            rows: Vec::new(),
            index: Index::new(),
            next: 0,
            rising: true,
            live: 0,
        }
    }

    fn begin_packet(&mut self) {
        self.defaults = [None; 2];
        self.next_hop = self.sender;
        self.owner = [None; 2];
    }

    fn retract_all(&mut self) {
        self.live = 0;
    }

    #[inline(always)]
    fn announce(
        &mut self,
        shared: &mut Shared,
        key: Key<A>,
        owner: u32,
        stated: u32,
    ) -> Result<(), TooManyRoutes> {
        if let Some(row) = self.rows.get_mut(self.next) {
            if row.key == key && row.epoch == shared.epoch {
                row.owner = owner;
                row.stated = stated;
                self.go_on_from(self.next);
                return Ok(());
            }
        }
        let epoch = shared.epoch;
        let row = Row {
            key,
            epoch,
            owner,
            stated,
        };
        self.put(shared, row)
    }

    #[inline(never)]
    fn put(&mut self, shared: &mut Shared, row: Row<A>) -> Result<(), TooManyRoutes> {
        match self.seek(shared, row.key) {
            Err(slot) => self.push(shared, slot, row)?,
            Ok(place) => {
                if self.rows[place].epoch != row.epoch && !shared.hold {
                    self.count_one_more(shared)?;
                }
                self.rows[place] = row;
            }
        }
        Ok(())
    }

    fn retract(&mut self, shared: &mut Shared, key: Key<A>) -> Result<(), TooManyRoutes> {
        match self.seek(shared, key) {
            Ok(place) => {
                let row = &mut self.rows[place];
                if row.epoch == shared.epoch && !shared.hold {
                    shared.held -= 1;
                    self.live -= 1;
                }
                row.epoch = RETRACTED;
            }
            Err(slot) if shared.hold => {
                let row = Row {
                    key,
                    epoch: RETRACTED,
                    owner: 0,
                    stated: 0,
                };
                self.push(shared, slot, row)?;
            }
            Err(_) => {}
        }
        Ok(())
    }

    fn count_one_more(&mut self, shared: &mut Shared) -> Result<(), TooManyRoutes> {
        if shared.held == MAX_ENTRIES {
            return Err(TooManyRoutes);
        }
        shared.held += 1;
        self.live += 1;
        Ok(())
    }

    fn push(&mut self, shared: &mut Shared, slot: usize, row: Row<A>) -> Result<(), TooManyRoutes> {
        self.count_one_more(shared)?;
        self.rising = self.rising && self.is_beyond(row.key);
        if self.index.is_built() {
            let hash = row.key.bits.hashed(&self.index.seed, row.key.tag);
            self.index.set(slot, hash, self.rows.len());
        }
        self.rows.push(row);
        Ok(())
    }

    /// The place of the key's row, or else its slot in the index, if there is one.
    fn seek(&mut self, shared: &Shared, key: Key<A>) -> Result<usize, usize> {
        let place = match self.rows.get(self.next) {
            Some(row) if row.key == key => self.next,
            _ => self.search(shared, key)?,
        };
        self.go_on_from(place);
        Ok(place)
    }

    #[inline(always)]
    fn go_on_from(&mut self, place: usize) {
        self.next = place + 1;
        if self.next == self.rows.len() {
            self.next = 0;
        }
    }

    fn search(&mut self, shared: &Shared, key: Key<A>) -> Result<usize, usize> {
        if !shared.hold && self.rows.len() - self.live > self.live / 2 + 1_024 {
            self.drop_retracted(shared.epoch);
        }
        if !self.index.is_built() && self.rising && self.is_beyond(key) {
            return Err(0);
        }
        let rows = &self.rows;
        if self.index.is_full(rows.len()) {
            self.index.rebuild(rows.len(), |seed, number| {
                let key = rows[number].key;
                key.bits.hashed(seed, key.tag)
            });
        }
        let hash = key.bits.hashed(&self.index.seed, key.tag);
        self.index.find(hash, |number| rows[number].key == key)
    }

    /// Whether the key comes after all rows, which came in order.
    fn is_beyond(&self, key: Key<A>) -> bool {
        let Some(last) = self.rows.last() else {
            return true;
        };
        match last.key.dst().cmp(&key.dst()) {
            Ordering::Less => true,
            Ordering::Greater => false,
            Ordering::Equal => {
                let sources = &self.sources.list;
                sources[last.key.source()] < sources[key.source()]
            }
        }
    }

    fn drop_retracted(&mut self, epoch: u32) {
        self.rows.retain(|row| row.epoch == epoch);
        self.index.slots = Vec::new();
        self.next = 0;
    }

    fn finish(mut self, shared: &Shared) -> Rows<A> {
        drop(self.index);
        if shared.hold {
            for row in &mut self.rows {
                if row.epoch != shared.epoch {
                    row.owner = 0;
                    row.stated = UNREACHABLE as u32;
                }
            }
        } else if self.rows.len() > self.live {
            self.rows.retain(|row| row.epoch == shared.epoch);
        }
        Rows {
            rows: self.rows,
            rising: self.rising,
            sources: self.sources.list,
            owners: self.owners,
        }
    }
}

/// Below so many rows, comparing them is faster than counting them.
const FEW: usize = 48;

/// By so many bits at most are rows counted at once, for the sake of the caches.
const MOST_DIGITS: u32 = 12;

/// Sorts the rows into as much room, by the highest bits in which their addresses differ, and then
/// each part of them.
fn sort_into<A: Address>(rows: &mut [Row<A>], sorted: &mut [Row<A>]) {
    let (all, any) = rows.iter().fold((A::MAX, A::ZERO), |(all, any), row| {
        (all & row.key.bits, any | row.key.bits)
    });
    let differing = A::WIDTH - (all ^ any).leading_zeros();
    if rows.len() < FEW || differing == 0 {
        sorted.copy_from_slice(rows);
        return sorted.sort_unstable_by_key(Row::order);
    }
    let digit = differing.min(rows.len().ilog2()).min(MOST_DIGITS);
    let part = |row: &Row<A>| {
        let bits = row.key.bits.down(differing - digit).low_word();
        bits as usize & ((1 << digit) - 1)
    };
    let mut ends = vec![0u32; 1 << digit];
    for row in rows.iter() {
        ends[part(row)] += 1;
    }
    let mut start = 0;
    for end in &mut ends {
        start += mem::replace(end, start);
    }
    for row in rows.iter() {
        let place = &mut ends[part(row)];
        sorted[*place as usize] = *row;
        *place += 1;
    }
    let mut start = 0;
    for end in ends {
        let end = end as usize;
        sort_part(&mut sorted[start..end], &mut rows[start..end]);
        start = end;
    }
}

/// Sorts rows where they are.
fn sort_part<A: Address>(rows: &mut [Row<A>], spare: &mut [Row<A>]) {
    match rows {
        [] | [_] => {}
        [first, second] => {
            if first.order() > second.order() {
                mem::swap(first, second);
            }
        }
        _ if rows.len() < FEW => rows.sort_unstable_by_key(Row::order),
        _ => {
            spare.copy_from_slice(rows);
            sort_into(spare, rows);
        }
    }
}

/// The rows of one family.
struct Rows<A> {
    rows: Vec<Row<A>>,
    rising: bool,
    sources: Vec<Prefix<A>>,
    owners: Numbered<Owner>,
}

impl<A: Address> Rows<A> {
    /// Sorts the rows by destination, then source, and the sources too.
    fn sort(&mut self) {
        if self.sources.len() > 1 {
            self.sort_sources();
        }
        if !self.rising {
            let mut sorted = self.rows.clone();
            sort_into(&mut self.rows, &mut sorted);
            self.rows = sorted;
        }
    }

    fn sort_sources(&mut self) {
        let mut order: Vec<(Prefix<A>, u32)> = self.sources.iter().copied().zip(0..).collect();
        order.sort_unstable();
        let mut ranks = vec![0; order.len()];
        for (rank, &(source, number)) in order.iter().enumerate() {
            ranks[number as usize] = rank as u32;
            self.sources[rank] = source;
        }
        for row in &mut self.rows {
            let tag = &mut row.key.tag;
            *tag = *tag & !SOURCE | ranks[(*tag & SOURCE) as usize];
        }
    }

    fn source(&self, row: &Row<A>) -> Prefix<A> {
        self.sources[row.key.source()]
    }

    /// The place of a row among those of any table: by destination, then source.
    fn place(&self, row: &Row<A>) -> (Prefix<A>, Prefix<A>) {
        (row.key.dst(), self.source(row))
    }

    /// RFC 9079, 4: the longest destination prefix that has both, then the longest source prefix.
    fn lookup(&self, dst: A, src: A) -> u64 {
        self.rows
            .iter()
            .filter(|row| row.key.dst().contains(dst) && self.source(row).contains(src))
            .max_by_key(|row| (row.key.dst().len, self.source(row).len))
            .map_or(NOTHING, Row::value)
    }

    /// How far the rows around each sorted row reach.
    fn nesting(&self) -> Vec<Around> {
        let mut nesting: Vec<Around> = Vec::with_capacity(self.rows.len());
        for (place, row) in self.rows.iter().enumerate() {
            let dst = row.key.dst();
            let mut to = place;
            while to > 0 {
                let other = self.rows[to - 1].key.dst();
                if other != dst && other.contains(dst.bits) {
                    break;
                }
                to = nesting[to - 1].to as usize;
            }
            let from = self.end_from(&nesting, place, dst, self.source(row).bits);
            nesting.push(Around {
                to: to as u32,
                from: from as u32,
            });
        }
        nesting
    }

    /// The same as `lookup`, among sorted rows.
    fn find(&self, nesting: &[Around], dst: A, src: A) -> u64 {
        let mut end = self.rows.partition_point(|row| row.key.bits <= dst);
        while let Some(row) = self.rows[..end].last() {
            let prefix = row.key.dst();
            let Around { to, .. } = nesting[end - 1];
            if prefix.contains(dst) {
                let is_up_to =
                    |row: &Row<A>| row.key.dst() < prefix || self.source(row).bits <= src;
                let mut last = end;
                if !is_up_to(row) {
                    last = to as usize + self.rows[to as usize..end].partition_point(is_up_to);
                }
                last = self.end_from(nesting, last, prefix, src);
                if last > 0 {
                    return self.rows[last - 1].value();
                }
            }
            end = to as usize;
        }
        NOTHING
    }

    /// How many of the first rows there are up to the last that leads to the destination from a
    /// source with the address, or 0 where none does.
    fn end_from(&self, nesting: &[Around], mut end: usize, dst: Prefix<A>, src: A) -> usize {
        while end > 0 && self.rows[end - 1].key.dst() == dst {
            if self.source(&self.rows[end - 1]).contains(src) {
                return end;
            }
            end = nesting[end - 1].from as usize;
        }
        0
    }
}

/// How far the rows around a row reach: so many at the front have those to larger prefixes around
/// its destination, and those to its destination from larger prefixes around its source.
struct Around {
    to: u32,
    from: u32,
}

// ---- packets and TLVs (RFC 8966, 4)

#[derive(Clone, Copy)]
enum Reason {
    Short,
    UnknownEncoding,
    WildcardFinite,
    WildcardPrefix,
    BadPlen,
    BadOmitted,
    NoDefault,
    ShortPrefix,
    BadSub,
    UnknownMandatory,
    TwoSources,
    BadSource,
    WildcardSource,
    NoRouterId,
    ReservedRouterId,
    NoNextHop,
}

const REASONS: [&str; 16] = [
    "short",
    "unknown-encoding",
    "wildcard-finite",
    "wildcard-prefix",
    "bad-plen",
    "bad-omitted",
    "no-default",
    "short-prefix",
    "bad-sub",
    "unknown-mandatory",
    "two-sources",
    "bad-source",
    "wildcard-source",
    "no-router-id",
    "reserved-router-id",
    "no-next-hop",
];

/// Why a TLV says nothing: it is ignored, or it refuses the dump.
enum Stop {
    Ignored(Reason),
    EncodingSetsRouterId,
    TooManyRoutes,
}

impl From<Reason> for Stop {
    fn from(reason: Reason) -> Stop {
        Stop::Ignored(reason)
    }
}

impl From<TooManyRoutes> for Stop {
    fn from(_: TooManyRoutes) -> Stop {
        Stop::TooManyRoutes
    }
}

enum Fault {
    Truncated(u64),
    BadMagic(u64),
    BadVersion(u64),
    TlvPastEnd(u64),
    EncodingSetsRouterId(u64),
    TooManyRoutes(u64),
    TooLong,
    TooManyPairs,
}

impl fmt::Display for Fault {
    fn fmt(&self, f: &mut fmt::Formatter<'_>) -> fmt::Result {
        match self {
            Fault::Truncated(at) => write!(f, "truncated packet at {at}"),
            Fault::BadMagic(at) => write!(f, "bad magic at {at}"),
            Fault::BadVersion(at) => write!(f, "bad version at {at}"),
            Fault::TlvPastEnd(at) => write!(f, "TLV past the end of its packet at {at}"),
            Fault::EncodingSetsRouterId(at) => {
                write!(f, "router-id flag in an unread address encoding at {at}")
            }
            Fault::TooManyRoutes(at) => write!(f, "too many routes at {at}"),
            Fault::TooLong => write!(f, "dump too long"),
            Fault::TooManyPairs => write!(f, "too many pairs"),
        }
    }
}

/// What is looked at of a TLV at once: type, length, the fixed part of an Update, and the longest
/// prefix. After a packet there is as much room, so that no length is asked for too early.
const WINDOW: usize = 28;
const FIXED: usize = 12;

type Window = [u8; WINDOW];

struct Report {
    tlvs: u64,
    ignored: [Option<(u64, u64)>; 16],
}

struct Reader {
    shared: Shared,
    v4: Reading<u32>,
    v6: Reading<u128>,
    report: Report,
}

impl Reader {
    fn new(sender: Addr, hold: bool, via_v6: bool, owners: Owners) -> Reader {
        Reader {
            shared: Shared {
                hold,
                epoch: 0,
                held: 0,
                router_id: None,
                via_v6,
            },
            v4: Reading::new(sender, owners.v4),
            v6: Reading::new(sender, owners.v6),
            report: Report {
                tlvs: 0,
                ignored: [None; 16],
            },
        }
    }

    /// Takes the body of a packet, which ends `WINDOW` octets or more before the octets do; the
    /// first of the octets is at this offset of the dump. A TLV past the end comes before the
    /// faults of those before it.
    fn take_body(&mut self, octets: &[u8], end: usize, offset: u64) -> Result<(), Fault> {
        self.shared.router_id = None;
        self.v4.begin_packet();
        self.v6.begin_packet();
        let mut at = 0;
        while at < end {
            let next = tlv_end(octets, at, end).ok_or(Fault::TlvPastEnd(offset + at as u64))?;
            self.report.tlvs += 1;
            if let Err(stop) = self.take_tlv(&octets[at..], next - at) {
                let place = offset + at as u64;
                match stop {
                    Stop::Ignored(reason) => {
                        let ignored = &mut self.report.ignored[reason as usize];
                        ignored.get_or_insert((0, place)).0 += 1;
                    }
                    Stop::EncodingSetsRouterId => {
                        check_rest(octets, next, end, offset)?;
                        return Err(Fault::EncodingSetsRouterId(place));
                    }
                    Stop::TooManyRoutes => {
                        check_rest(octets, next, end, offset)?;
                        return Err(Fault::TooManyRoutes(place));
                    }
                }
            }
            at = next;
        }
        Ok(())
    }

    /// Takes a TLV of so many octets, the first of these.
    fn take_tlv(&mut self, octets: &[u8], len: usize) -> Result<(), Stop> {
        let Some(tlv) = octets.first_chunk::<WINDOW>() else {
            unreachable!("there is room after a packet");
        };
        match tlv[0] {
            6 => self.take_router_id(&octets[..len]),
            7 => self.take_next_hop(&octets[..len]),
            8 if len < FIXED => Err(Reason::Short.into()),
            8 => match tlv[2] {
                0 => self.take_wildcard(tlv, &octets[FIXED..len]),
                1 => {
                    let hop = self.v4.next_hop.map(Hop::V4);
                    self.v4
                        .take_update::<OWN>(&mut self.shared, hop, tlv, octets, len)
                }
                2 => {
                    let hop = self.v6.next_hop.map(Hop::V6);
                    self.v6
                        .take_update::<OWN>(&mut self.shared, hop, tlv, octets, len)
                }
                4 if self.shared.via_v6 => {
                    let hop = self.v6.next_hop.map(Hop::V6);
                    self.v4
                        .take_update::<VIA_V6>(&mut self.shared, hop, tlv, octets, len)
                }
                _ if tlv[3] & 0x40 != 0 => Err(Stop::EncodingSetsRouterId),
                _ => Err(Reason::UnknownEncoding.into()),
            },
            _ => Ok(()),
        }
    }

    fn take_router_id(&mut self, tlv: &[u8]) -> Result<(), Stop> {
        let Some((head, rest)) = tlv.split_first_chunk::<FIXED>() else {
            return Err(Reason::Short.into());
        };
        let [_, _, _, _, id @ ..] = *head;
        self.shared.router_id = Some(u64::from_be_bytes(id));
        check_no_mandatory(rest)
    }

    fn take_next_hop(&mut self, tlv: &[u8]) -> Result<(), Stop> {
        let [_, _, encoding, _, rest @ ..] = tlv else {
            return Err(Reason::Short.into());
        };
        let count = match encoding {
            1 => 4,
            2 => 16,
            3 => 8,
            _ => return Err(Reason::UnknownEncoding.into()),
        };
        let (field, rest) = rest.split_at_checked(count).ok_or(Reason::ShortPrefix)?;
        let mut octets = [0; 16];
        octets[..count].copy_from_slice(field);
        match encoding {
            1 => self.v4.set_next_hop(u32::load(&octets)),
            2 => self.v6.set_next_hop(u128::load(&octets)),
            _ => self.v6.set_next_hop(LINK_LOCAL | u128::load(&octets) >> 64),
        }
        self.v4.owner[VIA_V6] = None;
        check_no_mandatory(rest)
    }

    fn take_wildcard(&mut self, tlv: &Window, rest: &[u8]) -> Result<(), Stop> {
        if tlv[10..FIXED] != [0xff; 2] {
            return Err(Reason::WildcardFinite.into());
        }
        if tlv[4..6] != [0; 2] {
            return Err(Reason::WildcardPrefix.into());
        }
        each_sub_tlv(rest, |kind, _| match kind {
            128 => Err(Reason::WildcardSource),
            129.. => Err(Reason::UnknownMandatory),
            _ => Ok(()),
        })?;
        self.shared.epoch += 1;
        if !self.shared.hold {
            self.shared.held = 0;
            self.v4.retract_all();
            self.v6.retract_all();
        }
        Ok(())
    }
}

/// Where the TLV ends that begins here, if it does.
fn tlv_end(octets: &[u8], at: usize, end: usize) -> Option<usize> {
    let next = if octets[at] == 0 {
        at + 1
    } else {
        at + 2 + usize::from(octets[at + 1])
    };
    (next <= end).then_some(next)
}

fn check_rest(octets: &[u8], mut at: usize, end: usize, offset: u64) -> Result<(), Fault> {
    while at < end {
        at = tlv_end(octets, at, end).ok_or(Fault::TlvPastEnd(offset + at as u64))?;
    }
    Ok(())
}

impl<A: Address> Reading<A> {
    fn set_next_hop(&mut self, next_hop: A) {
        self.next_hop = Some(next_hop);
        self.owner[OWN] = None;
    }

    /// Takes an Update of this family, in its own encoding or in encoding 4. Its prefix is one
    /// load, a shift and two masks.
    fn take_update<const ENCODING: usize>(
        &mut self,
        shared: &mut Shared,
        hop: Option<Hop>,
        tlv: &Window,
        octets: &[u8],
        end: usize,
    ) -> Result<(), Stop> {
        let &[_, _, _, flags, plen, omitted, _, _, _, _, _, _, ref field @ ..] = tlv;
        let (plen, omitted) = (u32::from(plen), u32::from(omitted));
        if plen > A::WIDTH {
            return Err(Reason::BadPlen.into());
        }
        if omitted > A::WIDTH / 8 {
            return Err(Reason::BadOmitted.into());
        }
        let mut bits = A::load(field);
        if omitted > 0 {
            let default = self.defaults[ENCODING].ok_or(Reason::NoDefault)?;
            bits = default & A::top(8 * omitted) | bits.down(8 * omitted);
        }
        let rest = FIXED + plen.div_ceil(8).saturating_sub(omitted) as usize;
        if rest > end {
            return Err(Reason::ShortPrefix.into());
        }
        bits = bits & A::top(plen);
        if flags & 0x80 != 0 {
            self.defaults[ENCODING] = Some(bits);
        }
        if flags & 0x40 != 0 {
            shared.router_id = Some(bits.low_word());
        }
        let source = if rest < end {
            read_source(&octets[rest..end])?
        } else {
            None
        };
        let dst = Prefix {
            bits,
            len: plen as u8,
        };
        let stated = u32::from_be_bytes([tlv[8], tlv[9], tlv[10], tlv[11]]);
        if stated as u16 == INFINITY {
            return Ok(self.retract_route(shared, dst, source)?);
        }
        let owner = self.owner::<ENCODING>(shared.router_id, hop)?;
        let source = source.map_or(0, |source| self.sources.number(source));
        Ok(self.announce(shared, Key::new(dst, source), owner, stated)?)
    }

    fn retract_route(
        &mut self,
        shared: &mut Shared,
        dst: Prefix<A>,
        source: Option<Prefix<A>>,
    ) -> Result<(), TooManyRoutes> {
        let number = match source {
            None => Some(0),
            Some(source) if shared.hold => Some(self.sources.number(source)),
            Some(source) => self.sources.find(&source),
        };
        match number {
            Some(number) => self.retract(shared, Key::new(dst, number)),
            None => Ok(()),
        }
    }

    /// The number of who announces now, by this next hop.
    fn owner<const ENCODING: usize>(
        &mut self,
        router_id: Option<u64>,
        hop: Option<Hop>,
    ) -> Result<u32, Stop> {
        if let (Some((id, number)), Some(current)) = (self.owner[ENCODING], router_id) {
            if id == current {
                return Ok(number);
            }
        }
        let router_id = router_id.ok_or(Reason::NoRouterId)?;
        if router_id == 0 || router_id == u64::MAX {
            return Err(Reason::ReservedRouterId.into());
        }
        let next_hop = hop.ok_or(Reason::NoNextHop)?;
        let number = self.owners.number(Owner {
            router_id,
            next_hop,
        }) as u32;
        self.owner[ENCODING] = Some((router_id, number));
        Ok(number)
    }
}

/// The first TLV or sub-TLV of the octets, and the rest; `None` if it runs past the end.
fn first_item(octets: &[u8]) -> Option<(u8, &[u8], &[u8])> {
    let (&kind, rest) = octets.split_first()?;
    if kind == 0 {
        return Some((0, &[], rest));
    }
    let (&len, rest) = rest.split_first()?;
    let (body, rest) = rest.split_at_checked(len.into())?;
    Some((kind, body, rest))
}

fn each_sub_tlv(
    mut octets: &[u8],
    mut read: impl FnMut(u8, &[u8]) -> Result<(), Reason>,
) -> Result<(), Reason> {
    while !octets.is_empty() {
        let (kind, body, rest) = first_item(octets).ok_or(Reason::BadSub)?;
        read(kind, body)?;
        octets = rest;
    }
    Ok(())
}

fn check_no_mandatory(octets: &[u8]) -> Result<(), Stop> {
    Ok(each_sub_tlv(octets, |kind, _| {
        if kind >= 128 {
            Err(Reason::UnknownMandatory)
        } else {
            Ok(())
        }
    })?)
}

/// RFC 9079, 7.1.
fn read_source<A: Address>(octets: &[u8]) -> Result<Option<Prefix<A>>, Reason> {
    let mut source = None;
    each_sub_tlv(octets, |kind, body| match kind {
        128 if source.is_some() => Err(Reason::TwoSources),
        128 => {
            let (&len, rest) = body.split_first().ok_or(Reason::BadSource)?;
            if len == 0 || u32::from(len) > A::WIDTH {
                return Err(Reason::BadSource);
            }
            let count = usize::from(len.div_ceil(8));
            let field = rest.get(..count).ok_or(Reason::BadSource)?;
            let mut octets = [0; 16];
            octets[..count].copy_from_slice(field);
            let bits = A::load(&octets) & A::top(len.into());
            source = Some(Prefix { bits, len });
            Ok(())
        }
        129.. => Err(Reason::UnknownMandatory),
        _ => Ok(()),
    })?;
    Ok(source)
}

// ---- a whole dump

struct Owners {
    v4: Numbered<Owner>,
    v6: Numbered<Owner>,
}

impl Owners {
    fn new() -> Owners {
        Owners {
            v4: Numbered::new(),
            v6: Numbered::new(),
        }
    }
}

struct Table {
    v4: Rows<u32>,
    v6: Rows<u128>,
    report: Report,
}

impl Table {
    fn sort(&mut self) {
        self.v4.sort();
        self.v6.sort();
    }

    fn take_owners(&mut self) -> Owners {
        Owners {
            v4: mem::replace(&mut self.v4.owners, Numbered::new()),
            v6: mem::replace(&mut self.v6.owners, Numbered::new()),
        }
    }
}

enum ReadFault {
    Io,
    Dump(Fault),
}

impl From<Fault> for ReadFault {
    fn from(fault: Fault) -> ReadFault {
        ReadFault::Dump(fault)
    }
}

const BUFFER: usize = 1 << 17;

fn read_some(reader: &mut impl Read, buffer: &mut [u8]) -> Result<usize, ReadFault> {
    loop {
        match reader.read(buffer) {
            Ok(count) => return Ok(count),
            Err(error) if error.kind() == io::ErrorKind::Interrupted => {}
            Err(_) => return Err(ReadFault::Io),
        }
    }
}

/// Reads a dump to its end. The numbers of owners go on from those of another table, so that values
/// of both compare.
fn read_dump(
    mut input: impl Read,
    sender: Addr,
    hold: bool,
    via_v6: bool,
    owners: Owners,
) -> Result<Table, ReadFault> {
    let mut reader = Reader::new(sender, hold, via_v6, owners);
    let mut octets = vec![0; BUFFER + WINDOW];
    let (mut at, mut start, mut end) = (0, 0, 0);
    loop {
        while let Some(len) = whole_packet(&octets[start..end], at)? {
            reader.take_body(&octets[start + 4..], len - 4, at + 4)?;
            start += len;
            at += len as u64;
        }
        octets.copy_within(start..end, 0);
        end -= start;
        start = 0;
        let missing = MAX_BYTES - (at + end as u64);
        let room = (BUFFER - end).min(missing as usize);
        let count = read_some(&mut input, &mut octets[end..end + room])?;
        if count == 0 {
            break;
        }
        end += count;
    }
    if at + end as u64 == MAX_BYTES && read_some(&mut input, &mut [0])? > 0 {
        return Err(Fault::TooLong.into());
    }
    if end > 0 {
        return Err(Fault::Truncated(at).into());
    }
    Ok(Table {
        v4: reader.v4.finish(&reader.shared),
        v6: reader.v6.finish(&reader.shared),
        report: reader.report,
    })
}

/// How many octets the first packet has, if all of it is there.
fn whole_packet(octets: &[u8], at: u64) -> Result<Option<usize>, Fault> {
    let Some(&[magic, version, len_0, len_1]) = octets.first_chunk() else {
        return Ok(None);
    };
    if magic != 42 {
        return Err(Fault::BadMagic(at));
    }
    if version != 2 {
        return Err(Fault::BadVersion(at));
    }
    let len = 4 + usize::from(u16::from_be_bytes([len_0, len_1]));
    Ok((len <= octets.len()).then_some(len))
}

// ---- functions of the source

/// A function of the source on some block: a value, or above `FORK` the number of a fork.
#[derive(Clone, Copy, PartialEq, Eq)]
struct Function(u64);

const FORK: u64 = 1 << 63;

impl Function {
    const NOTHING: Function = Function(NOTHING);

    fn is_constant(self) -> bool {
        self.0 < FORK
    }
}

/// A block whose halves differ, and one value around it. Where the block is all of what the
/// function speaks of, nothing is around it, and the value does not count.
#[derive(Clone, Copy)]
struct Fork<A> {
    block: Block<A>,
    /// How many canonical sources the block has with a value.
    pairs: u32,
    /// Which fork this is of all that were made.
    serial: u32,
    /// The serial number of another fork that was seen to have equal halves.
    twin: u32,
    outside: u64,
    low: Function,
    high: Function,
}

/// The forks in use. Forks that are not changed are shared by functions that grow out of another.
struct Forks<A> {
    forks: Vec<Fork<A>>,
    free: Vec<u32>,
    /// Those that were made since they were asked for last.
    fresh: Vec<u32>,
    serial: u32,
}

impl<A: Address> Forks<A> {
    fn new() -> Forks<A> {
        Forks {
            forks: Vec::new(),
            free: Vec::new(),
            fresh: Vec::new(),
            serial: 0,
        }
    }

    fn get(&self, function: Function) -> &Fork<A> {
        &self.forks[function.0 as u32 as usize]
    }

    fn make(&mut self, block: Block<A>, low: Function, high: Function) -> Function {
        let half = block.bits - 1;
        self.push(Fork {
            block,
            pairs: self.count(low, half).saturating_add(self.count(high, half)),
            serial: 0,
            twin: 0,
            outside: NOTHING,
            low,
            high,
        })
    }

    fn push(&mut self, mut fork: Fork<A>) -> Function {
        self.serial += 1;
        fork.serial = self.serial;
        let number = match self.free.pop() {
            Some(number) => {
                self.forks[number as usize] = fork;
                number
            }
            None => {
                self.forks.push(fork);
                self.forks.len() as u32 - 1
            }
        };
        self.fresh.push(number);
        Function(FORK | u64::from(number))
    }

    /// How many canonical sources have a value in a block of so many bits.
    fn count(&self, function: Function, bits: u32) -> u32 {
        if function.is_constant() {
            return u32::from(function != Function::NOTHING);
        }
        let fork = self.get(function);
        let around = bits - fork.block.bits;
        let valued = u32::from(fork.outside != NOTHING);
        fork.pairs.saturating_add(valued * around)
    }

    fn halves(&self, function: Function, block: Block<A>) -> (Function, Function) {
        if function.is_constant() {
            return (function, function);
        }
        let fork = self.get(function);
        let around = Function(fork.outside);
        if fork.block.bits == block.bits {
            (fork.low, fork.high)
        } else if fork.block.start < block.high().start {
            (function, around)
        } else {
            (around, function)
        }
    }

    /// The function with these halves.
    fn joined(&mut self, block: Block<A>, low: Function, high: Function) -> Function {
        if low == high && low.is_constant() {
            return low;
        }
        if low.is_constant() && self.can_stand_in(high, block.bits - 1, low) {
            return self.with_outside(high, low.0);
        }
        if high.is_constant() && self.can_stand_in(low, block.bits - 1, high) {
            return self.with_outside(low, high.0);
        }
        self.make(block, low, high)
    }

    /// Whether the function is a fork with nothing but this value around it.
    fn can_stand_in(&self, function: Function, bits: u32, around: Function) -> bool {
        if function.is_constant() {
            return false;
        }
        let fork = self.get(function);
        fork.outside == around.0 || fork.block.bits == bits
    }

    fn with_outside(&mut self, function: Function, outside: u64) -> Function {
        let fork = *self.get(function);
        if fork.outside == outside {
            return function;
        }
        self.push(Fork { outside, ..fork })
    }

    /// The function that is this one in the inner block, and one value around it.
    fn widened(
        &mut self,
        function: Function,
        inner: Block<A>,
        block: Block<A>,
        outside: u64,
    ) -> Function {
        if inner.bits == block.bits {
            return function;
        }
        let parent = Block::around(inner.start, inner.bits + 1);
        let around = Function(outside);
        let joined = if parent.start == inner.start {
            self.joined(parent, function, around)
        } else {
            self.joined(parent, around, function)
        };
        if joined.is_constant() || parent.bits == block.bits {
            return joined;
        }
        self.with_outside(joined, outside)
    }

    /// The function with these rows laid over it, all within the block.
    fn overlaid(
        &mut self,
        rows: &[Row<A>],
        sources: &[Prefix<A>],
        block: Block<A>,
        old: Function,
    ) -> Function {
        let (Some(first), Some(last)) = (rows.first(), rows.last()) else {
            return old;
        };
        let block_of = |row: &Row<A>| Block::of(sources[row.key.source()]);
        let mut inner = block_of(first).joined(block_of(last));
        let mut outside = old.0;
        if !old.is_constant() {
            let fork = self.get(old);
            inner = inner.joined(fork.block);
            outside = fork.outside;
        }
        let new = if block_of(first).bits == inner.bits {
            let covering = Function(first.value());
            self.overlaid(&rows[1..], sources, inner, covering)
        } else {
            self.overlaid_by_halves(rows, sources, inner, old)
        };
        self.widened(new, inner, block, outside)
    }

    fn overlaid_by_halves(
        &mut self,
        rows: &[Row<A>],
        sources: &[Prefix<A>],
        block: Block<A>,
        old: Function,
    ) -> Function {
        let (low, high) = (block.low(), block.high());
        let middle = rows.partition_point(|row| sources[row.key.source()].bits < high.start);
        let (below, above) = rows.split_at(middle);
        let halves = self.halves(old, block);
        let new_low = self.overlaid(below, sources, low, halves.0);
        let new_high = self.overlaid(above, sources, high, halves.1);
        if (new_low, new_high) == halves {
            return old;
        }
        self.joined(block, new_low, new_high)
    }

    /// Whether two functions on one block of so many bits are equal.
    #[inline(always)]
    fn are_equal(&mut self, left: Function, right: Function, bits: u32) -> bool {
        left == right
            || (!left.is_constant() && !right.is_constant() && self.agree(left, right, bits))
    }

    /// Whether two forks are equal. Halves that were seen to be equal are not gone through again.
    fn agree(&mut self, left: Function, right: Function, bits: u32) -> bool {
        let (a, b) = (*self.get(left), *self.get(right));
        let block = a.block;
        if (block.start, block.bits, a.pairs) != (b.block.start, b.block.bits, b.pairs)
            || (a.outside != b.outside && block.bits < bits)
        {
            return false;
        }
        let half = block.bits - 1;
        let equal = a.twin == b.serial
            || self.are_equal(a.low, b.low, half) && self.are_equal(a.high, b.high, half);
        if equal {
            self.forks[left.0 as u32 as usize].twin = b.serial;
        }
        equal
    }

    /// Lists the largest blocks of sources with one value, in order.
    fn list(&self, function: Function, block: Block<A>, sources: &mut Vec<(Prefix<A>, u64)>) {
        if function == Function::NOTHING {
            return;
        }
        if function.is_constant() {
            sources.push((block.prefix(), function.0));
            return;
        }
        let fork = self.get(function);
        let block = if fork.outside == NOTHING {
            fork.block
        } else {
            block
        };
        let (low, high) = self.halves(function, block);
        self.list(low, block.low(), sources);
        self.list(high, block.high(), sources);
    }

    /// Lists the largest blocks of sources with one pair of different answers, in order, each with
    /// that pair's number.
    fn list_apart(
        &mut self,
        left: Function,
        right: Function,
        block: Block<A>,
        answers: &mut Numbered<(u64, u64)>,
        sources: &mut Vec<(Prefix<A>, u64)>,
    ) {
        if self.are_equal(left, right, block.bits) {
            return;
        }
        if left.is_constant() && right.is_constant() {
            let number = answers.number((left.0, right.0));
            sources.push((block.prefix(), number as u64));
            return;
        }
        let block = self.apart_within(left, right, block);
        let (lefts, rights) = (self.halves(left, block), self.halves(right, block));
        self.list_apart(lefts.0, rights.0, block.low(), answers, sources);
        self.list_apart(lefts.1, rights.1, block.high(), answers, sources);
    }

    /// The block without what is around both functions' forks, if they answer the same there.
    fn apart_within(&self, left: Function, right: Function, block: Block<A>) -> Block<A> {
        let fork = |function: Function| (!function.is_constant()).then(|| self.get(function));
        let outside = |function| fork(function).map_or(function.0, |fork| fork.outside);
        if outside(left) != outside(right) {
            return block;
        }
        match (fork(left), fork(right)) {
            (Some(left), Some(right)) => left.block.joined(right.block),
            (Some(fork), None) | (None, Some(fork)) => fork.block,
            (None, None) => block,
        }
    }

    /// The least source that two functions which differ answer differently, and their answers.
    fn first_apart(&mut self, mut left: Function, mut right: Function) -> (A, u64, u64) {
        let mut block = Block::WHOLE;
        while !(left.is_constant() && right.is_constant()) {
            let lefts = self.halves(left, block);
            let rights = self.halves(right, block);
            if self.are_equal(lefts.0, rights.0, block.bits - 1) {
                (left, right, block) = (lefts.1, rights.1, block.high());
            } else {
                (left, right, block) = (lefts.0, rights.0, block.low());
            }
        }
        (block.start, left.0, right.0)
    }
}

// ---- runs of destinations

/// Destinations with one function of the source, from the first to the last; those beside them have
/// another.
#[derive(Clone, Copy)]
struct Run<A> {
    first: A,
    last: A,
    function: Function,
}

/// A destination prefix around the place where the pass is: where it ends, and what its rows and
/// those around it answer.
struct Open<A> {
    last: A,
    function: Function,
    /// How many forks the prefixes around it made.
    made: usize,
}

/// The pass over sorted rows: nested prefixes open and close like brackets.
struct Sweep<'a, A> {
    rows: &'a [Row<A>],
    sources: &'a [Prefix<A>],
    open: Vec<Open<A>>,
    made: Vec<u32>,
    /// Forks of prefixes that are closed: only the run that is given may still need them.
    retired: Vec<u32>,
    /// Where the next run begins, unless all are given.
    next: Option<(A, Function)>,
}

impl<'a, A: Address> Sweep<'a, A> {
    fn new(table: &'a Rows<A>) -> Sweep<'a, A> {
        Sweep {
            rows: &table.rows,
            sources: &table.sources,
            open: vec![Open {
                last: A::MAX,
                function: Function::NOTHING,
                made: 0,
            }],
            made: Vec::new(),
            retired: Vec::new(),
            next: Some((A::ZERO, Function::NOTHING)),
        }
    }

    /// The pass after so many rows, of which only the ones matter whose destinations reach this
    /// address. What is said of lower addresses is of no consequence.
    fn behind(table: &'a Rows<A>, front: usize, at: A, forks: &mut Forks<A>) -> Sweep<'a, A> {
        let mut sweep = Sweep::new(table);
        let (passed, rest) = table.rows.split_at(front);
        for own in passed.chunk_by(|row, next| row.key.dst() == next.key.dst()) {
            let block = Block::of(own[0].key.dst());
            if block.start.last(block.bits) >= at {
                let function = sweep.open_rows(own, forks);
                sweep.next = Some((A::ZERO, function));
            }
        }
        sweep.rows = rest;
        sweep
    }

    /// The next run. The one before it is not needed any more.
    fn run(&mut self, forks: &mut Forks<A>) -> Option<Run<A>> {
        let (first, mut function) = self.next.take()?;
        self.give_back(forks);
        while let Some((start, changed)) = self.change(forks) {
            if start > first && !forks.are_equal(function, changed, A::WIDTH) {
                self.next = Some((start, changed));
                let last = start.previous();
                return Some(Run {
                    first,
                    last,
                    function,
                });
            }
            function = changed;
            self.give_back(forks);
        }
        Some(Run {
            first,
            last: A::MAX,
            function,
        })
    }

    #[inline(always)]
    fn give_back(&mut self, forks: &mut Forks<A>) {
        if !self.retired.is_empty() {
            forks.free.append(&mut self.retired);
        }
    }

    /// The next destination where another prefix decides, and its function.
    #[inline(always)]
    fn change(&mut self, forks: &mut Forks<A>) -> Option<(A, Function)> {
        loop {
            let next = self.rows.first().map(|row| row.key.bits);
            if self.open.last()?.last < next.unwrap_or(A::MAX)
                || (next.is_none() && self.open.len() > 1)
            {
                let closed = self.close();
                let around = self.open.last()?;
                let start = closed.next();
                if closed < around.last && next != Some(start) {
                    return Some((start, around.function));
                }
            } else {
                let start = next?;
                let function = self.open_next(forks);
                if self.rows.first().is_none_or(|row| row.key.bits > start) {
                    return Some((start, function));
                }
            }
        }
    }

    /// Closes the innermost prefix, and gives the address where it ends.
    fn close(&mut self) -> A {
        let Some(closed) = self.open.pop() else {
            unreachable!("the whole family stays open");
        };
        if self.made.len() > closed.made {
            self.retired.extend(self.made.drain(closed.made..));
        }
        closed.last
    }

    /// Opens the next destination prefix, with all its rows.
    fn open_next(&mut self, forks: &mut Forks<A>) -> Function {
        let dst = self.rows[0].key.dst();
        let many = self.rows[1..]
            .iter()
            .take_while(|row| row.key.dst() == dst)
            .count();
        let (own, rest) = self.rows.split_at(1 + many);
        self.rows = rest;
        self.open_rows(own, forks)
    }

    /// Opens the destination prefix of these rows, which are all that it has.
    fn open_rows(&mut self, own: &[Row<A>], forks: &mut Forks<A>) -> Function {
        let dst = own[0].key.dst();
        let function = if own.len() == 1 && own[0].key.source() == 0 {
            Function(own[0].value())
        } else {
            let around = self.open.last().map_or(Function::NOTHING, |o| o.function);
            forks.overlaid(own, self.sources, Block::WHOLE, around)
        };
        self.open.push(Open {
            last: Block::of(dst).start.last(Block::of(dst).bits),
            function,
            made: self.made.len(),
        });
        if !forks.fresh.is_empty() {
            self.made.append(&mut forks.fresh);
        }
        function
    }
}

// ---- canonical pairs: the largest aligned blocks of the runs

/// How many largest aligned blocks the addresses from the first to the last have.
fn block_count<A: Address>(first: A, last: A) -> u32 {
    let differing = A::WIDTH - (first ^ last).leading_zeros();
    if first.trailing_zeros() >= differing && (!last).trailing_zeros() >= differing {
        return 1;
    }
    // Below the middle, where the two part, the sizes are the ones of what is missing up to it;
    // from there on those of what is there.
    let middle = last & A::top(A::WIDTH - (differing - 1));
    middle.distance_from(first).count_ones() + last.distance_from(middle.previous()).count_ones()
}

/// Gives the largest aligned blocks from the first address to the last, in order.
fn each_block<A: Address>(
    mut first: A,
    last: A,
    mut take: impl FnMut(Prefix<A>) -> io::Result<()>,
) -> io::Result<()> {
    loop {
        let addresses = last.distance_from(first).next();
        let fits = if addresses == A::ZERO {
            A::WIDTH
        } else {
            A::WIDTH - 1 - addresses.leading_zeros()
        };
        let bits = first.trailing_zeros().min(fits);
        take(Block { start: first, bits }.prefix())?;
        let end = first.last(bits);
        if end == last {
            return Ok(());
        }
        first = end.next();
    }
}

/// The runs of a family that have sources with a value. Where a function is not constant, it is a
/// number of `parts`, which says where its sources stand.
struct Canon<A> {
    runs: Vec<Run<A>>,
    parts: Vec<Range<usize>>,
    sources: Vec<(Prefix<A>, u64)>,
}

impl<A: Address> Canon<A> {
    /// A fault where the pairs, with so many others, are more than the limit.
    fn of(table: &Rows<A>, count: &mut u64) -> Result<Canon<A>, Fault> {
        let mut forks = Forks::new();
        let mut sweep = Sweep::new(table);
        let (mut runs, mut parts, mut sources) = (Vec::new(), Vec::new(), Vec::new());
        while let Some(mut run) = sweep.run(&mut forks) {
            if run.function == Function::NOTHING {
                continue;
            }
            let each = forks.count(run.function, A::WIDTH);
            *count += u64::from(block_count(run.first, run.last)) * u64::from(each);
            if *count > MAX_ENTRIES as u64 {
                return Err(Fault::TooManyPairs);
            }
            if !run.function.is_constant() {
                let start = sources.len();
                forks.list(run.function, Block::WHOLE, &mut sources);
                run.function = Function(FORK | parts.len() as u64);
                parts.push(start..sources.len());
            }
            runs.push(run);
        }
        Ok(Canon {
            runs,
            parts,
            sources,
        })
    }

    /// Gives the canonical pairs, in order.
    fn each_pair(
        &self,
        mut take: impl FnMut(Prefix<A>, Prefix<A>, u64) -> io::Result<()>,
    ) -> io::Result<()> {
        for run in &self.runs {
            if run.function.is_constant() {
                each_block(run.first, run.last, |dst| {
                    take(dst, Prefix::WHOLE, run.function.0)
                })?;
                continue;
            }
            let part = &self.parts[run.function.0 as u32 as usize];
            let sources = &self.sources[part.clone()];
            each_block(run.first, run.last, |dst| {
                sources
                    .iter()
                    .try_for_each(|&(src, value)| take(dst, src, value))
            })?;
        }
        Ok(())
    }
}

/// The boxes that two tables answer differently, each with the number of its answers.
impl<A: Address> Canon<A> {
    /// A fault where the boxes, with so many others, are more than the limit.
    fn of_differences(
        left: &Rows<A>,
        right: &Rows<A>,
        answers: &mut Numbered<(u64, u64)>,
        count: &mut u64,
    ) -> Result<Canon<A>, Fault> {
        let mut forks = Forks::new();
        let mut sweeps = (Sweep::new(left), Sweep::new(right));
        let mut runs = (sweeps.0.run(&mut forks), sweeps.1.run(&mut forks));
        let mut canon = Canon {
            runs: Vec::new(),
            parts: Vec::new(),
            sources: Vec::new(),
        };
        while let (Some(left), Some(right)) = runs {
            let (first, last) = (left.first.max(right.first), left.last.min(right.last));
            let start = canon.sources.len();
            let (functions, sources) = ((left.function, right.function), &mut canon.sources);
            forks.list_apart(functions.0, functions.1, Block::WHOLE, answers, sources);
            canon.take_listed(start, first, last, count)?;
            if left.last == last {
                runs.0 = sweeps.0.run(&mut forks);
            }
            if right.last == last {
                runs.1 = sweeps.1.run(&mut forks);
            }
        }
        canon.count_last(count)?;
        Ok(canon)
    }

    /// The sources listed from this place on, of the destinations from the first to the last: the
    /// last run goes on where it has the same.
    fn take_listed(
        &mut self,
        start: usize,
        first: A,
        last: A,
        count: &mut u64,
    ) -> Result<(), Fault> {
        if let (Some(run), Some(part)) = (self.runs.last_mut(), self.parts.last()) {
            if run.last.next() == first && self.sources[part.clone()] == self.sources[start..] {
                run.last = last;
                self.sources.truncate(start);
                return Ok(());
            }
        }
        if start < self.sources.len() {
            self.count_last(count)?;
            let function = Function(FORK | self.parts.len() as u64);
            self.runs.push(Run {
                first,
                last,
                function,
            });
            self.parts.push(start..self.sources.len());
        }
        Ok(())
    }

    /// Counts the boxes of the last run, which does not go on.
    fn count_last(&self, count: &mut u64) -> Result<(), Fault> {
        if let (Some(run), Some(part)) = (self.runs.last(), self.parts.last()) {
            *count += u64::from(block_count(run.first, run.last)) * part.len() as u64;
        }
        if *count > MAX_ENTRIES as u64 {
            return Err(Fault::TooManyPairs);
        }
        Ok(())
    }
}

struct Difference<A> {
    dst: A,
    src: A,
    left: u64,
    right: u64,
}

/// How many rows both tables begin with, up to a destination that has not the same rows in both.
fn common_front<A: Address>(left: &Rows<A>, right: &Rows<A>) -> usize {
    let are_one = |(row, other): &(&Row<A>, &Row<A>)| {
        row.key.dst() == other.key.dst()
            && row.value() == other.value()
            && left.source(row) == right.source(other)
    };
    let mut front = left
        .rows
        .iter()
        .zip(&right.rows)
        .take_while(are_one)
        .count();
    let dst = |rows: &[Row<A>], place: usize| rows.get(place).map(|row| row.key.dst());
    while front > 0 {
        let last = dst(&left.rows, front - 1);
        if dst(&left.rows, front) != last && dst(&right.rows, front) != last {
            break;
        }
        front -= 1;
    }
    front
}

/// The least pair of addresses that the tables of a family answer differently.
fn first_difference<A: Address>(left: &Rows<A>, right: &Rows<A>) -> Option<Difference<A>> {
    let front = common_front(left, right);
    let starts = [left.rows.get(front), right.rows.get(front)];
    let at = starts.into_iter().flatten().map(|row| row.key.bits).min()?;
    let mut forks = Forks::new();
    let mut sweeps = (
        Sweep::behind(left, front, at, &mut forks),
        Sweep::behind(right, front, at, &mut forks),
    );
    let mut left = sweeps.0.run(&mut forks)?;
    let mut right = sweeps.1.run(&mut forks)?;
    loop {
        if !forks.are_equal(left.function, right.function, A::WIDTH) {
            let (src, l, r) = forks.first_apart(left.function, right.function);
            return Some(Difference {
                dst: left.first.max(right.first),
                src,
                left: l,
                right: r,
            });
        }
        let ends = left.last.cmp(&right.last);
        if ends.is_le() {
            left = sweeps.0.run(&mut forks)?;
        }
        if ends.is_ge() {
            right = sweeps.1.run(&mut forks)?;
        }
    }
}

/// A key for which two tables hold what differs, or a box that they answer differently.
struct RouteDifference<A> {
    key: (Prefix<A>, Prefix<A>),
    left: u64,
    right: u64,
}

/// The next key for which two sorted tables hold what differs, after so many rows of each.
fn next_route<A: Address>(
    left: &Rows<A>,
    right: &Rows<A>,
    at: &mut (usize, usize),
) -> Option<RouteDifference<A>> {
    loop {
        let rows = (left.rows.get(at.0), right.rows.get(at.1));
        let places = (
            rows.0.map(|row| left.place(row)),
            rows.1.map(|row| right.place(row)),
        );
        let key = places.0.into_iter().chain(places.1).min()?;
        let (in_left, in_right) = (places.0 == Some(key), places.1 == Some(key));
        at.0 += usize::from(in_left);
        at.1 += usize::from(in_right);
        let held = |row: Option<&Row<A>>, is_in| row.filter(|_| is_in).map_or(NOTHING, Row::value);
        let (left, right) = (held(rows.0, in_left), held(rows.1, in_right));
        if left != right {
            return Some(RouteDifference { key, left, right });
        }
    }
}

// ---- what is written

const DIGITS: [u8; 16] = *b"0123456789abcdef";

/// Each octet in decimal digits, a dot after them, and how many octets these are.
static OCTETS: [([u8; 4], usize); 256] = {
    let mut texts = [([b'.'; 4], 0); 256];
    let mut octet = 0;
    while octet < 256 {
        let digits = [
            DIGITS[octet / 100],
            DIGITS[octet / 10 % 10],
            DIGITS[octet % 10],
        ];
        let skipped = if octet < 10 {
            2
        } else if octet < 100 {
            1
        } else {
            0
        };
        let mut place = skipped;
        while place < 3 {
            texts[octet].0[place - skipped] = digits[place];
            place += 1;
        }
        texts[octet].1 = 4 - skipped;
        octet += 1;
    }
    texts
};

/// Each octet in two hexadecimal digits.
static HEX: [u16; 256] = {
    let mut texts = [0; 256];
    let mut octet = 0;
    while octet < 256 {
        texts[octet] = u16::from_be_bytes([DIGITS[octet >> 4], DIGITS[octet & 15]]);
        octet += 1;
    }
    texts
};

/// Four digits, the first in the highest octet.
fn hex_digits(number: u16) -> u32 {
    let [high, low] = number.to_be_bytes();
    u32::from(HEX[usize::from(high)]) << 16 | u32::from(HEX[usize::from(low)])
}

/// Octets being written, in large slices. There is always room for a line or a packet.
struct Out<W: Write> {
    sink: W,
    hex: bool,
    short: bool,
    octets: Vec<u8>,
    at: usize,
}

const SLICE: usize = 1 << 16;

impl<W: Write> Out<W> {
    fn new(sink: W, hex: bool) -> Out<W> {
        let octets = vec![0; SLICE + LONGEST_PACKET + 512];
        Out {
            sink,
            hex,
            short: false,
            octets,
            at: 0,
        }
    }

    /// Adds the first of these octets. They are written whole, and the next ones over the rest.
    fn put<const N: usize>(&mut self, octets: [u8; N], len: usize) {
        self.octets[self.at..self.at + N].copy_from_slice(&octets);
        self.at += len;
    }

    fn text<const N: usize>(&mut self, text: &[u8; N]) {
        self.put(*text, N);
    }

    fn words(&mut self, text: &str) {
        self.octets[self.at..self.at + text.len()].copy_from_slice(text.as_bytes());
        self.at += text.len();
    }

    fn small_number(&mut self, number: u8) {
        let (text, len) = OCTETS[usize::from(number)];
        self.put(text, len - 1);
    }

    fn number(&mut self, number: u16) {
        if number < 256 {
            return self.small_number(number as u8);
        }
        let mut rest = number;
        let mut digits = [b'0'; 5];
        for digit in digits.iter_mut().rev() {
            *digit = DIGITS[usize::from(rest % 10)];
            rest /= 10;
        }
        let skipped = if number < 1_000 {
            2
        } else if number < 10_000 {
            1
        } else {
            0
        };
        self.octets[self.at..self.at + 5 - skipped].copy_from_slice(&digits[skipped..]);
        self.at += 5 - skipped;
    }

    /// Groups in hexadecimal, joined by `:`.
    fn groups(&mut self, groups: &[u16]) {
        for group in groups {
            let skipped = (group | 1).leading_zeros() / 4;
            let text = u64::from(hex_digits(*group)) << 32 | u64::from(b':') << 24;
            self.put((text << (8 * skipped)).to_be_bytes(), 5 - skipped as usize);
        }
        self.at -= usize::from(!groups.is_empty());
    }

    fn prefix<A: Address>(&mut self, prefix: Prefix<A>) {
        prefix.bits.print(self);
        self.text(b"/");
        self.small_number(prefix.len);
    }

    fn source<A: Address>(&mut self, src: Prefix<A>) {
        if self.short && src.len == 0 {
            return;
        }
        self.text(b" from ");
        self.prefix(src);
    }

    fn answer(&mut self, owners: &[Owner], value: u64) {
        match value {
            NOTHING => return self.text(b"none\n"),
            UNREACHABLE => return self.text(b"unreachable\n"),
            _ => {}
        }
        let owner = &owners[(value >> 32) as usize];
        self.text(b"via ");
        owner.next_hop.print(self);
        self.text(b" id ");
        for place in (0..4).rev() {
            let group = (owner.router_id >> (16 * place)) as u16;
            self.text(&hex_digits(group).to_be_bytes());
        }
        self.text(b" seqno ");
        self.number((value >> 16) as u16);
        self.text(b" metric ");
        self.number(value as u16);
        self.text(b"\n");
    }

    fn line<A: Address>(
        &mut self,
        owners: &[Owner],
        dst: Prefix<A>,
        src: Prefix<A>,
        value: u64,
    ) -> io::Result<()> {
        self.prefix(dst);
        self.source(src);
        self.text(b" ");
        self.answer(owners, value);
        self.hand_over_if_full()
    }

    fn difference<A: Address>(&mut self, owners: &[Owner], difference: &RouteDifference<A>) {
        self.text(b"differ ");
        self.prefix(difference.key.0);
        self.source(difference.key.1);
        self.text(b"\nleft ");
        self.answer(owners, difference.left);
        self.text(b"right ");
        self.answer(owners, difference.right);
    }

    /// The row of one side, if it has one.
    fn changed_row<A: Address>(
        &mut self,
        owners: &[Owner],
        sign: &[u8; 1],
        difference: &RouteDifference<A>,
        held: u64,
    ) -> io::Result<()> {
        if held == NOTHING {
            return Ok(());
        }
        self.text(sign);
        self.line(owners, difference.key.0, difference.key.1, held)
    }

    fn hand_over_if_full(&mut self) -> io::Result<()> {
        if self.at >= SLICE {
            self.hand_over()?;
        }
        Ok(())
    }

    fn hand_over(&mut self) -> io::Result<()> {
        let octets = &self.octets[..self.at];
        self.at = 0;
        if !self.hex {
            return self.sink.write_all(octets);
        }
        let digits = |octet: &u8| HEX[usize::from(*octet)].to_be_bytes();
        let text: Vec<u8> = octets.iter().flat_map(digits).collect();
        self.sink.write_all(&text)
    }

    fn finish(&mut self) -> io::Result<()> {
        self.hand_over()?;
        if self.hex {
            self.sink.write_all(b"\n")?;
        }
        self.sink.flush()
    }
}

/// The canonical dump being written: RFC 8966, 4.6.7 to 4.6.9; RFC 9079, 7.1.
struct Writer<W: Write> {
    out: Out<W>,
    body: usize,
    /// Where the packet that is open begins.
    start: Option<usize>,
    router_id: Option<u64>,
    next_hop_v4: Option<u32>,
    next_hop_v6: Option<u128>,
}

/// The last destination of a family in the open packet: of its own encoding, and of encoding 4.
struct Said<A> {
    destinations: [Option<A>; 2],
}

impl<A> Said<A> {
    const NOTHING: Said<A> = Said {
        destinations: [None, None],
    };
}

impl<W: Write> Writer<W> {
    fn put_pairs<A: Address>(&mut self, canon: &Canon<A>, owners: &[Owner]) -> io::Result<()> {
        let mut said = Said::NOTHING;
        canon.each_pair(|dst, src, value| self.put_pair(&mut said, owners, dst, src, value))
    }

    fn put_rows<A: Address>(&mut self, table: &Rows<A>) -> io::Result<()> {
        let mut said = Said::NOTHING;
        for row in &table.rows {
            let (dst, src) = table.place(row);
            self.put_pair(&mut said, &table.owners.list, dst, src, row.value())?;
        }
        Ok(())
    }

    /// Puts a pair into the open packet if it fits there, else into a new one.
    fn put_pair<A: Address>(
        &mut self,
        said: &mut Said<A>,
        owners: &[Owner],
        dst: Prefix<A>,
        src: Prefix<A>,
        value: u64,
    ) -> io::Result<()> {
        if let Some(start) = self.start {
            let before = self.out.at;
            self.put_group(said, owners, dst, src, value);
            if self.out.at - (start + 4) <= self.body {
                return Ok(());
            }
            self.out.at = before;
            self.close_packet();
            self.out.hand_over_if_full()?;
        }
        self.start = Some(self.out.at);
        self.router_id = None;
        self.next_hop_v4 = None;
        self.next_hop_v6 = None;
        *said = Said::NOTHING;
        self.out.text(&[42, 2, 0, 0]);
        self.put_group(said, owners, dst, src, value);
        Ok(())
    }

    fn close_packet(&mut self) {
        if let Some(start) = self.start.take() {
            let len = (self.out.at - (start + 4)) as u16;
            self.out.octets[start + 2..start + 4].copy_from_slice(&len.to_be_bytes());
        }
    }

    fn put_group<A: Address>(
        &mut self,
        said: &mut Said<A>,
        owners: &[Owner],
        dst: Prefix<A>,
        src: Prefix<A>,
        value: u64,
    ) {
        let mut encoding = A::ENCODING;
        if value != UNREACHABLE {
            let owner = &owners[(value >> 32) as usize];
            self.put_owner(owner);
            if A::WIDTH == 32 && matches!(owner.next_hop, Hop::V6(_)) {
                encoding = 4;
            }
        }
        let last = &mut said.destinations[usize::from(encoding == 4)];
        let count = u32::from(dst.len.div_ceil(8));
        let omitted = match *last {
            None => 0,
            Some(last) => ((last ^ dst.bits).leading_zeros() / 8).min(count),
        };
        *last = Some(dst.bits);
        let source_count = usize::from(src.len.div_ceil(8));
        let source_len = if src.len == 0 { 0 } else { 3 + source_count };
        let field = (count - omitted) as usize;
        let mut update = [0; WINDOW];
        update[0] = 8;
        update[1] = (10 + field + source_len) as u8;
        update[2..6].copy_from_slice(&[encoding, 0x80, dst.len, omitted as u8]);
        update[6..8].copy_from_slice(&INTERVAL.to_be_bytes());
        update[8..FIXED].copy_from_slice(&(value as u32).to_be_bytes());
        update[FIXED..].copy_from_slice(&dst.bits.up(8 * omitted).octets());
        self.out.put(update, FIXED + field);
        if src.len != 0 {
            self.out.text(&[128, 1 + source_count as u8, src.len]);
            self.out.put(src.bits.octets(), source_count);
        }
    }

    fn put_owner(&mut self, owner: &Owner) {
        if self.router_id != Some(owner.router_id) {
            self.router_id = Some(owner.router_id);
            self.out.text(&[6, 10, 0, 0]);
            self.out.text(&owner.router_id.to_be_bytes());
        }
        let current = match owner.next_hop {
            Hop::V4(bits) => self.next_hop_v4.replace(bits) == Some(bits),
            Hop::V6(bits) => self.next_hop_v6.replace(bits) == Some(bits),
        };
        if !current {
            let (tlv, len) = owner.next_hop.tlv();
            self.out.put(tlv, len);
        }
    }
}

// ---- the program

enum Failure {
    Usage(String),
    Open(String),
    Read(&'static str),
    Dump(&'static str, Fault),
    Write,
}

impl From<io::Error> for Failure {
    fn from(_: io::Error) -> Failure {
        Failure::Write
    }
}

struct Words {
    command: String,
    options: HashMap<String, String>,
    flags: Vec<String>,
    files: Vec<String>,
}

fn read_words(mut words: impl Iterator<Item = String>) -> Option<Words> {
    let command = words.next()?;
    let (mut options, mut flags, mut files) = (HashMap::new(), Vec::new(), Vec::new());
    while let Some(word) = words.next() {
        match word.strip_prefix("--") {
            Some(flag @ ("hex" | "hold" | "v4-via-v6" | "count" | "all" | "routes" | "short")) => {
                flags.push(flag.to_string());
            }
            Some(option) => {
                options.insert(option.to_string(), words.next()?);
            }
            None => files.push(word),
        }
    }
    Some(Words {
        command,
        options,
        flags,
        files,
    })
}

impl Words {
    fn has(&self, flag: &str) -> bool {
        self.flags.iter().any(|word| word == flag)
    }

    /// Standard output, for lines.
    fn out(&self) -> Out<io::StdoutLock<'static>> {
        let mut out = Out::new(io::stdout().lock(), false);
        out.short = self.has("short");
        out
    }

    fn addr(&self, option: &str) -> Result<Addr, Failure> {
        let word = self
            .options
            .get(option)
            .ok_or_else(|| Failure::Usage(format!("no --{option}")))?;
        Addr::parse(word).ok_or_else(|| Failure::Usage(format!("not an address: {word}")))
    }

    fn body(&self) -> Result<usize, Failure> {
        let Some(word) = self.options.get("body") else {
            return Ok(USUAL_BODY);
        };
        match word.parse::<u16>() {
            Ok(octets) if usize::from(octets) >= LEAST_BODY => Ok(octets.into()),
            _ => Err(Failure::Usage(format!("not a size of a body: {word}"))),
        }
    }

    /// The dump at this place of the words, or else standard input.
    fn open(&self, place: usize) -> Result<Box<dyn Read>, Failure> {
        match self.files.get(place) {
            None => Ok(Box::new(io::stdin().lock())),
            Some(name) => match File::open(name) {
                Ok(file) => Ok(Box::new(file)),
                Err(_) => Err(Failure::Open(name.clone())),
            },
        }
    }

    /// The table of a dump. `side` begins the texts of its faults.
    fn table(
        &self,
        dump: Box<dyn Read>,
        sender: Addr,
        owners: Owners,
        side: &'static str,
    ) -> Result<Table, Failure> {
        let (hold, via_v6) = (self.has("hold"), self.has("v4-via-v6"));
        read_dump(dump, sender, hold, via_v6, owners).map_err(|fault| match fault {
            ReadFault::Io => Failure::Read(side),
            ReadFault::Dump(fault) => Failure::Dump(side, fault),
        })
    }

    fn only_table(&self) -> Result<Table, Failure> {
        let sender = self.addr("from")?;
        self.table(self.open(0)?, sender, Owners::new(), "")
    }
}

fn run(words: &Words) -> Result<u8, Failure> {
    match words.command.as_str() {
        "show" => show(words),
        "lookup" => lookup(words),
        "pairs" if words.has("routes") => rows(words),
        "pairs" => pairs(words),
        "normalise" => normalise(words),
        "compare" | "diff" => compare(words),
        other => Err(Failure::Usage(format!("no command {other}"))),
    }
}

fn show(words: &Words) -> Result<u8, Failure> {
    let mut table = words.only_table()?;
    table.sort();
    let out = &mut words.out();
    put_rows(out, &table.v4)?;
    put_rows(out, &table.v6)?;
    out.words(&format!("tlvs {}\n", table.report.tlvs));
    for (name, ignored) in REASONS.iter().zip(table.report.ignored) {
        if let Some((count, first)) = ignored {
            out.words(&format!("ignored {name} {count} first {first}\n"));
        }
    }
    out.finish()?;
    Ok(0)
}

fn put_rows<A: Address>(out: &mut Out<impl Write>, table: &Rows<A>) -> io::Result<()> {
    for row in &table.rows {
        let (dst, src) = table.place(row);
        out.line(&table.owners.list, dst, src, row.value())?;
    }
    Ok(())
}

/// Looks up each pair of a file of lines, which have a destination and a source.
fn lookup_each(words: &Words, name: &str) -> Result<u8, Failure> {
    let text = fs::read_to_string(name).map_err(|_| Failure::Open(name.to_string()))?;
    let mut table = words.only_table()?;
    table.sort();
    let nestings = (table.v4.nesting(), table.v6.nesting());
    let out = &mut words.out();
    let mut status = 0;
    for line in text.lines() {
        let pair = line
            .split_once(' ')
            .map(|(dst, src)| (Addr::parse(dst), Addr::parse(src)));
        let value = match pair {
            Some((Some(Addr::V4(dst)), Some(Addr::V4(src)))) => {
                put_found(out, &table.v4, &nestings.0, dst, src)?
            }
            Some((Some(Addr::V6(dst)), Some(Addr::V6(src)))) => {
                put_found(out, &table.v6, &nestings.1, dst, src)?
            }
            _ => return Err(Failure::Usage(format!("not a pair: {line}"))),
        };
        status |= u8::from(value == NOTHING || value == UNREACHABLE);
    }
    out.finish()?;
    Ok(status)
}

fn put_found<A: Address>(
    out: &mut Out<impl Write>,
    table: &Rows<A>,
    nesting: &[Around],
    dst: A,
    src: A,
) -> io::Result<u64> {
    let value = table.find(nesting, dst, src);
    dst.print(out);
    out.text(b" from ");
    src.print(out);
    out.text(b" ");
    out.answer(&table.owners.list, value);
    out.hand_over_if_full()?;
    Ok(value)
}

fn lookup(words: &Words) -> Result<u8, Failure> {
    if let Some(name) = words.options.get("each") {
        return lookup_each(words, name);
    }
    words.addr("from")?;
    let asked = (words.addr("to")?, words.addr("src")?);
    if matches!(
        asked,
        (Addr::V4(_), Addr::V6(_)) | (Addr::V6(_), Addr::V4(_))
    ) {
        let text = "--to and --src are of different families".to_string();
        return Err(Failure::Usage(text));
    }
    let table = words.only_table()?;
    let out = &mut words.out();
    let value = match asked {
        (Addr::V4(dst), Addr::V4(src)) => look_up(out, &table.v4, dst, src),
        (Addr::V6(dst), Addr::V6(src)) => look_up(out, &table.v6, dst, src),
        _ => NOTHING,
    };
    out.finish()?;
    Ok(u8::from(value == NOTHING || value == UNREACHABLE))
}

fn look_up<A: Address>(out: &mut Out<impl Write>, table: &Rows<A>, dst: A, src: A) -> u64 {
    let value = table.lookup(dst, src);
    out.answer(&table.owners.list, value);
    value
}

struct Canons {
    v4: Canon<u32>,
    v6: Canon<u128>,
    owners: Owners,
    rows: usize,
    pairs: u64,
}

/// The canonical form of a table, whose rows are given up.
fn canonical(mut table: Table) -> Result<Canons, Failure> {
    table.sort();
    let mut pairs = 0;
    let fault = |fault| Failure::Dump("", fault);
    Ok(Canons {
        v4: Canon::of(&table.v4, &mut pairs).map_err(fault)?,
        v6: Canon::of(&table.v6, &mut pairs).map_err(fault)?,
        owners: table.take_owners(),
        rows: table.v4.rows.len() + table.v6.rows.len(),
        pairs,
    })
}

/// The rows of a table, or how many there are.
fn rows(words: &Words) -> Result<u8, Failure> {
    let mut table = words.only_table()?;
    table.sort();
    let out = &mut words.out();
    if words.has("count") {
        let rows = table.v4.rows.len() + table.v6.rows.len();
        out.words(&format!("rows {rows}\n"));
    } else {
        put_rows(out, &table.v4)?;
        put_rows(out, &table.v6)?;
    }
    out.finish()?;
    Ok(0)
}

fn pairs(words: &Words) -> Result<u8, Failure> {
    let canons = &canonical(words.only_table()?)?;
    let out = &mut words.out();
    if words.has("count") {
        let Canons { rows, pairs, .. } = canons;
        out.words(&format!("rows {rows}\npairs {pairs}\n"));
    } else {
        put_pair_lines(out, &canons.v4, &canons.owners.v4.list)?;
        put_pair_lines(out, &canons.v6, &canons.owners.v6.list)?;
    }
    out.finish()?;
    Ok(0)
}

fn put_pair_lines<A: Address>(
    out: &mut Out<impl Write>,
    canon: &Canon<A>,
    owners: &[Owner],
) -> io::Result<()> {
    canon.each_pair(|dst, src, value| out.line(owners, dst, src, value))
}

fn normalise(words: &Words) -> Result<u8, Failure> {
    let body = words.body()?;
    let mut table = words.only_table()?;
    let mut writer = Writer {
        out: Out::new(io::stdout().lock(), words.has("hex")),
        body,
        start: None,
        router_id: None,
        next_hop_v4: None,
        next_hop_v6: None,
    };
    if words.has("routes") {
        table.sort();
        writer.put_rows(&table.v4)?;
        writer.put_rows(&table.v6)?;
    } else {
        let canons = canonical(table)?;
        writer.put_pairs(&canons.v4, &canons.owners.v4.list)?;
        writer.put_pairs(&canons.v6, &canons.owners.v6.list)?;
    }
    writer.close_packet();
    writer.out.finish()?;
    Ok(0)
}

fn compare(words: &Words) -> Result<u8, Failure> {
    let senders = (words.addr("from")?, words.addr("other-from")?);
    let dumps = (words.open(0)?, words.open(1)?);
    let mut left = words.table(dumps.0, senders.0, Owners::new(), "")?;
    let mut right = words.table(dumps.1, senders.1, left.take_owners(), "other: ")?;
    left.sort();
    right.sort();
    if words.has("routes") || words.command == "diff" {
        return compare_routes(&mut words.out(), &listed(words, senders), &left, &right);
    }
    if words.has("all") {
        return compare_all(words, &left, &right);
    }
    let out = &mut words.out();
    let differ =
        put_difference(out, &left.v4, &right.v4) || put_difference(out, &left.v6, &right.v6);
    if !differ {
        out.text(b"same\n");
    }
    out.finish()?;
    Ok(u8::from(differ))
}

fn put_difference<A: Address>(out: &mut Out<impl Write>, left: &Rows<A>, right: &Rows<A>) -> bool {
    let Some(found) = first_difference(left, right) else {
        return false;
    };
    let owners = &right.owners.list;
    out.text(b"differ ");
    found.dst.print(out);
    out.text(b" from ");
    found.src.print(out);
    out.text(b"\nleft ");
    out.answer(owners, found.left);
    out.text(b"right ");
    out.answer(owners, found.right);
    true
}

/// Each box that two sorted tables answer differently.
fn compare_all(words: &Words, left: &Table, right: &Table) -> Result<u8, Failure> {
    let mut found = 0;
    let (v4, v4_answers) = differences(&left.v4, &right.v4, &mut found)?;
    let (v6, v6_answers) = differences(&left.v6, &right.v6, &mut found)?;
    let out = &mut words.out();
    if words.has("count") {
        out.words(&format!("differences {found}\n"));
    } else if found == 0 {
        out.text(b"same\n");
    } else {
        put_differences(out, &v4, &v4_answers, &right.v4.owners.list)?;
        put_differences(out, &v6, &v6_answers, &right.v6.owners.list)?;
    }
    out.finish()?;
    Ok(u8::from(found > 0))
}

/// Those of a family, after so many, and their answers.
fn differences<A: Address>(
    left: &Rows<A>,
    right: &Rows<A>,
    found: &mut u64,
) -> Result<(Canon<A>, Vec<(u64, u64)>), Failure> {
    let mut answers = Numbered::new();
    let canon = Canon::of_differences(left, right, &mut answers, found)
        .map_err(|fault| Failure::Dump("", fault))?;
    Ok((canon, answers.list))
}

fn put_differences<A: Address>(
    out: &mut Out<impl Write>,
    canon: &Canon<A>,
    answers: &[(u64, u64)],
    owners: &[Owner],
) -> io::Result<()> {
    canon.each_pair(|dst, src, number| {
        let (left, right) = answers[number as usize];
        out.difference(
            owners,
            &RouteDifference {
                key: (dst, src),
                left,
                right,
            },
        );
        out.hand_over_if_full()
    })
}

/// What is written of the keys for which two tables hold what differs.
enum Listed<'a> {
    First,
    All,
    Count,
    /// The rows, after lines of these files and senders.
    Diff([(&'static str, &'a str, Addr); 2]),
}

fn listed(words: &Words, senders: (Addr, Addr)) -> Listed<'_> {
    if words.command == "diff" {
        let file = |place| words.files.get(place).map_or("-", String::as_str);
        return Listed::Diff([("--- ", file(0), senders.0), ("+++ ", file(1), senders.1)]);
    }
    match (words.has("count"), words.has("all")) {
        (true, _) => Listed::Count,
        (false, true) => Listed::All,
        (false, false) => Listed::First,
    }
}

/// The keys for which two sorted tables hold what differs.
fn compare_routes(
    out: &mut Out<impl Write>,
    listed: &Listed,
    left: &Table,
    right: &Table,
) -> Result<u8, Failure> {
    let mut found = 0;
    put_routes(out, &left.v4, &right.v4, listed, &mut found)?;
    put_routes(out, &left.v6, &right.v6, listed, &mut found)?;
    match listed {
        Listed::Count => out.words(&format!("differences {found}\n")),
        Listed::First | Listed::All if found == 0 => out.text(b"same\n"),
        _ => {}
    }
    out.finish()?;
    Ok(u8::from(found > 0))
}

/// Those of a family, after so many.
fn put_routes<A: Address>(
    out: &mut Out<impl Write>,
    left: &Rows<A>,
    right: &Rows<A>,
    listed: &Listed,
    found: &mut usize,
) -> io::Result<()> {
    let (owners, mut at) = (&right.owners.list, (0, 0));
    while !matches!((listed, *found), (Listed::First, 1)) {
        let Some(difference) = next_route(left, right, &mut at) else {
            break;
        };
        match listed {
            Listed::Count => {}
            Listed::First | Listed::All => out.difference(owners, &difference),
            Listed::Diff(heads) => {
                if *found == 0 {
                    for (mark, file, sender) in heads {
                        out.words(&format!("{mark}{file} "));
                        sender.print(out);
                        out.text(b"\n");
                    }
                }
                out.changed_row(owners, b"-", &difference, difference.left)?;
                out.changed_row(owners, b"+", &difference, difference.right)?;
            }
        }
        *found += 1;
        out.hand_over_if_full()?;
    }
    Ok(())
}

fn main() -> ExitCode {
    let Some(words) = read_words(std::env::args().skip(1)) else {
        let commands = "show|lookup|pairs|normalise|compare|diff";
        eprintln!("usage: limit {commands} --from A .. [FILE [OTHER]]");
        return ExitCode::from(2);
    };
    let (text, status) = match run(&words) {
        Ok(status) => return ExitCode::from(status),
        Err(Failure::Usage(text)) => (text, 2),
        Err(Failure::Open(name)) => (format!("cannot open {name}"), 4),
        Err(Failure::Read(side)) => (format!("{side}read failed"), 4),
        Err(Failure::Dump(side, fault)) => (format!("{side}{fault}"), 3),
        Err(Failure::Write) => ("write failed".to_string(), 4),
    };
    eprintln!("{text}");
    ExitCode::from(status)
}
