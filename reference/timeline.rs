//! What senders hold, and how it changes: `show` and `lookup` at a moment, and `events`.
//!
//! TLVs are read where they lie in their packet. A row has what Updates do not repeat as numbers,
//! and is found by the row after the one found last, or else by a hash whose key is drawn for each
//! run. A row that expires has one place in a heap, which moves only when it comes first there, or
//! has to come before; so an Update that repeats a route costs no more than one that never expires.

use std::collections::{BTreeMap, HashMap};
use std::hash::Hash;
use std::io::{self, Write};

use crate::clock::{self, Moment};
use crate::{
    place_json, place_text, u16_at, Addr, Failure, Fault, Origin, Place, Seed, INFINITY, UPDATE,
};

const HELLO: u8 = 4;
const ROUTER_ID: u8 = 6;
const NEXT_HOP: u8 = 7;
const SOURCE_PREFIX: u8 = 128;
const LINK_LOCAL: u128 = 0xfe80 << 112;
const RFC_FACTOR: u64 = 35_000_000;
const NEVER: i128 = i128::MAX;
const NONE: u32 = u32::MAX;

// ---- what TLVs say: RFC 8966, 4; RFC 9079, 7; RFC 9229

#[derive(Clone, Copy, PartialEq, Eq, PartialOrd, Ord, Hash)]
struct Prefix {
    bits: u128,
    len: u8,
}

const WHOLE: Prefix = Prefix { bits: 0, len: 0 };

impl Prefix {
    #[inline(always)]
    fn new(bits: u128, len: u8, width: u32) -> Prefix {
        let free = width - u32::from(len);
        let kept = if free == 128 { 0 } else { u128::MAX << free };
        Prefix {
            bits: bits & kept,
            len,
        }
    }

    fn contains(self, addr: u128, width: u32) -> bool {
        Prefix::new(addr, self.len, width).bits == self.bits
    }
}

#[derive(Clone, Copy, PartialEq, Eq, Hash)]
struct Owner {
    router_id: u64,
    hop: Addr,
}

enum Word {
    All,
    Retracts(bool, Prefix, Prefix),
    Announces(bool, Prefix, Prefix, Owner, u32),
}

fn width_of(is_ipv6: bool) -> u32 {
    if is_ipv6 {
        128
    } else {
        32
    }
}

/// The number in these octets, and zeros up to so many, 16 at most.
#[inline(always)]
fn number(octets: &[u8], size: usize) -> u128 {
    let mut own = [0; 16];
    own[..octets.len()].copy_from_slice(octets);
    u128::from_be_bytes(own) >> (128 - 8 * size)
}

/// The body of the TLV that begins here, and where it ends.
fn item(octets: &[u8], at: usize) -> Option<(&[u8], usize)> {
    let end = at + 2 + usize::from(*octets.get(at + 1)?);
    Some((octets.get(at + 2..end)?, end))
}

/// The source prefix that sub-TLVs say; nothing where their Update is ignored.
fn source_in(octets: &[u8], width: u32) -> Option<Prefix> {
    let (mut at, mut source) = (0, WHOLE);
    while let Some(&kind) = octets.get(at) {
        if kind == 0 {
            at += 1;
            continue;
        }
        let (body, end) = item(octets, at)?;
        at = end;
        if kind < 128 {
            continue;
        }
        if kind != SOURCE_PREFIX || source != WHOLE || width == 0 {
            return None;
        }
        let &len = body.first()?;
        let field = body.get(1..1 + usize::from(len).div_ceil(8))?;
        if len == 0 || u32::from(len) > width {
            return None;
        }
        source = Prefix::new(number(field, width as usize / 8), len, width);
    }
    Some(source)
}

struct Parser {
    via_v6: bool,
    defaults: [Option<u128>; 5],
    router_id: Option<u64>,
    hops: [Option<Addr>; 2],
}

impl Parser {
    fn new(sender: Addr, via_v6: bool) -> Parser {
        let hops = match sender {
            Addr::V4(_) => [Some(sender), None],
            Addr::V6(_) => [None, Some(sender)],
        };
        Parser {
            via_v6,
            defaults: [None; 5],
            router_id: None,
            hops,
        }
    }

    fn take(&mut self, kind: u8, body: &[u8], at: u64) -> Result<Option<(Word, u16)>, Fault> {
        match kind {
            ROUTER_ID if body.len() >= 10 => self.router_id = Some(number(&body[2..10], 8) as u64),
            NEXT_HOP if body.len() >= 2 => self.set_hop(body[0], &body[2..]),
            UPDATE if body.len() >= 10 => return self.update(body, at),
            _ => {}
        }
        Ok(None)
    }

    fn set_hop(&mut self, encoding: u8, octets: &[u8]) {
        let first = |size: usize| octets.get(..size).map(|own| number(own, size));
        match encoding {
            1 => self.hops[0] = first(4).map(|bits| Addr::V4(bits as u32)).or(self.hops[0]),
            2 => self.hops[1] = first(16).map(Addr::V6).or(self.hops[1]),
            3 => {
                self.hops[1] = first(8)
                    .map(|bits| Addr::V6(LINK_LOCAL | bits))
                    .or(self.hops[1])
            }
            _ => {}
        }
    }

    #[inline(always)]
    fn update(&mut self, body: &[u8], at: u64) -> Result<Option<(Word, u16)>, Fault> {
        let (encoding, flags, len, omitted) = (body[0], body[1], body[2], usize::from(body[3]));
        let (interval, seqno, metric) = (u16_at(body, 4), u16_at(body, 6), u16_at(body, 8));
        if encoding > 4 || encoding == 3 || encoding == 4 && !self.via_v6 {
            if flags & 0x40 != 0 {
                return Err(Fault::Dump(
                    "router-id flag in an unread address encoding",
                    at,
                ));
            }
            return Ok(None);
        }
        if encoding == 0 {
            let is_said = metric == INFINITY && len == 0 && omitted == 0;
            let is_said = is_said && source_in(&body[10..], 0).is_some();
            return Ok(is_said.then_some((Word::All, interval)));
        }
        let is_ipv6 = encoding == 2;
        let width = width_of(is_ipv6);
        let size = width as usize / 8;
        let default = self.defaults[usize::from(encoding)];
        if u32::from(len) > width || omitted > size || omitted > 0 && default.is_none() {
            return Ok(None);
        }
        let count = usize::from(len).div_ceil(8).saturating_sub(omitted);
        let Some(field) = body.get(10..10 + count) else {
            return Ok(None);
        };
        let mut bits = number(field, size);
        if omitted > 0 {
            let given = Prefix::new(default.unwrap_or(0), 8 * omitted as u8, width);
            bits = given.bits | bits.checked_shr(8 * omitted as u32).unwrap_or(0);
        }
        let prefix = Prefix::new(bits, len, width);
        if flags & 0x80 != 0 {
            self.defaults[usize::from(encoding)] = Some(prefix.bits);
        }
        if flags & 0x40 != 0 {
            self.router_id = Some(prefix.bits as u64);
        }
        let Some(source) = source_in(&body[10 + count..], width) else {
            return Ok(None);
        };
        if metric == INFINITY {
            return Ok(Some((Word::Retracts(is_ipv6, prefix, source), interval)));
        }
        let hop = self.hops[usize::from(encoding != 1)];
        let (Some(router_id), Some(hop)) = (self.router_id, hop) else {
            return Ok(None);
        };
        if router_id == 0 || router_id == u64::MAX {
            return Ok(None);
        }
        let owner = Owner { router_id, hop };
        let stated = u32::from(seqno) << 16 | u32::from(metric);
        Ok(Some((
            Word::Announces(is_ipv6, prefix, source, owner, stated),
            interval,
        )))
    }
}

/// Reads the TLVs of a packet, before which its sender's dump has so many octets.
#[inline(always)]
fn read_words(
    packet: &[u8],
    sender: Addr,
    via_v6: bool,
    before: u64,
    mut take: impl FnMut(u64, Word, u16) -> Result<(), Fault>,
) -> Result<(), Fault> {
    let mut at = 4;
    while let Some(&kind) = packet.get(at) {
        let end = if kind == 0 {
            Some(at + 1)
        } else {
            item(packet, at).map(|(_, end)| end)
        };
        let fault = Fault::Dump("TLV past the end of its packet", before + at as u64);
        at = end.ok_or(fault)?;
    }
    let mut parser = Parser::new(sender, via_v6);
    let mut at = 4;
    while let Some(&kind) = packet.get(at) {
        if kind == 0 {
            at += 1;
            continue;
        }
        let Some((body, end)) = item(packet, at) else {
            break;
        };
        let offset = before + at as u64;
        if let Some((word, interval)) = parser.take(kind, body, offset)? {
            take(offset, word, interval)?;
        }
        at = end;
    }
    Ok(())
}

/// Gives the Interval of each multicast Hello of a packet that says when the next one comes.
fn read_intervals(packet: &[u8], mut take: impl FnMut(u16)) {
    let mut at = 4;
    while let Some(&kind) = packet.get(at) {
        if kind == 0 {
            at += 1;
            continue;
        }
        let Some((body, end)) = item(packet, at) else {
            break;
        };
        at = end;
        if kind == HELLO && body.len() >= 6 && body[0] < 128 && are_skipped(&body[6..]) {
            match u16_at(body, 4) {
                0 => {}
                interval => take(interval),
            }
        }
    }
}

/// Whether these octets are sub-TLVs of which none is mandatory.
fn are_skipped(octets: &[u8]) -> bool {
    let mut at = 0;
    while let Some(&kind) = octets.get(at) {
        at = match item(octets, at) {
            _ if kind == 0 => at + 1,
            Some((_, end)) if kind < 128 => end,
            _ => return false,
        };
    }
    true
}

// ---- rows

/// Things that have numbers, in the order in which they came; the last one asked for, of the same
/// family, is tried first.
struct Numbered<T> {
    list: Vec<T>,
    numbers: HashMap<T, u32, Seed>,
    last: [usize; 2],
}

impl<T: Copy + Eq + Hash> Numbered<T> {
    fn new() -> Numbered<T> {
        Numbered {
            list: Vec::new(),
            numbers: HashMap::with_hasher(Seed::new()),
            last: [0; 2],
        }
    }

    #[inline(always)]
    fn number(&mut self, item: T, is_ipv6: bool) -> u32 {
        let last = &mut self.last[usize::from(is_ipv6)];
        if self.list.get(*last) != Some(&item) {
            let next = self.list.len() as u32;
            let number = *self.numbers.entry(item).or_insert(next);
            if number == next {
                self.list.push(item);
            }
            *last = number as usize;
        }
        *last as u32
    }
}

#[derive(Clone, Copy, PartialEq, Eq)]
struct Key {
    bits: u128,
    /// The family above, the length below.
    tag: u32,
    source: u32,
    sender: u32,
}

#[derive(Clone, Copy)]
struct Row {
    key: Key,
    owner: u32,
    /// The sequence number above the metric, which is infinite where it is unreachable.
    stated: u32,
    /// When it expires or is gone, and how long that is after it was said, or NEVER.
    ends: i128,
    span: u64,
    /// Its place in the heap; of a table how many retractions of all came before.
    place: u32,
    /// The rows of its sender before and after it.
    before: u32,
    after: u32,
}

impl Row {
    fn is_ipv6(&self) -> bool {
        self.key.tag >> 8 != 0
    }

    fn dst(&self) -> Prefix {
        Prefix {
            bits: self.key.bits,
            len: self.key.tag as u8,
        }
    }
}

struct Rows {
    list: Vec<Row>,
    free: Vec<u32>,
    /// Each slot has the number of a row and one more.
    slots: Vec<u32>,
    seed: Seed,
    sources: Numbered<Prefix>,
    owners: Numbered<Owner>,
}

const FEW: usize = 64;

impl Rows {
    fn new() -> Rows {
        Rows {
            list: Vec::new(),
            free: Vec::new(),
            slots: vec![0; FEW],
            seed: Seed::new(),
            sources: Numbered::new(),
            owners: Numbered::new(),
        }
    }

    fn count(&self) -> usize {
        self.list.len() - self.free.len()
    }

    fn key(&mut self, sender: u32, is_ipv6: bool, dst: Prefix, source: Prefix) -> Key {
        Key {
            bits: dst.bits,
            tag: u32::from(is_ipv6) << 8 | u32::from(dst.len),
            source: self.sources.number(source, is_ipv6),
            sender,
        }
    }

    fn home(&self, key: &Key) -> usize {
        let mut hash = self.seed.mixed(0, (key.bits >> 64) as u64);
        hash = self.seed.mixed(hash, key.bits as u64);
        hash = self
            .seed
            .mixed(hash, u64::from(key.tag) << 32 | u64::from(key.source));
        self.seed.mixed(hash, key.sender.into()) as usize & (self.slots.len() - 1)
    }

    /// The row of a key, or the slot where it belongs.
    fn find(&self, key: &Key) -> Result<u32, usize> {
        let mut slot = self.home(key);
        loop {
            match self.slots[slot] {
                0 => return Err(slot),
                number if self.list[number as usize - 1].key == *key => return Ok(number - 1),
                _ => slot = (slot + 1) & (self.slots.len() - 1),
            }
        }
    }

    /// The slot where a key belongs that has no row.
    fn slot(&self, key: &Key) -> usize {
        match self.find(key) {
            Err(slot) => slot,
            Ok(_) => unreachable!("a key has one row"),
        }
    }

    fn insert(&mut self, row: Row, mut slot: usize) -> u32 {
        if (self.count() + 1) * 4 > self.slots.len() * 3 {
            self.grow();
            slot = self.slot(&row.key);
        }
        let number = match self.free.pop() {
            Some(number) => {
                self.list[number as usize] = row;
                number
            }
            None => {
                self.list.push(row);
                self.list.len() as u32 - 1
            }
        };
        self.slots[slot] = number + 1;
        number
    }

    fn grow(&mut self) {
        let numbers: Vec<u32> = self
            .slots
            .iter()
            .copied()
            .filter(|slot| *slot != 0)
            .collect();
        self.slots = vec![0; self.slots.len() * 2];
        for number in numbers {
            let slot = self.slot(&self.list[number as usize - 1].key);
            self.slots[slot] = number;
        }
    }

    /// Takes a row out of the index; what came after it moves up.
    fn remove(&mut self, number: u32) {
        let last = self.slots.len() - 1;
        let mut hole = self.home(&self.list[number as usize].key);
        while self.slots[hole] != number + 1 {
            hole = (hole + 1) & last;
        }
        let mut slot = hole;
        loop {
            slot = (slot + 1) & last;
            let other = self.slots[slot];
            if other == 0 {
                break;
            }
            let home = self.home(&self.list[other as usize - 1].key);
            if (slot.wrapping_sub(home) & last) >= (slot.wrapping_sub(hole) & last) {
                self.slots[hole] = other;
                hole = slot;
            }
        }
        self.slots[hole] = 0;
        self.free.push(number);
    }

    fn clear(&mut self) {
        self.list.clear();
        self.free.clear();
        self.slots = vec![0; FEW];
    }

    fn live(&self) -> Vec<u32> {
        let mut live = vec![true; self.list.len()];
        self.free
            .iter()
            .for_each(|number| live[*number as usize] = false);
        (0..live.len() as u32)
            .filter(|number| live[*number as usize])
            .collect()
    }

    /// Numbers anew what rows have, where most of what has numbers is in none.
    fn renumber(&mut self) {
        let most = 2 * self.count() + 1_024;
        if self.sources.list.len() <= most && self.owners.list.len() <= most {
            return;
        }
        let live = self.live();
        let (mut sources, mut owners) = (Numbered::new(), Numbered::new());
        for &number in &live {
            let row = &mut self.list[number as usize];
            let is_ipv6 = row.is_ipv6();
            row.key.source = sources.number(self.sources.list[row.key.source as usize], is_ipv6);
            row.owner = owners.number(self.owners.list[row.owner as usize], is_ipv6);
        }
        (self.sources, self.owners) = (sources, owners);
        self.slots.fill(0);
        for number in live {
            let slot = self.slot(&self.list[number as usize].key);
            self.slots[slot] = number + 1;
        }
    }

    fn order(&self, number: u32) -> (u32, u128, u32, Prefix) {
        let row = &self.list[number as usize];
        let source = self.sources.list[row.key.source as usize];
        (row.key.tag >> 8, row.key.bits, row.key.tag, source)
    }
}

fn span_of(interval: u16, factor: Option<u64>) -> Option<u64> {
    factor
        .filter(|_| interval > 0)
        .map(|factor| u64::from(interval) * factor)
}

fn after(time: i128, span: Option<u64>) -> i128 {
    span.map_or(NEVER, |span| time + i128::from(span))
}

// ---- texts

struct Out {
    text: Vec<u8>,
    failed: Option<io::Error>,
    /// The time written last, and its text.
    time: (i128, [u8; clock::TEXT]),
}

const ROOM: usize = 1 << 16;
const HEX: &[u8; 16] = b"0123456789abcdef";

/// The digits of an octet and a point, and how many these are.
static OCTETS: [([u8; 4], usize); 256] = {
    let mut texts = [([b'.'; 4], 0); 256];
    let mut octet = 0;
    while octet < 256 {
        let digits = [octet / 100, octet / 10 % 10, octet % 10];
        let (text, len) = &mut texts[octet];
        let mut place = match octet {
            0..10 => 2,
            10..100 => 1,
            _ => 0,
        };
        while place < 3 {
            text[*len] = b'0' + digits[place] as u8;
            *len += 1;
            place += 1;
        }
        text[*len] = b'.';
        *len += 1;
        octet += 1;
    }
    texts
};

impl Out {
    fn new() -> Out {
        Out {
            text: Vec::with_capacity(ROOM + 4_096),
            failed: None,
            time: (0, clock::octets(0)),
        }
    }

    fn time(&mut self, time: i128) {
        if self.time.0 != time {
            self.time = (time, clock::octets(time));
        }
        self.text.extend_from_slice(&self.time.1);
    }

    fn put(&mut self, text: &[u8]) {
        self.text.extend_from_slice(text);
    }

    fn decimal(&mut self, mut number: u32) {
        let (mut digits, mut at) = ([0; 10], 10);
        loop {
            at -= 1;
            digits[at] = b'0' + (number % 10) as u8;
            number /= 10;
            if number == 0 {
                break;
            }
        }
        self.put(&digits[at..]);
    }

    fn address(&mut self, addr: Addr) {
        match addr {
            Addr::V4(bits) => {
                let (mut text, mut end) = ([0; 16], 0);
                for octet in bits.to_be_bytes() {
                    let (digits, len) = OCTETS[usize::from(octet)];
                    text[end..end + 4].copy_from_slice(&digits);
                    end += len;
                }
                self.put(&text[..end - 1]);
            }
            Addr::V6(bits) => {
                let (mut text, mut end) = ([0; 40], 0);
                for place in 0..8 {
                    let group = (bits >> (112 - 16 * place)) as u16;
                    let zeros = (group.leading_zeros() / 4).min(3);
                    for shift in [12, 8, 4, 0].into_iter().skip(zeros as usize) {
                        text[end] = HEX[usize::from(group >> shift & 15)];
                        end += 1;
                    }
                    text[end] = b':';
                    end += 1;
                }
                self.put(&text[..end - 1]);
            }
        }
    }

    fn prefix(&mut self, is_ipv6: bool, prefix: Prefix) {
        self.address(match is_ipv6 {
            true => Addr::V6(prefix.bits),
            false => Addr::V4(prefix.bits as u32),
        });
        self.text.push(b'/');
        self.decimal(prefix.len.into());
    }

    fn router_id(&mut self, router_id: u64) {
        let digits: [u8; 16] =
            std::array::from_fn(|place| HEX[(router_id >> (60 - 4 * place) & 15) as usize]);
        self.put(&digits);
    }

    fn end_line(&mut self) {
        self.text.push(b'\n');
        if self.text.len() >= ROOM {
            self.write();
        }
    }

    fn write(&mut self) {
        if self.failed.is_none() {
            let mut out = io::stdout().lock();
            let done = out.write_all(&self.text).and_then(|()| out.flush());
            self.failed = done.err();
        }
        self.text.clear();
    }

    fn flush(&mut self) -> Result<(), Failure> {
        if !self.text.is_empty() {
            self.write();
        }
        match self.failed.take() {
            None => Ok(()),
            Some(error) => Err(error.into()),
        }
    }
}

/// Which fields of a route count.
#[derive(Clone, Copy)]
pub struct View {
    hop: bool,
    router_id: bool,
    seqno: bool,
    metric: bool,
}

/// What a view sees of a route.
#[derive(Clone, Copy, PartialEq, Eq)]
struct Seen {
    hop: Option<Addr>,
    router_id: Option<u64>,
    seqno: Option<u16>,
    metric: Option<u16>,
}

impl View {
    pub fn without<'a>(ignored: impl Iterator<Item = &'a str>) -> View {
        let ignored: Vec<_> = ignored.collect();
        let keeps = |field: &str| !ignored.contains(&field);
        View {
            hop: keeps("next-hop"),
            router_id: keeps("router-id"),
            seqno: keeps("seqno"),
            metric: keeps("metric"),
        }
    }

    fn sees(self, owner: Owner, stated: u32) -> Seen {
        Seen {
            hop: self.hop.then_some(owner.hop),
            router_id: self.router_id.then_some(owner.router_id),
            seqno: self.seqno.then_some((stated >> 16) as u16),
            metric: self.metric.then_some(stated as u16),
        }
    }
}

impl Seen {
    fn text(self, out: &mut Out) {
        out.put(b"via ");
        match self.hop {
            Some(hop) => out.address(hop),
            None => out.put(b"-"),
        }
        out.put(b" id ");
        match self.router_id {
            Some(router_id) => out.router_id(router_id),
            None => out.put(b"-"),
        }
        for (name, value) in [(" seqno ", self.seqno), (" metric ", self.metric)] {
            out.put(name.as_bytes());
            match value {
                Some(value) => out.decimal(value.into()),
                None => out.put(b"-"),
            }
        }
    }

    /// The fields that are others now.
    fn text_of_was(self, now: Seen, out: &mut Out) {
        out.put(b" was");
        if let Some(hop) = self.hop.filter(|_| self.hop != now.hop) {
            out.put(b" via ");
            out.address(hop);
        }
        if let Some(id) = self.router_id.filter(|_| self.router_id != now.router_id) {
            out.put(b" id ");
            out.router_id(id);
        }
        let numbers = [
            (" seqno ", self.seqno, now.seqno),
            (" metric ", self.metric, now.metric),
        ];
        for (name, was, is) in numbers {
            if let Some(was) = was.filter(|was| Some(*was) != is) {
                out.put(name.as_bytes());
                out.decimal(was.into());
            }
        }
    }

    fn json(self, out: &mut Out) {
        out.put(b"{\"next_hop\":");
        match self.hop {
            Some(hop) => {
                out.text.push(b'"');
                out.address(hop);
                out.text.push(b'"');
            }
            None => out.put(b"null"),
        }
        out.put(b",\"router_id\":");
        match self.router_id {
            Some(router_id) => {
                out.text.push(b'"');
                out.router_id(router_id);
                out.text.push(b'"');
            }
            None => out.put(b"null"),
        }
        for (name, value) in [(",\"seqno\":", self.seqno), (",\"metric\":", self.metric)] {
            out.put(name.as_bytes());
            match value {
                Some(value) => out.decimal(value.into()),
                None => out.put(b"null"),
            }
        }
        out.text.push(b'}');
    }
}

// ---- a table at a moment

/// The table of one sender: of each key the last word.
pub struct Table {
    factor: Option<u64>,
    hold: bool,
    via_v6: bool,
    most: usize,
    rows: Rows,
    next: usize,
    octets: u64,
    origin: Option<Origin>,
    /// Why the dump is refused, unless its sender is at several places.
    pub fault: Option<Fault>,
    /// The retractions of all in mode hold: when, and when what they made unreachable is gone.
    all: Vec<(i128, i128)>,
}

impl Table {
    pub fn new(factor: Option<u64>, hold: bool, via_v6: bool, most: usize) -> Table {
        Table {
            factor,
            hold,
            via_v6,
            most,
            rows: Rows::new(),
            next: 0,
            octets: 0,
            origin: None,
            fault: None,
            all: Vec::new(),
        }
    }

    pub fn take(&mut self, time: i128, origin: Origin, packet: &[u8]) {
        // Of a sender at several places it is refused at the end.
        if self.fault.is_none() && *self.origin.get_or_insert(origin) == origin {
            self.fault = self.take_words(time, origin.sender, packet).err();
        }
    }

    fn take_words(&mut self, time: i128, sender: Addr, packet: &[u8]) -> Result<(), Fault> {
        let (before, via_v6) = (self.octets, self.via_v6);
        self.octets += packet.len() as u64;
        read_words(packet, sender, via_v6, before, |at, word, interval| {
            let span = span_of(interval, self.factor);
            match word {
                Word::All if self.hold => self.all.push((time, after(time, span))),
                Word::All => self.rows.clear(),
                Word::Retracts(is_ipv6, dst, source) => {
                    let key = self.rows.key(0, is_ipv6, dst, source);
                    if self.hold {
                        return self.set(at, key, 0, INFINITY.into(), time, span);
                    }
                    if let Ok(number) = self.rows.find(&key) {
                        self.rows.remove(number);
                    }
                }
                Word::Announces(is_ipv6, dst, source, owner, stated) => {
                    let key = self.rows.key(0, is_ipv6, dst, source);
                    let owner = self.rows.owners.number(owner, is_ipv6);
                    return self.set(at, key, owner, stated, time, span);
                }
            }
            Ok(())
        })
    }

    fn set(
        &mut self,
        at: u64,
        key: Key,
        owner: u32,
        stated: u32,
        time: i128,
        span: Option<u64>,
    ) -> Result<(), Fault> {
        let row = Row {
            key,
            owner,
            stated,
            ends: after(time, span),
            span: span.unwrap_or(0),
            place: self.all.len() as u32,
            before: NONE,
            after: NONE,
        };
        let found = match self.rows.list.get(self.next) {
            Some(row) if row.key == key && self.rows.free.is_empty() => Ok(self.next as u32),
            _ => self.rows.find(&key),
        };
        let number = match found {
            Ok(number) => {
                self.rows.list[number as usize] = row;
                number
            }
            Err(_) if self.rows.count() == self.most => {
                return Err(Fault::Dump("too many routes", at));
            }
            Err(slot) => self.rows.insert(row, slot),
        };
        self.next = number as usize + 1;
        if self.next == self.rows.list.len() {
            self.next = 0;
        }
        Ok(())
    }

    /// When what each retraction of all made unreachable is gone for good, where no word of its own
    /// comes after it.
    fn ends_of_all(&self) -> Vec<Option<i128>> {
        let mut ends: Vec<Option<i128>> = vec![None; self.all.len()];
        let mut later = None;
        for (place, &(time, gone)) in self.all.iter().enumerate().rev() {
            ends[place] = match later {
                None => Some(gone),
                Some((next, _)) if gone <= next => None,
                Some((_, end)) => end,
            };
            later = Some((time, ends[place]));
        }
        ends
    }

    /// Whether a row is held at a moment, and whether it is unreachable then.
    fn state(&self, row: &Row, ends_of_all: &[Option<i128>], end: i128) -> Option<bool> {
        let is_route = row.stated as u16 != INFINITY;
        let gone = match row.ends {
            NEVER => NEVER,
            ends if is_route && self.hold => ends + i128::from(row.span),
            ends => ends,
        };
        match self.all.get(row.place as usize) {
            Some((time, _)) if gone <= *time => None,
            Some(_) => {
                let gone = ends_of_all[row.place as usize]?;
                (end < gone).then_some(false)
            }
            None => (end < gone).then_some(is_route && end < row.ends),
        }
    }

    /// The rows that are held at a moment, and whether each is a route.
    fn held(&self, end: i128) -> Vec<(u32, bool)> {
        let ends_of_all = self.ends_of_all();
        let state = |number: u32| {
            let row = &self.rows.list[number as usize];
            Some((number, self.state(row, &ends_of_all, end)?))
        };
        self.rows.live().into_iter().filter_map(state).collect()
    }

    /// Writes the rows that are held at a moment, or the answer for a pair of addresses.
    pub fn write(&self, end: i128, pair: Option<(Addr, Addr)>) -> Result<u8, Failure> {
        let held = self.held(end);
        let view = View::without([].into_iter());
        let mut out = Out::new();
        if let Some(pair) = pair {
            let best = held
                .iter()
                .filter(|(number, _)| is_of(&self.rows, *number, pair))
                .max_by_key(|(number, _)| lengths(&self.rows, *number));
            self.put_what(&mut out, view, best.copied());
            out.end_line();
            out.flush()?;
            return Ok(u8::from(!best.is_some_and(|(_, is_route)| *is_route)));
        }
        self.put_rows(&mut out, held, b"");
        out.flush()?;
        Ok(0)
    }

    /// A line of each of these rows, in order, after this text.
    fn put_rows(&self, out: &mut Out, mut held: Vec<(u32, bool)>, lead: &[u8]) {
        let view = View::without([].into_iter());
        held.sort_unstable_by_key(|(number, _)| self.rows.order(*number));
        for each in held {
            out.put(lead);
            put_key(out, &self.rows, each.0, b" from ");
            out.text.push(b' ');
            self.put_what(out, view, Some(each));
            out.end_line();
        }
    }

    /// Counts who originates the routes that are held at a moment.
    fn originate(&self, end: i128, all: &mut HashMap<Origination, (u16, u32), Seed>) {
        for (number, is_route) in self.held(end) {
            let row = &self.rows.list[number as usize];
            let source = self.rows.sources.list[row.key.source as usize];
            if is_route {
                let router_id = self.rows.owners.list[row.owner as usize].router_id;
                let one = (row.is_ipv6(), row.dst(), source, router_id);
                let (least, senders) = all.entry(one).or_insert((INFINITY, 0));
                *least = (*least).min(row.stated as u16);
                *senders += 1;
            }
        }
    }

    fn put_what(&self, out: &mut Out, view: View, what: Option<(u32, bool)>) {
        match what {
            None => out.put(b"none"),
            Some((_, false)) => out.put(b"unreachable"),
            Some((number, true)) => {
                let row = &self.rows.list[number as usize];
                view.sees(self.rows.owners.list[row.owner as usize], row.stated)
                    .text(out);
            }
        }
    }
}

/// A destination, a source and a router-id, of this family.
type Origination = (bool, Prefix, Prefix, u64);

/// The tables of all senders: each as it is alone, with these options.
pub struct Tables {
    of: HashMap<Origin, Table, Seed>,
    options: (Option<u64>, bool, bool, usize),
}

impl Tables {
    pub fn new(factor: Option<u64>, hold: bool, via_v6: bool, most: usize) -> Tables {
        Tables {
            of: HashMap::with_hasher(Seed::new()),
            options: (factor, hold, via_v6, most),
        }
    }

    pub fn take(&mut self, time: i128, origin: Origin, packet: &[u8]) {
        let (factor, hold, via_v6, most) = self.options;
        self.of
            .entry(origin)
            .or_insert_with(|| Table::new(factor, hold, via_v6, most))
            .take(time, origin, packet);
    }

    /// Writes the rows of each sender that are held at a moment.
    pub fn write(self, end: i128, names: &[Vec<u8>]) -> Result<u8, Failure> {
        let mut out = Out::new();
        let mut senders: Vec<_> = self.of.into_iter().collect();
        senders.sort_unstable_by_key(|(origin, _)| *origin);
        for (origin, table) in senders {
            let mut lead = sender_text(origin, names, false).split_off(1);
            match table.fault {
                Some(fault) => {
                    lead.pop();
                    eprintln!("{}: {fault}", String::from_utf8_lossy(&lead));
                }
                None => table.put_rows(&mut out, table.held(end), &lead),
            }
        }
        out.flush()?;
        Ok(0)
    }

    /// Writes who originates what at a moment, unless a sender is refused.
    pub fn write_origins(self, end: i128) -> Result<u8, Failure> {
        let mut all = HashMap::with_hasher(Seed::new());
        for table in self.of.into_values() {
            match table.fault {
                Some(fault) => return Err(fault.into()),
                None => table.originate(end, &mut all),
            }
        }
        let mut all: Vec<(Origination, (u16, u32))> = all.into_iter().collect();
        all.sort_unstable_by_key(|(one, _)| *one);
        let mut out = Out::new();
        for ((is_ipv6, dst, source, router_id), (metric, senders)) in all {
            out.prefix(is_ipv6, dst);
            out.put(b" from ");
            out.prefix(is_ipv6, source);
            out.put(b" id ");
            out.router_id(router_id);
            out.put(b" metric ");
            out.decimal(metric.into());
            out.put(b" senders ");
            out.decimal(senders);
            out.end_line();
        }
        out.flush()?;
        Ok(0)
    }
}

fn is_of(rows: &Rows, number: u32, (to, src): (Addr, Addr)) -> bool {
    let row = &rows.list[number as usize];
    let source = rows.sources.list[row.key.source as usize];
    is_key_of(row.is_ipv6(), row.dst(), source, (to, src))
}

fn is_key_of(is_ipv6: bool, dst: Prefix, source: Prefix, pair: (Addr, Addr)) -> bool {
    let both =
        |to: u128, src: u128, width: u32| dst.contains(to, width) && source.contains(src, width);
    match (is_ipv6, pair) {
        (true, (Addr::V6(to), Addr::V6(src))) => both(to, src, 128),
        (false, (Addr::V4(to), Addr::V4(src))) => both(to.into(), src.into(), 32),
        _ => false,
    }
}

fn lengths(rows: &Rows, number: u32) -> Lengths {
    let row = &rows.list[number as usize];
    (
        row.dst().len,
        rows.sources.list[row.key.source as usize].len,
    )
}

fn put_key(out: &mut Out, rows: &Rows, number: u32, between: &[u8]) {
    let row = &rows.list[number as usize];
    out.prefix(row.is_ipv6(), row.dst());
    out.put(between);
    out.prefix(row.is_ipv6(), rows.sources.list[row.key.source as usize]);
}

// ---- events

/// Of prefixes of a destination and a source.
type Lengths = (u8, u8);

struct Sender {
    origin: Origin,
    /// What stands between the time of a line and what happened.
    text: Vec<u8>,
    octets: u64,
    first: u32,
    last: u32,
    next: u32,
    /// The rows of the pair that is asked for, by their lengths; and the answer that was told.
    matching: BTreeMap<Lengths, u32>,
    told: Option<(Lengths, Seen)>,
    /// The answer just before the moment from which on it is told, until it has come.
    early: Option<(Lengths, Seen)>,
    /// When its last Hello came, and until when it counts, while it is waited for.
    hello: Option<(i128, i128)>,
    is_silent: bool,
}

/// The rows of all senders, and when each expires; what is told of them.
pub struct Timeline {
    factor: Option<u64>,
    view: View,
    sees_all: bool,
    pair: Option<(Addr, Addr)>,
    via_v6: bool,
    json: bool,
    most: usize,
    rows: Rows,
    senders: Vec<Sender>,
    numbers: HashMap<Origin, u32, Seed>,
    current: usize,
    heap: Vec<(i128, u32)>,
    /// Until when the last Hello of each sender that is waited for counts.
    waiting: BTreeMap<(i128, (Addr, Place)), u32>,
    out: Out,
    /// The moment from which on it is told, and when that is.
    since: Option<Moment>,
    from: i128,
    has_come: bool,
}

impl Timeline {
    pub fn new(
        factor: Option<u64>,
        view: View,
        pair: Option<(Addr, Addr)>,
        via_v6: bool,
        json: bool,
        most: usize,
        since: Option<Moment>,
    ) -> Timeline {
        Timeline {
            factor,
            view,
            sees_all: view.hop && view.router_id && view.seqno && view.metric,
            pair,
            via_v6,
            json,
            most,
            rows: Rows::new(),
            senders: Vec::new(),
            numbers: HashMap::with_hasher(Seed::new()),
            current: 0,
            heap: Vec::new(),
            waiting: BTreeMap::new(),
            out: Out::new(),
            since,
            from: i128::MIN,
            has_come: since.is_none(),
        }
    }

    /// A moment counts from the first record of the capture, which came then.
    pub fn begin(&mut self, start: i128) {
        if let Some(since) = self.since.take() {
            self.from = since.at(start);
        }
    }

    pub fn flush(&mut self) -> Result<(), Failure> {
        self.out.flush()
    }

    pub fn take(
        &mut self,
        time: i128,
        origin: Origin,
        packet: &[u8],
        names: &[Vec<u8>],
    ) -> Result<(), Fault> {
        self.expire(time);
        self.rows.renumber();
        let number = self.sender(origin, names);
        let before = self.senders[number].octets;
        self.senders[number].octets += packet.len() as u64;
        if self.factor.is_some() && self.pair.is_none() {
            read_intervals(packet, |interval| self.hear(time, number as u32, interval));
        }
        read_words(
            packet,
            origin.sender,
            self.via_v6,
            before,
            |at, word, interval| self.take_word(time, number as u32, at, word, interval),
        )
    }

    /// The number of a sender, which is found or new.
    fn sender(&mut self, origin: Origin, names: &[Vec<u8>]) -> usize {
        let known = self.senders.get(self.current).map(|sender| sender.origin);
        if known != Some(origin) {
            let next = self.senders.len() as u32;
            let number = *self.numbers.entry(origin).or_insert(next);
            if number == next {
                self.senders.push(Sender {
                    origin,
                    text: sender_text(origin, names, self.json),
                    octets: 0,
                    first: NONE,
                    last: NONE,
                    next: NONE,
                    matching: BTreeMap::new(),
                    told: None,
                    early: None,
                    hello: None,
                    is_silent: false,
                });
            }
            self.current = number as usize;
        }
        self.current
    }

    /// A Hello of a sender, which returns if it was silent.
    fn hear(&mut self, time: i128, number: u32, interval: u16) {
        let origin = self.origin_of(number);
        let sender = &mut self.senders[number as usize];
        if let Some((_, until)) = sender.hello {
            self.waiting.remove(&(until, origin));
        }
        let until = after(time, span_of(interval, Some(RFC_FACTOR)));
        sender.hello = Some((time, until));
        self.waiting.insert((until, origin), number);
        if std::mem::replace(&mut sender.is_silent, false) && time >= self.from {
            self.begin_line(time, number, "returns");
            self.out.put(if self.json { b"\"}" } else { b"" });
            self.out.end_line();
        }
    }

    fn take_word(
        &mut self,
        time: i128,
        sender: u32,
        at: u64,
        word: Word,
        interval: u16,
    ) -> Result<(), Fault> {
        match word {
            Word::All => {
                let mut all = Vec::new();
                let mut number = self.senders[sender as usize].first;
                while number != NONE {
                    all.push(number);
                    number = self.rows.list[number as usize].after;
                }
                all.sort_unstable_by_key(|number| self.rows.order(*number));
                for number in all {
                    self.tell(time, number, "retracts", None);
                    self.remove(number);
                }
                self.tell_answer(time, sender);
            }
            Word::Retracts(is_ipv6, dst, source) => {
                let key = self.rows.key(sender, is_ipv6, dst, source);
                if let Ok(number) = self.find(&key) {
                    self.tell(time, number, "retracts", None);
                    self.remove(number);
                    self.tell_answer(time, sender);
                }
            }
            Word::Announces(is_ipv6, dst, source, owner, stated) => {
                let is_passed_over = |pair| !is_key_of(is_ipv6, dst, source, pair);
                if self.pair.is_some_and(is_passed_over) {
                    return Ok(());
                }
                let key = self.rows.key(sender, is_ipv6, dst, source);
                let ends = after(time, span_of(interval, self.factor));
                let found = self.find(&key);
                let number = self.rows.owners.number(owner, is_ipv6);
                match found {
                    Ok(row) => self.renew(time, row, number, stated, ends),
                    Err(slot) => self.add(time, at, key, slot, number, stated, ends)?,
                }
                if self.pair.is_some() {
                    let row = self.rows.find(&key).unwrap_or(NONE);
                    let sent = &mut self.senders[sender as usize];
                    sent.matching.insert((dst.len, source.len), row);
                    self.tell_answer(time, sender);
                }
            }
        }
        Ok(())
    }

    /// The row of a key, by the one after the last one found.
    fn find(&mut self, key: &Key) -> Result<u32, usize> {
        let next = self.senders[key.sender as usize].next;
        let found = match self.rows.list.get(next as usize) {
            Some(row) if row.key == *key => next,
            _ => self.rows.find(key)?,
        };
        let after = self.rows.list[found as usize].after;
        let sender = &mut self.senders[key.sender as usize];
        sender.next = if after == NONE { sender.first } else { after };
        Ok(found)
    }

    fn renew(&mut self, time: i128, number: u32, owner: u32, stated: u32, ends: i128) {
        let row = self.rows.list[number as usize];
        let before = (row.owner, row.stated);
        let is_same = before == (owner, stated)
            || !self.sees_all && self.seen(row.owner, row.stated) == self.seen(owner, stated);
        let row = &mut self.rows.list[number as usize];
        (row.owner, row.stated, row.ends) = (owner, stated, ends);
        let place = row.place;
        if place == NONE {
            self.enqueue(ends, number);
        } else if ends < self.heap[place as usize].0 {
            self.heap[place as usize].0 = ends;
            self.lift(place as usize);
        }
        if !is_same {
            let before = self.seen(before.0, before.1);
            self.tell(time, number, "changes", Some(before));
        }
    }

    #[allow(clippy::too_many_arguments)]
    fn add(
        &mut self,
        time: i128,
        at: u64,
        key: Key,
        slot: usize,
        owner: u32,
        stated: u32,
        ends: i128,
    ) -> Result<(), Fault> {
        if self.rows.count() >= self.most {
            return Err(Fault::Dump("too many routes", at));
        }
        let last = self.senders[key.sender as usize].last;
        let row = Row {
            key,
            owner,
            stated,
            ends,
            span: 0,
            place: NONE,
            before: last,
            after: NONE,
        };
        let number = self.rows.insert(row, slot);
        let sender = &mut self.senders[key.sender as usize];
        match last {
            NONE => sender.first = number,
            _ => self.rows.list[last as usize].after = number,
        }
        sender.last = number;
        sender.next = sender.first;
        self.enqueue(ends, number);
        self.tell(time, number, "announces", None);
        Ok(())
    }

    fn remove(&mut self, number: u32) {
        let Row {
            key,
            place,
            before,
            after,
            ..
        } = self.rows.list[number as usize];
        let lengths = lengths(&self.rows, number);
        let sender = &mut self.senders[key.sender as usize];
        match before {
            NONE => sender.first = after,
            _ => self.rows.list[before as usize].after = after,
        }
        match after {
            NONE => sender.last = before,
            _ => self.rows.list[after as usize].before = before,
        }
        if sender.next == number {
            sender.next = if after == NONE { sender.first } else { after };
        }
        if sender.matching.get(&lengths) == Some(&number) {
            sender.matching.remove(&lengths);
        }
        if place != NONE {
            self.take_out(place as usize);
        }
        self.rows.remove(number);
    }

    // ---- the heap, of when rows are looked at: not after they expire

    fn enqueue(&mut self, ends: i128, number: u32) {
        if ends != NEVER {
            self.heap.push((ends, number));
            self.lift(self.heap.len() - 1);
        }
    }

    fn put_at(&mut self, place: usize, entry: (i128, u32)) {
        self.heap[place] = entry;
        self.rows.list[entry.1 as usize].place = place as u32;
    }

    fn lift(&mut self, mut place: usize) {
        let entry = self.heap[place];
        while place > 0 && self.heap[(place - 1) / 4].0 > entry.0 {
            self.put_at(place, self.heap[(place - 1) / 4]);
            place = (place - 1) / 4;
        }
        self.put_at(place, entry);
    }

    fn sink(&mut self, mut place: usize) {
        let entry = self.heap[place];
        loop {
            let first = 4 * place + 1;
            let children = first..(first + 4).min(self.heap.len());
            let Some(least) = children.min_by_key(|child| self.heap[*child].0) else {
                break;
            };
            if self.heap[least].0 >= entry.0 {
                break;
            }
            self.put_at(place, self.heap[least]);
            place = least;
        }
        self.put_at(place, entry);
    }

    fn take_out(&mut self, place: usize) {
        let (_, number) = self.heap.swap_remove(place);
        self.rows.list[number as usize].place = NONE;
        if place < self.heap.len() {
            self.lift(place);
            self.sink(self.rows.list[self.heap[place].1 as usize].place as usize);
        }
    }

    /// Tells all that has expired at this moment; once that comes from which on it is told, the
    /// answers just before it, too.
    pub fn expire(&mut self, moment: i128) {
        if !self.has_come && self.from <= moment {
            self.expire_all(self.from - 1);
            self.has_come = true;
            self.tell_early();
        }
        self.expire_all(moment);
    }

    fn tell_early(&mut self) {
        let mut early: Vec<u32> = (0..self.senders.len() as u32).collect();
        early.sort_unstable_by_key(|sender| self.origin_of(*sender));
        for sender in early {
            if let Some(best) = self.senders[sender as usize].early {
                self.put_answer(self.from, sender, Some(best), None);
            }
        }
    }

    fn origin_of(&self, sender: u32) -> (Addr, Place) {
        let origin = self.senders[sender as usize].origin;
        (origin.sender, origin.place)
    }

    /// All that ends by this moment: by its time what expires, and then who is silent.
    fn expire_all(&mut self, moment: i128) {
        while let Some((&(time, origin), &number)) = self.waiting.first_key_value() {
            if time > moment {
                break;
            }
            self.expire_rows(time);
            self.waiting.remove(&(time, origin));
            self.tell_silent(time, number);
        }
        self.expire_rows(moment);
    }

    fn expire_rows(&mut self, moment: i128) {
        let mut expired: Vec<u32> = Vec::new();
        while let Some(&(time, number)) = self.heap.first() {
            if time > moment {
                break;
            }
            let ends = self.rows.list[number as usize].ends;
            if ends == NEVER {
                self.take_out(0);
            } else if ends > time {
                self.heap[0].0 = ends;
                self.sink(0);
            } else {
                self.take_out(0);
                expired.push(number);
                let next = self.next_end();
                if next != Some(time) {
                    self.tell_expired(time, &mut expired);
                }
            }
        }
    }

    /// When the next row expires, which is then first.
    fn next_end(&mut self) -> Option<i128> {
        while let Some(&(time, number)) = self.heap.first() {
            let ends = self.rows.list[number as usize].ends;
            if ends == time {
                return Some(time);
            }
            if ends == NEVER {
                self.take_out(0);
            } else {
                self.heap[0].0 = ends;
                self.sink(0);
            }
        }
        None
    }

    fn tell_expired(&mut self, time: i128, expired: &mut Vec<u32>) {
        if expired.len() > 1 {
            expired.sort_unstable_by_key(|number| {
                let sender = self.rows.list[*number as usize].key.sender;
                (self.rows.order(*number), self.origin_of(sender))
            });
        }
        let mut senders: Vec<u32> = Vec::new();
        if self.pair.is_some() {
            senders.extend(
                expired
                    .iter()
                    .map(|number| self.rows.list[*number as usize].key.sender),
            );
            senders.sort_unstable_by_key(|sender| self.origin_of(*sender));
            senders.dedup();
        }
        for number in expired.drain(..) {
            self.tell(time, number, "expires", None);
            self.remove(number);
        }
        for sender in senders {
            self.tell_answer(time, sender);
        }
    }

    // ---- lines

    fn begin_line(&mut self, time: i128, sender: u32, what: &str) {
        if self.json {
            self.out.put(b"{\"time\":\"");
        }
        self.out.time(time);
        self.out.put(&self.senders[sender as usize].text);
        self.out.put(what.as_bytes());
    }

    fn seen(&self, owner: u32, stated: u32) -> Seen {
        let owner = self.rows.owners.list[owner as usize];
        self.view.sees(owner, stated)
    }

    /// Tells what happens to a row; of one that changes with what was before.
    fn tell(&mut self, time: i128, number: u32, what: &str, changed: Option<Seen>) {
        if self.pair.is_some() || time < self.from {
            return;
        }
        let row = self.rows.list[number as usize];
        self.begin_line(time, row.key.sender, what);
        let held = self.seen(row.owner, row.stated);
        let (after, before) = match what {
            "announces" | "changes" => (Some(held), changed),
            _ => (None, Some(held)),
        };
        if self.json {
            self.out.put(b"\",\"destination\":\"");
            put_key(&mut self.out, &self.rows, number, b"\",\"source\":\"");
            self.out.text.push(b'"');
            self.end_json(after, before);
        } else {
            self.out.text.push(b' ');
            put_key(&mut self.out, &self.rows, number, b" from ");
            if let Some(after) = after {
                self.out.text.push(b' ');
                after.text(&mut self.out);
                if let Some(before) = before {
                    before.text_of_was(after, &mut self.out);
                }
            }
        }
        self.out.end_line();
    }

    /// Tells that a sender is silent, since when, and how many rows it has.
    fn tell_silent(&mut self, time: i128, number: u32) {
        let sender = &mut self.senders[number as usize];
        sender.is_silent = true;
        let Some((since, _)) = sender.hello.take() else {
            return;
        };
        let (mut row, mut routes) = (sender.first, 0);
        while row != NONE {
            routes += 1;
            row = self.rows.list[row as usize].after;
        }
        if time < self.from {
            return;
        }
        self.begin_line(time, number, "silent");
        let (middle, end): (&[u8], &[u8]) = match (self.json, routes) {
            (true, _) => (b"\",\"routes\":", b"}"),
            (false, 1) => (b", holding ", b" route"),
            (false, _) => (b", holding ", b" routes"),
        };
        self.out.put(if self.json { b"\",\"since\":\"" } else { b" since " });
        self.out.time(since);
        self.out.put(middle);
        self.out.decimal(routes);
        self.out.put(end);
        self.out.end_line();
    }

    fn end_json(&mut self, after: Option<Seen>, before: Option<Seen>) {
        self.out.put(b",\"answer\":");
        self.value(after);
        self.out.put(b",\"before\":");
        self.value(before);
        self.out.text.push(b'}');
    }

    fn value(&mut self, seen: Option<Seen>) {
        match seen {
            Some(seen) => seen.json(&mut self.out),
            None => self.out.put(b"null"),
        }
    }

    /// Tells the answer for the pair, if it is another one than before.
    fn tell_answer(&mut self, time: i128, sender: u32) {
        if self.pair.is_none() {
            return;
        }
        let best = self.senders[sender as usize].matching.last_key_value();
        let best = best.map(|(lengths, number)| {
            let row = &self.rows.list[*number as usize];
            (*lengths, self.seen(row.owner, row.stated))
        });
        if best == self.senders[sender as usize].told {
            return;
        }
        let before = std::mem::replace(&mut self.senders[sender as usize].told, best);
        if time >= self.from {
            self.put_answer(time, sender, best, before.map(|(_, seen)| seen));
        } else if !self.has_come {
            self.senders[sender as usize].early = best;
        }
    }

    fn put_answer(
        &mut self,
        time: i128,
        sender: u32,
        best: Option<(Lengths, Seen)>,
        before: Option<Seen>,
    ) {
        let Some((to, src)) = self.pair else { return };
        self.begin_line(time, sender, "answers");
        if self.json {
            self.out.put(b"\",\"destination\":\"");
            self.out.address(to);
            self.out.put(b"\",\"source\":\"");
            self.out.address(src);
            self.out.put(b"\",\"route\":");
            match best {
                Some((lengths, _)) => {
                    self.out.put(b"{\"destination\":\"");
                    self.put_route(lengths, b"\",\"source\":\"");
                    self.out.put(b"\"}");
                }
                None => self.out.put(b"null"),
            }
            self.end_json(best.map(|(_, seen)| seen), before);
        } else {
            self.out.text.push(b' ');
            match best {
                Some((lengths, seen)) => {
                    self.put_route(lengths, b" from ");
                    self.out.text.push(b' ');
                    seen.text(&mut self.out);
                }
                None => self.out.put(b"none"),
            }
        }
        self.out.end_line();
    }

    /// The prefixes of the pair that have these lengths.
    fn put_route(&mut self, (dst, src): Lengths, between: &[u8]) {
        let Some(pair) = self.pair else { return };
        let (is_ipv6, to, from, width) = match pair {
            (Addr::V6(to), Addr::V6(from)) => (true, to, from, 128),
            (Addr::V4(to), Addr::V4(from)) => (false, to.into(), from.into(), 32),
            _ => return,
        };
        self.out.prefix(is_ipv6, Prefix::new(to, dst, width));
        self.out.put(between);
        self.out.prefix(is_ipv6, Prefix::new(from, src, width));
    }
}

fn sender_text(Origin { place, sender }: Origin, names: &[Vec<u8>], json: bool) -> Vec<u8> {
    let name = &names[place.interface as usize];
    if json {
        let place = place_json(place, name);
        return format!("\",\"sender\":\"{sender}\",{place},\"event\":\"").into_bytes();
    }
    match place_text(place, name).as_str() {
        "interface 0" => format!(" {sender} ").into_bytes(),
        place => format!(" {sender} {place} ").into_bytes(),
    }
}
