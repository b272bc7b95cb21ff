//! Datagrams put together of their fragments: RFC 791, 3.2; RFC 8200, 4.5; RFC 5722, 4.

use std::collections::{BTreeMap, HashMap};
use std::ops::Range;

use crate::{Addr, Place, Seed};

const MOST_DATAGRAMS: usize = 65_536;
const MOST_OCTETS: usize = 16 << 20;

/// For how long a datagram is known after its first fragment to come, in nanoseconds.
pub const LIFETIME: i128 = 60_000_000_000;

/// A fragment, where its octets lie.
#[derive(Clone, Copy)]
pub struct Fragment<'a> {
    pub destination: Addr,
    pub identification: u32,
    /// Where in the datagram it begins.
    pub offset: usize,
    pub more: bool,
    /// How many octets it had, of which the recorder kept these.
    pub len: usize,
    pub octets: &'a [u8],
    /// Of the first one of a datagram of Babel where UDP begins, and whether both ports are Babel's.
    pub udp: Option<(usize, bool)>,
    /// Whether it goes to a group of Babel, as UDP.
    pub is_to_group: bool,
}

impl Fragment<'_> {
    /// Whether it can be a part of a datagram.
    pub fn is_sound(&self) -> bool {
        self.offset + self.len < 65_536
            && match self.more {
                true => self.len > 0 && self.len % 8 == 0,
                false => self.offset > 0,
            }
    }

    /// The first one of a datagram that is not Babel's.
    fn is_of_another(&self) -> bool {
        self.offset == 0 && self.udp.is_none()
    }
}

/// One that is kept: its octets are there in those of its datagram.
struct Piece {
    offset: usize,
    more: bool,
    len: usize,
    kept: Range<usize>,
}

impl Piece {
    fn end(&self) -> usize {
        self.offset + self.len
    }
}

#[derive(PartialEq, Eq)]
enum Standing {
    Open,
    Whole,
    Dropped,
    /// It is none of Babel's.
    Other,
}

/// Of which datagram a fragment is.
#[derive(Clone, Copy, PartialEq, Eq, Hash)]
struct Key {
    place: Place,
    sender: Addr,
    destination: Addr,
    identification: u32,
}

struct Datagram {
    number: u64,
    at: u64,
    came: i128,
    /// Whether it counts where it is never whole: its time ends within the window.
    ends_within: bool,
    is_to_group: bool,
    udp: Option<(usize, bool)>,
    standing: Standing,
    octets: Vec<u8>,
    /// By their offsets.
    pieces: Vec<Piece>,
    len: usize,
}

impl Datagram {
    fn has_last(&self) -> bool {
        self.pieces.iter().any(|piece| !piece.more)
    }

    fn end(&self) -> usize {
        self.pieces.iter().map(Piece::end).max().unwrap_or(0)
    }

    fn repeats(&self, fragment: &Fragment<'_>) -> bool {
        self.pieces.iter().any(|piece| {
            piece.offset == fragment.offset
                && piece.more == fragment.more
                && piece.len == fragment.len
                && self.octets[piece.kept.clone()] == *fragment.octets
        })
    }

    /// RFC 5722, 4: it shares octets with another, or is at odds with which is the last one.
    fn overlaps(&self, fragment: &Fragment<'_>) -> bool {
        let end = fragment.offset + fragment.len;
        let shares = |piece: &Piece| {
            piece.offset == fragment.offset || (fragment.offset < piece.end() && piece.offset < end)
        };
        if self.pieces.iter().any(shares) {
            return true;
        }
        match self.has_last() {
            true => !fragment.more || end > self.end(),
            false => !fragment.more && end < self.end(),
        }
    }

    fn add(&mut self, fragment: &Fragment<'_>) {
        let start = self.octets.len();
        self.octets.extend_from_slice(fragment.octets);
        let place = self.pieces.partition_point(|piece| piece.offset < fragment.offset);
        self.pieces.insert(
            place,
            Piece {
                offset: fragment.offset,
                more: fragment.more,
                len: fragment.len,
                kept: start..self.octets.len(),
            },
        );
        self.udp = fragment.udp.or(self.udp);
        self.len += fragment.len;
        if self.has_last() && self.len == self.end() {
            self.standing = Standing::Whole;
        }
    }

    /// One more, of an unfinished one.
    fn step(&mut self, key: &Key, fragment: &Fragment<'_>) -> Step {
        if self.overlaps(fragment) {
            self.standing = Standing::Dropped;
            return Step::Overlaps(Missing::of(key, self));
        }
        self.add(fragment);
        match self.standing {
            Standing::Whole => Step::Completes(self.joined()),
            _ => Step::Nothing,
        }
    }

    /// Its octets from UDP on, as far as they were kept, and how many there were.
    fn joined(&self) -> Option<(Vec<u8>, usize)> {
        let (at, _) = self.udp?;
        let mut octets = Vec::with_capacity(self.octets.len());
        for piece in &self.pieces {
            octets.extend_from_slice(&self.octets[piece.kept.clone()]);
            if piece.kept.len() < piece.len {
                break;
            }
        }
        octets.drain(..at.min(octets.len()));
        Some((octets, self.end() - at))
    }
}

/// A datagram of which fragments are missing, or overlap: the first of them to come has this number,
/// and its block is here. Whether both ports are Babel's, or it goes to a group of Babel.
pub struct Missing {
    pub number: u64,
    pub at: u64,
    pub place: Place,
    pub sender: Addr,
    pub is_of_routers: bool,
}

impl Missing {
    fn of(key: &Key, datagram: &Datagram) -> Option<Missing> {
        let is_of_routers = match datagram.udp {
            Some((_, is_of_routers)) => is_of_routers,
            None if datagram.is_to_group => true,
            None => return None,
        };
        Some(Missing {
            number: datagram.number,
            at: datagram.at,
            place: key.place,
            sender: key.sender,
            is_of_routers,
        })
    }
}

/// What comes of a fragment.
pub enum Step {
    Nothing,
    Overlaps(Option<Missing>),
    /// UDP and what it carries, as far as that was kept, and how many octets there were.
    Completes(Option<(Vec<u8>, usize)>),
}

/// Where a fragment came.
pub struct Came {
    pub place: Place,
    pub sender: Addr,
    pub number: u64,
    pub at: u64,
    pub ends_within: bool,
}

/// The unfinished datagrams, or the others, by the number of the first fragment to come.
#[derive(Default)]
struct Kind {
    octets: usize,
    order: BTreeMap<u64, Key>,
}

impl Kind {
    fn enter(&mut self, key: Key, datagram: &Datagram) {
        self.octets += datagram.len;
        self.order.insert(datagram.number, key);
    }

    fn leave(&mut self, datagram: &Datagram) {
        self.octets -= datagram.len;
        self.order.remove(&datagram.number);
    }

    fn is_past(&self, clock: i128, oldest: &Datagram) -> bool {
        clock - oldest.came > LIFETIME
            || self.order.len() > MOST_DATAGRAMS
            || self.octets > MOST_OCTETS
    }
}

/// The datagrams that came in fragments.
pub struct Known {
    clock: i128,
    unfinished: Kind,
    others: Kind,
    datagrams: HashMap<Key, Datagram, Seed>,
}

impl Known {
    pub fn new() -> Known {
        Known {
            clock: 0,
            unfinished: Kind::default(),
            others: Kind::default(),
            datagrams: HashMap::with_hasher(Seed::new()),
        }
    }

    fn remove(&mut self, key: &Key) -> Option<Datagram> {
        let datagram = self.datagrams.remove(key)?;
        match datagram.standing {
            Standing::Open => self.unfinished.leave(&datagram),
            _ => self.others.leave(&datagram),
        }
        Some(datagram)
    }

    /// Gives up the oldest unfinished one, where it is too old, or they are too many, or all are
    /// given up: what counts of it.
    fn give_up_one(&mut self, all: bool) -> Option<Option<Missing>> {
        let (_, &key) = self.unfinished.order.first_key_value()?;
        if !all && !self.unfinished.is_past(self.clock, &self.datagrams[&key]) {
            return None;
        }
        let datagram = self.remove(&key)?;
        Some(Missing::of(&key, &datagram).filter(|_| datagram.ends_within))
    }

    fn forget_others(&mut self) {
        while let Some((_, &key)) = self.others.order.first_key_value() {
            if !self.others.is_past(self.clock, &self.datagrams[&key]) {
                return;
            }
            self.remove(&key);
        }
    }

    /// What is missing of those that are given up once a packet came then.
    pub fn give_up(&mut self, time: Option<i128>) -> Vec<Missing> {
        self.clock = self.clock.max(time.unwrap_or(0));
        self.forget_others();
        std::iter::from_fn(|| self.give_up_one(false)).flatten().collect()
    }

    /// What is missing of all of them, where no more packets come.
    pub fn give_up_all(&mut self) -> Vec<Missing> {
        std::iter::from_fn(|| self.give_up_one(true)).flatten().collect()
    }

    pub fn take(&mut self, came: &Came, fragment: &Fragment<'_>) -> Step {
        let key = Key {
            place: came.place,
            sender: came.sender,
            destination: fragment.destination,
            identification: fragment.identification,
        };
        if let Some(datagram) = self.datagrams.get_mut(&key) {
            let is_dropped = match datagram.standing {
                Standing::Dropped => true,
                Standing::Other => fragment.udp.is_none(),
                _ => datagram.repeats(fragment),
            };
            if is_dropped {
                return Step::Nothing;
            }
            if datagram.standing == Standing::Open && !fragment.is_of_another() {
                self.unfinished.leave(datagram);
                let step = datagram.step(&key, fragment);
                match datagram.standing {
                    Standing::Open => self.unfinished.enter(key, datagram),
                    _ => self.others.enter(key, datagram),
                }
                return step;
            }
            self.remove(&key);
        }
        self.begin(key, came, fragment);
        Step::Nothing
    }

    fn begin(&mut self, key: Key, came: &Came, fragment: &Fragment<'_>) {
        let mut datagram = Datagram {
            number: came.number,
            at: came.at,
            came: self.clock,
            ends_within: came.ends_within,
            is_to_group: fragment.is_to_group,
            udp: None,
            standing: Standing::Other,
            octets: Vec::new(),
            pieces: Vec::new(),
            len: 0,
        };
        if !fragment.is_of_another() {
            datagram.standing = Standing::Open;
            datagram.add(fragment);
        }
        match datagram.standing {
            Standing::Open => self.unfinished.enter(key, &datagram),
            _ => self.others.enter(key, &datagram),
        }
        self.datagrams.insert(key, datagram);
    }
}
