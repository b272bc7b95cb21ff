//! The limit that `babel-dump senders`, `extract`, `events` and tables at a moment are measured
//! against: a plain Rust program of the same words and texts, as fast as we can write one. Std
//! alone, safe, single-threaded.
//!
//!     rustc -O --edition 2021 capture_limit.rs
//!     capture_limit senders [--json] [--strict] [--accept-cut] [--max-octets N] [CAPTURE]
//!     capture_limit extract --from A [--interface PLACE] [--hex] [--strict] [--accept-cut]
//!         [--accept-missing] [--max-octets N] [CAPTURE]
//!     capture_limit show --from A [--hold] [--expiry K] [--interface PLACE] [--v4-via-v6]
//!         [--accept-cut] [--max-routes N] [CAPTURE]
//!     capture_limit show [--origins] [--hold] [--expiry K] .. [CAPTURE]
//!     capture_limit lookup --from A --to D --src S .. [CAPTURE]
//!     capture_limit events [--from A] [--expiry K] [--interface PLACE] [--ignore LIST]
//!         [--to D --src S] [--v4-via-v6] [--accept-cut] [--max-routes N] [--json] [CAPTURE]
//!
//! Each takes `--since T` and `--until T`. `show` and `lookup` write rows and answers alone.
//!
//! It reads blocks where they lie in one buffer, and each header of a frame where it lies in its
//! block. Of a frame that has no Babel it reads some 20 octets; of one that has, its packet is
//! copied once, into the dump, or its TLVs are read where they are: timeline.rs. Fragments are put
//! together in fragments.rs. It writes no notes and no hints.

use std::collections::hash_map::{Entry, RandomState};
use std::collections::HashMap;
use std::fmt;
use std::fs::File;
use std::hash::{BuildHasher, Hash, Hasher};
use std::io::{self, Read, Write};
use std::net::{Ipv4Addr, Ipv6Addr};
use std::process::ExitCode;

mod clock;
mod fragments;
mod timeline;

use clock::{factor_of, seconds_text, Clock, Moment, Window};
use fragments::{Came, Fragment, Known, Missing, Step, LIFETIME};
use timeline::{Table, Tables, Timeline, View};

const USUAL_OCTETS: u64 = 1 << 30;
const MOST_INTERFACES: usize = 65_536;
const MOST_SENDERS: usize = 65_536;
const LONGEST_PACKET: u32 = 262_144;
const LONGEST_BLOCK: u32 = 16_777_216;
const MOST_TAGS: usize = 4;
const MOST_EXTENSIONS: usize = 8;
const LISTED_PLACES: usize = 16;
const MOST_ROUTES: u64 = 262_144;
const BABEL_PORT: u16 = 6_696;
const UDP: u8 = 17;
const FRAGMENT: u8 = 44;
/// ff02::1:6.
const ROUTERS: u128 = 0xff02_0000_0000_0000_0000_0000_0001_0006;
const UPDATE: u8 = 8;
const INFINITY: u16 = 0xffff;

// ---- addresses

#[derive(Clone, Copy, PartialEq, Eq, PartialOrd, Ord, Hash)]
enum Addr {
    V4(u32),
    V6(u128),
}

impl Addr {
    fn parse(text: &str) -> Option<Addr> {
        if let Ok(addr) = text.parse::<Ipv4Addr>() {
            return Some(Addr::V4(addr.into()));
        }
        let addr = text.parse::<Ipv6Addr>().ok()?;
        // RFC 4291, 2.2: forms 1 and 2 alone, so no dotted ending.
        (!text.contains('.')).then_some(Addr::V6(addr.into()))
    }

    /// Whether routers read what it sends: RFC 8966, 4; RFC 4291, 2.5.6.
    fn may_send(self) -> bool {
        match self {
            Addr::V4(_) => true,
            Addr::V6(bits) => bits >> 118 == 0x3fa,
        }
    }
}

impl fmt::Display for Addr {
    fn fmt(&self, f: &mut fmt::Formatter<'_>) -> fmt::Result {
        match *self {
            Addr::V4(bits) => Ipv4Addr::from(bits).fmt(f),
            Addr::V6(bits) => {
                let [a, b, c, d, e, g, h, i] = Ipv6Addr::from(bits).segments();
                write!(f, "{a:x}:{b:x}:{c:x}:{d:x}:{e:x}:{g:x}:{h:x}:{i:x}")
            }
        }
    }
}

// ---- numbers in octets

fn u16_at(octets: &[u8], at: usize) -> u16 {
    u16::from_be_bytes([octets[at], octets[at + 1]])
}

fn octets_at<const N: usize>(octets: &[u8], at: usize) -> [u8; N] {
    let mut own = [0; N];
    own.copy_from_slice(&octets[at..at + N]);
    own
}

#[derive(Clone, Copy)]
enum Order {
    Big,
    Little,
}

impl Order {
    fn u16_at(self, octets: &[u8], at: usize) -> u16 {
        let own = octets_at(octets, at);
        match self {
            Order::Big => u16::from_be_bytes(own),
            Order::Little => u16::from_le_bytes(own),
        }
    }

    fn u32_at(self, octets: &[u8], at: usize) -> u32 {
        let own = octets_at(octets, at);
        match self {
            Order::Big => u32::from_be_bytes(own),
            Order::Little => u32::from_le_bytes(own),
        }
    }

    fn i64_at(self, octets: &[u8]) -> Option<i64> {
        let own = octets.try_into().ok()?;
        Some(match self {
            Order::Big => i64::from_be_bytes(own),
            Order::Little => i64::from_le_bytes(own),
        })
    }
}

// ---- blocks: draft-ietf-opsawg-pcap, draft-ietf-opsawg-pcapng

enum Fault {
    NotCapture,
    CutShort(u64),
    BadLength(u64),
    Blank(u64),
    BadOrder(u64),
    Version(u64, u16, u16),
    NoInterface(u64),
    UnreadLink(u64, u32),
    BadTime(u64),
    NoTime(u64),
    Dump(&'static str, u64),
    TooManyInterfaces(u64),
    Lacking(u64, Lack),
    TooManySenders(u64),
    TooLong(u64),
}

impl fmt::Display for Fault {
    fn fmt(&self, f: &mut fmt::Formatter<'_>) -> fmt::Result {
        match self {
            Fault::NotCapture => write!(f, "not a capture"),
            Fault::CutShort(at) => write!(f, "capture cut short at {at}"),
            Fault::BadLength(at) | Fault::Blank(at) => write!(f, "bad length at {at}"),
            Fault::BadOrder(at) => write!(f, "bad byte order at {at}"),
            Fault::Version(at, major, minor) => {
                write!(f, "version {major}.{minor} not read at {at}")
            }
            Fault::NoInterface(at) => write!(f, "no such interface at {at}"),
            Fault::UnreadLink(at, number) => write!(f, "link type {number} not read at {at}"),
            Fault::BadTime(at) => write!(f, "bad time at {at}"),
            Fault::NoTime(at) => write!(f, "packet without a time at {at}"),
            Fault::Dump(text, at) => write!(f, "{text} at {at}"),
            Fault::TooManyInterfaces(at) => write!(f, "too many interfaces at {at}"),
            Fault::Lacking(at, Lack::Fragment) => write!(f, "fragments of a datagram missing at {at}"),
            Fault::Lacking(at, Lack::CutShort) => write!(f, "datagram cut short at {at}"),
            Fault::Lacking(at, Lack::Snapped) => {
                write!(f, "datagram cut by the recorder at {at}")
            }
            Fault::TooManySenders(at) => write!(f, "too many senders at {at}"),
            Fault::TooLong(at) => write!(f, "capture too long at {at}"),
        }
    }
}

const SECTION: u32 = 0x0a0d_0d0a;
const BYTE_ORDER: u32 = 0x1a2b_3c4d;
const MICROSECONDS: u32 = 0xa1b2_c3d4;
const NANOSECONDS: u32 = 0xa1b2_3c4d;

#[derive(Clone, Copy)]
enum Layout {
    Start,
    Pcap(Order),
    Section(Order),
}

#[derive(Clone, Copy)]
struct Interface {
    link: u32,
    snap_len: u32,
    clock: Clock,
}

/// What is read of a capture so far.
struct Reader {
    limit: u64,
    layout: Layout,
    first: usize,
    interfaces: Vec<Interface>,
    names: Vec<Vec<u8>>,
    /// Which records are read, where a time is asked for.
    window: Option<Window>,
    start: Option<i128>,
    known: Known,
    found: Found,
}

fn pcap_order(header: &[u8]) -> Option<Order> {
    [Order::Big, Order::Little].into_iter().find(|order| {
        let magic = order.u32_at(header, 0);
        magic == MICROSECONDS || magic == NANOSECONDS
    })
}

fn section_order(header: &[u8], at: u64) -> Result<Order, Fault> {
    [Order::Big, Order::Little]
        .into_iter()
        .find(|order| order.u32_at(header, 8) == BYTE_ORDER)
        .ok_or(Fault::BadOrder(at))
}

fn total_len(order: Order, header: &[u8], least: u32, at: u64) -> Result<u32, Fault> {
    let len = order.u32_at(header, 4);
    if len < least || len > LONGEST_BLOCK || len % 4 != 0 {
        return Err(Fault::BadLength(at));
    }
    Ok(len)
}

/// The version in four octets here is one of major number and minor numbers that are read.
fn check_version(
    order: Order,
    block: &[u8],
    place: usize,
    major: u16,
    minors: &[u16],
    at: u64,
) -> Result<(), Fault> {
    let said = (order.u16_at(block, place), order.u16_at(block, place + 2));
    if said.0 != major || !minors.contains(&said.1) {
        return Err(Fault::Version(at, said.0, said.1));
    }
    Ok(())
}

/// The name among the options of an interface, the first that is not empty, and how its times
/// count; nothing if an option runs past their end, or has another length than its own.
fn options_in(order: Order, mut options: &[u8]) -> Option<(&[u8], Clock)> {
    let mut name: &[u8] = &[];
    let (mut resolution, mut offset) = (None, None);
    while options.len() >= 4 {
        let code = order.u16_at(options, 0);
        if code == 0 {
            break;
        }
        let len = usize::from(order.u16_at(options, 2));
        let value = options[4..].get(..len)?;
        match code {
            2 if name.is_empty() => name = value,
            9 => {
                let &[power] = value else { return None };
                resolution.get_or_insert(power);
            }
            14 => {
                offset.get_or_insert(order.i64_at(value)?);
            }
            _ => {}
        }
        let used = 4 + len.next_multiple_of(4);
        options = options.get(used..).unwrap_or_default();
    }
    let clock = Clock::new(resolution.unwrap_or(6), offset.unwrap_or(0));
    Some((name, clock))
}

impl Reader {
    /// How many octets the first block has, if its header is there.
    fn block_len(&self, octets: &[u8], at: u64) -> Result<Option<usize>, Fault> {
        let header = match self.layout {
            Layout::Start => 24,
            Layout::Pcap(_) => 16,
            Layout::Section(_) => 12,
        };
        if octets.len() < header {
            return Ok(None);
        }
        let is_section = Order::Big.u32_at(octets, 0) == SECTION;
        let len = match self.layout {
            Layout::Pcap(order) => {
                let kept = order.u32_at(octets, 8);
                if kept > LONGEST_PACKET {
                    return Err(Fault::BadLength(at));
                }
                if kept == 0 && order.u32_at(octets, 12) == 0 {
                    return Err(Fault::Blank(at));
                }
                16 + kept
            }
            Layout::Start if pcap_order(octets).is_some() => 24,
            Layout::Start if !is_section => return Err(Fault::NotCapture),
            Layout::Section(order) if !is_section => total_len(order, octets, 12, at)?,
            _ => total_len(section_order(octets, at)?, octets, 28, at)?,
        };
        if self.limit.saturating_sub(at) < len.into() {
            return Err(Fault::TooLong(at));
        }
        Ok(Some(len as usize))
    }

    /// The moment that is meant: the end of the window, or else the latest time that was read.
    fn end(&self) -> Option<i128> {
        let until = self
            .window
            .as_ref()
            .and_then(|window| window.until.as_ref());
        match until {
            Some(until) => Some(until.at(self.start?)),
            None => self.found.latest,
        }
    }

    fn take_block(&mut self, block: &[u8], at: u64) -> Result<(), Fault> {
        match self.layout {
            Layout::Pcap(order) => {
                let frame = &block[16..];
                let (seconds, units) = (order.u32_at(block, 0), order.u32_at(block, 4));
                let stamp = Some((seconds.into(), units.into()));
                self.take_packet(0, frame, order.u32_at(block, 12), stamp, at)
            }
            Layout::Section(order) => self.take_pcapng(order, block, at),
            Layout::Start => {
                let Some(order) = pcap_order(block) else {
                    return self.take_pcapng(Order::Big, block, at);
                };
                check_version(order, block, 4, 2, &[4], at)?;
                self.layout = Layout::Pcap(order);
                self.names.push(Vec::new());
                let power = match order.u32_at(block, 0) {
                    NANOSECONDS => 9,
                    _ => 6,
                };
                self.interfaces.push(Interface {
                    link: order.u32_at(block, 20) & 0xffff,
                    snap_len: order.u32_at(block, 16),
                    clock: Clock::new(power, 0),
                });
                Ok(())
            }
        }
    }

    fn take_pcapng(&mut self, order: Order, block: &[u8], at: u64) -> Result<(), Fault> {
        let kind = order.u32_at(block, 0);
        let order = match kind {
            SECTION => section_order(block, at)?,
            _ => order,
        };
        if order.u32_at(block, block.len() - 4) as usize != block.len() {
            return Err(Fault::BadLength(at));
        }
        match kind {
            SECTION => {
                check_version(order, block, 12, 1, &[0, 2], at)?;
                self.layout = Layout::Section(order);
                self.first = self.interfaces.len();
                Ok(())
            }
            1 => self.take_interface(order, block, at),
            2 => self.take_numbered(order, block, order.u16_at(block, 8).into(), at),
            3 => self.take_simple(order, block, at),
            6 => self.take_numbered(order, block, order.u32_at(block, 8) as usize, at),
            _ => Ok(()),
        }
    }

    fn take_interface(&mut self, order: Order, block: &[u8], at: u64) -> Result<(), Fault> {
        if block.len() < 20 {
            return Err(Fault::BadLength(at));
        }
        if self.interfaces.len() == MOST_INTERFACES {
            return Err(Fault::TooManyInterfaces(at));
        }
        let options = options_in(order, &block[16..block.len() - 4]);
        let (name, clock) = options.ok_or(Fault::BadLength(at))?;
        self.names.push(name.to_vec());
        self.interfaces.push(Interface {
            link: order.u16_at(block, 8).into(),
            snap_len: order.u32_at(block, 12),
            clock,
        });
        Ok(())
    }

    /// An enhanced packet block, or the packet block that it replaced, of the section's interface
    /// with this number.
    fn take_numbered(
        &mut self,
        order: Order,
        block: &[u8],
        number: usize,
        at: u64,
    ) -> Result<(), Fault> {
        if block.len() < 32 {
            return Err(Fault::BadLength(at));
        }
        let kept = order.u32_at(block, 20) as usize;
        let frame = block[28..block.len() - 4].get(..kept);
        let frame = frame.ok_or(Fault::BadLength(at))?;
        let (high, low) = (order.u32_at(block, 12), order.u32_at(block, 16));
        let stamp = Some((0, u64::from(high) << 32 | u64::from(low)));
        let interface = self.first + number;
        self.take_packet(interface, frame, order.u32_at(block, 24), stamp, at)
    }

    fn take_simple(&mut self, order: Order, block: &[u8], at: u64) -> Result<(), Fault> {
        if block.len() < 16 {
            return Err(Fault::BadLength(at));
        }
        let described = self.interfaces.get(self.first);
        let described = described.ok_or(Fault::NoInterface(at))?;
        let whole = order.u32_at(block, 8);
        let kept = match described.snap_len {
            0 => whole,
            snap_len => whole.min(snap_len),
        };
        let frame = block[12..block.len() - 4].get(..kept as usize);
        let frame = frame.ok_or(Fault::BadLength(at))?;
        self.take_packet(self.first, frame, whole, None, at)
    }

    fn take_packet(
        &mut self,
        interface: usize,
        frame: &[u8],
        whole: u32,
        stamp: Option<(u64, u64)>,
        at: u64,
    ) -> Result<(), Fault> {
        let described = self.interfaces.get(interface);
        let described = described.ok_or(Fault::NoInterface(at))?;
        let part = Part {
            octets: frame,
            whole: frame.len().max(whole as usize),
        };
        self.found.packets += 1;
        let seen = look(described.link, part);
        let seen = seen.map_err(|Unread| Fault::UnreadLink(at, described.link))?;
        let time = stamp.and_then(|stamp| described.clock.time(stamp));
        let (mut is_read, mut ends_within) = (true, true);
        if let Some(window) = &self.window {
            let Some(time) = time else {
                return Err(match stamp {
                    None => Fault::NoTime(at),
                    Some(_) => Fault::BadTime(at),
                });
            };
            let start = *self.start.get_or_insert(time);
            if let Sink::Timeline(told) = &mut self.found.sink {
                told.begin(start);
            }
            is_read = window.has(start, time);
            ends_within = window.has(start, time + LIFETIME);
        }
        for missing in self.known.give_up(time) {
            self.found.miss(&missing)?;
        }
        let interface = interface as u64;
        match seen {
            Some(Seen { sender, link, vlans, what: What::Fragment(fragment) }) => {
                let came = Came {
                    place: Place { interface, link, vlans },
                    sender,
                    number: self.found.packets,
                    at,
                    ends_within,
                };
                self.take_fragment(&came, &fragment, time.filter(|_| is_read), is_read)
            }
            seen if is_read => self.found.take(interface, time, seen, &self.names, at),
            _ => Ok(()),
        }
    }

    /// Takes a fragment: the datagram comes with the last one that was missing.
    fn take_fragment(
        &mut self,
        came: &Came,
        fragment: &Fragment<'_>,
        time: Option<i128>,
        is_read: bool,
    ) -> Result<(), Fault> {
        let step = self.known.take(came, fragment);
        if !is_read {
            return Ok(());
        }
        if let Step::Overlaps(Some(missing)) = &step {
            self.found.miss(missing)?;
        }
        let joined = match &step {
            Step::Completes(joined) => joined.as_ref(),
            _ => None,
        };
        let Place { interface, link, vlans } = came.place;
        let ip = Ip {
            sender: came.sender,
            is_cut: false,
        };
        let seen = joined.and_then(|(octets, whole)| {
            look_into_udp(ip, Part { octets, whole: *whole })
        });
        let seen = seen.map(|seen| Seen { link, vlans, ..seen });
        self.found.take(interface, time, seen, &self.names, came.at)
    }

    /// Gives up the datagrams of which fragments are missing, where the capture ends.
    fn end_fragments(&mut self) -> Result<(), Fault> {
        for missing in self.known.give_up_all() {
            self.found.miss(&missing)?;
        }
        Ok(())
    }
}

// ---- frames

/// The octets that the recorder kept of some, and how many there were.
#[derive(Clone, Copy)]
struct Part<'a> {
    octets: &'a [u8],
    whole: usize,
}

impl<'a> Part<'a> {
    fn after(self, len: usize) -> Part<'a> {
        Part {
            octets: self.octets.get(len..).unwrap_or_default(),
            whole: self.whole.saturating_sub(len),
        }
    }

    fn first(self, len: usize) -> Part<'a> {
        Part {
            octets: self.octets.get(..len).unwrap_or(self.octets),
            whole: len,
        }
    }
}

/// A datagram from or to the port of Babel, with what its frame says of its place.
struct Seen<'a> {
    sender: Addr,
    link: Option<u32>,
    vlans: Vlans,
    what: What<'a>,
}

enum What<'a> {
    /// It is none that routers read.
    Unread(Reason),
    Lacking(Lack),
    Fragment(Fragment<'a>),
    Payload(&'a [u8]),
}

/// Why a datagram is not all there.
#[derive(Clone, Copy)]
enum Lack {
    Fragment,
    CutShort,
    Snapped,
}

impl Lack {
    fn reason(self) -> Reason {
        match self {
            Lack::Fragment => Reason::Fragment,
            Lack::CutShort => Reason::CutShort,
            Lack::Snapped => Reason::Snapped,
        }
    }
}

/// The numbers of VLANs, 16 bits each, the outer one highest; 0 where there are no more.
type Vlans = u64;

/// With one number more. A tag of number 0 names no VLAN.
fn with_vlan(vlans: Vlans, number: u16) -> Vlans {
    let used = (u64::BITS - vlans.trailing_zeros()).div_ceil(16);
    vlans | u64::from(number) << (48 - 16 * used)
}

/// The link type is not read.
struct Unread;

/// The datagram of Babel in a frame, if it has one: tcpdump.org/linktypes.html.
#[inline(always)]
fn look(link: u32, frame: Part<'_>) -> Result<Option<Seen<'_>>, Unread> {
    let octets = frame.octets;
    Ok(match link {
        1 if octets.len() < 14 => None,
        1 => look_by_type(u16_at(octets, 12), frame.after(14)),
        0 | 108 => look_by_family(frame),
        12 | 14 | 101 => match octets.first().map(|first| first >> 4) {
            Some(4) => look_into_ipv4(frame),
            Some(6) => look_into_ipv6(frame),
            _ => None,
        },
        113 if octets.len() < 16 => None,
        113 => look_by_type(u16_at(octets, 14), frame.after(16)),
        228 => look_into_ipv4(frame),
        229 => look_into_ipv6(frame),
        276 if octets.len() < 20 => None,
        276 => look_by_type(u16_at(octets, 0), frame.after(20)).map(|seen| Seen {
            link: Some(u32::from_be_bytes(octets_at(octets, 4))),
            ..seen
        }),
        _ => return Err(Unread),
    })
}

/// After up to four VLAN tags: IEEE 802.1Q, 9.
#[inline(always)]
fn look_by_type(mut ether_type: u16, mut part: Part<'_>) -> Option<Seen<'_>> {
    let mut vlans = 0;
    for _ in 0..MOST_TAGS {
        if !matches!(ether_type, 0x8100 | 0x88a8 | 0x9100 | 0x9200) || part.octets.len() < 4 {
            break;
        }
        vlans = with_vlan(vlans, u16_at(part.octets, 0) & 0x0fff);
        ether_type = u16_at(part.octets, 2);
        part = part.after(4);
    }
    let seen = match ether_type {
        0x0800 => look_into_ipv4(part),
        0x86dd => look_into_ipv6(part),
        _ => None,
    }?;
    Some(Seen { vlans, ..seen })
}

fn look_by_family(frame: Part<'_>) -> Option<Seen<'_>> {
    let family = u32::from_be_bytes(*frame.octets.first_chunk()?);
    match family.min(family.swap_bytes()) {
        2 => look_into_ipv4(frame.after(4)),
        10 | 24 | 28 | 30 => look_into_ipv6(frame.after(4)),
        _ => None,
    }
}

/// RFC 791, 3.1.
#[inline(always)]
fn look_into_ipv4(packet: Part<'_>) -> Option<Seen<'_>> {
    let header = packet.octets.first_chunk::<20>()?;
    let header_len = 4 * usize::from(header[0] & 0x0f);
    let total_len = u16_at(header, 2).into();
    let fragment = u16_at(header, 6);
    if header[0] >> 4 != 4 || header[9] != UDP {
        return None;
    }
    if header_len < 20 || total_len < header_len {
        return None;
    }
    let ip = Ip {
        sender: Addr::V4(u32::from_be_bytes(octets_at(header, 12))),
        is_cut: packet.whole < total_len,
    };
    let part = packet.first(total_len).after(header_len);
    if fragment & 0x3fff == 0 {
        return look_into_udp(ip, part);
    }
    let destination = u32::from_be_bytes(octets_at(header, 16));
    let said = Fragment {
        destination: Addr::V4(destination),
        identification: u16_at(header, 4).into(),
        offset: 8 * usize::from(fragment & 0x1fff),
        more: fragment & 0x2000 != 0,
        len: part.whole,
        octets: part.octets,
        udp: None,
        is_to_group: destination == 0xe000_006f,
    };
    look_into_fragment(ip, said, UDP, part)
}

/// RFC 8200, 3, 4.
#[inline(always)]
fn look_into_ipv6(packet: Part<'_>) -> Option<Seen<'_>> {
    let header = packet.octets.first_chunk::<40>()?;
    let len = usize::from(u16_at(header, 4));
    if header[0] >> 4 != 6 {
        return None;
    }
    let ip = Ip {
        sender: Addr::V6(u128::from_be_bytes(octets_at(header, 8))),
        is_cut: packet.whole < 40 + len,
    };
    let (number, part, again) = past_extensions(header[6], packet.after(40).first(len), false);
    match (number, part.octets.first_chunk::<8>()) {
        (UDP, _) => look_into_udp(ip, part),
        (FRAGMENT, Some(extension)) if !again => {
            let destination = u128::from_be_bytes(octets_at(header, 24));
            let (field, part) = (u16_at(extension, 2), part.after(8));
            let said = Fragment {
                destination: Addr::V6(destination),
                identification: u32::from_be_bytes(octets_at(extension, 4)),
                offset: usize::from(field & 0xfff8),
                more: field & 1 != 0,
                len: part.whole,
                octets: part.octets,
                udp: None,
                is_to_group: destination == ROUTERS && extension[0] == UDP,
            };
            look_into_fragment(ip, said, extension[0], part)
        }
        _ => None,
    }
}

/// What stands after up to eight extension headers, and its number. An atomic fragment has one of
/// them (RFC 6946), unless one came before it; whether one came.
#[inline(always)]
fn past_extensions(
    mut number: u8,
    mut part: Part<'_>,
    mut in_fragment: bool,
) -> (u8, Part<'_>, bool) {
    for _ in 0..MOST_EXTENSIONS {
        let Some(extension) = part.octets.first_chunk::<8>() else {
            break;
        };
        let len = match number {
            0 | 43 | 60 => 8 * (usize::from(extension[1]) + 1),
            FRAGMENT if !in_fragment && u16_at(extension, 2) & 0xfff9 == 0 => 8,
            _ => break,
        };
        in_fragment |= number == FRAGMENT;
        number = extension[0];
        part = part.after(len);
    }
    (number, part, in_fragment)
}

/// A fragment that can be a part of a datagram, the first of which has all headers up to that of
/// UDP: RFC 7112, 5.
fn look_into_fragment<'a>(
    ip: Ip,
    mut said: Fragment<'a>,
    number: u8,
    part: Part<'a>,
) -> Option<Seen<'a>> {
    if ip.is_cut || !said.is_sound() {
        return None;
    }
    if said.offset == 0 {
        let (number, upper, _) = past_extensions(number, part, true);
        if number == FRAGMENT {
            return None;
        }
        if number == UDP && upper.whole >= 8 {
            if upper.octets.len() < 4 {
                return None;
            }
            let ports = [u16_at(upper.octets, 0), u16_at(upper.octets, 2)];
            if ports.contains(&BABEL_PORT) {
                said.udp = Some((part.whole - upper.whole, ports == [BABEL_PORT; 2]));
            }
        }
    }
    Some(Seen {
        sender: ip.sender,
        link: None,
        vlans: 0,
        what: What::Fragment(said),
    })
}

/// What IP says of what it carries: whose it is, and whether there should be more of it than its
/// frame had.
struct Ip {
    sender: Addr,
    is_cut: bool,
}

/// RFC 768; RFC 8966, 4.
#[inline(always)]
fn look_into_udp(ip: Ip, part: Part<'_>) -> Option<Seen<'_>> {
    let octets = part.octets;
    if octets.len() < 4 {
        return None;
    }
    let ports = [u16_at(octets, 0), u16_at(octets, 2)];
    if !ports.contains(&BABEL_PORT) {
        return None;
    }
    let what = if ports != [BABEL_PORT; 2] {
        What::Unread(Reason::OtherPort)
    } else if !ip.sender.may_send() {
        What::Unread(Reason::NotLinkLocal)
    } else if ip.is_cut {
        What::Lacking(Lack::CutShort)
    } else {
        look_by_len(part)?
    };
    Some(Seen {
        sender: ip.sender,
        link: None,
        vlans: 0,
        what,
    })
}

/// What a datagram has by its length, if that is one.
#[inline(always)]
fn look_by_len(part: Part<'_>) -> Option<What<'_>> {
    let octets = part.octets;
    if part.whole < 6 {
        return None;
    }
    if octets.len() < 6 {
        return Some(What::Lacking(Lack::Snapped));
    }
    let len = u16_at(octets, 4).into();
    if part.whole < len {
        return Some(What::Lacking(Lack::CutShort));
    }
    if len < 8 {
        return None;
    }
    let payload = octets.get(8..len);
    Some(payload.map_or(What::Lacking(Lack::Snapped), What::Payload))
}

// ---- what is found

/// All that tells links apart.
#[derive(Clone, Copy, PartialEq, Eq, PartialOrd, Ord, Hash)]
struct Place {
    interface: u64,
    link: Option<u32>,
    vlans: Vlans,
}

impl Place {
    /// As `--interface` asks for it.
    fn parse(text: &str) -> Option<Place> {
        let (text, vlans) = text.split_once(':').unwrap_or((text, ""));
        let (interface, link) = match text.split_once('/') {
            Some((interface, link)) => (interface, Some(link.parse().ok()?)),
            None => (text, None),
        };
        let numbers: Vec<u16> = vlans
            .split_terminator('.')
            .map(|number| {
                number
                    .parse()
                    .ok()
                    .filter(|number| (1..4_096).contains(number))
            })
            .collect::<Option<_>>()?;
        (numbers.len() <= MOST_TAGS).then_some(Place {
            interface: interface.parse().ok()?,
            link,
            vlans: numbers.into_iter().fold(0, with_vlan),
        })
    }

    fn vlan_numbers(self) -> Vec<u64> {
        let numbers = [48, 32, 16, 0].map(|shift| self.vlans >> shift & 0xffff);
        numbers.into_iter().filter(|number| *number > 0).collect()
    }

    fn asked(self) -> String {
        let link = self.link.map_or(String::new(), |link| format!("/{link}"));
        let vlans = joined(&self.vlan_numbers(), ".");
        let colon = if vlans.is_empty() { "" } else { ":" };
        format!("{}{link}{colon}{vlans}", self.interface)
    }
}

fn joined(numbers: &[u64], between: &str) -> String {
    let numbers: Vec<_> = numbers.iter().map(u64::to_string).collect();
    numbers.join(between)
}

#[derive(Clone, Copy, PartialEq, Eq, PartialOrd, Ord, Hash)]
struct Origin {
    place: Place,
    sender: Addr,
}

#[derive(Clone, Copy)]
struct Tally {
    packets: u64,
    octets: u64,
    updates: u64,
    /// How many packets have octets after the body.
    trailers: u64,
    /// The greatest of the Updates that announce.
    interval: Option<u16>,
    first: i128,
    last: i128,
}

#[derive(Clone, Copy)]
struct Wanted {
    sender: Option<Addr>,
    place: Option<Place>,
    accepts_missing: bool,
}

#[derive(Clone, Copy)]
enum Reason {
    Truncated,
    BadMagic,
    BadVersion,
    Fragment,
    Snapped,
    CutShort,
    OtherPort,
    NotLinkLocal,
}

const REASONS: [&str; 8] = [
    "truncated",
    "bad-magic",
    "bad-version",
    "fragment",
    "snapped",
    "cut-short",
    "other-port",
    "not-link-local",
];

/// A hash of senders whose key is drawn for each run.
#[derive(Clone)]
struct Seed(u64);

impl Seed {
    fn new() -> Seed {
        Seed(RandomState::new().build_hasher().finish())
    }

    fn mixed(&self, state: u64, word: u64) -> u64 {
        let product = u128::from(self.0 ^ state ^ word) * u128::from(self.0 | 1);
        product as u64 ^ (product >> 64) as u64
    }
}

struct Mixed {
    state: u64,
    key: u64,
}

impl BuildHasher for Seed {
    type Hasher = Mixed;

    fn build_hasher(&self) -> Mixed {
        Mixed {
            state: self.0,
            key: self.0 | 1,
        }
    }
}

impl Hasher for Mixed {
    fn finish(&self) -> u64 {
        self.state
    }

    fn write(&mut self, octets: &[u8]) {
        for octet in octets {
            self.write_u64((*octet).into());
        }
    }

    fn write_u64(&mut self, word: u64) {
        let product = u128::from(self.state ^ word) * u128::from(self.key);
        self.state = product as u64 ^ (product >> 64) as u64;
    }

    fn write_u32(&mut self, word: u32) {
        self.write_u64(word.into());
    }

    fn write_u128(&mut self, word: u128) {
        self.write_u64((word >> 64) as u64);
        self.write_u64(word as u64);
    }

    fn write_isize(&mut self, word: isize) {
        self.write_u64(word as u64);
    }
}

/// What is made of the packets that are found.
enum Sink {
    Tallies,
    Dump(Vec<u8>),
    Table(Table),
    Tables(Tables),
    Timeline(Timeline),
}

struct Found {
    wanted: Wanted,
    packets: u64,
    left_out: [Option<(u64, u64)>; 8],
    sink: Sink,
    /// The time of the record that was read last, and the latest; and whether each has one.
    time: Option<i128>,
    latest: Option<i128>,
    is_timed: bool,
    /// The sender found last, and its tally, which is not among the others yet.
    last: Option<(Origin, Tally)>,
    tallies: HashMap<Origin, Tally, Seed>,
}

impl Found {
    fn new(wanted: Wanted, sink: Sink) -> Found {
        Found {
            wanted,
            packets: 0,
            left_out: [None; 8],
            sink,
            time: None,
            latest: None,
            is_timed: true,
            last: None,
            tallies: HashMap::with_hasher(Seed::new()),
        }
    }

    fn take(
        &mut self,
        interface: u64,
        time: Option<i128>,
        seen: Option<Seen<'_>>,
        names: &[Vec<u8>],
        at: u64,
    ) -> Result<(), Fault> {
        self.is_timed &= time.is_some();
        self.time = time;
        self.latest = self.latest.max(time);
        let Some(seen) = seen else {
            return Ok(self.pass());
        };
        let sender = seen.sender;
        let place = Place {
            interface,
            link: seen.link,
            vlans: seen.vlans,
        };
        let is_wanted = self.wanted.sender.is_none_or(|wanted| sender == wanted)
            && self.wanted.place.is_none_or(|on| on == place);
        if !is_wanted {
            return Ok(self.pass());
        }
        let carried = match seen.what {
            What::Payload(payload) => payload.len(),
            _ => 0,
        };
        let packet = match seen.what {
            What::Unread(reason) => Err(reason),
            What::Lacking(lack) if self.wanted.sender.is_some() => {
                return Err(Fault::Lacking(at, lack));
            }
            What::Lacking(lack) => Err(lack.reason()),
            What::Fragment(_) => return Ok(self.pass()),
            What::Payload(payload) => packet_of(payload),
        };
        let packet = match packet {
            Ok(packet) => packet,
            Err(reason) => {
                self.leave_out(reason, self.packets);
                return Ok(self.pass());
            }
        };
        let time = time.unwrap_or(0);
        let mut sent = Tally::of(packet, time);
        sent.trailers = u64::from(packet.len() < carried);
        if let Sink::Tallies = self.sink {
            (sent.updates, sent.interval) = updates_in(packet);
        }
        let origin = Origin { place, sender };
        match (self.count(origin, sent, at), &self.sink) {
            // One sender more than are followed.
            (Err(Fault::TooManySenders(_)), Sink::Timeline(_)) => return Ok(self.pass()),
            (counted, _) => counted?,
        }
        match &mut self.sink {
            Sink::Tallies => Ok(()),
            Sink::Dump(dump) => Ok(dump.extend_from_slice(packet)),
            Sink::Table(table) => Ok(table.take(time, origin, packet)),
            Sink::Tables(tables) => Ok(tables.take(time, origin, packet)),
            Sink::Timeline(timeline) => timeline.take(time, origin, packet, names),
        }
    }

    /// A record of which nothing is taken: routes may have expired before it.
    fn pass(&mut self) {
        if let (Sink::Timeline(timeline), Some(time)) = (&mut self.sink, self.time) {
            timeline.expire(time);
        }
    }

    /// A datagram of which fragments are missing.
    fn miss(&mut self, missing: &Missing) -> Result<(), Fault> {
        let Missing { number, at, place, sender, is_of_routers } = *missing;
        let is_wanted = self.wanted.sender.is_none_or(|wanted| sender == wanted)
            && self.wanted.place.is_none_or(|on| on == place);
        if !is_wanted {
            return Ok(());
        }
        let reason = match (is_of_routers, sender.may_send()) {
            (false, _) => Reason::OtherPort,
            (true, false) => Reason::NotLinkLocal,
            (true, true) if self.wanted.sender.is_some() && !self.wanted.accepts_missing => {
                return Err(Fault::Lacking(at, Lack::Fragment));
            }
            (true, true) => Reason::Fragment,
        };
        Ok(self.leave_out(reason, number))
    }

    fn leave_out(&mut self, reason: Reason, number: u64) {
        let (count, first) = self.left_out[reason as usize].get_or_insert((0, number));
        *count += 1;
        *first = number.min(*first);
    }

    fn count(&mut self, origin: Origin, sent: Tally, at: u64) -> Result<(), Fault> {
        if let Some((last, tally)) = &mut self.last {
            if *last == origin {
                tally.add(sent);
                return Ok(());
            }
            self.tallies.insert(*last, *tally);
        }
        let count = self.tallies.len();
        let mut tally = sent;
        match self.tallies.entry(origin) {
            Entry::Occupied(entry) => tally.add(*entry.get()),
            Entry::Vacant(_) if count >= MOST_SENDERS => return Err(Fault::TooManySenders(at)),
            Entry::Vacant(_) => {}
        }
        self.last = Some((origin, tally));
        Ok(())
    }

    /// The tallies, by place, then by address.
    fn senders(&mut self) -> Vec<(Origin, Tally)> {
        self.tallies.extend(self.last.take());
        let mut senders: Vec<_> = self.tallies.drain().collect();
        senders.sort_unstable_by_key(|(origin, _)| *origin);
        senders
    }
}

impl Tally {
    fn of(packet: &[u8], time: i128) -> Tally {
        Tally {
            packets: 1,
            octets: packet.len() as u64,
            updates: 0,
            trailers: 0,
            interval: None,
            first: time,
            last: time,
        }
    }

    fn add(&mut self, sent: Tally) {
        self.packets += sent.packets;
        self.octets += sent.octets;
        self.updates += sent.updates;
        self.trailers += sent.trailers;
        self.interval = self.interval.max(sent.interval);
        self.first = self.first.min(sent.first);
        self.last = self.last.max(sent.last);
    }
}

/// The packet that a payload begins with: RFC 8966, 4.2.
fn packet_of(payload: &[u8]) -> Result<&[u8], Reason> {
    let Some(&[magic, version, high, low]) = payload.first_chunk() else {
        return Err(Reason::Truncated);
    };
    if magic != 42 {
        return Err(Reason::BadMagic);
    }
    if version != 2 {
        return Err(Reason::BadVersion);
    }
    let len = 4 + usize::from(u16::from_be_bytes([high, low]));
    payload.get(..len).ok_or(Reason::Truncated)
}

/// How many Updates a packet has, whatever they hold, and the greatest Interval of those that
/// announce; none if a TLV runs past its end: RFC 8966, 4.3, 4.6.9.
fn updates_in(packet: &[u8]) -> (u64, Option<u16>) {
    let (mut at, mut count, mut greatest) = (4, 0, None);
    while let Some(&kind) = packet.get(at) {
        let len = match (kind, packet.get(at + 1)) {
            (0, _) => {
                at += 1;
                continue;
            }
            (_, Some(&len)) => usize::from(len),
            (_, None) => return (0, None),
        };
        if kind == UPDATE {
            count += 1;
            if let (Some(body), true) = (packet.get(at + 2..at + 12), len >= 10) {
                if u16_at(body, 8) != INFINITY {
                    greatest = greatest.max(Some(u16_at(body, 4)));
                }
            }
        }
        at += 2 + len;
    }
    match at == packet.len() {
        true => (count, greatest),
        false => (0, None),
    }
}

// ---- a whole capture

enum Failure {
    Usage(String),
    Open(String),
    Read,
    Capture(Fault),
    Refused(String),
    Write,
}

impl From<Fault> for Failure {
    fn from(fault: Fault) -> Failure {
        Failure::Capture(fault)
    }
}

impl From<io::Error> for Failure {
    fn from(_: io::Error) -> Failure {
        Failure::Write
    }
}

const BUFFER: usize = 1 << 17;

fn read_some(input: &mut impl Read, buffer: &mut [u8]) -> Result<usize, Failure> {
    loop {
        match input.read(buffer) {
            Ok(count) => return Ok(count),
            Err(error) if error.kind() == io::ErrorKind::Interrupted => {}
            Err(_) => return Err(Failure::Read),
        }
    }
}

/// Reads a capture to its end, or to its last whole block where it may be cut.
fn read_capture(
    mut input: impl Read,
    reader: &mut Reader,
    accept_cut: bool,
) -> Result<(), Failure> {
    let mut octets = vec![0; BUFFER];
    let (mut at, mut start, mut end) = (0, 0, 0);
    loop {
        let needed = loop {
            let rest = &octets[start..end];
            match reader.block_len(rest, at) {
                Err(Fault::Blank(_)) if accept_cut => return Ok(reader.end_fragments()?),
                Err(fault) => return Err(fault.into()),
                Ok(None) => break 0,
                Ok(Some(len)) if len > rest.len() => break len,
                Ok(Some(len)) => {
                    reader.take_block(&rest[..len], at)?;
                    start += len;
                    at += len as u64;
                }
            }
        };
        octets.copy_within(start..end, 0);
        end -= start;
        start = 0;
        if needed > octets.len() {
            octets.resize(needed, 0);
        }
        if let Sink::Timeline(timeline) = &mut reader.found.sink {
            timeline.flush()?;
        }
        let count = read_some(&mut input, &mut octets[end..])?;
        if count == 0 {
            break;
        }
        end += count;
    }
    if matches!(reader.layout, Layout::Start) {
        return Err(Fault::NotCapture.into());
    }
    if end > 0 && !accept_cut {
        return Err(Fault::CutShort(at).into());
    }
    Ok(reader.end_fragments()?)
}

// ---- the program

struct Words {
    command: String,
    options: HashMap<String, String>,
    flags: Vec<String>,
    file: Option<String>,
}

fn read_words(mut words: impl Iterator<Item = String>) -> Option<Words> {
    let command = words.next()?;
    let (mut options, mut flags, mut file) = (HashMap::new(), Vec::new(), None);
    while let Some(word) = words.next() {
        match word.strip_prefix("--") {
            Some(
                flag @ ("hex" | "strict" | "accept-cut" | "accept-missing" | "json" | "quiet" | "hold"
                | "v4-via-v6" | "origins"),
            ) => {
                flags.push(flag.to_string());
            }
            Some(option) => {
                let (option, value) = match option.split_once('=') {
                    Some((option, value)) => (option, value.to_string()),
                    None => (option, words.next()?),
                };
                options.insert(option.to_string(), value);
            }
            None => file = Some(word),
        }
    }
    Some(Words {
        command,
        options,
        flags,
        file,
    })
}

impl Words {
    fn has(&self, flag: &str) -> bool {
        self.flags.iter().any(|word| word == flag)
    }

    fn number(&self, option: &str) -> Result<Option<u64>, Failure> {
        let Some(word) = self.options.get(option) else {
            return Ok(None);
        };
        match word.parse::<u64>() {
            Ok(number) => Ok(Some(number)),
            Err(_) => Err(Failure::Usage(format!("not a number: {word}"))),
        }
    }

    fn place(&self) -> Result<Option<Place>, Failure> {
        let Some(word) = self.options.get("interface") else {
            return Ok(None);
        };
        match Place::parse(word) {
            Some(place) => Ok(Some(place)),
            None => Err(Failure::Usage(format!("not an interface: {word}"))),
        }
    }

    fn address(&self, option: &str) -> Result<Option<Addr>, Failure> {
        let Some(word) = self.options.get(option) else {
            return Ok(None);
        };
        match Addr::parse(word) {
            Some(addr) => Ok(Some(addr)),
            None => Err(Failure::Usage(format!("not an address: {word}"))),
        }
    }

    fn sender(&self) -> Result<Addr, Failure> {
        let sender = self.address("from")?;
        sender.ok_or_else(|| Failure::Usage("no --from".to_string()))
    }

    fn moment(&self, option: &str) -> Result<Option<Moment>, Failure> {
        let Some(word) = self.options.get(option) else {
            return Ok(None);
        };
        match clock::moment_of(word) {
            Some(moment) => Ok(Some(moment)),
            None => Err(Failure::Usage(format!("not a time: {word}"))),
        }
    }

    /// The records that are read, where a time is asked for; of `events` from the first on.
    fn window(&self) -> Result<Option<Window>, Failure> {
        let (since, until) = (self.moment("since")?, self.moment("until")?);
        if self.command == "events" {
            return Ok(Some(Window { since: None, until }));
        }
        let is_asked = since.is_some() || until.is_some() || self.options.contains_key("expiry");
        Ok(is_asked.then_some(Window { since, until }))
    }

    /// How many nanoseconds each hundredth of a second of an Interval counts.
    fn factor(&self) -> Result<Option<u64>, Failure> {
        let Some(word) = self.options.get("expiry") else {
            return Ok(None);
        };
        match factor_of(word) {
            Some(factor) => Ok(Some(factor)),
            None => Err(Failure::Usage(format!("not a factor: {word}"))),
        }
    }

    fn pair(&self) -> Result<Option<(Addr, Addr)>, Failure> {
        Ok(self.address("to")?.zip(self.address("src")?))
    }

    fn view(&self) -> View {
        let ignored = self.options.get("ignore").map(String::as_str);
        View::without(ignored.unwrap_or_default().split(','))
    }

    fn max_routes(&self) -> Result<usize, Failure> {
        Ok(self.number("max-routes")?.unwrap_or(MOST_ROUTES) as usize)
    }

    fn wanted(&self) -> Result<Wanted, Failure> {
        Ok(Wanted {
            sender: self.address("from")?,
            place: self.place()?,
            accepts_missing: self.has("accept-missing"),
        })
    }

    fn reader(&self, wanted: Wanted, limit: u64, sink: Sink) -> Result<Reader, Failure> {
        Ok(Reader {
            limit,
            layout: Layout::Start,
            first: 0,
            interfaces: Vec::new(),
            names: Vec::new(),
            window: self.window()?,
            start: None,
            known: Known::new(),
            found: Found::new(wanted, sink),
        })
    }

    fn read_into(&self, reader: &mut Reader) -> Result<(), Failure> {
        let accept_cut = self.has("accept-cut");
        match self.file.as_deref() {
            None | Some("-") => read_capture(io::stdin().lock(), reader, accept_cut),
            Some(name) => match File::open(name) {
                Ok(file) => read_capture(file, reader, accept_cut),
                Err(_) => Err(Failure::Open(name.to_string())),
            },
        }
    }

    fn read(&self, wanted: Wanted, sink: Sink) -> Result<Reader, Failure> {
        let limit = self.number("max-octets")?.unwrap_or(USUAL_OCTETS);
        let mut reader = self.reader(wanted, limit, sink)?;
        self.read_into(&mut reader)?;
        if self.has("strict") {
            let firsts = REASONS.iter().zip(reader.found.left_out);
            let first = firsts.filter_map(|(name, counted)| Some((counted?.1, name)));
            if let Some((number, name)) = first.min() {
                let text = format!("datagram left out at packet {number}: {name}");
                return Err(Failure::Refused(text));
            }
        }
        Ok(reader)
    }
}

fn run(words: &Words) -> Result<u8, Failure> {
    match words.command.as_str() {
        "senders" => senders(words),
        "extract" => extract(words),
        "show" if !words.options.contains_key("from") => tables(words),
        "show" | "lookup" => table(words),
        "events" => events(words),
        other => Err(Failure::Usage(format!("no command {other}"))),
    }
}

/// The text of a name: letters, digits and three marks stand for themselves, and others as this,
/// before their two digits.
fn name_text(name: &[u8], other: &str) -> String {
    let mut text = String::new();
    for &octet in name {
        if octet.is_ascii_alphanumeric() || b".-_".contains(&octet) {
            text.push(char::from(octet));
        } else {
            text += &format!("{other}{octet:02x}");
        }
    }
    text
}

fn place_text(place: Place, name: &[u8]) -> String {
    let mut text = format!("interface {}", place.interface);
    if !name.is_empty() {
        text += &format!(" ({})", name_text(name, "\\x"));
    }
    if let Some(link) = place.link {
        text += &format!(" link {link}");
    }
    if place.vlans > 0 {
        text += &format!(" vlan {}", joined(&place.vlan_numbers(), "."));
    }
    text
}

fn place_json(place: Place, name: &[u8]) -> String {
    let link = place.link.map(|link| link.to_string());
    let link = link.as_deref().unwrap_or("null");
    let vlans = joined(&place.vlan_numbers(), ",");
    let name = match name {
        [] => "null".to_string(),
        _ => format!("\"{}\"", name_text(name, "\\\\x")),
    };
    let interface = place.interface;
    format!("\"interface\":{interface},\"link\":{link},\"vlans\":[{vlans}],\"name\":{name}")
}

fn senders(words: &Words) -> Result<u8, Failure> {
    let everyone = Wanted {
        sender: None,
        place: None,
        accepts_missing: false,
    };
    let mut reader = words.read(everyone, Sink::Tallies)?;
    let senders = reader.found.senders();
    let is_timed = reader.found.is_timed;
    let mut out = io::BufWriter::with_capacity(1 << 16, io::stdout().lock());
    for (Origin { place, sender }, tally) in &senders {
        let Tally {
            packets,
            octets,
            updates,
            trailers,
            interval,
            ..
        } = tally;
        let time = |time| is_timed.then(|| clock::text(time));
        let (first, last) = (time(tally.first), time(tally.last));
        let name = &reader.names[place.interface as usize];
        if words.has("json") {
            let place = place_json(*place, name);
            let interval = interval.map_or("null".to_string(), seconds_text);
            let quoted = |time: Option<String>| match time {
                Some(time) => format!("\"{time}\""),
                None => "null".to_string(),
            };
            writeln!(
                out,
                "{{\"sender\":\"{sender}\",{place},\"packets\":{packets},\"octets\":{octets},\
                 \"updates\":{updates},\"interval\":{interval},\"first\":{},\"last\":{},\
                 \"trailers\":{trailers}}}",
                quoted(first),
                quoted(last)
            )?;
        } else {
            let place = place_text(*place, name);
            let interval = interval.map_or("-".to_string(), seconds_text);
            let or_none = |time: Option<String>| time.unwrap_or("-".to_string());
            writeln!(
                out,
                "{sender} {place} packets {packets} octets {octets} updates {updates} \
                 interval {interval} first {} last {} trailers {trailers}",
                or_none(first),
                or_none(last)
            )?;
        }
    }
    out.flush()?;
    if senders.is_empty() {
        eprintln!("no Babel packets");
    }
    Ok(u8::from(senders.is_empty()))
}

/// That the wanted sender has packets, and where; it is one place.
fn only_place(found: &mut Found) -> Result<Option<Origin>, Failure> {
    let senders = found.senders();
    if senders.len() > 1 {
        let listed = senders.iter().take(LISTED_PLACES);
        let places: Vec<_> = listed.map(|(origin, _)| origin.place.asked()).collect();
        let mut text = format!(
            "packets from this sender on several interfaces: {}",
            places.join(", ")
        );
        if senders.len() > LISTED_PLACES {
            text += &format!(", and {} more", senders.len() - LISTED_PLACES);
        }
        return Err(Failure::Refused(text));
    }
    Ok(senders.first().map(|(origin, _)| *origin))
}

fn table(words: &Words) -> Result<u8, Failure> {
    let sender = words.sender()?;
    let kept = Table::new(
        words.factor()?,
        words.has("hold"),
        words.has("v4-via-v6"),
        words.max_routes()?,
    );
    let limit = words.number("max-octets")?.unwrap_or(USUAL_OCTETS);
    let mut reader = words.reader(words.wanted()?, limit, Sink::Table(kept))?;
    let read = words.read_into(&mut reader);
    let end = reader.end();
    let place = only_place(&mut reader.found);
    let Sink::Table(mut kept) = reader.found.sink else {
        unreachable!("it was made with a table");
    };
    match (kept.fault.take(), read, place) {
        (Some(fault), _, Ok(_)) => Err(fault.into()),
        (_, Err(failure), _) | (_, _, Err(failure)) => Err(failure),
        (_, _, Ok(None)) => Err(Failure::Refused(format!("no packets from {sender}"))),
        (_, _, Ok(Some(_))) => kept.write(end.unwrap_or(0), words.pair()?),
    }
}

/// `show` without `--from`: the rows of each sender, or who originates what.
fn tables(words: &Words) -> Result<u8, Failure> {
    let kept = Tables::new(
        words.factor()?,
        words.has("hold"),
        words.has("v4-via-v6"),
        words.max_routes()?,
    );
    let limit = words.number("max-octets")?.unwrap_or(USUAL_OCTETS);
    let mut reader = words.reader(words.wanted()?, limit, Sink::Tables(kept))?;
    words.read_into(&mut reader)?;
    let end = reader.end().unwrap_or(0);
    let Sink::Tables(kept) = reader.found.sink else {
        unreachable!("it was made with tables");
    };
    if words.has("origins") {
        return kept.write_origins(end);
    }
    kept.write(end, &reader.names)
}

/// `events`: what is told stands where the capture is refused later.
fn events(words: &Words) -> Result<u8, Failure> {
    let told = Timeline::new(
        words.factor()?,
        words.view(),
        words.pair()?,
        words.has("v4-via-v6"),
        words.has("json"),
        words.max_routes()?,
        words.moment("since")?,
    );
    let mut reader = words.reader(words.wanted()?, u64::MAX, Sink::Timeline(told))?;
    let read = words.read_into(&mut reader);
    let end = reader.end();
    let is_any = !reader.found.senders().is_empty();
    let Sink::Timeline(mut told) = reader.found.sink else {
        unreachable!("it was made with a timeline");
    };
    if let (Ok(()), Some(end)) = (&read, end) {
        told.expire(end);
    }
    told.flush()?;
    read?;
    match words.address("from")? {
        Some(sender) if !is_any => Err(Failure::Refused(format!("no packets from {sender}"))),
        None if !is_any => {
            eprintln!("no Babel packets");
            Ok(1)
        }
        _ => Ok(0),
    }
}

fn extract(words: &Words) -> Result<u8, Failure> {
    let sender = words.sender()?;
    let mut found = words.read(words.wanted()?, Sink::Dump(Vec::new()))?.found;
    if only_place(&mut found)?.is_none() {
        eprintln!("no packets from {sender}");
        return Ok(1);
    }
    let Sink::Dump(dump) = found.sink else {
        unreachable!("it was made with a dump");
    };
    let mut out = io::stdout().lock();
    if words.has("hex") {
        let digits = |octet: &u8| {
            [octet >> 4, octet & 15].map(|digit| b"0123456789abcdef"[usize::from(digit)])
        };
        let mut text: Vec<u8> = dump.iter().flat_map(digits).collect();
        text.push(b'\n');
        out.write_all(&text)?;
    } else {
        out.write_all(&dump)?;
    }
    out.flush()?;
    Ok(0)
}

fn main() -> ExitCode {
    let Some(words) = read_words(std::env::args().skip(1)) else {
        eprintln!("usage: capture_limit senders|extract .. [CAPTURE]");
        return ExitCode::from(2);
    };
    let (text, status) = match run(&words) {
        Ok(status) => return ExitCode::from(status),
        Err(Failure::Usage(text)) => (text, 2),
        Err(Failure::Open(name)) => (format!("cannot open {name}"), 4),
        Err(Failure::Read) => ("read failed".to_string(), 4),
        Err(Failure::Capture(fault)) => (fault.to_string(), 3),
        Err(Failure::Refused(text)) => (text, 3),
        Err(Failure::Write) => ("write failed".to_string(), 4),
    };
    eprintln!("{text}");
    ExitCode::from(status)
}
