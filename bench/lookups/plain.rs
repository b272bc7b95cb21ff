//! The lookups of main.rt.txt as a plain Rust program makes them: std alone, no proofs. It takes
//! the rows as `show` prints them.
//!
//!     rustc -O --edition 2021 plain.rs
//!     plain ROWS PAIRS
//!
//! The rows stand in a sorted `Vec`, and beside each stands how far the rows around it reach. A
//! lookup is one binary search and a walk up for the destination, and for each destination that
//! matches one of each among its sources.

use std::net::Ipv4Addr;

extern "C" {
    /// Processor time of this process, in microseconds (POSIX).
    fn clock() -> i64;
}

#[derive(Clone, Copy, PartialEq, Eq, PartialOrd, Ord)]
struct Prefix {
    bits: u32,
    len: u32,
}

impl Prefix {
    fn new(bits: u32, len: u32) -> Prefix {
        let host = u32::MAX.checked_shr(len).unwrap_or(0);
        Prefix {
            bits: bits & !host,
            len,
        }
    }

    fn contains(self, addr: u32) -> bool {
        Prefix::new(addr, self.len) == self
    }

    fn read(text: &str) -> Option<Prefix> {
        let (addr, len) = text.split_once('/')?;
        let addr: Ipv4Addr = addr.parse().ok()?;
        Some(Prefix::new(addr.into(), len.parse().ok()?))
    }
}

/// What a row has besides its prefixes.
struct Route {
    _next_hop: Ipv4Addr,
    _router_id: u64,
    _seqno: u16,
    metric: u16,
}

type Row = ((Prefix, Prefix), Route);

/// `DESTINATION from SOURCE via NEXTHOP id ROUTERID seqno N metric N`
fn read_row(line: &str) -> Option<Row> {
    let words: Vec<&str> = line.split(' ').collect();
    let [dst, "from", src, "via", next_hop, "id", id, "seqno", seqno, "metric", metric] = words[..]
    else {
        return None;
    };
    let route = Route {
        _next_hop: next_hop.parse().ok()?,
        _router_id: u64::from_str_radix(id, 16).ok()?,
        _seqno: seqno.parse().ok()?,
        metric: metric.parse().ok()?,
    };
    Some(((Prefix::read(dst)?, Prefix::read(src)?), route))
}

/// How far the rows around a row reach: so many at the front have those to larger prefixes around
/// its destination, and those to its destination from larger prefixes around its source.
struct Around {
    dst: u32,
    src: u32,
}

struct Table {
    rows: Vec<Row>,
    around: Vec<Around>,
}

impl Table {
    fn of(mut rows: Vec<Row>) -> Table {
        rows.sort_by_key(|row| row.0);
        let around = Vec::with_capacity(rows.len());
        let mut table = Table { rows, around };
        for place in 0..table.rows.len() {
            let (dst, src) = table.rows[place].0;
            let mut end = place;
            while end > 0 {
                let other = table.rows[end - 1].0 .0;
                if other != dst && other.contains(dst.bits) {
                    break;
                }
                end = table.around[end - 1].dst as usize;
            }
            let src = table.end_from(place, dst, src.bits) as u32;
            table.around.push(Around {
                dst: end as u32,
                src,
            });
        }
        table
    }

    /// How many of the first rows there are up to the last that leads to the destination from a
    /// source with the address, or 0 where none does.
    fn end_from(&self, mut end: usize, dst: Prefix, src: u32) -> usize {
        while end > 0 && self.rows[end - 1].0 .0 == dst {
            if self.rows[end - 1].0 .1.contains(src) {
                return end;
            }
            end = self.around[end - 1].src as usize;
        }
        0
    }

    fn lookup(&self, dst: u32, src: u32) -> Option<&Route> {
        let mut end = self.rows.partition_point(|row| row.0 .0.bits <= dst);
        while end > 0 {
            let (prefix, source) = self.rows[end - 1].0;
            let next = self.around[end - 1].dst as usize;
            if prefix.contains(dst) {
                let mut last = end;
                if source.bits > src {
                    let part = &self.rows[next..end];
                    let is_up_to = |row: &Row| row.0 .0 < prefix || row.0 .1.bits <= src;
                    last = next + part.partition_point(is_up_to);
                }
                last = self.end_from(last, prefix, src);
                if last > 0 {
                    return Some(&self.rows[last - 1].1);
                }
            }
            end = next;
        }
        None
    }
}

fn main() -> std::io::Result<()> {
    let words: Vec<String> = std::env::args().skip(1).collect();
    let [text, pairs] = &words[..] else {
        return Err(std::io::ErrorKind::InvalidInput.into());
    };
    let text = std::fs::read_to_string(text)?;
    let pairs = std::fs::read(pairs)?;
    let table = Table::of(text.lines().filter_map(read_row).collect());
    let address = |octets: &[u8]| {
        octets
            .iter()
            .fold(0, |bits, &octet| bits << 8 | u32::from(octet))
    };
    // SAFETY: clock takes nothing and only answers a number.
    let before = unsafe { clock() };
    let (mut found, mut metrics) = (0u64, 0u64);
    for pair in pairs.chunks_exact(8) {
        if let Some(route) = table.lookup(address(&pair[..4]), address(&pair[4..])) {
            found += 1;
            metrics += u64::from(route.metric);
        }
    }
    // SAFETY: as above.
    let micros = unsafe { clock() } - before;
    println!("{} {found} {metrics} {micros}", table.rows.len());
    Ok(())
}
