//! The text output of `seamless audit --a A --b B` in plain Rust with no proofs, to measure beside: `rustc -O bench/audit.rs`, then
//! `./audit A B`. It reads pcap files of PRP networks and prints the lines `capture`, `source` and `skew`.
use std::collections::HashMap;
use std::fs::File;
use std::io::{self, BufReader, BufWriter, Read, Write};

const WINDOW: usize = 1024;
const EPOCH_GAP: u64 = 400_000_000;
const MAX_SOURCES: usize = 1024;
const BOUNDS: [u64; 6] = [10_000, 100_000, 1_000_000, 10_000_000, 100_000_000, 400_000_000];

struct Capture {
    file: BufReader<File>,
    is_big: bool,
    unit: u64,
    octets: Vec<u8>,
    time: u64,
    is_cut: bool,
    is_open: bool,
}

impl Capture {
    fn open(path: &str) -> io::Result<Capture> {
        let mut file = BufReader::new(File::open(path)?);
        let mut head = [0; 24];
        file.read_exact(&mut head)?;
        let (is_big, unit) = match u32::from_le_bytes(head[..4].try_into().unwrap()) {
            0xa1b2c3d4 => (false, 1000),
            0xa1b23c4d => (false, 1),
            0xd4c3b2a1 => (true, 1000),
            0x4d3cb2a1 => (true, 1),
            _ => return Err(io::Error::other("no capture")),
        };
        let mut capture = Capture { file, is_big, unit, octets: Vec::new(), time: 0, is_cut: false, is_open: true };
        capture.advance()?;
        Ok(capture)
    }

    fn number(&self, octets: &[u8]) -> u32 {
        let octets = octets.try_into().unwrap();
        if self.is_big { u32::from_be_bytes(octets) } else { u32::from_le_bytes(octets) }
    }

    fn advance(&mut self) -> io::Result<()> {
        let mut head = [0; 16];
        if let Err(error) = self.file.read_exact(&mut head) {
            self.is_open = false;
            return if error.kind() == io::ErrorKind::UnexpectedEof { Ok(()) } else { Err(error) };
        }
        let time = u64::from(self.number(&head[..4])) * 1_000_000_000 + u64::from(self.number(&head[4..8])) * self.unit;
        let (kept, len) = (self.number(&head[8..12]), self.number(&head[12..]));
        self.time = self.time.max(time);
        self.is_cut = kept < len;
        self.octets.resize(kept as usize, 0);
        self.file.read_exact(&mut self.octets)
    }
}

/// The number and the LAN of a trailer; `None` of a plain frame, `Some(None)` of a misfit.
fn trailer(octets: &[u8]) -> Option<Option<(u16, u8)>> {
    let tag = if octets.get(12..14) == Some(&[0x81, 0]) { 4 } else { 0 };
    if octets.len() < 20 + tag || !octets.ends_with(&[0x88, 0xfb]) {
        return None;
    }
    let end = &octets[octets.len() - 6..];
    let (lan, size) = (end[2] >> 4, usize::from(u16::from_be_bytes([end[2] & 15, end[3]])));
    let fits = (lan == 10 || lan == 11) && size == octets.len() - 14 - tag;
    Some(fits.then(|| (u16::from_be_bytes([end[0], end[1]]), lan)))
}

struct Source {
    came: [[u64; WINDOW / 64]; 2],
    moments: Vec<u64>,
    is_begun: bool,
    greatest: i64,
    least: i64,
    last: u64,
    tops: [Option<i64>; 2],
    rx: [u64; 2],
    pairs: u64,
    alone: [u64; 2],
    edges: [u64; 2],
    repeats: [u64; 2],
    order: [u64; 2],
    lengths: u64,
    jumps: u64,
    restarts: u64,
    skews: (u64, i64, i64, i128, [u64; 7]),
}

impl Source {
    fn new() -> Source {
        Source {
            came: [[0; WINDOW / 64]; 2], moments: vec![0; WINDOW], is_begun: false, greatest: 0, least: 0, last: 0, tops: [None; 2],
            rx: [0; 2], pairs: 0, alone: [0; 2], edges: [0; 2], repeats: [0; 2], order: [0; 2], lengths: 0, jumps: 0, restarts: 0,
            skews: (0, 0, 0, 0, [0; 7]),
        }
    }

    fn begin(&mut self, number: i64) {
        self.came = [[0; WINDOW / 64]; 2];
        self.tops = [None; 2];
        self.greatest = number;
        self.least = number;
        self.lengths += 1;
    }

    fn clear(&mut self, number: i64) {
        let at = number as usize % WINDOW;
        for side in &mut self.came {
            side[at / 64] &= !(1 << (at % 64));
        }
    }

    fn place(&mut self, seq: u16, time: u64) -> i64 {
        let (wire, begins) = (self.greatest as u16, !self.is_begun || time - self.last >= EPOCH_GAP);
        let back = i64::from(wire.wrapping_sub(seq));
        let ahead = i64::from(seq.wrapping_sub(wire));
        if begins {
            self.restarts += u64::from(self.is_begun && ahead != 1);
            self.is_begun = true;
        } else if back < WINDOW as i64 {
            let number = self.greatest - back;
            self.lengths += (self.least - number).max(0) as u64;
            self.least = self.least.min(number);
            return number;
        } else if ahead < WINDOW as i64 {
            for number in self.greatest + 1..=self.greatest + ahead {
                self.clear(number);
            }
            self.lengths += ahead as u64;
            self.greatest += ahead;
            return self.greatest;
        } else {
            self.jumps += 1;
        }
        let number = i64::from(seq) + (1 << 40);
        self.begin(number);
        number
    }

    fn note(&mut self, side: usize, seq: u16, time: u64, spans: &[(u64, u64); 2]) {
        let number = self.place(seq, time);
        self.last = time;
        self.rx[side] += 1;
        let at = number as usize % WINDOW;
        let has = |came: &[[u64; WINDOW / 64]; 2], side: usize| came[side][at / 64] >> (at % 64) & 1 == 1;
        if has(&self.came, side) {
            self.repeats[side] += 1;
            return;
        }
        let beyond = |side: usize, time: u64| time < spans[side].0 || spans[side].1 < time;
        if has(&self.came, 1 - side) {
            let first = self.moments[at];
            self.alone[1 - side] -= 1;
            self.edges[1 - side] -= u64::from(beyond(side, first));
            self.pairs += 1;
            let skew = if side == 1 { time as i64 - first as i64 } else { first as i64 - time as i64 };
            let skews = &mut self.skews;
            skews.1 = if skews.0 == 0 { skew } else { skews.1.min(skew) };
            skews.2 = if skews.0 == 0 { skew } else { skews.2.max(skew) };
            skews.0 += 1;
            skews.3 += i128::from(skew);
            skews.4[BOUNDS.iter().filter(|bound| skew.unsigned_abs() >= **bound).count()] += 1;
        } else {
            self.alone[side] += 1;
            self.edges[side] += u64::from(beyond(1 - side, time));
            self.moments[at] = time;
        }
        self.came[side][at / 64] |= 1 << (at % 64);
        self.order[side] += u64::from(self.tops[side].is_some_and(|top| number < top));
        self.tops[side] = Some(self.tops[side].map_or(number, |top| top.max(number)));
    }
}

/// Gives the packets of both captures in the order of their times.
fn pass(paths: &[String], mut take: impl FnMut(usize, u64, &[u8], bool)) -> io::Result<()> {
    let (mut a, mut b) = (Capture::open(&paths[0])?, Capture::open(&paths[1])?);
    let mut base = None;
    while a.is_open || b.is_open {
        let side = usize::from(!(a.is_open && (!b.is_open || a.time <= b.time)));
        let capture = if side == 0 { &mut a } else { &mut b };
        let start = *base.get_or_insert(capture.time);
        take(side, capture.time - start, &capture.octets, capture.is_cut);
        capture.advance()?;
    }
    Ok(())
}

fn micros(time: i64) -> String {
    let sign = if time < 0 { "-" } else { "" };
    format!("{sign}{}.{:03}", time.unsigned_abs() / 1000, time.unsigned_abs() % 1000)
}

fn millis(time: u64) -> String {
    format!("{}.{:06}", time / 1_000_000, time % 1_000_000)
}

fn main() -> io::Result<()> {
    let paths: Vec<String> = std::env::args().skip(1).collect();
    let mut spans = [(u64::MAX, 0); 2];
    pass(&paths, |side, time, _, _| spans[side] = (spans[side].0.min(time), time))?;
    let mut counts = [[0u64; 6]; 2];
    let mut sources: Vec<([u8; 6], Source)> = Vec::new();
    let mut places: HashMap<[u8; 6], usize> = HashMap::new();
    let mut left_out = 0u64;
    pass(&paths, |side, time, octets, is_cut| {
        let count = &mut counts[side];
        count[0] += 1;
        if is_cut {
            count[5] += 1;
            return;
        }
        match trailer(octets) {
            None => count[2] += 1,
            Some(None) => count[3] += 1,
            Some(Some((seq, lan))) => {
                count[1] += 1;
                count[4] += u64::from(usize::from(lan) != 10 + side);
                let src: [u8; 6] = octets[6..12].try_into().unwrap();
                let place = match places.get(&src) {
                    Some(place) => *place,
                    None if sources.len() < MAX_SOURCES => {
                        places.insert(src, sources.len());
                        sources.push((src, Source::new()));
                        sources.len() - 1
                    }
                    None => {
                        left_out += 1;
                        return;
                    }
                };
                sources[place].1.note(side, seq, time, &spans);
            }
        }
    })?;
    let mut out = BufWriter::new(io::stdout().lock());
    for (side, name) in ["A", "B"].iter().enumerate() {
        let [packets, numbered, plain, misfit, wrong_lan, cut] = counts[side];
        let (from, to) = (millis(spans[side].0), millis(spans[side].1));
        writeln!(out, "capture {name} packets {packets} numbered {numbered} plain {plain} misfit {misfit} wrong_lan {wrong_lan} cut {cut} long 0 empty 0 from {from} to {to}")?;
    }
    for (src, s) in &sources {
        let mac = src.map(|octet| format!("{octet:02x}")).join(":");
        let neither = s.lengths - s.pairs - s.alone[0] - s.alone[1];
        let only = [s.alone[0] - s.edges[0], s.alone[1] - s.edges[1]];
        writeln!(out, "source {mac} rx_a {} rx_b {} pairs {} only_a {} only_b {} edge_a {} edge_b {} neither {neither} repeat_a {} repeat_b {} order_a {} order_b {} jumps {} restarts {}",
            s.rx[0], s.rx[1], s.pairs, only[0], only[1], s.edges[0], s.edges[1], s.repeats[0], s.repeats[1], s.order[0], s.order[1], s.jumps, s.restarts)?;
        let (count, least, greatest, sum, [a, b, c, d, e, f, over]) = s.skews;
        if count > 0 {
            let mean = sum.div_euclid(i128::from(count)) as i64;
            writeln!(out, "skew {mac} pairs {count} least_us {} mean_us {} greatest_us {} under_10us {a} under_100us {b} under_1ms {c} under_10ms {d} under_100ms {e} under_400ms {f} over {over}",
                micros(least), micros(mean), micros(greatest))?;
        }
    }
    if left_out > 0 {
        writeln!(out, "sources_left_out packets {left_out}")?;
    }
    out.flush()
}
