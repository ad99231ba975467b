//! A hall's file: its bytes to a graph, or to the refusal that comes first.

use std::fmt;

pub const ACTORS: usize = 16;
pub const CHANNELS: usize = 32;
const MOST_COUNT: u64 = 4096;

/// Why a file is refused.
#[derive(Clone, Copy, PartialEq, Debug)]
pub struct Fault {
    pub layer: &'static str,
    pub number: u8,
    pub place: usize,
}

impl fmt::Display for Fault {
    fn fmt(&self, f: &mut fmt::Formatter) -> fmt::Result {
        write!(f, "FAULT {} {} {}", self.layer, self.number, self.place)
    }
}

/// A channel; its ends are numbers of actors.
#[derive(Clone, Copy, Default)]
pub struct Channel {
    pub source: usize,
    pub dest: usize,
    pub p: u16,
    pub q: u16,
    pub capacity: u16,
    pub tokens: u16,
}

/// A graph that keeps every rule.
pub struct Graph {
    pub times: Vec<u16>,
    pub channels: Vec<Channel>,
    /// the repetition count of actor 0
    pub count0: u32,
}

/// What is left of a file, and the number of the field that comes next.
struct Fields<'a> {
    rest: &'a [u8],
    number: usize,
}

impl<'a> Fields<'a> {
    /// The value of the next field, which has to have this tag and length.
    fn next<const LENGTH: usize>(&mut self, tag: u8) -> Result<(&'a [u8; LENGTH], usize), Fault> {
        let place = self.number;
        let fault = |number| Fault { layer: "fields", number, place };
        let (frame, rest) = self.rest.split_first_chunk::<3>().ok_or(fault(1))?;
        if frame[0] != tag {
            return Err(fault(2));
        }
        if pair(frame[1], frame[2]) as usize != LENGTH {
            return Err(fault(3));
        }
        let (value, rest) = rest.split_first_chunk::<LENGTH>().ok_or(fault(1))?;
        self.rest = rest;
        self.number += 1;
        Ok((value, place))
    }
}

fn pair(high: u8, low: u8) -> u16 {
    u16::from_be_bytes([high, low])
}

/// 1 to 8 visible bytes, then zeros.
fn is_name(name: &[u8; 8]) -> bool {
    let letters = name.iter().take_while(|&&b| b != 0).count();
    letters > 0 && name[..letters].iter().all(u8::is_ascii_graphic) && name[letters..].iter().all(|&b| b == 0)
}

pub fn read(bytes: &[u8]) -> Result<Graph, Fault> {
    let mut fields = Fields { rest: bytes, number: 0 };
    let graph = |number, place| Fault { layer: "graph", number, place };
    let (&[actors, channels], place) = fields.next::<2>(1)?;
    let (actors, channels) = (actors as usize, channels as usize);
    if !(1..=ACTORS).contains(&actors) || channels > CHANNELS {
        return Err(graph(5, place));
    }
    let mut names: Vec<[u8; 8]> = Vec::with_capacity(actors);
    let mut times = Vec::with_capacity(actors);
    for _ in 0..actors {
        let (&[name @ .., high, low], place) = fields.next::<10>(2)?;
        if !is_name(&name) {
            return Err(graph(6, place));
        }
        if names.contains(&name) {
            return Err(graph(7, place));
        }
        let time = pair(high, low);
        if !(1..=4095).contains(&time) {
            return Err(graph(8, place));
        }
        names.push(name);
        times.push(time);
    }
    let mut list = Vec::with_capacity(channels);
    for _ in 0..channels {
        let (&[source, dest, p, q, c1, c0, t1, t0], place) = fields.next::<8>(3)?;
        let (source, dest) = (source as usize, dest as usize);
        if source >= actors || dest >= actors {
            return Err(graph(9, place));
        }
        let (capacity, tokens) = (pair(c1, c0), pair(t1, t0));
        if p == 0 || q == 0 || !(1..=4096).contains(&capacity) || tokens > capacity {
            return Err(graph(10, place));
        }
        list.push(Channel { source, dest, p: p.into(), q: q.into(), capacity, tokens });
    }
    if !fields.rest.is_empty() {
        return Err(Fault { layer: "fields", number: 4, place: fields.number });
    }
    let counts = counts(actors, &list).map_err(|apart| match apart {
        Some(actor) => graph(11, actor),
        None => graph(12, 0),
    })?;
    Ok(Graph { times, channels: list, count0: counts[0] })
}

fn gcd(a: u64, b: u64) -> u64 {
    if b == 0 { a } else { gcd(b, a % b) }
}

/// The least repetition counts; or the lowest actor not joined to actor 0, or none if there are no counts up to 4,096.
pub fn counts(actors: usize, channels: &[Channel]) -> Result<Vec<u32>, Option<usize>> {
    // each actor's count as a fraction of actor 0's in lowest terms; its count is a multiple of the upper number, and
    // actor 0's of the lower
    let mut share: Vec<Option<(u64, u64)>> = vec![None; actors];
    share[0] = Some((1, 1));
    let mut over = false;
    let mut grown = true;
    while grown {
        grown = false;
        for c in channels {
            let (p, q) = (c.p as u64, c.q as u64);
            let (to, (up, low)) = match (share[c.source], share[c.dest]) {
                (Some((up, low)), None) => (c.dest, (up * p, low * q)),
                (None, Some((up, low))) => (c.source, (up * q, low * p)),
                _ => continue,
            };
            let g = gcd(up, low);
            let (up, low) = (up / g, low / g);
            // too large already: the walk goes on only to see who is joined
            let fits = up <= MOST_COUNT && low <= MOST_COUNT;
            over |= !fits;
            share[to] = Some(if fits { (up, low) } else { (1, 1) });
            grown = true;
        }
    }
    if let Some(apart) = share.iter().position(Option::is_none) {
        return Err(Some(apart));
    }
    let share: Vec<(u64, u64)> = share.into_iter().flatten().collect();
    let balanced = channels.iter().all(|c| {
        let ((s, sl), (d, dl)) = (share[c.source], share[c.dest]);
        c.p as u64 * s * dl == c.q as u64 * d * sl
    });
    if over || !balanced {
        return Err(None);
    }
    let mut first = 1;
    for &(_, low) in &share {
        first = first / gcd(first, low) * low;
        if first > MOST_COUNT {
            return Err(None);
        }
    }
    let counts: Vec<u32> = share.iter().map(|&(up, low)| (up * (first / low)) as u32).collect();
    if counts.iter().any(|&n| n as u64 > MOST_COUNT) {
        return Err(None);
    }
    Ok(counts)
}
