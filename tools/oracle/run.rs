//! Runs of a graph and their rate, leaping from one end of a firing to the next.

use crate::file::{ACTORS, CHANNELS, Graph};
use std::fmt;

const LAST: u32 = 10_000_000;
const ROWS: usize = 256;
/// The end of a firing that is not under way.
const NEVER: u32 = u32::MAX;
/// A channel is two stores: its tokens and its free places.
const STORES: usize = 2 * CHANNELS;

/// What rate answers.
#[derive(Clone, Copy, PartialEq, Debug)]
pub enum Rate {
    Repeats { f: u32, d: u32, m: usize },
    Standstill(u32),
    None(u8),
}

impl fmt::Display for Rate {
    fn fmt(&self, out: &mut fmt::Formatter) -> fmt::Result {
        match self {
            Rate::Repeats { f, d, m } => write!(out, "{f} {d} {m}"),
            Rate::Standstill(f) => write!(out, "stop {f}"),
            Rate::None(number) => write!(out, "none {number}"),
        }
    }
}

/// A store that an actor takes from when it starts, or puts into when it ends.
#[derive(Clone, Copy, Default)]
struct Move {
    store: u8,
    amount: u16,
}

/// The part of a list of moves that one actor has.
#[derive(Clone, Copy, Default)]
struct Part {
    from: u8,
    to: u8,
}

/// A graph as its runs need it. Every store has one actor that puts into it and one that takes from it.
pub struct Net {
    actors: usize,
    channels: usize,
    count0: u32,
    levels: [u16; STORES],
    takes: [Move; STORES],
    taken_by: [Part; ACTORS],
    puts: [Move; STORES],
    put_by: [Part; ACTORS],
    /// for each actor, those that an end of its firing may make ready, as bits
    wakes: [u32; ACTORS],
}

impl Net {
    pub fn new(graph: &Graph) -> Net {
        let mut net = Net {
            actors: graph.times.len(),
            channels: graph.channels.len(),
            count0: graph.count0,
            levels: [0; STORES],
            takes: [Move::default(); STORES],
            taken_by: [Part::default(); ACTORS],
            puts: [Move::default(); STORES],
            put_by: [Part::default(); ACTORS],
            wakes: [0; ACTORS],
        };
        for (i, c) in graph.channels.iter().enumerate() {
            net.levels[i] = c.tokens;
            net.levels[CHANNELS + i] = c.capacity - c.tokens;
        }
        let (mut takes, mut puts) = (0, 0);
        for a in 0..net.actors {
            net.wakes[a] = 1 << a;
            let (first_take, first_put) = (takes, puts);
            for (i, c) in graph.channels.iter().enumerate() {
                let (tokens, places) = (i as u8, (CHANNELS + i) as u8);
                if c.dest == a {
                    net.takes[takes] = Move { store: tokens, amount: c.q };
                    net.puts[puts] = Move { store: places, amount: c.q };
                    net.wakes[a] |= 1 << c.source;
                    (takes, puts) = (takes + 1, puts + 1);
                }
                if c.source == a {
                    net.takes[takes] = Move { store: places, amount: c.p };
                    net.puts[puts] = Move { store: tokens, amount: c.p };
                    net.wakes[a] |= 1 << c.dest;
                    (takes, puts) = (takes + 1, puts + 1);
                }
            }
            net.taken_by[a] = Part { from: first_take as u8, to: takes as u8 };
            net.put_by[a] = Part { from: first_put as u8, to: puts as u8 };
        }
        net
    }

    fn takes_of(&self, actor: usize) -> &[Move] {
        let part = self.taken_by[actor];
        &self.takes[part.from as usize..part.to as usize]
    }

    fn puts_of(&self, actor: usize) -> &[Move] {
        let part = self.put_by[actor];
        &self.puts[part.from as usize..part.to as usize]
    }
}

/// What stood at a sample: tokens, and the ticks left.
#[derive(Clone, Copy, PartialEq)]
struct Sample {
    tokens: [u16; CHANNELS],
    left: [u16; ACTORS],
}

/// The rows taken, with their ticks.
struct Rows {
    taken: usize,
    ticks: [u32; ROWS],
    samples: [Sample; ROWS],
}

impl Rows {
    /// Looks the sample up and keeps it if it is new; answers the rate where it is not, or where no row is left.
    fn meet(&mut self, tick: u32, sample: &Sample) -> Option<Rate> {
        if let Some(row) = self.samples[..self.taken].iter().position(|s| s == sample) {
            let f = self.ticks[row];
            return Some(Rate::Repeats { f, d: tick - f, m: self.taken - row });
        }
        if self.taken == ROWS {
            return Some(Rate::None(17));
        }
        self.ticks[self.taken] = tick;
        self.samples[self.taken] = *sample;
        self.taken += 1;
        None
    }
}

/// The rate of the run with these times. Each end of a firing is shown to `seen`, with its tick.
pub fn rate(net: &Net, times: &[u32; ACTORS], mut seen: impl FnMut(u32, usize)) -> Rate {
    let mut rows = Rows {
        taken: 0,
        ticks: [0; ROWS],
        samples: [Sample { tokens: [0; CHANNELS], left: [0; ACTORS] }; ROWS],
    };
    let mut levels = net.levels;
    let mut ends = [NEVER; ACTORS];
    let everyone = (1u32 << net.actors) - 1;
    let mut idle = everyone;
    let mut woken = everyone;
    let mut tick = 0;
    // firings of actor 0 that are to end before the next sample
    let mut until_sample = 0;
    loop {
        let mut asked = woken & idle;
        while asked != 0 {
            let a = asked.trailing_zeros() as usize % ACTORS;
            asked &= asked - 1;
            let takes = net.takes_of(a);
            if takes.iter().all(|t| levels[t.store as usize % STORES] >= t.amount) {
                for t in takes {
                    levels[t.store as usize % STORES] -= t.amount;
                }
                ends[a] = tick + times[a];
                idle &= !(1 << a);
            }
        }
        if idle == everyone {
            return Rate::Standstill(tick);
        }
        if until_sample == 0 {
            until_sample = net.count0;
            let mut sample = Sample { tokens: [0; CHANNELS], left: [0; ACTORS] };
            sample.tokens[..net.channels].copy_from_slice(&levels[..net.channels]);
            for (left, &end) in sample.left.iter_mut().zip(&ends) {
                *left = if end == NEVER { 0 } else { (end - tick) as u16 };
            }
            if let Some(answer) = rows.meet(tick, &sample) {
                return answer;
            }
        }
        let next = ends.iter().copied().min().unwrap_or(NEVER);
        if next > LAST {
            return Rate::None(18);
        }
        tick = next;
        woken = 0;
        for a in 0..net.actors {
            if ends[a] == tick {
                for put in net.puts_of(a) {
                    levels[put.store as usize % STORES] += put.amount;
                }
                ends[a] = NEVER;
                idle |= 1 << a;
                woken |= net.wakes[a];
                until_sample -= (a == 0) as u32;
                seen(tick, a);
            }
        }
    }
}

/// The rates of the unhindered run, and of the one that a slice of 2 in 5 over a ring of all actors promises.
pub fn rates(graph: &Graph, mut seen: impl FnMut(bool, u32, usize)) -> (Rate, Rate) {
    let net = Net::new(graph);
    let mut times = [0; ACTORS];
    for (time, &t) in times.iter_mut().zip(&graph.times) {
        *time = t as u32;
    }
    let unhindered = rate(&net, &times, |tick, actor| seen(false, tick, actor));
    let below: u32 = times.iter().sum();
    let promise = below + 3 * below.div_ceil(2);
    if promise > 65_535 {
        return (unhindered, Rate::None(15));
    }
    (unhindered, rate(&net, &[promise; ACTORS], |tick, actor| seen(true, tick, actor)))
}
