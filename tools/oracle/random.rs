//! Random halls, whole and damaged.

use crate::file::{CHANNELS, Channel, counts};

/// A small generator of numbers (splitmix64); the same seed gives the same numbers.
pub struct Random(u64);

impl Random {
    pub fn new(seed: u64) -> Random {
        Random(seed)
    }

    fn next(&mut self) -> u64 {
        self.0 = self.0.wrapping_add(0x9e37_79b9_7f4a_7c15);
        let z = (self.0 ^ (self.0 >> 30)).wrapping_mul(0xbf58_476d_1ce4_e5b9);
        let z = (z ^ (z >> 27)).wrapping_mul(0x94d0_49bb_1331_11eb);
        z ^ (z >> 31)
    }

    /// A number from `low` to `high`, both included.
    fn within(&mut self, low: usize, high: usize) -> usize {
        low + (self.next() % (high - low + 1) as u64) as usize
    }

    /// Yes in so many of a hundred cases.
    fn chance(&mut self, percent: usize) -> bool {
        self.within(1, 100) <= percent
    }

    fn pick<T: Copy>(&mut self, from: &[T]) -> T {
        from[self.within(0, from.len() - 1)]
    }

    fn byte(&mut self) -> u8 {
        self.within(0, 255) as u8
    }
}

/// The bytes of a file, whatever they mean.
pub fn file(times: &[u16], channels: &[Channel]) -> Vec<u8> {
    let mut out = vec![1, 0, 2, times.len() as u8, channels.len() as u8];
    for (a, time) in times.iter().enumerate() {
        let mut name = [0; 8];
        name[0] = b'A' + a as u8;
        out.extend([2, 0, 10]);
        out.extend(name);
        out.extend(time.to_be_bytes());
    }
    for c in channels {
        out.extend([3, 0, 8, c.source as u8, c.dest as u8, c.p as u8, c.q as u8]);
        out.extend(c.capacity.to_be_bytes());
        out.extend(c.tokens.to_be_bytes());
    }
    out
}

fn gcd(a: usize, b: usize) -> usize {
    if b == 0 { a } else { gcd(b, a % b) }
}

/// The rates of a channel between actors of these counts, several times over perhaps; none if they are too high.
fn rates(r: &mut Random, source: u32, dest: u32) -> Option<(u16, u16)> {
    let g = gcd(source as usize, dest as usize);
    let (p, q) = (dest as usize / g, source as usize / g);
    let most = 255 / p.max(q);
    (most > 0).then(|| {
        let times = if r.chance(80) { 1 } else { r.within(1, most.min(4)) };
        ((p * times) as u16, (q * times) as u16)
    })
}

/// Places and tokens for a channel; `whole` is what an iteration brings. Mostly little room; where a channel may close a
/// cycle, mostly enough tokens for it to move.
fn filled(r: &mut Random, c: &mut Channel, whole: usize, closes: bool) {
    let (p, q) = (c.p as usize, c.q as usize);
    let least = p + q - gcd(p, q);
    let capacity = match r.within(0, 19) {
        0 => r.within(1, 4096),
        1 => r.within(p.max(q).saturating_sub(1), least).max(1),
        2 => 4096,
        3..=9 => r.within(least, 2 * (p + q)),
        10..=14 => r.within(least, 6 * (p + q)),
        _ => r.within(least, least + 2 * whole.min(2048)),
    };
    let tokens = match r.within(0, 9) {
        0 => capacity,
        1 => r.within(0, capacity),
        _ if closes && r.chance(85) => whole.max(q),
        2..=6 => 0,
        _ => r.within(0, q),
    };
    let roomy = closes && r.chance(85);
    let capacity = if roomy { capacity.max(tokens + least) } else { capacity }.clamp(1, 4096);
    c.capacity = capacity as u16;
    c.tokens = tokens.min(capacity) as u16;
}

/// A channel from one actor to another, without rates.
fn between(source: usize, dest: usize) -> Channel {
    Channel { source, dest, p: 1, q: 1, capacity: 1, tokens: 0 }
}

/// A random graph in one piece that mostly balances: a tree with rates at will, and further channels with rates that fit.
pub fn hall(r: &mut Random) -> Vec<u8> {
    let most = r.pick(&[1, 2, 2, 3, 4, 6, 10, 16, 16]);
    let actors = if r.chance(20) { most } else { r.within(1, most) };
    let longest = r.pick(&[1, 3, 12, 60, 400, 1600, 4095, 4095]);
    let mut times: Vec<u16> = (0..actors).map(|_| r.within(1, longest) as u16).collect();
    if r.chance(10) {
        times.fill(longest as u16);
    }
    let highest = r.pick(&[1, 1, 2, 3, 4, 8, 16, 64, 255]);
    let mut channels: Vec<Channel> = Vec::new();
    for a in 1..actors {
        let other = if r.chance(50) { a - 1 } else { r.within(0, a - 1) };
        let mut c = if r.chance(75) { between(other, a) } else { between(a, other) };
        for _ in 0..4 {
            (c.p, c.q) = (r.within(1, highest) as u16, r.within(1, highest) as u16);
            channels.push(c);
            if counts(a + 1, &channels).is_ok() || r.chance(1) {
                break;
            }
            channels.pop();
            (c.p, c.q) = (1, 1);
        }
        if channels.len() < a {
            channels.push(c);
        }
    }
    let repeats = counts(actors, &channels).unwrap_or(vec![1; actors]);
    let tree = channels.len();
    let more = r.pick(&[0, 0, 20, 50, 80, 98]);
    while channels.len() < CHANNELS && r.chance(more) {
        let mut c = between(r.within(0, actors - 1), r.within(0, actors - 1));
        if let Some((p, q)) = rates(r, repeats[c.source], repeats[c.dest]) {
            (c.p, c.q) = (p, q);
            if r.chance(1) {
                c.p = c.p % 255 + 1;
            }
            channels.push(c);
        }
    }
    for (i, c) in channels.iter_mut().enumerate() {
        let whole = c.q as usize * repeats[c.dest] as usize;
        filled(r, c, whole, i >= tree);
    }
    if tree > 0 && r.chance(2) {
        channels.remove(r.within(0, tree - 1));
    }
    // the order of channels is at will
    for i in (1..channels.len()).rev() {
        channels.swap(i, r.within(0, i));
    }
    file(&times, &channels)
}

/// The file with one or two damages.
fn damage(r: &mut Random, bytes: &mut Vec<u8>) {
    for _ in 0..r.pick(&[1, 1, 2]) {
        let at = r.within(0, bytes.len().max(1) - 1);
        match r.within(0, 5) {
            0 => bytes.truncate(at),
            1 => {
                let extra = r.within(1, 600);
                bytes.extend((0..extra).map(|_| r.byte()));
            }
            2 => bytes.insert(at, r.byte()),
            3 if !bytes.is_empty() => drop(bytes.remove(at)),
            _ if !bytes.is_empty() => {
                bytes[at] = match r.within(0, 3) {
                    0 => 0,
                    1 => bytes[at] ^ (1 << r.within(0, 7)),
                    2 => bytes[at].wrapping_add(1),
                    _ => r.byte(),
                }
            }
            _ => bytes.push(r.byte()),
        }
    }
}

/// The hall of a number: whole, or damaged in one of four cases.
pub fn numbered(seed: u64, number: u64) -> Vec<u8> {
    let mut r = Random::new(seed.wrapping_mul(1_000_003).wrapping_add(number));
    r.next();
    let mut bytes = hall(&mut r);
    if r.chance(25) {
        damage(&mut r, &mut bytes);
    }
    bytes
}
