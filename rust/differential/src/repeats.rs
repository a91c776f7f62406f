//! Part lists in which names repeat, and containers of them, made at random.

use crate::make::{self, Parts};
use crate::random::Random;

pub const PRIV: [u8; 4] = *b"PRIV";

/// Names that a careless comparison takes for PRIV.
pub const NEAR: [[u8; 4]; 3] = [*b"priv", *b"PRIW", *b"PRI\0"];

/// So many parts a container lists at most.
pub const MOST: usize = 96;

/// A number of PRIV parts: mostly few, now and then as many as there can be or one more.
fn several(random: &mut Random) -> usize {
    match random.below(16) {
        0 => random.pick(&[MOST - 2, MOST - 1, MOST, MOST, MOST + 1]),
        1 | 2 => 2 + random.below(MOST - 1),
        3..=7 => 2,
        _ => 2 + random.below(6),
    }
}

fn any(random: &mut Random) -> [u8; 4] {
    (random.next() as u32).to_le_bytes()
}

/// A name that may not repeat: one that an opening asks for, one near PRIV, a known one or any.
pub fn other(random: &mut Random) -> [u8; 4] {
    let mut near = PRIV;
    near[random.below(4)] ^= 1 << random.below(8);
    let known = random.pick(&reference::KNOWN);
    let any = any(random);
    random.pick(&[*b"DXIL", *b"PSV0", NEAR[0], NEAR[1], NEAR[2], near, if known == PRIV { any } else { known }, any])
}

/// Names of which several are PRIV, in any order: mostly no other twice, else one or two others.
pub fn names(random: &mut Random) -> Vec<[u8; 4]> {
    let mut names = vec![PRIV; several(random)];
    if names.len() > MOST {
        return names;
    }
    let others = match random.below(8) {
        0 | 1 => 0,
        2 => random.below(MOST + 1 - names.len()),
        _ => random.below(6),
    };
    for _ in 0..others {
        let mut name = other(random);
        while names.contains(&name) {
            name = any(random);
        }
        let at = random.below(names.len() + 1);
        names.insert(at, name);
    }
    for _ in 0..random.pick(&[0, 0, 0, 1, 1, 2]) {
        twice(random, &mut names);
    }
    while names.len() > MOST {
        let gone = random.below(names.len());
        names.remove(gone);
    }
    names
}

/// Puts a name that may not repeat among others in two places, each before, between or after the PRIV parts.
fn twice(random: &mut Random, names: &mut Vec<[u8; 4]>) {
    let name = other(random);
    for _ in 0..2 {
        let is_priv = |name: &[u8; 4]| *name == PRIV;
        let (Some(first), Some(last)) = (names.iter().position(is_priv), names.iter().rposition(is_priv)) else {
            return;
        };
        let at = match random.below(3) {
            0 => random.below(first + 1),
            1 => first + 1 + random.below((last - first).max(1)),
            _ => last + 1 + random.below(names.len() - last),
        };
        names.insert(at, name);
    }
}

/// Data for each name: some are empty, some the same, and one may be longer.
pub fn filled(random: &mut Random, names: &[[u8; 4]]) -> Parts {
    let len = 1 + random.below(8);
    let same = random.bytes(len);
    let long = random.below(8 * names.len().max(1));
    let mut data = |i: usize| match random.below(4) {
        _ if i == long => random.bytes(300),
        0 => Vec::new(),
        1 => same.clone(),
        _ => {
            let len = random.below(12);
            random.bytes(len)
        }
    };
    names.iter().enumerate().map(|(i, name)| (*name, data(i))).collect()
}

/// Puts several PRIV parts among others, so many that a container still lists all.
pub fn scatter(random: &mut Random, parts: &mut Parts) {
    let room = MOST.saturating_sub(parts.len());
    let count = match random.below(64) {
        0 => room,
        1 => random.below(room + 1),
        _ => room.min(2 + random.below(5)),
    };
    for part in filled(random, &vec![PRIV; count]) {
        let at = random.below(parts.len() + 1);
        parts.insert(at, part);
    }
}

/// A gap of no byte, one, some or many.
fn any_gap(random: &mut Random) -> usize {
    match random.below(32) {
        0 => 16 + random.below(300),
        1..=8 => 1,
        9..=12 => random.below(16),
        _ => 0,
    }
}

/// Now and then a gap that 16 bits don't count.
fn far_gap(random: &mut Random) -> usize {
    if random.one_in(3) {
        65_536 + random.below(300)
    } else {
        random.below(2)
    }
}

/// A container of parts with no gap, with gaps of one byte, or with any; and where its ruling numbers stand.
pub fn container(random: &mut Random, parts: &Parts) -> (Vec<u8>, Vec<usize>) {
    let gap: fn(&mut Random) -> usize = match random.below(256) {
        0..=3 if parts.len() < 8 => far_gap,
        4..=32 => |_| 0,
        33..=64 => |_| 1,
        _ => any_gap,
    };
    make::spaced(random, parts, gap)
}
