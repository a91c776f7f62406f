//! Lists of containers, editions to open them at, and made-up figures, made at random.

use std::array::from_fn;
use std::borrow::Cow;
use std::sync::LazyLock;

use qollqamir::Figures;

use crate::make::{self, Pieces, SIZES};
use crate::random::Random;
use crate::{repeats, LONGEST};

/// So many containers figures have at most, and so far a count goes.
pub const MOST: u16 = 65_535;

/// A container, or other bytes. The long ones are shared.
pub type Bytes = Cow<'static, [u8]>;

/// A right container of an edition and a stage, with nothing that it can do without.
fn small(random: &mut Random, edition: usize, stage: u8) -> Vec<u8> {
    let mut runtime = vec![0; SIZES[edition]];
    if edition > 0 {
        runtime[24] = stage;
    }
    let none = Vec::new;
    let pieces = Pieces {
        runtime,
        resource_size: 16,
        resources: none(),
        // The entry name, which is empty.
        strings: vec![0; 4],
        indices: none(),
        element_size: 16,
        elements: none(),
        masks: none(),
        after: none(),
    };
    make::spaced(random, &[(*b"DXIL", b"code".to_vec()), (*b"PSV0", pieces.bytes().0)], |_| 0).0
}

/// A right container of the greatest length, and a byte after it.
static LONG: LazyLock<Vec<u8>> = LazyLock::new(|| {
    let mut bytes = small(&mut Random::new(0, 0), 3, 5);
    bytes.resize(LONGEST + 1, 0);
    make::put4(&mut bytes, 24, LONGEST as u32);
    bytes
});

/// A right container of the greatest length, or one byte too long. An opening looks at few of its bytes.
fn long(random: &mut Random) -> &'static [u8] {
    let len = random.pick(&[LONGEST, LONGEST + 1]);
    &LONG[..len]
}

/// A right container, one that is flawed or damaged, or any bytes.
pub fn container(random: &mut Random) -> Vec<u8> {
    let psv0 = match random.below(24) {
        0..=9 => Pieces::valid(random).bytes().0,
        10..=13 => {
            let mut pieces = Pieces::valid(random);
            pieces.flaw(random);
            pieces.bytes().0
        }
        14..=17 => make::damaged_psv0(random),
        18..=20 => return make::damaged_container(random),
        21 => return make::resized_container(random),
        22 => {
            let names = repeats::names(random);
            let parts = repeats::filled(random, &names);
            return repeats::container(random, &parts).0;
        }
        _ => return make::any_bytes(random),
    };
    make::around(random, &psv0)
}

/// A list of few containers or none; some stand in it more than once.
pub fn list(random: &mut Random) -> Vec<Bytes> {
    let count = match random.below(16) {
        0 => 0,
        1 | 2 => 1,
        3 => 7 + random.below(6),
        _ => 2 + random.below(5),
    };
    let mut list: Vec<Bytes> = Vec::new();
    for _ in 0..count {
        let next = match random.below(16) {
            0 => long(random).into(),
            1..=4 if !list.is_empty() => list[random.below(list.len())].clone(),
            _ => container(random).into(),
        };
        list.push(next);
    }
    list
}

/// Containers for a list that is longer than figures count: the longest, which is the first, the small ones of each edition and stage, and
/// others that are soon opened.
pub fn soon_opened(random: &mut Random) -> Vec<Bytes> {
    let mut list: Vec<Bytes> = vec![LONG[..LONGEST].into(), LONG[..].into()];
    for edition in 0..4 {
        list.extend((0..16).map(|stage| Bytes::from(small(random, edition, stage))));
    }
    list.extend((0..100).map(|_| container(random)).filter(|bytes| bytes.len() < 512).map(Bytes::from));
    list
}

/// An edition above 3, of which some are 0 to 3 in their low bits.
pub fn beyond(random: &mut Random) -> usize {
    let low = random.below(4);
    random.pick(&[4, 4, 5, 255, low + (1 << 8), low + (1 << 16), low + (1 << 32), low + (1 << 63), usize::MAX])
}

pub fn edition(random: &mut Random) -> usize {
    if random.one_in(8) {
        beyond(random)
    } else {
        random.below(4)
    }
}

/// Another edition, of which some are the same in their low bits.
pub fn other_edition(random: &mut Random, edition: usize) -> usize {
    edition ^ random.pick(&[1, 1, 2, 4, 1 << 8, 1 << 16, 1 << 32, 1 << 63])
}

/// Stretches of a list, some of them empty: two or more, from each of these places to the next.
pub fn cuts(random: &mut Random, len: usize) -> Vec<usize> {
    let sides = random.pick(&[2, 2, 3, 3, 4, 5]);
    let mut cuts: Vec<usize> = (1..sides).map(|_| random.below(len + 1)).collect();
    cuts.extend([0, len]);
    cuts.sort_unstable();
    cuts
}

fn count(random: &mut Random) -> u16 {
    let any = random.next() as u16;
    random.pick(&[0, 1, any, any, MOST - 1, MOST - 1, MOST, MOST])
}

/// Figures that nobody counted, for a container of this length: every number at an edge, or any.
pub fn made_up(random: &mut Random, edition: usize, len: usize) -> Figures {
    let (any, left, word) = (random.next(), u64::MAX - len as u64, (1 << 32) - len as u64);
    Figures {
        edition,
        bytes: random.pick(&[0, any, word - 1, word, left - 1, left, left.saturating_add(1), u64::MAX]),
        opened: count(random),
        accepted: count(random),
        refused: count(random),
        refusals: from_fn(|_| count(random)),
        editions: from_fn(|_| count(random)),
        stages: from_fn(|_| count(random)),
        unset: count(random),
    }
}

/// Made-up figures to join with these: every sum is the greatest number, beside it, or any.
pub fn beside(random: &mut Random, figures: &Figures) -> Figures {
    let (any, left) = (random.next(), u64::MAX - figures.bytes);
    let room = MOST - figures.opened;
    let mut count = |count: u16| {
        let (any, left) = (random.next() as u16, MOST - count);
        random.pick(&[0, any, any, left.saturating_sub(1), left, left.saturating_add(1), MOST])
    };
    Figures {
        edition: figures.edition,
        accepted: count(figures.accepted),
        refused: count(figures.refused),
        refusals: figures.refusals.map(&mut count),
        editions: figures.editions.map(&mut count),
        stages: figures.stages.map(&mut count),
        unset: count(figures.unset),
        bytes: random.pick(&[0, any, any % (1 << 32), left.saturating_sub(1), left, left.saturating_add(1), u64::MAX]),
        // Mostly with room.
        opened: random.pick(&[0, 1, room / 2, room.saturating_sub(1), room, room.saturating_add(1), room.saturating_add(2), MOST]),
    }
}
