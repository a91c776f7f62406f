//! Figures over lists of containers, against the independent reader and against counts of what the library's openings show; and what lists,
//! figures and answers a run came by.

use std::array::from_fn;

use qollqamir::{raw, Container, Figures};
use reference::{Added, Joined, Refusal};

use crate::compare::{refusal_of, same, verdict_of, Call, Check, Hits, Mismatch};
use crate::entries::{at_least, circumstances, each};
use crate::lists::{self, Bytes, MOST};
use crate::make::order;
use crate::random::Random;
use crate::LONGEST;

/// One case in so many has a list, so that a run stays short.
const EVERY: u64 = 4;

/// The bytes of a difference that isn't one container's.
const NONE: [u8; 0] = [];

/// A container, and what the library's opening at an edition shows: the file's edition and the stage, or the refusal.
struct Item {
    bytes: Bytes,
    opening: Result<(usize, Option<u32>), Refusal>,
}

impl Item {
    fn of(bytes: Bytes, edition: usize) -> Item {
        let opening = Container::open(&bytes, edition).map(|container| (container.file_edition(), container.runtime().stage));
        let opening = opening.map_err(refusal_of);
        Item { bytes, opening }
    }
}

/// The figures of a list, each number counted by itself.
fn counted<'a>(edition: usize, list: impl Iterator<Item = &'a Item> + Clone) -> Figures {
    let count = |is: &dyn Fn(&Item) -> bool| list.clone().filter(|item| is(item)).count() as u16;
    let accepted = list.clone().filter(|item| item.opening.is_ok());
    Figures {
        edition,
        bytes: accepted.map(|item| item.bytes.len() as u64).sum(),
        opened: count(&|_| true),
        accepted: count(&|item| item.opening.is_ok()),
        refused: count(&|item| item.opening.is_err()),
        refusals: from_fn(|i| count(&|item| item.opening.is_err_and(|refusal| usize::from(refusal.number) == i))),
        editions: from_fn(|i| count(&|item| item.opening.is_ok_and(|(edition, _)| edition == i))),
        stages: from_fn(|i| count(&|item| item.opening.is_ok_and(|(_, stage)| stage == Some(i as u32)))),
        unset: count(&|item| item.opening.is_ok_and(|(_, stage)| stage.is_none())),
    }
}

/// Two figures in one; no number goes past its greatest.
fn sum(figures: &Figures, more: &Figures) -> Figures {
    let count = |count: u16, more: u16| (u32::from(count) + u32::from(more)).min(MOST.into()) as u16;
    Figures {
        edition: figures.edition,
        bytes: (u128::from(figures.bytes) + u128::from(more.bytes)).min(u64::MAX.into()) as u64,
        opened: count(figures.opened, more.opened),
        accepted: count(figures.accepted, more.accepted),
        refused: count(figures.refused, more.refused),
        refusals: from_fn(|i| count(figures.refusals[i], more.refusals[i])),
        editions: from_fn(|i| count(figures.editions[i], more.editions[i])),
        stages: from_fn(|i| count(figures.stages[i], more.stages[i])),
        unset: count(figures.unset, more.unset),
    }
}

fn figures_of(theirs: &reference::Figures) -> Figures {
    let reference::Figures { edition, opened, accepted, refused, refusals, editions, stages, unset, bytes } = theirs.clone();
    Figures { edition, opened, accepted, refused, refusals, editions, stages, unset, bytes }
}

fn theirs_of(figures: Figures) -> reference::Figures {
    let Figures { edition, opened, accepted, refused, refusals, editions, stages, unset, bytes } = figures;
    reference::Figures { edition, opened, accepted, refused, refusals, editions, stages, unset, bytes }
}

/// The plain record of what adding answers. Beside a full one the verdict is 0.
fn added_of(answer: &Added, figures: Figures) -> raw::FiguresAdded {
    match answer {
        Added::Counted(verdict) => raw::FiguresAdded { answer: 0, verdict: verdict_of(verdict), figures },
        Added::Full => raw::FiguresAdded { answer: 1, verdict: raw::Verdict { number: 0, place: 0 }, figures },
    }
}

fn joined_of(answer: Joined, figures: Figures) -> raw::FiguresJoined {
    let answer = match answer {
        Joined::Joined => 0,
        Joined::Full => 1,
        Joined::OtherEdition => 2,
    };
    raw::FiguresJoined { answer, figures }
}

fn added_from(answer: qollqamir::Added) -> Added {
    match answer {
        qollqamir::Added::Counted(verdict) => Added::Counted(verdict.map_err(refusal_of)),
        qollqamir::Added::Full => Added::Full,
    }
}

fn joined_from(answer: qollqamir::Joined) -> Joined {
    match answer {
        qollqamir::Joined::Joined => Joined::Joined,
        qollqamir::Joined::Full => Joined::Full,
        qollqamir::Joined::OtherEdition => Joined::OtherEdition,
    }
}

/// The same figures in the library and in the reference.
#[derive(Clone)]
struct Both {
    ours: Figures,
    theirs: reference::Figures,
}

impl Both {
    fn start(edition: usize) -> Result<Both, Mismatch> {
        let both = Both { ours: Figures::start(edition), theirs: reference::Figures::start(edition) };
        same!(NONE, both.ours, figures_of(&both.theirs), "start {edition}");
        same!(NONE, both.ours, counted(edition, [].iter()), "counts of no container at {edition}");
        Ok(both)
    }

    fn made_up(figures: Figures) -> Both {
        Both { ours: figures, theirs: theirs_of(figures) }
    }

    /// One container more, by the plain and the safe call.
    fn add(&mut self, item: &Item, hits: &mut Hits) -> Result<Added, Mismatch> {
        let (before, bytes) = (self.ours, &item.bytes[..]);
        let answer = self.theirs.add(bytes);
        let after = figures_of(&self.theirs);
        same!(bytes, raw::figures_add(before, bytes), added_of(&answer, after), "figures_add to {before:?}");
        let safe = added_from(self.ours.add(bytes));
        same!(bytes, (safe, self.ours), (answer, after), "safe add to {before:?}");
        let one = counted(before.edition, [item].into_iter());
        if before.opened == MOST {
            same!(bytes, (answer, after), (Added::Full, before), "add to full figures");
        } else {
            let verdict = item.opening.map(|_| ());
            same!(bytes, (answer, after), (Added::Counted(verdict), sum(&before, &one)), "add to {before:?} and opening");
            hits.note(Call::Add, verdict_of(&verdict));
        }
        hits.figures.add(&before, &one);
        Ok(answer)
    }

    /// Other figures joined to these, by the plain and the safe call.
    fn join(&mut self, more: &Both, hits: &mut Hits) -> Result<Joined, Mismatch> {
        let (before, other) = (self.ours, more.ours);
        let answer = self.theirs.join(&more.theirs);
        let after = figures_of(&self.theirs);
        same!(NONE, raw::figures_join(before, other), joined_of(answer, after), "figures_join of {before:?} and {other:?}");
        let safe = joined_from(self.ours.join(&other));
        same!(NONE, (safe, self.ours), (answer, after), "safe join of {before:?} and {other:?}");
        let expected = match before.opened.checked_add(other.opened) {
            _ if before.edition != other.edition => (Joined::OtherEdition, before),
            None => (Joined::Full, before),
            Some(_) => (Joined::Joined, sum(&before, &other)),
        };
        same!(NONE, (answer, after), expected, "sums of {before:?} and {other:?}");
        hits.figures.join(&before, &other, answer);
        Ok(answer)
    }

    /// The same, where it must be joined.
    fn with(mut self, more: &Both, hits: &mut Hits) -> Result<Both, Mismatch> {
        same!(NONE, self.join(more, hits)?, Joined::Joined, "join");
        Ok(self)
    }
}

/// A list of containers at an edition: one by one, in another order, split and joined; and made-up figures.
pub fn case(seed: u64, number: u64, hits: &mut Hits) -> Check {
    if !number.is_multiple_of(EVERY) {
        return Ok(());
    }
    // Other numbers than the container of any case draws.
    let random = &mut Random::new(seed, !number);
    let edition = lists::edition(random);
    let list: Vec<Item> = lists::list(random).into_iter().map(|bytes| Item::of(bytes, edition)).collect();
    let whole = one_by_one(edition, list.iter(), hits)?;
    same!(NONE, whole.ours, counted(edition, list.iter()), "counts of {} containers", list.len());
    hits.figures.list(edition, &list);
    let order = order(random, list.len());
    let moved: Vec<&Item> = order.iter().map(|i| &list[*i]).collect();
    let figures = one_by_one(edition, moved.iter().copied(), hits)?;
    same!(NONE, figures.ours, whole.ours, "figures of a list in the order {order:?}");
    hits.figures.order(&list, &order);
    split(random, &moved, &whole, hits)?;
    other_edition(random, &whole, hits)?;
    if !list.is_empty() && random.one_in(4) {
        filled(&list, &whole, hits)?;
    }
    made_up(random, &list, edition, hits)
}

/// The figures of a list, from empty ones.
fn one_by_one<'a>(edition: usize, list: impl Iterator<Item = &'a Item>, hits: &mut Hits) -> Result<Both, Mismatch> {
    let mut figures = Both::start(edition)?;
    for item in list {
        figures.add(item, hits).map(drop)?;
    }
    Ok(figures)
}

/// A list in stretches: joined from the first on, from the last on, and each to those after it.
fn split(random: &mut Random, list: &[&Item], whole: &Both, hits: &mut Hits) -> Check {
    let cuts = lists::cuts(random, list.len());
    let sides = cuts.windows(2).map(|cut| one_by_one(whole.ours.edition, list[cut[0]..cut[1]].iter().copied(), hits));
    let sides = sides.collect::<Result<Vec<Both>, Mismatch>>()?;
    let (first, last) = (&sides[0], &sides[sides.len() - 1]);
    let from_first = sides.iter().skip(1).try_fold(first.clone(), |all, side| all.with(side, hits))?;
    let from_last = sides.iter().rev().skip(1).try_fold(last.clone(), |all, side| all.with(side, hits))?;
    let to_later = sides.iter().rev().skip(1).try_fold(last.clone(), |all, side| side.clone().with(&all, hits))?;
    for joined in [from_first, from_last, to_later] {
        same!(NONE, joined.ours, whole.ours, "figures of a list that was cut at {cuts:?}");
    }
    hits.figures.split(&cuts);
    Ok(())
}

/// Figures of another edition, with as many containers or none.
fn other_edition(random: &mut Random, whole: &Both, hits: &mut Hits) -> Check {
    let edition = lists::other_edition(random, whole.ours.edition);
    for other in [Both::start(edition)?, Both::made_up(Figures { edition, ..whole.ours })] {
        whole.clone().join(&other, hits).map(drop)?;
        other.clone().join(whole, hits).map(drop)?;
    }
    Ok(())
}

/// The figures of a list that stands so many times.
fn repeated(whole: &Both, times: usize, hits: &mut Hits) -> Result<Both, Mismatch> {
    let mut figures = Both::start(whole.ours.edition)?;
    for bit in (0..16).rev() {
        figures = figures.clone().with(&figures, hits)?;
        if times >> bit & 1 == 1 {
            figures = figures.with(whole, hits)?;
        }
    }
    Ok(figures)
}

/// The list joined until it has no more room, and then added to.
fn filled(list: &[Item], whole: &Both, hits: &mut Hits) -> Check {
    let times = usize::from(MOST) / list.len();
    let mut figures = repeated(whole, times, hits)?;
    let left = MOST - figures.ours.opened;
    same!(NONE, usize::from(left), usize::from(MOST) % list.len(), "room beside a list {times} times");
    same!(NONE, figures.clone().join(whole, hits)?, Joined::Full, "a list {times} times, and once more");
    same!(NONE, whole.clone().join(&figures, hits)?, Joined::Full, "a list, and {times} times more");
    for item in list.iter().chain(list.first()) {
        figures.add(item, hits).map(drop)?;
    }
    same!(NONE, figures.ours.opened, MOST, "containers of full figures");
    hits.figures.saw(if left == 0 { Kind::FilledByJoin } else { Kind::FilledByAdd }, true);
    Ok(())
}

/// Made-up figures, added to and joined.
fn made_up(random: &mut Random, list: &[Item], edition: usize, hits: &mut Hits) -> Check {
    for item in list.iter().take(4) {
        let mut figures = Both::made_up(lists::made_up(random, edition, item.bytes.len()));
        figures.add(item, hits).map(drop)?;
        figures.add(item, hits).map(drop)?;
    }
    for _ in 0..2 {
        let figures = lists::made_up(random, edition, 0);
        let mut more = lists::beside(random, &figures);
        if random.one_in(8) {
            more.edition = lists::other_edition(random, edition);
        }
        Both::made_up(figures).join(&Both::made_up(more), hits).map(drop)?;
    }
    Ok(())
}

/// So many containers are joined with one another: some make 65,534 to 65,537.
const KEPT: [usize; 8] = [1, 2, 32_767, 32_768, 32_769, 65_533, 65_534, 65_535];

/// Lists that are longer than figures count: of many containers, of the longest alone, and at an edition above 3.
pub fn fixed(seed: u64, hits: &mut Hits) -> Check {
    same!(NONE, Figures::MOST, MOST, "the most containers");
    let random = &mut Random::new(seed, 1 << 63);
    let many = lists::soon_opened(random);
    for (edition, list) in [(random.below(4), &many[..]), (random.below(4), &many[..1]), (lists::beyond(random), &many)] {
        let list: Vec<Item> = list.iter().map(|bytes| Item::of(bytes.clone(), edition)).collect();
        long_list(edition, &list, hits)?;
    }
    Ok(())
}

/// The same containers over and over, to two past the most.
fn long_list(edition: usize, list: &[Item], hits: &mut Hits) -> Check {
    // Not counted: what a run must have come by is to come of the lists made at random.
    let apart = &mut Hits::default();
    let most = usize::from(MOST);
    let list: Vec<&Item> = list.iter().cycle().take(most + 2).collect();
    let (mut figures, mut kept) = (Both::start(edition)?, Vec::new());
    for (item, count) in list.iter().zip(1..) {
        let answer = figures.add(item, apart)?;
        if count + 1 >= most {
            let counts = counted(edition, list[..count.min(most)].iter().copied());
            same!(item.bytes, (answer == Added::Full, figures.ours), (count > most, counts), "{count} containers");
            hits.figures.saw(if count > most { Kind::LongFull } else { Kind::LongCounted }, true);
        }
        if KEPT.contains(&count) {
            kept.push(figures.clone());
        }
    }
    let from_last = one_by_one(edition, list[..most].iter().rev().copied(), apart)?;
    same!(NONE, from_last.ours, figures.ours, "a long list from its last container on");
    for (first, second) in kept.iter().flat_map(|first| kept.iter().map(move |second| (first, second))) {
        let sum = usize::from(first.ours.opened) + usize::from(second.ours.opened);
        let full = first.clone().join(second, apart)? == Joined::Full;
        same!(NONE, full, sum > most, "whether {sum} containers are too many");
        hits.figures.saw(if full { Kind::LongJoinFull } else { Kind::LongJoined }, (65_534..=65_537).contains(&sum));
    }
    Ok(())
}

circumstances! {
    /// What lists and figures there were, and what was done with them.
    Kind, KINDS:
    Empty: 1000 "an empty list",
    One: 2000 "a list of one container",
    Several: 10_000 "a list of 2 to 6 containers",
    Many: 1000 "a list of 7 to 12 containers",
    AllAccepted: 3000 "a list of several containers, all accepted",
    AllRefused: 2000 "a list of several containers, all refused",
    Twice: 5000 "a list in which a container stands twice",
    UnsetBelow: 5000 "no stage, of a file of edition 1 or more that is read at 0",
    UnsetOld: 5000 "no stage, of a file of edition 0 that is read at 1 to 3",
    EditionAbove: 10_000 "a file's edition above the one that is read",
    AcceptedBelow: 2000 "accepted where edition 3 refuses",
    Longest: 2000 "accepted, of 16,777,216 bytes",
    Beyond: 5000 "25 of a container that edition 3 accepts",
    BeyondLowBits: 3000 "25 at an edition that is 0 to 3 in its low 8, 16 or 32 bits",
    Moved: 5000 "an order in which another answer comes first",
    MovedAll: 5000 "an order in which every container stands elsewhere",
    Two: 2000 "a list in two stretches, none of them empty",
    More: 1000 "a list in more stretches, none of them empty",
    EmptyFirst: 5000 "a list of which the first stretch is empty",
    EmptyMiddle: 5000 "a list of which a middle stretch is empty",
    EmptyLast: 5000 "a list of which the last stretch is empty",
    FilledByJoin: 1000 "a list joined with itself until it is full",
    FilledByAdd: 1000 "a list joined with itself while there is room, then added to until it is full",
    AddLast: 10_000 "the 65,535th container",
    AddFullAccepted: 10_000 "full for a container that an opening accepts",
    AddFullRefused: 10_000 "full for a container that an opening refuses",
    AddFullOther: 10_000 "full where accepted and refused don't make 65,535",
    AddNotFull: 10_000 "counted where accepted and refused make 65,535 or more",
    AddBytes: 2000 "bytes to 2^64 - 1 by add",
    AddBytesOnePast: 2000 "bytes to 2^64 by add",
    AddBytesPast: 5000 "bytes past 2^64 by add",
    AddBytesWord: 2000 "bytes past 32 bits by add",
    Join: 10_000 "joined, both of some containers",
    JoinNone: 10_000 "joined with figures of none",
    NoneJoin: 10_000 "figures of none joined with others",
    Join65534: 5000 "joined to 65,534",
    Join65535: 5000 "joined to 65,535",
    JoinMostNone: 2000 "65,535 joined with none",
    JoinNoneMost: 1000 "none joined with 65,535",
    Full65536: 5000 "full for 65,536",
    Full65537: 2000 "full for 65,537",
    FullTwice: 500 "full for 65,535 twice",
    JoinBytes: 2000 "bytes to 2^64 - 1 by join",
    JoinBytesOnePast: 2000 "bytes to 2^64 by join",
    JoinBytesPast: 5000 "bytes past 2^64 by join",
    JoinBytesWord: 500 "bytes past 32 bits by join",
    Other: 50_000 "another edition, with room",
    OtherFull: 1000 "another edition, without room",
    OtherNone: 20_000 "another edition, with none opened in one",
    OtherLowByte: 20_000 "another edition that is the same in its low 8 bits",
    OtherLowHalf: 20_000 "another edition that is the same in its low 16 bits",
    OtherLowWord: 10_000 "another edition that is the same in its low 32 bits",
    OtherNear: 20_000 "another edition, where both are 0 to 3",
    OtherBeyond: 5000 "another edition, where both are above 3",
    LongCounted: 6 "the 65,534th or 65,535th container of a long list",
    LongFull: 6 "full for the 65,536th or 65,537th container of a long list",
    LongJoined: 20 "long lists joined to 65,534 or 65,535",
    LongJoinFull: 20 "full for long lists of 65,536 or 65,537",
}

/// How many counts figures have.
const COUNTS: usize = 52;

/// The counts, one after the other.
fn counts(figures: &Figures) -> [u16; COUNTS] {
    let all =
        [&[figures.opened, figures.accepted, figures.refused], &figures.refusals[..], &figures.editions, &figures.stages, &[figures.unset]];
    let mut all = all.into_iter().flatten();
    from_fn(|_| *all.next().expect("there are so many"))
}

fn count_name(i: usize) -> String {
    match i {
        0..=2 => ["opened", "accepted", "refused"][i].to_string(),
        3..=30 => format!("refusal {}", i - 3),
        31..=34 => format!("edition {}", i - 31),
        35..=50 => format!("stage {}", i - 35),
        _ => "unset".to_string(),
    }
}

/// What a count would come to, and how often each comes at least by adding and by joining.
const SUMS: [(&str, [u64; 2]); 2] = [("to 65,535", [10, 2000]), ("past 65,535", [20, 5000])];

/// How a count came to that.
#[derive(Clone, Copy)]
enum Way {
    Add,
    Join,
}

const WAYS: [(Way, &str); 2] = [(Way::Add, "add"), (Way::Join, "join")];

impl Way {
    /// Whether a count can come to that: an opening gives no refusal 0, 26 or 27, and past 65,535 opened is full.
    fn can(self, past: bool, i: usize) -> bool {
        match i {
            0 => !past,
            3 | 29 | 30 => matches!(self, Way::Join),
            _ => true,
        }
    }
}

/// So often at least each refusal is counted, at so many places those that have one; each file's edition at each edition that is named; and
/// each stage.
const OF_REFUSAL: u64 = 400;
const OF_PLACE: u64 = 40;
const OF_EDITION: u64 = 1200;
const OF_STAGE: u64 = 1000;

/// How often each of the circumstances came; what was accepted, by the file's edition and the one that was named, and by the stage shown;
/// and how often each count came to what `SUMS` says, by `Way`.
pub struct Notes {
    kinds: [u64; KINDS.len()],
    editions: [[u64; 4]; 4],
    stages: [u64; 16],
    sums: [[[u64; COUNTS]; 2]; 2],
}

impl Default for Notes {
    fn default() -> Notes {
        Notes { kinds: [0; KINDS.len()], editions: [[0; 4]; 4], stages: [0; 16], sums: [[[0; COUNTS]; 2]; 2] }
    }
}

impl Notes {
    fn saw(&mut self, kind: Kind, is: bool) {
        self.kinds[kind as usize] += u64::from(is);
    }

    /// Notes a list, and what its openings gave.
    fn list(&mut self, edition: usize, list: &[Item]) {
        self.saw(
            match list.len() {
                0 => Kind::Empty,
                1 => Kind::One,
                2..=6 => Kind::Several,
                _ => Kind::Many,
            },
            true,
        );
        let several = list.len() > 1;
        self.saw(Kind::AllAccepted, several && list.iter().all(|item| item.opening.is_ok()));
        self.saw(Kind::AllRefused, several && list.iter().all(|item| item.opening.is_err()));
        // The long ones would take too much time.
        let same = |one: &Item, other: &Item| one.bytes.len() < LONGEST && one.bytes == other.bytes;
        self.saw(Kind::Twice, (1..list.len()).any(|i| list[..i].iter().any(|item| same(item, &list[i]))));
        list.iter().for_each(|item| self.opening(edition, item));
    }

    fn opening(&mut self, named: usize, item: &Item) {
        let newest = Container::open(&item.bytes, 3).is_ok();
        let Ok((edition, stage)) = item.opening else {
            let low = |bits: u32| named % (1 << bits) < 4;
            self.saw(Kind::Beyond, named > 3 && newest);
            self.saw(Kind::BeyondLowBits, named > 3 && (low(8) || low(16) || low(32)));
            return;
        };
        self.editions[edition][named] += 1;
        if let Some(stage) = stage {
            self.stages[stage as usize] += 1;
        }
        self.saw(Kind::UnsetBelow, stage.is_none() && edition > 0);
        self.saw(Kind::UnsetOld, stage.is_none() && named > 0);
        self.saw(Kind::EditionAbove, edition > named);
        self.saw(Kind::AcceptedBelow, !newest);
        self.saw(Kind::Longest, item.bytes.len() == LONGEST);
    }

    /// Notes an order of a list.
    fn order(&mut self, list: &[Item], order: &[usize]) {
        self.saw(Kind::Moved, order.first().is_some_and(|first| list[*first].opening != list[0].opening));
        self.saw(Kind::MovedAll, order.len() > 1 && order.iter().enumerate().all(|(i, from)| i != *from));
    }

    /// Notes the stretches of a list that isn't empty.
    fn split(&mut self, cuts: &[usize]) {
        let empty: Vec<bool> = cuts.windows(2).map(|cut| cut[0] == cut[1]).collect();
        let [first, middle @ .., last] = &empty[..] else {
            return;
        };
        if empty.contains(&false) {
            self.saw(if middle.is_empty() { Kind::Two } else { Kind::More }, !empty.contains(&true));
            self.saw(Kind::EmptyFirst, *first);
            self.saw(Kind::EmptyMiddle, middle.contains(&true));
            self.saw(Kind::EmptyLast, *last);
        }
    }

    /// Notes a container that was added, whose figures by itself are `one`.
    fn add(&mut self, before: &Figures, one: &Figures) {
        let both = u32::from(before.accepted) + u32::from(before.refused);
        if before.opened == MOST {
            self.saw(if one.accepted == 1 { Kind::AddFullAccepted } else { Kind::AddFullRefused }, true);
            self.saw(Kind::AddFullOther, both != MOST.into());
            return;
        }
        self.saw(Kind::AddLast, before.opened == MOST - 1);
        self.saw(Kind::AddNotFull, both >= MOST.into());
        self.sums(Way::Add, before, one);
    }

    /// Notes figures that were to be joined.
    fn join(&mut self, figures: &Figures, more: &Figures, answer: Joined) {
        let sum = u32::from(figures.opened) + u32::from(more.opened);
        let none = [figures, more].map(|figures| figures.opened == 0);
        match answer {
            Joined::Joined => {
                self.saw(Kind::Join, none == [false, false]);
                self.saw(Kind::JoinNone, none == [false, true]);
                self.saw(Kind::NoneJoin, none == [true, false]);
                self.saw(Kind::Join65534, sum == 65_534);
                self.saw(Kind::Join65535, sum == 65_535);
                self.saw(Kind::JoinMostNone, figures.opened == MOST);
                self.saw(Kind::JoinNoneMost, more.opened == MOST);
                self.sums(Way::Join, figures, more);
            }
            Joined::Full => {
                self.saw(Kind::Full65536, sum == 65_536);
                self.saw(Kind::Full65537, sum == 65_537);
                self.saw(Kind::FullTwice, sum == 131_070);
            }
            Joined::OtherEdition => {
                let low = |bits: u32| figures.edition % (1 << bits) == more.edition % (1 << bits);
                self.saw(if sum > MOST.into() { Kind::OtherFull } else { Kind::Other }, true);
                self.saw(Kind::OtherNone, none.contains(&true));
                self.saw(Kind::OtherLowByte, low(8));
                self.saw(Kind::OtherLowHalf, low(16));
                self.saw(Kind::OtherLowWord, low(32));
                self.saw(Kind::OtherNear, figures.edition < 4 && more.edition < 4);
                self.saw(Kind::OtherBeyond, figures.edition > 3 && more.edition > 3);
            }
        }
    }

    /// Notes sums at their greatest and past it.
    fn sums(&mut self, way: Way, figures: &Figures, more: &Figures) {
        for (i, (count, more)) in counts(figures).into_iter().zip(counts(more)).enumerate() {
            let sum = u32::from(count) + u32::from(more);
            self.sums[0][way as usize][i] += u64::from(more > 0 && sum == MOST.into());
            self.sums[1][way as usize][i] += u64::from(more > 0 && sum > MOST.into());
        }
        let [most, one_past, past, word] = match way {
            Way::Add => [Kind::AddBytes, Kind::AddBytesOnePast, Kind::AddBytesPast, Kind::AddBytesWord],
            Way::Join => [Kind::JoinBytes, Kind::JoinBytesOnePast, Kind::JoinBytesPast, Kind::JoinBytesWord],
        };
        let (sum, end) = (u128::from(figures.bytes) + u128::from(more.bytes), 1 << 64);
        self.saw(most, more.bytes > 0 && sum + 1 == end);
        self.saw(one_past, sum == end);
        self.saw(past, sum > end);
        self.saw(word, figures.bytes >> 32 == 0 && more.bytes >> 32 == 0 && sum >> 32 != 0);
    }

    fn sums_summary(&self, missed: &mut Vec<String>) {
        for (past, (to, least)) in SUMS.into_iter().enumerate() {
            for (way, by) in WAYS {
                let what = format!("{to} by {by}");
                print!("counts {what}:");
                for (i, count) in self.sums[past][way as usize].into_iter().enumerate().filter(|(i, _)| way.can(past == 1, *i)) {
                    print!(" {} {count},", count_name(i));
                    at_least(&format!("{} {what}", count_name(i)), count, least[way as usize], missed);
                }
                println!();
            }
        }
    }
}

/// Prints what the lists and figures of a run were, and adds what came less often than it must.
pub fn summary(hits: &Hits, missed: &mut Vec<String>) {
    hits.given(Call::Add, OF_REFUSAL, OF_PLACE, missed);
    let notes = &hits.figures;
    for (edition, counts) in notes.editions.iter().enumerate() {
        println!("files of edition {edition} counted at editions 0 to 3: {counts:?}");
        counts.iter().for_each(|count| at_least(&format!("a file of edition {edition} at each edition"), *count, OF_EDITION, missed));
    }
    println!("files counted with stages 0 to 15: {:?}", notes.stages);
    notes.stages.iter().for_each(|count| at_least("a file with each stage", *count, OF_STAGE, missed));
    notes.sums_summary(missed);
    each(KINDS, &notes.kinds, missed);
}
