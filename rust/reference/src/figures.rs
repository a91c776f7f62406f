//! The night's figures: exact counts over a list of containers, opened one by one at
//! one edition, and the text of the program that keeps them.

use crate::{open, Opening, Refusal, LONGEST_READ};
use std::array::from_fn;
use std::io::{self, Write};

/// Request 10: the program "names edition 1".
const EDITION: usize = 1;

/// Counts of openings. They are plain data, and may be anyone's: none of them wraps, and
/// whether there is room for more is told by `opened` alone.
#[derive(Clone, Debug, PartialEq, Eq)]
pub struct Figures {
    /// Named at the start; every container is opened at it.
    pub edition: usize,
    pub opened: u16,
    pub accepted: u16,
    pub refused: u16,
    /// By the refusal's number. An opening gives 1 to 25, so the others stay 0.
    pub refusals: [u16; 28],
    /// Of accepted ones, by the file's edition, whatever was read.
    pub editions: [u16; 4],
    /// Of accepted ones, by the stage that the reading shows.
    pub stages: [u16; 16],
    /// Of accepted ones that show no stage: the edition read is 0.
    pub unset: u16,
    /// The sum of the accepted lengths.
    pub bytes: u64,
}

/// The answer to a container that was to be added.
#[derive(Clone, Copy, Debug, PartialEq, Eq)]
pub enum Added {
    /// What its opening gave: accepted, or the refusal.
    Counted(Result<(), Refusal>),
    /// Nothing has changed.
    Full,
}

/// The answer to figures that were to be joined. Only the first case changes anything.
#[derive(Clone, Copy, Debug, PartialEq, Eq)]
pub enum Joined {
    Joined,
    OtherEdition,
    Full,
}

impl Figures {
    /// Empty figures. An edition above 3 is one, too: every opening at it gives 25.
    pub fn start(edition: usize) -> Figures {
        Figures {
            edition,
            opened: 0,
            accepted: 0,
            refused: 0,
            refusals: [0; 28],
            editions: [0; 4],
            stages: [0; 16],
            unset: 0,
            bytes: 0,
        }
    }

    /// Opens a container and counts the answer. Request 10: "A container past 65,535
    /// changes nothing and is answered as full."
    pub fn add(&mut self, bytes: &[u8]) -> Added {
        let Some(opened) = self.opened.checked_add(1) else {
            return Added::Full;
        };
        self.opened = opened;
        let answer = open(bytes, self.edition);
        match &answer {
            Ok(opening) => self.accept(opening, bytes.len()),
            Err(refusal) => self.refuse(refusal),
        }
        Added::Counted(answer.map(|_| ()))
    }

    fn accept(&mut self, opening: &Opening, length: usize) {
        one_more(&mut self.accepted);
        one_more(&mut self.editions[opening.file_edition]);
        one_more(match opening.runtime.stage {
            Some(stage) => &mut self.stages[stage as usize],
            None => &mut self.unset,
        });
        self.bytes = self.bytes.saturating_add(length as u64);
    }

    fn refuse(&mut self, refusal: &Refusal) {
        one_more(&mut self.refused);
        one_more(&mut self.refusals[usize::from(refusal.number)]);
    }

    /// Takes the other's counts in, as if its containers had been added here. Editions
    /// are compared first, as numbers: 4 isn't 5, though both give 25 alone.
    pub fn join(&mut self, other: &Figures) -> Joined {
        if self.edition != other.edition {
            return Joined::OtherEdition;
        }
        let Some(opened) = self.opened.checked_add(other.opened) else {
            return Joined::Full;
        };
        // All fields are named, so none can be left out.
        *self = Figures {
            edition: self.edition,
            opened,
            accepted: self.accepted.saturating_add(other.accepted),
            refused: self.refused.saturating_add(other.refused),
            refusals: sums(&self.refusals, &other.refusals),
            editions: sums(&self.editions, &other.editions),
            stages: sums(&self.stages, &other.stages),
            unset: self.unset.saturating_add(other.unset),
            bytes: self.bytes.saturating_add(other.bytes),
        };
        Joined::Joined
    }

    /// The lines at the end of the program's text; every line ends with a line feed.
    pub fn text(&self) -> String {
        let Figures { opened, accepted, refused, bytes, .. } = self;
        let mut text =
            format!("opened {opened} accepted {accepted} refused {refused} bytes {bytes}\n");
        if *opened == 0 {
            text.push_str("nothing was opened\n");
            return text;
        }
        count_lines(&mut text, "refusal", &self.refusals);
        count_lines(&mut text, "edition", &self.editions);
        count_lines(&mut text, "stage", &self.stages);
        if self.unset > 0 {
            text.push_str(&format!("stage unset {}\n", self.unset));
        }
        text
    }
}

/// Counts one more; a count that someone made up may be the greatest already.
fn one_more(count: &mut u16) {
    *count = count.saturating_add(1);
}

fn sums<const N: usize>(counts: &[u16; N], more: &[u16; N]) -> [u16; N] {
    from_fn(|i| counts[i].saturating_add(more[i]))
}

/// A line for each count above zero, the numbers rising.
fn count_lines(text: &mut String, word: &str, counts: &[u16]) {
    for (number, count) in counts.iter().enumerate() {
        if *count > 0 {
            text.push_str(&format!("{word} {number} {count}\n"));
        }
    }
}

/// Writes the text of the program. `files` has the bytes of each file in turn, or why
/// they can't be had; of one that is too long, enough to show that. A file that isn't
/// counted has its line at once, so that nothing is kept but the figures.
pub fn show_figures<B: AsRef<[u8]>>(
    files: impl IntoIterator<Item = io::Result<B>>,
    out: &mut impl Write,
) -> io::Result<()> {
    let mut figures = Figures::start(EDITION);
    for (i, file) in files.into_iter().enumerate() {
        if let Some(why) = add_file(&mut figures, file) {
            writeln!(out, "{why} {i}")?;
        }
    }
    out.write_all(figures.text().as_bytes())
}

/// Adds a file, or says why it isn't counted: the first that applies.
fn add_file<B: AsRef<[u8]>>(figures: &mut Figures, file: io::Result<B>) -> Option<&'static str> {
    let Ok(bytes) = file else {
        return Some("cannot open");
    };
    if bytes.as_ref().len() > LONGEST_READ {
        return Some("too long");
    }
    match figures.add(bytes.as_ref()) {
        Added::Counted(_) => None,
        Added::Full => Some("full"),
    }
}
