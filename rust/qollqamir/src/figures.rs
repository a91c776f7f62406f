//! Figures over a list of containers.

use crate::{judged, raw, Edition, Figures, Refusal};

/// What adding a container to figures answers.
#[must_use]
#[derive(Clone, Copy, Debug, PartialEq, Eq)]
pub enum Added {
    /// It is counted; what opening it at the figures' edition gave.
    Counted(Result<(), Refusal>),
    /// The figures have [`Figures::MOST`] containers: it was not opened, and nothing changed.
    Full,
}

/// What joining figures answers.
#[must_use]
#[derive(Clone, Copy, Debug, PartialEq, Eq)]
pub enum Joined {
    /// The figures are those of both lists of containers.
    Joined,
    /// They were started at different editions: nothing changed.
    OtherEdition,
    /// They have more than [`Figures::MOST`] containers between them: nothing changed.
    Full,
}

/// The figures of a night: how many containers were opened, accepted and refused, and why.
///
/// ```
/// use qollqamir::{Added, Figures, Joined, Refusal};
///
/// let mut figures = Figures::start(1);
/// assert_eq!(figures.add(b"no container"), Added::Counted(Err(Refusal { number: 1, place: 0 })));
/// assert_eq!((figures.opened, figures.refused, figures.refusals[1]), (1, 1, 1));
///
/// let mut both = figures;
/// assert_eq!(both.join(&figures), Joined::Joined);
/// assert_eq!(both.refusals[1], 2);
/// assert_eq!(both.join(&Figures::start(3)), Joined::OtherEdition);
/// ```
impl Figures {
    /// The most containers that figures count.
    pub const MOST: u16 = 65535;

    /// Figures of no container, at an edition, at which every container that is added is opened. At an edition above 3 each counts as
    /// refused with 25.
    pub fn start(edition: Edition) -> Figures {
        raw::figures_start(edition)
    }

    /// One container more: it costs one opening, and is counted by what that gives. The order of the containers doesn't matter. In figures
    /// that someone made up a count stays at 65,535, and the sum of the lengths at 2^64 - 1.
    pub fn add(&mut self, bytes: &[u8]) -> Added {
        let raw::FiguresAdded { answer, verdict, figures } = raw::figures_add(*self, bytes);
        *self = figures;
        match answer {
            0 => Added::Counted(judged(verdict)),
            1 => Added::Full,
            _ => unreachable!("adding answers 0 or 1"),
        }
    }

    /// Joins the figures of another list of containers to these: they become those of the one list after the other.
    pub fn join(&mut self, more: &Figures) -> Joined {
        let raw::FiguresJoined { answer, figures } = raw::figures_join(*self, *more);
        *self = figures;
        match answer {
            0 => Joined::Joined,
            1 => Joined::Full,
            2 => Joined::OtherEdition,
            _ => unreachable!("joining answers 0 to 2"),
        }
    }
}
