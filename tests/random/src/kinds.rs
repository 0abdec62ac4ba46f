//! The three kinds of run, and all in which they differ, as the documents state it.
//!
//! A cropped run erodes a sheet that was cropped from a larger one, with foreground beyond the frame.

use crate::call::Name;
use crate::definitions::Point;

pub const NOTHING_FOUND: u16 = 65535;

#[derive(Clone, Copy, Debug, PartialEq, Eq)]
pub enum Kind {
    Erosion,
    Dilation,
    Cropped,
}

impl Kind {
    pub const ALL: [Kind; 3] = [Kind::Erosion, Kind::Dilation, Kind::Cropped];

    pub fn name(self) -> &'static str {
        match self {
            Kind::Erosion => "erosion",
            Kind::Dilation => "dilation",
            Kind::Cropped => "cropped",
        }
    }

    /// The call that starts such a run.
    pub fn start(self) -> Name {
        match self {
            Kind::Erosion => Name::StartErosion,
            Kind::Dilation => Name::StartDilation,
            Kind::Cropped => Name::StartCropped,
        }
    }

    /// The kind of run that a call starts, if it starts one.
    pub fn started_by(name: Name) -> Option<Kind> {
        Kind::ALL.into_iter().find(|kind| kind.start() == name)
    }

    /// The kind and the edge rule that a record has.
    pub fn words(self) -> (u64, u64) {
        match self {
            Kind::Erosion => (1, 0),
            Kind::Dilation => (2, 0),
            Kind::Cropped => (1, 1),
        }
    }

    /// The kind of run whose record has these two words, if any has.
    pub fn of_words(kind: u64, edge_rule: u64) -> Option<Kind> {
        let words = (kind, edge_rule);
        Kind::ALL.into_iter().find(|kind| kind.words() == words)
    }

    /// The largest cap, 0 where the run works on the frame itself.
    pub fn most_cap(self) -> u64 {
        match self {
            Kind::Erosion => 0,
            Kind::Dilation | Kind::Cropped => 2047,
        }
    }

    pub fn has_cap(self) -> bool {
        self.most_cap() > 0
    }

    /// The start levels on the foreground, on the frame's background, and elsewhere on the canvas.
    pub fn start_levels(self) -> [u16; 3] {
        match self {
            Kind::Erosion => [NOTHING_FOUND, 0, 0],
            Kind::Dilation => [1, NOTHING_FOUND, NOTHING_FOUND],
            Kind::Cropped => [NOTHING_FOUND, 1, NOTHING_FOUND],
        }
    }

    /// What a partner beyond the area reads.
    pub fn beyond(self) -> u16 {
        match self {
            Kind::Erosion => 0,
            Kind::Dilation | Kind::Cropped => NOTHING_FOUND,
        }
    }

    /// The partner of x that a point b of the element makes.
    pub fn partner(self, x: Point, b: Point) -> Point {
        let sign = match self {
            Kind::Erosion | Kind::Cropped => 1,
            Kind::Dilation => -1,
        };
        Point {
            column: x.column + sign * b.column,
            row: x.row + sign * b.row,
        }
    }

    /// A level of the run as it is collected.
    pub fn collected(self, cap: u64, level: u16) -> u16 {
        let none_up_to_cap = u64::from(level) > cap + 1;
        match self {
            Kind::Erosion => level,
            Kind::Dilation if none_up_to_cap => 0,
            Kind::Dilation => level,
            Kind::Cropped if none_up_to_cap => NOTHING_FOUND,
            Kind::Cropped => level.saturating_sub(1),
        }
    }

    /// Whether the sheet of a size holds a point where the run has this level.
    pub fn holds(self, cap: u64, size: u64, level: u16) -> bool {
        match self {
            Kind::Erosion | Kind::Cropped => u64::from(self.collected(cap, level)) > size,
            Kind::Dilation => (1..=size + 1).contains(&u64::from(level)),
        }
    }

    /// The largest size that can be thresholded at.
    pub fn most_size(self, cap: u64) -> u64 {
        match self {
            Kind::Erosion => 4096,
            Kind::Dilation | Kind::Cropped => cap,
        }
    }
}
