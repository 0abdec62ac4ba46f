//! What the definitions say that a whole run shows, for each kind of run.

use crate::call::Call;
use crate::definitions::{self, Point, Set, Uncropped};
use crate::kinds::Kind;
use crate::rules::{element_set, frame_points, sheet_set};

/// A started run as sets on the grid: its sheet and its element, and the points of its frame.
struct OnGrid {
    kind: Kind,
    sheet: Set,
    element: Set,
    points: Vec<Point>,
}

impl OnGrid {
    fn of(start: &Call) -> OnGrid {
        OnGrid {
            kind: Kind::started_by(start.name).expect("only starts are asked for"),
            sheet: sheet_set(start.width, start.height, &start.sheet),
            element: element_set(start.side, &start.cells),
            points: frame_points(start.width, start.height),
        }
    }

    fn uncropped(&self) -> Uncropped<'_> {
        Uncropped::new(&self.sheet, &self.points)
    }
}

/// The levels that a whole run collects.
pub fn levels(start: &Call) -> Vec<u16> {
    let run = OnGrid::of(start);
    let (sheet, element, points) = (&run.sheet, &run.element, &run.points);
    match run.kind {
        Kind::Erosion => definitions::erosion_levels(sheet, element, points),
        Kind::Dilation => definitions::dilation_levels(sheet, element, start.number, points),
        Kind::Cropped => {
            definitions::cropped_levels(&run.uncropped(), element, start.number, points)
        }
    }
}

/// Which points of the frame a whole run holds at a size.
pub fn held(start: &Call, size: u64) -> Vec<bool> {
    let run = OnGrid::of(start);
    let held_by = |set: Set| run.points.iter().map(|point| set.holds(*point)).collect();
    match run.kind {
        Kind::Erosion => held_by(definitions::eroded(&run.sheet, &run.element, size)),
        Kind::Dilation => held_by(definitions::dilated(&run.sheet, &run.element, size)),
        Kind::Cropped => {
            definitions::cropped_holds(&run.uncropped(), &run.element, size, &run.points)
        }
    }
}
