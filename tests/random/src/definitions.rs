//! The operations as sets of points on the infinite grid.
//!
//! This module is written from the definitions of `docs/RULES.md` and shares nothing with the scan: no rows, no partners,
//! no levels that grow from their neighbours, no canvas, and no frame until a level is asked for or foreground lies
//! beyond it. It adds sets, asks whether a moved set lies within another, and counts sizes up from 0. It is slow on
//! purpose.
//!
//! Throughout, `sheet` is the set A and `element` the set K, which always holds the origin.

/// A point of the infinite grid. Columns grow rightwards and rows downwards.
#[derive(Clone, Copy, Debug, PartialEq, Eq)]
pub struct Point {
    pub column: i64,
    pub row: i64,
}

impl Point {
    pub const ORIGIN: Point = Point { column: 0, row: 0 };

    fn plus(self, other: Point) -> Point {
        Point {
            column: self.column + other.column,
            row: self.row + other.row,
        }
    }
}

/// A finite set of points: the list of them, and a box around them with one flag for each place.
#[derive(Clone, Debug)]
pub struct Set {
    points: Vec<Point>,
    left: i64,
    top: i64,
    width: i64,
    height: i64,
    held: Vec<bool>,
}

impl Set {
    /// A set without points, and a box for points to come.
    fn empty(left: i64, top: i64, width: i64, height: i64) -> Set {
        Set {
            points: Vec::new(),
            left,
            top,
            width,
            height,
            held: vec![false; usize::try_from(width * height).unwrap_or(0)],
        }
    }

    /// The set of these points, each counted once.
    pub fn of(points: &[Point]) -> Set {
        // 0 and -1 give no points an empty box.
        let least = |part: fn(&Point) -> i64| points.iter().map(part).min().unwrap_or(0);
        let most = |part: fn(&Point) -> i64| points.iter().map(part).max().unwrap_or(-1);
        let (left, top) = (least(|p| p.column), least(|p| p.row));
        let width = most(|p| p.column) - left + 1;
        let height = most(|p| p.row) - top + 1;
        let mut set = Set::empty(left, top, width, height);
        for point in points {
            set.insert(*point);
        }
        set
    }

    /// Adds a point of the box.
    fn insert(&mut self, point: Point) {
        let place = self.place(point).expect("the box holds all its points");
        if !self.held[place] {
            self.held[place] = true;
            self.points.push(point);
        }
    }

    fn place(&self, point: Point) -> Option<usize> {
        let (column, row) = (point.column - self.left, point.row - self.top);
        if column < 0 || row < 0 || column >= self.width || row >= self.height {
            return None;
        }
        usize::try_from(row * self.width + column).ok()
    }

    pub fn holds(&self, point: Point) -> bool {
        self.place(point).is_some_and(|place| self.held[place])
    }

    pub fn is_empty(&self) -> bool {
        self.points.is_empty()
    }

    /// Whether both sets hold the same points.
    pub fn same(&self, other: &Set) -> bool {
        self.points.len() == other.points.len() && self.points.iter().all(|p| other.holds(*p))
    }

    /// All sums of a point of this set and a point of the other.
    fn plus(&self, other: &Set) -> Set {
        if self.is_empty() || other.is_empty() {
            return Set::of(&[]);
        }
        // The corners of the sum's box are the sums of the corners.
        let mut sums = Set::empty(
            self.left + other.left,
            self.top + other.top,
            self.width + other.width - 1,
            self.height + other.height - 1,
        );
        for a in &self.points {
            for b in &other.points {
                sums.insert(a.plus(*b));
            }
        }
        sums
    }

    /// The points for which a condition holds.
    fn filter(&self, condition: impl Fn(Point) -> bool) -> Set {
        let kept: Vec<Point> = self
            .points
            .iter()
            .copied()
            .filter(|p| condition(*p))
            .collect();
        Set::of(&kept)
    }
}

/// 0K: the origin alone.
fn nothing_added() -> Set {
    Set::of(&[Point::ORIGIN])
}

/// nK: the element added to itself n times.
fn multiple(element: &Set, n: u64) -> Set {
    (0..n).fold(nothing_added(), |sum, _| sum.plus(element))
}

/// A': a sheet's set together with all points beyond its frame. It has no end, so its points can't be listed.
pub struct Uncropped<'a> {
    sheet: &'a Set,
    frame: Set,
}

impl Uncropped<'_> {
    pub fn new<'a>(sheet: &'a Set, frame: &[Point]) -> Uncropped<'a> {
        Uncropped {
            sheet,
            frame: Set::of(frame),
        }
    }

    fn holds(&self, point: Point) -> bool {
        self.sheet.holds(point) || !self.frame.holds(point)
    }
}

/// Whether x + b is held for every b of a set.
fn all_held(x: Point, set: &Set, held: impl Fn(Point) -> bool) -> bool {
    set.points.iter().all(|b| held(x.plus(*b)))
}

/// Whether x + b lies in the set for every b of the other.
fn fits(x: Point, other: &Set, set: &Set) -> bool {
    all_held(x, other, |point| set.holds(point))
}

/// All x with x + b in the set for every b of the other. The other holds the origin, so every such x is itself in the
/// set.
fn erode(set: &Set, other: &Set) -> Set {
    set.filter(|x| fits(x, other, set))
}

/// Eroding by n, and nK beside it. Where eroding by a smaller size already leaves nothing, so does n, for nK only
/// grows with n; this spares the large multiples.
fn eroded_with_multiple(sheet: &Set, element: &Set, n: u64) -> (Set, Set) {
    let mut sum = nothing_added();
    for size in 0..=n {
        let kept = erode(sheet, &sum);
        if kept.is_empty() || size == n {
            return (kept, sum);
        }
        sum = sum.plus(element);
    }
    unreachable!("the loop ends at n")
}

/// Eroding by n: all x with x + b in A for every b in nK.
pub fn eroded(sheet: &Set, element: &Set, n: u64) -> Set {
    eroded_with_multiple(sheet, element, n).0
}

/// Whether eroding A' by n (all x with x + b in A' for every b in nK) holds each of the given points.
pub fn cropped_holds(sheet: &Uncropped, element: &Set, n: u64, points: &[Point]) -> Vec<bool> {
    let sum = multiple(element, n);
    points
        .iter()
        .map(|x| all_held(*x, &sum, |point| sheet.holds(point)))
        .collect()
}

/// Dilating by n: all a + b, a in A and b in nK.
pub fn dilated(sheet: &Set, element: &Set, n: u64) -> Set {
    sheet.plus(&multiple(element, n))
}

/// Dilating each point by a size of its own: the union, over the points a with their sizes n, of nK moved to a.
pub fn dilated_by_sizes(points: &[(Point, u64)], element: &Set) -> Set {
    let largest = points.iter().map(|(_, size)| *size).max().unwrap_or(0);
    // Each nK once, by its n.
    let multiples: Vec<Set> = (0..=largest).map(|n| multiple(element, n)).collect();
    let mut union = Vec::new();
    for (a, size) in points {
        let sum = &multiples[usize::try_from(*size).expect("sizes are at most 2,047")];
        union.extend(sum.points.iter().map(|b| a.plus(*b)));
    }
    Set::of(&union)
}

/// Opening by n: eroding by n, then dilating by n.
pub fn opened(sheet: &Set, element: &Set, n: u64) -> Set {
    let (kept, sum) = eroded_with_multiple(sheet, element, n);
    kept.plus(&sum)
}

/// Whether closing by n (dilating by n, then eroding by n) holds each of the given points.
pub fn closing_holds(sheet: &Set, element: &Set, n: u64, points: &[Point]) -> Vec<bool> {
    let sum = multiple(element, n);
    let grown = sheet.plus(&sum);
    points.iter().map(|x| fits(*x, &sum, &grown)).collect()
}

/// The level that belongs to a size: sizes are counted from 0 and levels from 1.
fn level_of(size: u64) -> u16 {
    u16::try_from(size + 1).expect("sizes tried are small")
}

/// At each point the largest m for which a set holds it, or 0. The set is made of the sheet eroded by n, and of nK,
/// where n is m - 1; sizes end where eroding leaves nothing.
fn largest_levels(
    sheet: &Set,
    element: &Set,
    points: &[Point],
    made_of: impl Fn(Set, &Set) -> Set,
) -> Vec<u16> {
    let mut levels = vec![0; points.len()];
    let mut sum = nothing_added();
    for size in 0.. {
        let kept = erode(sheet, &sum);
        if kept.is_empty() {
            break;
        }
        let set = made_of(kept, &sum);
        for (level, point) in levels.iter_mut().zip(points) {
            if set.holds(*point) {
                *level = level_of(size);
            }
        }
        sum = sum.plus(element);
    }
    levels
}

/// At each point the largest m for which eroding by m - 1 holds it, or 0.
pub fn erosion_levels(sheet: &Set, element: &Set, points: &[Point]) -> Vec<u16> {
    largest_levels(sheet, element, points, |kept, _| kept)
}

/// At each point the largest m for which eroding A' by m - 1 holds it, or 0; but 65,535 where eroding by the cap does.
pub fn cropped_levels(sheet: &Uncropped, element: &Set, cap: u64, points: &[Point]) -> Vec<u16> {
    let mut levels = vec![0; points.len()];
    for size in 0..=cap {
        let held = cropped_holds(sheet, element, size, points);
        for (level, _) in levels.iter_mut().zip(held).filter(|(_, held)| *held) {
            *level = if size == cap { 65535 } else { level_of(size) };
        }
    }
    levels
}

/// At each point the largest m for which opening by m - 1 holds it, or 0.
pub fn opening_levels(sheet: &Set, element: &Set, points: &[Point]) -> Vec<u16> {
    largest_levels(sheet, element, points, |kept, sum| kept.plus(sum))
}

/// At each point the least m from 1 to cap + 1 for which a condition holds, or 0. The condition is on the point, nK and
/// the sheet dilated by n, where n is m - 1.
fn least_levels(
    sheet: &Set,
    element: &Set,
    cap: u64,
    points: &[Point],
    condition: impl Fn(Point, &Set, &Set) -> bool,
) -> Vec<u16> {
    let mut levels = vec![0; points.len()];
    let mut sum = nothing_added();
    for size in 0..=cap {
        let grown = sheet.plus(&sum);
        for (level, point) in levels.iter_mut().zip(points) {
            if *level == 0 && condition(*point, &sum, &grown) {
                *level = level_of(size);
            }
        }
        sum = sum.plus(element);
    }
    levels
}

/// At each point the least m from 1 to cap + 1 for which dilating by m - 1 holds it, or 0.
pub fn dilation_levels(sheet: &Set, element: &Set, cap: u64, points: &[Point]) -> Vec<u16> {
    least_levels(sheet, element, cap, points, |x, _, grown| grown.holds(x))
}

/// At each point the least m from 1 to cap + 1 for which closing by m - 1 holds it, or 0.
pub fn closing_levels(sheet: &Set, element: &Set, cap: u64, points: &[Point]) -> Vec<u16> {
    least_levels(sheet, element, cap, points, fits)
}
