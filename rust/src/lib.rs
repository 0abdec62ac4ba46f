//! Erosion, dilation, opening and closing of bilevel sheets, over the verified library `libharness.a`.
//!
//! A [`Sheet`] is a set of foreground points on the infinite grid, seen through a frame; all beyond the frame is
//! background, but for [`Run::start_cropped`], where it is foreground. An [`Element`] is a small set around its origin.
//! A [`Run`] finds, at every point of the frame, up to which size an erosion keeps it or from which size a dilation
//! reaches it; it can be worked in slices of rows, and gives no picture before all its rows are done.
//! [`Run::provisional`] is a look at one under way. [`Sheet::dilate_by_map`] dilates each point by a size of its own, and
//! [`Sheet::spectrum`] counts the points of each opening level.
//!
//! ```
//! use walugtirim::{Element, Run, Sheet};
//!
//! # fn main() -> Result<(), walugtirim::Refusal> {
//! let sheet = Sheet::new(3, 3, vec![0xE0; 3]);
//! let mut run = Run::start_erosion(&sheet, &Element::cross())?;
//! while !run.continue_by(2)?.done {}
//! assert_eq!(run.collect()?, [1, 1, 1, 1, 2, 1, 1, 1, 1]);
//! # Ok(())
//! # }
//! ```
//!
//! The library judges every argument itself and refuses bad ones by number, so this crate never checks an argument for
//! it: it only allocates what the call needs. Where an argument is so wrong that nothing can be allocated for it (a
//! frame of 2^60 by 2^60, say), it lends an empty buffer, and the library gives the refusal that comes first.
#![deny(unsafe_code)]

pub mod lent;
mod refusal;
mod room;

pub use lent::Continued;
pub use refusal::Refusal;

use lent::{Given, Record, State, Summary};

/// The words of a record.
pub const RECORD_WORDS: usize = 56;

/// The largest allowance that [`Run::continue_by`] accepts.
pub const MOST_ALLOWANCE: u64 = 8192;

/// What [`Run::collect`] gives of a run that [`Run::start_cropped`] began, where the erosion level is above the cap:
/// eroding by the cap still holds the point.
pub const MORE_THAN_CAP: u16 = 65535;

/// The type of [`lent::start_dilation`] and [`lent::start_cropped`].
type CanvasStart = fn(Given, u64, &mut [u16]) -> Result<Record, Refusal>;

/// The type of [`lent::open`] and [`lent::close`].
type Filter = fn(Given, u64, &mut [u16], &mut [u16], &mut [u8]) -> Result<(), Refusal>;

/// A bilevel sheet: the raster of a raw PBM, with its frame.
///
/// Rows go from top to bottom, each padded to a whole byte; the leftmost pixel is the highest bit, and 1 is
/// foreground. Padding bits never matter. The fields may hold anything: a call on an unsound sheet is refused.
///
/// Two sheets are equal (`==`) where they have the same frame, as many bytes and the same pixels. To compare padding
/// too, compare the bytes.
#[derive(Clone, Debug)]
pub struct Sheet {
    pub width: u64,
    pub height: u64,
    pub bytes: Vec<u8>,
}

impl PartialEq for Sheet {
    fn eq(&self, other: &Sheet) -> bool {
        let shape = |sheet: &Sheet| (sheet.width, sheet.height, sheet.bytes.len());
        shape(self) == shape(other) && self.rows().eq(other.rows())
    }
}

impl Eq for Sheet {}

impl Sheet {
    /// A sheet of these packed bytes.
    #[must_use]
    pub fn new(width: u64, height: u64, bytes: Vec<u8>) -> Sheet {
        Sheet {
            width,
            height,
            bytes,
        }
    }

    /// A sheet without foreground. Its bytes are empty where the frame is out of range.
    #[must_use]
    pub fn background(width: u64, height: u64) -> Sheet {
        Sheet::new(width, height, vec![0; room::sheet_bytes(width, height)])
    }

    /// Whether the pixel is foreground; beyond the frame none is.
    #[must_use]
    pub fn pixel(&self, column: u64, row: u64) -> bool {
        self.place(column, row)
            .is_some_and(|(byte, bit)| self.bytes[byte] & bit != 0)
    }

    /// Sets or clears a pixel; beyond the frame nothing happens.
    pub fn set_pixel(&mut self, column: u64, row: u64, foreground: bool) {
        if let Some((byte, bit)) = self.place(column, row) {
            if foreground {
                self.bytes[byte] |= bit;
            } else {
                self.bytes[byte] &= !bit;
            }
        }
    }

    /// Where a pixel of the frame lies: its byte, and its bit in that byte.
    fn place(&self, column: u64, row: u64) -> Option<(usize, u8)> {
        if column >= self.width || row >= self.height {
            return None;
        }
        let byte = row
            .checked_mul(self.width.div_ceil(8))?
            .checked_add(column / 8)?;
        let byte = usize::try_from(byte).ok()?;
        (byte < self.bytes.len()).then_some((byte, 0x80 >> (column % 8)))
    }

    /// The pixels of each row: all its bytes but the last, and the last without its padding. There are no more rows than
    /// bytes, whatever the frame; where the bytes end within a row, that part of it has no padding.
    fn rows(&self) -> impl Iterator<Item = (&[u8], u8)> {
        let row_bytes = room::count(self.width.div_ceil(8));
        let height = if self.width > 0 { self.height } else { 0 };
        let padding = (8 - self.width % 8) % 8;
        let rows = self.bytes.chunks(row_bytes.max(1));
        rows.take(room::count(height)).filter_map(move |row| {
            let (last, before) = row.split_last()?;
            let whole = row.len() == row_bytes;
            Some((before, if whole { last >> padding } else { *last }))
        })
    }

    /// Reads a raw PBM file.
    ///
    /// # Errors
    /// 21, 22, 2, 23 or 24, the first in this order.
    pub fn read_pbm(file: &[u8]) -> Result<Sheet, Refusal> {
        // The raster is a part of the file, so the file's own length is room enough.
        let mut bytes = vec![0; file.len()];
        let [width, height] = lent::read_pbm(file, &mut bytes)?;
        bytes.truncate(room::sheet_bytes(width, height));
        Ok(Sheet::new(width, height, bytes))
    }

    /// Writes a raw PBM file.
    ///
    /// # Errors
    /// 2 or 3, the first in this order.
    pub fn write_pbm(&self) -> Result<Vec<u8>, Refusal> {
        let mut file = vec![0; room::pbm_bytes(self.bytes.len())];
        let length = lent::write_pbm(self.width, self.height, &self.bytes, &mut file)?;
        file.truncate(room::count(length));
        Ok(file)
    }

    /// Opens the sheet by a size, 0 to 4096: erodes by it, then dilates by it.
    ///
    /// A chain of openings with one element is one opening by its largest size, byte for byte:
    ///
    /// ```
    /// use walugtirim::{Element, Sheet};
    ///
    /// # fn main() -> Result<(), walugtirim::Refusal> {
    /// // The row 1 0 1 1 1, and the origin with its right neighbour.
    /// let sheet = Sheet::new(5, 1, vec![0xB8]);
    /// let pair = Element::new(3, vec![0, 0, 0, 0, 1, 1, 0, 0, 0]);
    /// let chained = sheet.open(&pair, 1)?.open(&pair, 2)?;
    /// assert_eq!(chained.bytes, [0x38]);
    /// assert_eq!(chained.bytes, sheet.open(&pair, 2)?.bytes);
    /// # Ok(())
    /// # }
    /// ```
    ///
    /// # Errors
    /// 2 to 8, the lowest that applies.
    pub fn open(&self, element: &Element, size: u64) -> Result<Sheet, Refusal> {
        let area = room::frame_points(self.width, self.height);
        self.filter(lent::open, element, size, area)
    }

    /// Closes the sheet by a size, 0 to 2047: dilates by it on the infinite grid, then erodes by it.
    ///
    /// A chain of closings with one element is one closing by its largest size, byte for byte, as with [`Sheet::open`].
    /// Dilations don't fold so: one that starts from what the frame shows of another misses what is reached by way of
    /// beyond it.
    ///
    /// # Errors
    /// 2 to 9, the lowest that applies.
    pub fn close(&self, element: &Element, size: u64) -> Result<Sheet, Refusal> {
        let area = room::canvas_points(self.width, self.height, element.side, size);
        self.filter(lent::close, element, size, area)
    }

    /// The opening level of every point of the frame, row by row.
    ///
    /// # Errors
    /// 2 to 7, the lowest that applies.
    pub fn opening_levels(&self, element: &Element) -> Result<Vec<u16>, Refusal> {
        let area = room::frame_points(self.width, self.height);
        let (mut work_a, mut work_b) = (vec![0; area], vec![0; area]);
        let mut levels = vec![0; area];
        lent::opening_levels(self.given(element), &mut work_a, &mut work_b, &mut levels)?;
        Ok(levels)
    }

    /// The closing level of every point of the frame, row by row, up to a cap of 0 to 2047: 0 where it is above
    /// `cap + 1`.
    ///
    /// # Errors
    /// 2 to 9, the lowest that applies.
    pub fn closing_levels(&self, element: &Element, cap: u64) -> Result<Vec<u16>, Refusal> {
        let area = room::canvas_points(self.width, self.height, element.side, cap);
        let (mut work_a, mut work_b) = (vec![0; area], vec![0; area]);
        let mut levels = vec![0; room::frame_points(self.width, self.height)];
        lent::closing_levels(
            self.given(element),
            cap,
            &mut work_a,
            &mut work_b,
            &mut levels,
        )?;
        Ok(levels)
    }

    /// The spectrum of sizes: how many points of the frame have each opening level, with the mean level over the
    /// foreground and the share of it at level 1. It tells sheets of large shapes from sheets of small ones, or of specks;
    /// `examples/spectrum.rs` draws it.
    ///
    /// ```
    /// use walugtirim::{Element, Sheet};
    ///
    /// # fn main() -> Result<(), walugtirim::Refusal> {
    /// // The row 1 0 1 1 1 and the origin with its right neighbour: the opening levels are 1 0 3 3 3.
    /// let sheet = Sheet::new(5, 1, vec![0xB8]);
    /// let pair = Element::new(3, vec![0, 0, 0, 0, 1, 1, 0, 0, 0]);
    /// let spectrum = sheet.spectrum(&pair)?;
    /// assert_eq!(spectrum.table(), [1, 1, 0, 3, 0, 0]);
    /// assert_eq!(spectrum.mean_level(), 2.5);
    /// assert_eq!(spectrum.share_at_level_one(), 0.25);
    /// # Ok(())
    /// # }
    /// ```
    ///
    /// # Errors
    /// 2 to 7, or 14 for a sheet without foreground, the lowest that applies.
    pub fn spectrum(&self, element: &Element) -> Result<Spectrum, Refusal> {
        let area = room::frame_points(self.width, self.height);
        let (mut work_a, mut work_b) = (vec![0; area], vec![0; area]);
        let mut table = vec![0; room::table_entries(self.width, self.height)];
        let summary = lent::spectrum(self.given(element), &mut work_a, &mut work_b, &mut table)?;
        Ok(Spectrum { table, summary })
    }

    /// Dilates each foreground point by a size of its own, up to a cap of 0 to 2047: gives the union, over these points,
    /// of the element added to itself so many times and moved to the point. In a picture of a road, sizes that grow
    /// towards the lower edge follow perspective; `examples/road.rs` shows that.
    ///
    /// The map has a size for each point of the frame, row by row; what stands in it at background points doesn't
    /// matter.
    ///
    /// ```
    /// use walugtirim::{Element, Sheet};
    ///
    /// # fn main() -> Result<(), walugtirim::Refusal> {
    /// // The row 0 1 0 0 0 1 0 with the sizes 0 and 1, and the origin with its right neighbour.
    /// let sheet = Sheet::new(7, 1, vec![0x44]);
    /// let pair = Element::new(3, vec![0, 0, 0, 0, 1, 1, 0, 0, 0]);
    /// let map = [9, 0, 9, 9, 9, 1, 9];
    /// assert_eq!(sheet.dilate_by_map(&pair, 1, &map)?.bytes, [0x46]);
    /// # Ok(())
    /// # }
    /// ```
    ///
    /// # Errors
    /// 2 to 10, the lowest that applies, where 10 is a map of another length; after all of these, 8 for a size above the
    /// cap at a foreground point.
    pub fn dilate_by_map(
        &self,
        element: &Element,
        cap: u64,
        map: &[u16],
    ) -> Result<Sheet, Refusal> {
        let area = room::canvas_points(self.width, self.height, element.side, cap);
        let mut work = vec![0; area];
        let mut dilated = Sheet::background(self.width, self.height);
        lent::dilate_by_map(self.given(element), cap, map, &mut work, &mut dilated.bytes)?;
        Ok(dilated)
    }

    /// Opens or closes, with work buffers of so many levels.
    fn filter(
        &self,
        call: Filter,
        element: &Element,
        size: u64,
        area: usize,
    ) -> Result<Sheet, Refusal> {
        let (mut work_a, mut work_b) = (vec![0; area], vec![0; area]);
        let mut filtered = Sheet::background(self.width, self.height);
        call(
            self.given(element),
            size,
            &mut work_a,
            &mut work_b,
            &mut filtered.bytes,
        )?;
        Ok(filtered)
    }

    fn given<'a>(&'a self, element: &'a Element) -> Given<'a> {
        Given {
            width: self.width,
            height: self.height,
            sheet: &self.bytes,
            side: element.side,
            cells: &element.bytes,
        }
    }
}

/// What [`Sheet::spectrum`] gives: how many points have each opening level, and two fractions of the foreground.
#[derive(Clone, Debug, PartialEq)]
pub struct Spectrum {
    table: Vec<u64>,
    summary: Summary,
}

impl Spectrum {
    /// The number of points of each level, from 0, the background, to the larger side of the frame. They add up to width
    /// times height.
    #[must_use]
    pub fn table(&self) -> &[u64] {
        &self.table
    }

    /// The number of points of one level; it is 0 for levels above the larger side of the frame.
    #[must_use]
    pub fn points(&self, level: u16) -> u64 {
        self.table.get(usize::from(level)).copied().unwrap_or(0)
    }

    /// The mean level over the foreground: the sum of each level times its number of points, divided by the number of
    /// foreground points. It is one division of two whole numbers that a double holds exactly.
    #[must_use]
    pub fn mean_level(&self) -> f64 {
        self.summary.mean_level
    }

    /// The share of the foreground at level 1: the number of points of level 1, divided by that of foreground points. It
    /// is one division too.
    #[must_use]
    pub fn share_at_level_one(&self) -> f64 {
        self.summary.share_at_level_one
    }
}

/// An element: a side of 3, 5 or 7 and `side * side` cells, each 0 or 1, row by row, the origin at the centre.
///
/// The fields may hold anything: a call with an unsound element is refused.
#[derive(Clone, Debug, PartialEq, Eq)]
pub struct Element {
    pub side: u64,
    pub bytes: Vec<u8>,
}

impl Element {
    /// An element of these cells.
    #[must_use]
    pub fn new(side: u64, bytes: Vec<u8>) -> Element {
        Element { side, bytes }
    }

    /// The origin and its four neighbours.
    #[must_use]
    pub fn cross() -> Element {
        Element::new(3, vec![0, 1, 0, 1, 1, 1, 0, 1, 0])
    }

    /// All nine cells of side 3.
    #[must_use]
    pub fn square() -> Element {
        Element::new(3, vec![1; 9])
    }

    /// The element turned about its origin: its cell at each `b` is this one's at `-b`.
    ///
    /// # Errors
    /// 4 to 7, the lowest that applies.
    pub fn reflect(&self) -> Result<Element, Refusal> {
        let mut bytes = vec![0; self.bytes.len()];
        lent::reflect(self.side, &self.bytes, &mut bytes)?;
        Ok(Element::new(self.side, bytes))
    }
}

/// An erosion or a dilation under way: its record and its levels.
#[derive(Clone, Debug, PartialEq, Eq)]
pub struct Run {
    record: Record,
    levels: Vec<u16>,
}

impl Run {
    /// Starts an erosion; no row is worked yet.
    ///
    /// # Errors
    /// 2 to 7, the lowest that applies.
    pub fn start_erosion(sheet: &Sheet, element: &Element) -> Result<Run, Refusal> {
        let mut levels = vec![0; room::frame_points(sheet.width, sheet.height)];
        let record = lent::start_erosion(sheet.given(element), &mut levels)?;
        Ok(Run { record, levels })
    }

    /// Starts a dilation up to a cap of 0 to 2047; no row is worked yet.
    ///
    /// # Errors
    /// 2 to 9, the lowest that applies.
    pub fn start_dilation(sheet: &Sheet, element: &Element, cap: u64) -> Result<Run, Refusal> {
        Run::start_on_canvas(lent::start_dilation, sheet, element, cap)
    }

    /// Starts the erosion of a sheet that was cropped from a larger one, up to a cap of 0 to 2047; no row is worked yet.
    ///
    /// A crop's border is no real edge, so nothing is eaten from it: all beyond the frame is foreground. Collected
    /// levels up to the cap are erosion levels, and [`MORE_THAN_CAP`] is any above it.
    ///
    /// ```
    /// use walugtirim::{Element, Run, Sheet, MORE_THAN_CAP};
    ///
    /// # fn main() -> Result<(), walugtirim::Refusal> {
    /// let mut sheet = Sheet::new(3, 3, vec![0xE0; 3]);
    /// let mut run = Run::start_cropped(&sheet, &Element::cross(), 2)?;
    /// run.finish()?;
    /// assert_eq!(run.collect()?, [MORE_THAN_CAP; 9]);
    ///
    /// sheet.set_pixel(1, 1, false);
    /// let mut run = Run::start_cropped(&sheet, &Element::cross(), 2)?;
    /// run.finish()?;
    /// assert_eq!(run.collect()?, [2, 1, 2, 1, 0, 1, 2, 1, 2]);
    /// # Ok(())
    /// # }
    /// ```
    ///
    /// # Errors
    /// 2 to 9, the lowest that applies.
    pub fn start_cropped(sheet: &Sheet, element: &Element, cap: u64) -> Result<Run, Refusal> {
        Run::start_on_canvas(lent::start_cropped, sheet, element, cap)
    }

    /// Starts a run with as many levels as the canvas of the cap has points.
    fn start_on_canvas(
        start: CanvasStart,
        sheet: &Sheet,
        element: &Element,
        cap: u64,
    ) -> Result<Run, Refusal> {
        let area = room::canvas_points(sheet.width, sheet.height, element.side, cap);
        let mut levels = vec![0; area];
        let record = start(sheet.given(element), cap, &mut levels)?;
        Ok(Run { record, levels })
    }

    /// A run as a batch system has kept it: the record and the levels of [`Run::into_parts`].
    ///
    /// Nothing is judged here; the next call on the run refuses what no start could have given. But the record has to be
    /// the one last returned, and the levels the run's own, which nothing else has written: the library can't see that. A
    /// later record beside earlier levels passes unseen, and its picture need not be one; an earlier record beside later
    /// levels passes unseen too.
    #[must_use]
    pub fn from_parts(record: [u64; RECORD_WORDS], levels: Vec<u16>) -> Run {
        Run { record, levels }
    }

    /// The record and the levels, to be kept between slices.
    #[must_use]
    pub fn into_parts(self) -> ([u64; RECORD_WORDS], Vec<u16>) {
        (self.record, self.levels)
    }

    /// The record: kind, width, height, cap, side, rows done, the 49 cells of the element, and the edge rule.
    #[must_use]
    pub fn record(&self) -> &[u64; RECORD_WORDS] {
        &self.record
    }

    /// The levels as they stand, of the frame (erosion) or of the whole canvas (dilation, cropped sheet). They are no
    /// picture: that is what [`Run::collect`] gives, once all rows are done.
    #[must_use]
    pub fn levels(&self) -> &[u16] {
        &self.levels
    }

    /// Rows worked so far.
    #[must_use]
    pub fn rows_done(&self) -> u64 {
        self.record[5]
    }

    /// Works so many rows (0 to 8192), or those still due where these are fewer. Answers whether all are done, and how
    /// many points the rows lowered; however a run is cut, its slices' numbers have the same sum.
    ///
    /// ```
    /// use walugtirim::{Element, Run, Sheet};
    ///
    /// # fn main() -> Result<(), walugtirim::Refusal> {
    /// let sheet = Sheet::new(3, 3, vec![0xE0; 3]);
    /// let mut run = Run::start_erosion(&sheet, &Element::cross())?;
    /// let (first, second) = (run.continue_by(2)?, run.continue_by(4)?);
    /// assert!(!first.done && second.done);
    /// assert_eq!((first.lowered, second.lowered), (6, 6));
    ///
    /// let mut whole = Run::start_erosion(&sheet, &Element::cross())?;
    /// assert_eq!(whole.continue_by(6)?.lowered, 12);
    /// # Ok(())
    /// # }
    /// ```
    ///
    /// # Errors
    /// 1, 10 or 12, the lowest that applies; a run that a start gave can only earn 12.
    pub fn continue_by(&mut self, allowance: u64) -> Result<Continued, Refusal> {
        lent::continue_run(&mut self.record, &mut self.levels, allowance)
    }

    /// Works all rows still due.
    ///
    /// # Errors
    /// 1 or 10, where the run is none that a start gave.
    pub fn finish(&mut self) -> Result<(), Refusal> {
        // 2 * 4096 rows at most are due, so the first slice ends it; the loop only spares the reader that proof.
        while !self.continue_by(MOST_ALLOWANCE)?.done {}
        Ok(())
    }

    /// The finished levels of the frame, row by row. A dilation's is 0 where none up to `cap + 1` was found, and that of
    /// a cropped sheet's erosion [`MORE_THAN_CAP`] where it is above the cap.
    ///
    /// # Errors
    /// 1, 10 or 13, the lowest that applies.
    pub fn collect(&self) -> Result<Vec<u16>, Refusal> {
        let mut levels = vec![0; room::frame_points(self.record[1], self.record[2])];
        lent::collect(&self.record, &self.levels, &mut levels)?;
        Ok(levels)
    }

    /// The eroded or dilated sheet of one size: up to 4096 for an erosion, up to the cap for a dilation or the erosion of
    /// a cropped sheet.
    ///
    /// # Errors
    /// 1, 8, 10 or 13, the lowest that applies.
    pub fn threshold(&self, size: u64) -> Result<Sheet, Refusal> {
        let mut sheet = Sheet::background(self.record[1], self.record[2]);
        lent::threshold(&self.record, &self.levels, size, &mut sheet.bytes)?;
        Ok(sheet)
    }

    /// A look at the sheet of one size as the levels stand: final where all rows are done, else provisional. Sizes are
    /// those of [`Run::threshold`].
    ///
    /// ```
    /// use walugtirim::{Element, Look, Run, Sheet};
    ///
    /// # fn main() -> Result<(), walugtirim::Refusal> {
    /// let sheet = Sheet::new(3, 3, vec![0xE0; 3]);
    /// let mut run = Run::start_erosion(&sheet, &Element::cross())?;
    /// run.continue_by(4)?;
    /// match run.provisional(1)? {
    ///     Look::Provisional(seen) => assert!(seen.pixel(1, 1) && seen.rows_done() == 4),
    ///     Look::Final(_) => unreachable!("6 rows are due"),
    /// }
    /// run.finish()?;
    /// assert_eq!(run.provisional(1)?, Look::Final(run.threshold(1)?));
    /// # Ok(())
    /// # }
    /// ```
    ///
    /// # Errors
    /// 1, 8 or 10, the lowest that applies.
    pub fn provisional(&self, size: u64) -> Result<Look, Refusal> {
        let mut sheet = Sheet::background(self.record[1], self.record[2]);
        let state = lent::provisional(&self.record, &self.levels, size, &mut sheet.bytes)?;
        let rows_done = self.rows_done();
        Ok(match state {
            State::Final => Look::Final(sheet),
            State::Provisional => Look::Provisional(ProvisionalSheet { sheet, rows_done }),
        })
    }

    /// The finished levels as a plain PGM file.
    ///
    /// # Errors
    /// 1, 10 or 13, the lowest that applies, as in collecting; 8 where a level is above the maximum, which only
    /// levels that no run made can be.
    pub fn write_pgm(&self) -> Result<Vec<u8>, Refusal> {
        let levels = self.collect()?;
        let mut file = vec![0; room::pgm_bytes(levels.len())];
        let length = lent::write_pgm(&self.record, &levels, &mut file)?;
        file.truncate(room::count(length));
        Ok(file)
    }
}

/// What [`Run::provisional`] shows of a run.
#[derive(Clone, Debug, PartialEq, Eq)]
pub enum Look {
    /// All rows are done: the sheet that [`Run::threshold`] gives.
    Final(Sheet),
    /// Rows are still due.
    Provisional(ProvisionalSheet),
}

/// The sheet of a run that has rows still due. It is no picture, and so no [`Sheet`]: it can be looked at, but not
/// filtered, started from or written to a file.
///
/// An erosion's, of a cropped sheet or not, holds every point of the eroded set and perhaps more; a dilation's lies
/// within the dilated set.
#[derive(Clone, Debug, PartialEq, Eq)]
pub struct ProvisionalSheet {
    sheet: Sheet,
    rows_done: u64,
}

impl ProvisionalSheet {
    /// The width of the frame.
    #[must_use]
    pub fn width(&self) -> u64 {
        self.sheet.width
    }

    /// The height of the frame.
    #[must_use]
    pub fn height(&self) -> u64 {
        self.sheet.height
    }

    /// Whether the pixel is foreground so far; beyond the frame none is.
    #[must_use]
    pub fn pixel(&self, column: u64, row: u64) -> bool {
        self.sheet.pixel(column, row)
    }

    /// The packed bytes, laid out as a [`Sheet`]'s.
    #[must_use]
    pub fn bytes(&self) -> &[u8] {
        &self.sheet.bytes
    }

    /// Rows that were worked when it was taken.
    #[must_use]
    pub fn rows_done(&self) -> u64 {
        self.rows_done
    }
}
