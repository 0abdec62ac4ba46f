//! One call of the library with everything that is lent to it.

use std::fmt;

/// The reason that a map gives a foreground point a size above the cap. Its number is 8, as the cap's own is, but it is
/// judged last, so it stands in the lists of refusals, and is counted, as one of its own.
pub const SIZE_OF_MAP: u32 = 108;

/// The number that a call refused for a reason gives; 0 where there is none.
pub fn number_of(reason: u32) -> u32 {
    match reason {
        SIZE_OF_MAP => 8,
        number => number,
    }
}

/// A double, kept as its bits: two are the same where all their bits are, also where they are no numbers, and what a
/// slice of them held is told from anything that was computed.
#[derive(Clone, Copy, PartialEq, Eq)]
#[repr(transparent)]
pub struct Double(pub u64);

impl Double {
    pub fn of(value: f64) -> Double {
        Double(value.to_bits())
    }
}

impl fmt::Debug for Double {
    fn fmt(&self, formatter: &mut fmt::Formatter) -> fmt::Result {
        write!(formatter, "{:?} ({:#018x})", f64::from_bits(self.0), self.0)
    }
}

/// The functions of the boundary.
#[derive(Clone, Copy, Debug, PartialEq, Eq)]
pub enum Name {
    StartErosion,
    StartDilation,
    StartCropped,
    Continue,
    Collect,
    Threshold,
    Provisional,
    Open,
    Close,
    OpeningLevels,
    ClosingLevels,
    Spectrum,
    DilateByMap,
    Reflect,
    ReadPbm,
    WritePbm,
    WritePgm,
}

/// The slices a call may lend.
#[derive(Clone, Copy, Debug, PartialEq, Eq)]
pub enum Field {
    Sheet,
    Cells,
    File,
    Record,
    Levels,
    Map,
    /// The first work buffer, or the only one.
    WorkA,
    WorkB,
    BytesOut,
    LevelsOut,
    WordsOut,
    Table,
    Summary,
}

impl Name {
    pub const ALL: [Name; 17] = [
        Name::StartErosion,
        Name::StartDilation,
        Name::StartCropped,
        Name::Continue,
        Name::Collect,
        Name::Threshold,
        Name::Provisional,
        Name::Open,
        Name::Close,
        Name::OpeningLevels,
        Name::ClosingLevels,
        Name::Spectrum,
        Name::DilateByMap,
        Name::Reflect,
        Name::ReadPbm,
        Name::WritePbm,
        Name::WritePgm,
    ];

    pub fn function(self) -> &'static str {
        match self {
            Name::StartErosion => "wt_start_erosion",
            Name::StartDilation => "wt_start_dilation",
            Name::StartCropped => "wt_start_cropped",
            Name::Continue => "wt_continue",
            Name::Collect => "wt_collect",
            Name::Threshold => "wt_threshold",
            Name::Provisional => "wt_provisional",
            Name::Open => "wt_open",
            Name::Close => "wt_close",
            Name::OpeningLevels => "wt_opening_levels",
            Name::ClosingLevels => "wt_closing_levels",
            Name::Spectrum => "wt_spectrum",
            Name::DilateByMap => "wt_dilate_by_map",
            Name::Reflect => "wt_reflect",
            Name::ReadPbm => "wt_read_pbm",
            Name::WritePbm => "wt_write_pbm",
            Name::WritePgm => "wt_write_pgm",
        }
    }

    /// The refusals of the call, in the order they are judged. At the C boundary an answer slice of another length
    /// than stated gives 11 at 11's place, so 11 stands in every list. `number_of` has the number of each.
    pub fn refusals(self) -> &'static [u32] {
        match self {
            Name::StartErosion => &[2, 3, 4, 5, 6, 7, 10, 11],
            Name::StartDilation | Name::StartCropped => &[2, 3, 4, 5, 6, 7, 8, 9, 10, 11],
            Name::Continue => &[1, 10, 11, 12],
            Name::Collect => &[1, 10, 11, 13],
            Name::Threshold => &[1, 8, 10, 11, 13],
            Name::Provisional => &[1, 8, 10, 11],
            Name::Open => &[2, 3, 4, 5, 6, 7, 8, 10, 11],
            Name::OpeningLevels => &[2, 3, 4, 5, 6, 7, 10, 11],
            Name::Close | Name::ClosingLevels => &[2, 3, 4, 5, 6, 7, 8, 9, 10, 11],
            Name::Spectrum => &[2, 3, 4, 5, 6, 7, 10, 11, 14],
            Name::DilateByMap => &[2, 3, 4, 5, 6, 7, 8, 9, 10, 11, SIZE_OF_MAP],
            Name::Reflect => &[4, 5, 6, 7, 11],
            Name::ReadPbm => &[21, 22, 2, 23, 24, 11],
            Name::WritePbm => &[2, 3, 11],
            Name::WritePgm => &[1, 8, 10, 11, 13],
        }
    }

    /// The slices the call lends.
    pub fn fields(self) -> &'static [Field] {
        use Field::{
            BytesOut, Cells, File, Levels, LevelsOut, Map, Record, Sheet, Summary, Table, WordsOut,
            WorkA, WorkB,
        };
        match self {
            Name::StartErosion | Name::StartDilation | Name::StartCropped => {
                &[Sheet, Cells, Levels, WordsOut]
            }
            Name::Continue => &[Record, Levels, WordsOut],
            Name::Collect => &[Record, Levels, LevelsOut],
            Name::Threshold => &[Record, Levels, BytesOut],
            Name::Open | Name::Close => &[Sheet, Cells, WorkA, WorkB, BytesOut],
            Name::OpeningLevels | Name::ClosingLevels => &[Sheet, Cells, WorkA, WorkB, LevelsOut],
            Name::Spectrum => &[Sheet, Cells, WorkA, WorkB, Table, Summary],
            Name::DilateByMap => &[Sheet, Cells, Map, WorkA, BytesOut],
            Name::Reflect => &[Cells, BytesOut],
            Name::ReadPbm => &[File, BytesOut, WordsOut],
            Name::WritePbm => &[Sheet, BytesOut, WordsOut],
            Name::Provisional | Name::WritePgm => &[Record, Levels, BytesOut, WordsOut],
        }
    }

    pub fn takes_frame(self) -> bool {
        self.fields().contains(&Field::Sheet)
    }

    pub fn takes_element(self) -> bool {
        self.fields().contains(&Field::Cells)
    }

    pub fn takes_record(self) -> bool {
        self.fields().contains(&Field::Record)
    }

    pub fn takes_map(self) -> bool {
        self.fields().contains(&Field::Map)
    }

    /// Whether the call has a number of its own, kept in `Call::number`.
    pub fn takes_number(self) -> bool {
        matches!(
            self,
            Name::StartDilation
                | Name::StartCropped
                | Name::Continue
                | Name::Threshold
                | Name::Provisional
                | Name::Open
                | Name::Close
                | Name::ClosingLevels
                | Name::DilateByMap
        )
    }

    /// Whether the call works on a canvas that its number, as a cap, decides.
    pub fn takes_cap(self) -> bool {
        matches!(
            self,
            Name::StartDilation
                | Name::StartCropped
                | Name::Close
                | Name::ClosingLevels
                | Name::DilateByMap
        )
    }
}

/// A call. Fields that the function doesn't take are empty or 0. After the call the same struct holds what the lent
/// slices have become, so two outcomes are compared field by field.
#[derive(Clone, Debug, PartialEq, Eq)]
pub struct Call {
    pub name: Name,
    pub width: u64,
    pub height: u64,
    pub side: u64,
    /// The cap, the size or the allowance.
    pub number: u64,
    pub sheet: Vec<u8>,
    pub cells: Vec<u8>,
    pub file: Vec<u8>,
    /// A record that is lent; the one that a start answers is `words_out`.
    pub record: Vec<u64>,
    pub levels: Vec<u16>,
    /// A size for each point of the frame.
    pub map: Vec<u16>,
    pub work_a: Vec<u16>,
    pub work_b: Vec<u16>,
    pub bytes_out: Vec<u8>,
    pub levels_out: Vec<u16>,
    /// A start's record, `done`, `state`, `frame` or `length`.
    pub words_out: Vec<u64>,
    /// How many points have each opening level.
    pub table: Vec<u64>,
    /// The mean opening level, and the share at level 1.
    pub summary: Vec<Double>,
}

impl Call {
    pub fn new(name: Name) -> Call {
        Call {
            name,
            width: 0,
            height: 0,
            side: 0,
            number: 0,
            sheet: Vec::new(),
            cells: Vec::new(),
            file: Vec::new(),
            record: Vec::new(),
            levels: Vec::new(),
            map: Vec::new(),
            work_a: Vec::new(),
            work_b: Vec::new(),
            bytes_out: Vec::new(),
            levels_out: Vec::new(),
            words_out: Vec::new(),
            table: Vec::new(),
            summary: Vec::new(),
        }
    }

    pub fn length(&self, field: Field) -> usize {
        match field {
            Field::Sheet => self.sheet.len(),
            Field::Cells => self.cells.len(),
            Field::File => self.file.len(),
            Field::Record => self.record.len(),
            Field::Levels => self.levels.len(),
            Field::Map => self.map.len(),
            Field::WorkA => self.work_a.len(),
            Field::WorkB => self.work_b.len(),
            Field::BytesOut => self.bytes_out.len(),
            Field::LevelsOut => self.levels_out.len(),
            Field::WordsOut => self.words_out.len(),
            Field::Table => self.table.len(),
            Field::Summary => self.summary.len(),
        }
    }

    /// Cuts a slice, or lengthens it by values that differ from one another.
    pub fn set_length(&mut self, field: Field, length: usize) {
        fn resize<T>(slice: &mut Vec<T>, length: usize, value: impl Fn(usize) -> T) {
            slice.truncate(length);
            for index in slice.len()..length {
                slice.push(value(index));
            }
        }
        let byte = |index: usize| u8::try_from(index * 37 % 251).unwrap_or(0);
        let level = |index: usize| u16::try_from(index * 7919 % 65521).unwrap_or(0);
        let word = |index: usize| index as u64 * 0x9E37_79B9 + 5;
        match field {
            Field::Sheet => resize(&mut self.sheet, length, byte),
            Field::Cells => resize(&mut self.cells, length, |_| 1),
            Field::File => resize(&mut self.file, length, byte),
            Field::Record => resize(&mut self.record, length, |_| 0),
            Field::Levels => resize(&mut self.levels, length, level),
            Field::Map => resize(&mut self.map, length, level),
            Field::WorkA => resize(&mut self.work_a, length, level),
            Field::WorkB => resize(&mut self.work_b, length, level),
            Field::BytesOut => resize(&mut self.bytes_out, length, byte),
            Field::LevelsOut => resize(&mut self.levels_out, length, level),
            Field::WordsOut => resize(&mut self.words_out, length, word),
            Field::Table => resize(&mut self.table, length, word),
            Field::Summary => resize(&mut self.summary, length, |index| Double(word(index))),
        }
    }
}
