//! The sheets and elements that are timed.

use walugtirim::lent::Given;

/// A packed sheet with its frame.
pub struct Sheet {
    pub width: usize,
    pub height: usize,
    pub bytes: Vec<u8>,
}

impl Sheet {
    /// The sheet and an element, as the library takes them.
    pub fn given<'a>(&'a self, element: &'a Element) -> Given<'a> {
        Given {
            width: self.width as u64,
            height: self.height as u64,
            sheet: &self.bytes,
            side: element.side as u64,
            cells: &element.cells,
        }
    }

    /// Makes a pixel foreground.
    fn set(&mut self, column: usize, row: usize) {
        self.bytes[row * self.width.div_ceil(8) + column / 8] |= 0x80 >> (column % 8);
    }

    /// A map of sizes that grow with the row, as perspective asks, from 0 at the top to the cap at the bottom.
    pub fn growing_sizes(&self, cap: usize) -> Vec<u16> {
        let size_of = |row| u16::try_from(row * (cap + 1) / self.height).expect("a small cap");
        (0..self.height)
            .flat_map(|row| vec![size_of(row); self.width])
            .collect()
    }

    /// The frame in levels that have a margin around it.
    pub fn within(&self, margin: usize) -> Frame {
        Frame {
            width: self.width,
            height: self.height,
            margin,
        }
    }
}

/// A frame and the margin around it in the levels, as the C of `bench/c` takes it.
#[derive(Clone, Copy)]
#[repr(C)]
pub struct Frame {
    pub width: usize,
    pub height: usize,
    pub margin: usize,
}

impl Frame {
    /// How many levels there are.
    pub fn points(self) -> usize {
        (self.width + 2 * self.margin) * (self.height + 2 * self.margin)
    }
}

/// An element: its side, its cells, and the same as seven rows of seven.
pub struct Element {
    pub name: &'static str,
    pub side: usize,
    pub cells: Vec<u8>,
    pub flat: [u8; 49],
}

impl Element {
    pub fn reach(&self) -> usize {
        (self.side - 1) / 2
    }
}

/// The same random numbers every time (the generator called xorshift64*).
struct Dice(u64);

impl Dice {
    fn word(&mut self) -> u64 {
        self.0 ^= self.0 >> 12;
        self.0 ^= self.0 << 25;
        self.0 ^= self.0 >> 27;
        self.0.wrapping_mul(0x2545_F491_4F6C_DD1D)
    }

    fn below(&mut self, bound: usize) -> usize {
        usize::try_from(self.word() >> 33).unwrap_or(0) % bound
    }
}

/// What a sheet shows.
#[derive(Clone, Copy)]
pub enum Content {
    RandomHalf,
    TextLike,
    Full,
    Discs,
}

impl Content {
    /// What erosion runs are timed on.
    pub const ERODED: [Content; 3] = [Content::RandomHalf, Content::TextLike, Content::Full];

    /// What spectra are timed on.
    pub const COUNTED: [Content; 4] = [
        Content::RandomHalf,
        Content::TextLike,
        Content::Discs,
        Content::Full,
    ];

    pub fn name(self) -> &'static str {
        match self {
            Content::RandomHalf => "random half",
            Content::TextLike => "text-like",
            Content::Full => "full",
            Content::Discs => "discs of all sizes",
        }
    }

    pub fn sheet(self, width: usize, height: usize) -> Sheet {
        let mut sheet = Sheet {
            width,
            height,
            bytes: vec![0; height * width.div_ceil(8)],
        };
        let mut dice = Dice(0x5EED_5EED_5EED_5EED);
        match self {
            Content::RandomHalf => {
                for byte in &mut sheet.bytes {
                    *byte = dice.word().to_le_bytes()[7];
                }
            }
            Content::Full => sheet.bytes.fill(255),
            Content::TextLike => strokes(&mut sheet, &mut dice),
            Content::Discs => discs(&mut sheet),
        }
        sheet
    }
}

/// Discs of every radius up to a sixteenth of the smaller side, in rows: from the largest to the smallest, and again from
/// the largest, until one finds no room.
fn discs(sheet: &mut Sheet) {
    let largest = sheet.width.min(sheet.height) / 16;
    let (mut left, mut top, mut row_height) = (0, 0, 0);
    for radius in (1..=largest).rev().cycle() {
        // A column and a row more, so that no two touch.
        let place = 2 * radius + 2;
        if left + place > sheet.width {
            (left, top, row_height) = (0, top + row_height, 0);
        }
        row_height = row_height.max(place);
        if top + row_height > sheet.height {
            break;
        }
        for y in 0..=2 * radius {
            for x in 0..=2 * radius {
                let (across, down) = (x.abs_diff(radius), y.abs_diff(radius));
                if across * across + down * down <= radius * radius {
                    sheet.set(left + x, top + y);
                }
            }
        }
        left += place;
    }
}

/// Lines of small signs, each of a few strokes three pixels thick; about a sixth of the signs are blanks.
fn strokes(sheet: &mut Sheet, dice: &mut Dice) {
    const SIGN_WIDTH: usize = 16;
    const LINE_HEIGHT: usize = 30;
    for top in (4..sheet.height.saturating_sub(LINE_HEIGHT)).step_by(LINE_HEIGHT) {
        for left in (4..sheet.width.saturating_sub(SIGN_WIDTH)).step_by(SIGN_WIDTH) {
            if dice.below(6) == 0 {
                continue;
            }
            for _ in 0..3 {
                let (column, row) = (left + dice.below(10), top + dice.below(17));
                let (width, height) = if dice.below(2) == 0 {
                    (4 + dice.below(8), 3)
                } else {
                    (3, 6 + dice.below(14))
                };
                for y in row..(row + height).min(sheet.height) {
                    for x in column..(column + width).min(sheet.width) {
                        sheet.set(x, y);
                    }
                }
            }
        }
    }
}

fn element(name: &'static str, side: usize, cells: Vec<u8>) -> Element {
    let mut flat = [0; 49];
    let corner = 3 - (side - 1) / 2;
    for (place, cell) in cells.iter().enumerate() {
        flat[(corner + place / side) * 7 + corner + place % side] = *cell;
    }
    Element {
        name,
        side,
        cells,
        flat,
    }
}

pub fn elements() -> [Element; 3] {
    [
        element("cross", 3, vec![0, 1, 0, 1, 1, 1, 0, 1, 0]),
        element("box 3 by 3", 3, vec![1; 9]),
        element("full 7 by 7", 7, vec![1; 49]),
    ]
}
