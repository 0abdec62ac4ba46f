//! The small sheets of `docs/RULES.md`, worked by hand, through the safe functions; and that no argument, however
//! wrong, does more than be refused.

use walugtirim::lent::{self, Given, Summary};
use walugtirim::{Element, Look, Refusal, Run, Sheet, Spectrum, MORE_THAN_CAP, RECORD_WORDS};

/// A sheet of one row, `1` being foreground.
fn row(pixels: &str) -> Sheet {
    let mut sheet = Sheet::background(pixels.len() as u64, 1);
    for (column, pixel) in pixels.chars().enumerate() {
        sheet.set_pixel(column as u64, 0, pixel == '1');
    }
    sheet
}

/// The origin with its right neighbour.
fn t() -> Element {
    Element::new(3, vec![0, 0, 0, 0, 1, 1, 0, 0, 0])
}

fn erosion(sheet: &Sheet, element: &Element) -> Vec<u16> {
    let mut run = Run::start_erosion(sheet, element).unwrap();
    run.finish().unwrap();
    run.collect().unwrap()
}

fn dilation(sheet: &Sheet, element: &Element, cap: u64) -> Vec<u16> {
    let mut run = Run::start_dilation(sheet, element, cap).unwrap();
    run.finish().unwrap();
    run.collect().unwrap()
}

/// The erosion levels of a cropped sheet.
fn cropped(sheet: &Sheet, element: &Element, cap: u64) -> Vec<u16> {
    let mut run = Run::start_cropped(sheet, element, cap).unwrap();
    run.finish().unwrap();
    run.collect().unwrap()
}

/// A sheet of 3 by 3 with its centre unset.
fn ring() -> Sheet {
    Sheet::new(3, 3, vec![0xE0, 0xA0, 0xE0])
}

fn number<T>(result: Result<T, Refusal>) -> u32 {
    result.err().map_or(0, Refusal::number)
}

#[test]
fn padding_makes_no_difference() {
    let of = |bytes: [u8; 4]| Sheet::new(9, 2, bytes.to_vec());
    let sheet = of([0xAA, 0x80, 0x55, 0x00]);
    assert_eq!(sheet, of([0xAA, 0xFF, 0x55, 0x7F]));
    // One pixel differs: in the last byte of the first row or of the second, or in the byte before it.
    assert_ne!(sheet, of([0xAA, 0x00, 0x55, 0x00]));
    assert_ne!(sheet, of([0xAA, 0x80, 0x55, 0x80]));
    assert_ne!(sheet, of([0xAB, 0x80, 0x55, 0x00]));
    assert_ne!(sheet, of([0xAA, 0x80, 0xD5, 0x00]));
    // A width of whole bytes has no padding.
    let full = Sheet::new(8, 2, vec![0xFF; 2]);
    assert_ne!(full, Sheet::new(8, 2, vec![0xFF, 0xFE]));
    // Nor do other frames or lengths make the same sheet.
    let bytes = || vec![0; 2];
    assert_ne!(Sheet::new(8, 2, bytes()), Sheet::new(7, 2, bytes()));
    assert_ne!(Sheet::new(8, 2, bytes()), Sheet::new(8, 1, bytes()));
    assert_ne!(Sheet::new(8, 2, bytes()), Sheet::new(8, 2, vec![0; 3]));
}

/// A sheet of three bytes, whatever its frame asks for.
fn three_bytes(width: u64, height: u64, bytes: [u8; 3]) -> Sheet {
    Sheet::new(width, height, bytes.to_vec())
}

#[test]
fn unsound_sheets_can_be_compared() {
    // The bytes end within the first row, so each bit is a pixel.
    for side in [1 << 60, (1 << 60) + 1, u64::MAX] {
        let sheet = three_bytes(side, side, [1, 2, 3]);
        assert_eq!(sheet, sheet.clone());
        assert_ne!(sheet, three_bytes(side, side, [1, 2, 2]));
        assert_ne!(sheet, Sheet::new(side, side, vec![1, 2]));
        assert_ne!(sheet, Sheet::new(side, side, vec![]));
    }
    // The last of three bytes has padding, and the third of four has none.
    assert_eq!(three_bytes(23, 1, [1, 2, 3]), three_bytes(23, 1, [1, 2, 2]));
    assert_ne!(three_bytes(25, 1, [1, 2, 3]), three_bytes(25, 1, [1, 2, 2]));
    // Bytes beyond the frame have no pixel, and without a width or a height none has.
    assert_eq!(three_bytes(9, 1, [1, 0, 3]), three_bytes(9, 1, [1, 0, 4]));
    assert_ne!(three_bytes(9, 1, [1, 0, 3]), three_bytes(9, 1, [2, 0, 3]));
    for (width, height) in [(0, 0), (0, u64::MAX), (u64::MAX, 0)] {
        let sheet = three_bytes(width, height, [1, 2, 3]);
        assert_eq!(sheet, three_bytes(width, height, [4, 5, 6]));
        assert_ne!(sheet, Sheet::new(width, height, vec![1, 2]));
    }
}

/// What no call can see, as the documentation of `Run::from_parts` says.
#[test]
fn a_record_beside_levels_of_another_time_passes() {
    let sheet = Sheet::new(3, 3, vec![0xE0; 3]);
    let begun = Run::start_erosion(&sheet, &Element::cross()).unwrap();
    let mut finished = begun.clone();
    finished.finish().unwrap();
    let (early_record, early_levels) = begun.into_parts();
    let (late_record, late_levels) = finished.into_parts();
    // No picture of the sheet: no row has worked on these levels.
    let picture = Run::from_parts(late_record, early_levels).collect();
    assert_eq!(picture.unwrap(), [65535; 9]);
    let again = Run::from_parts(early_record, late_levels).continue_by(6);
    assert!(again.unwrap().done);
}

#[test]
fn full_sheet_and_cross() {
    let sheet = Sheet::new(3, 3, vec![0xE0; 3]);
    let mut run = Run::start_erosion(&sheet, &Element::cross()).unwrap();
    let first = run.continue_by(4).unwrap();
    assert_eq!((first.done, first.lowered), (false, 11));
    assert_eq!(run.rows_done(), 4);
    assert_eq!(number(run.collect()), 13);
    assert_eq!(number(run.threshold(0)), 13);
    assert_eq!(number(run.write_pgm()), 13);
    assert_eq!(number(run.continue_by(8193)), 12);
    let last = run.continue_by(8192).unwrap();
    assert_eq!((last.done, last.lowered), (true, 1));
    assert_eq!(run.collect().unwrap(), [1, 1, 1, 1, 2, 1, 1, 1, 1]);
    assert_eq!(run.threshold(1).unwrap().bytes, [0, 0x40, 0]);
    assert_eq!(run.threshold(2).unwrap().bytes, [0, 0, 0]);
    let text = "P2\n# rows 6 of 6\n3 3\n3\n1 1 1\n1 2 1\n1 1 1\n";
    assert_eq!(run.write_pgm().unwrap(), text.as_bytes());
}

#[test]
fn a_blank_slice_lowers_nothing() {
    let blank = Sheet::background(9, 5);
    let mut run = Run::start_erosion(&blank, &Element::cross()).unwrap();
    assert_eq!(run.continue_by(8192).unwrap().lowered, 0);
}

#[test]
fn one_neighbour_and_its_reflection() {
    let full = row("11111");
    let mut run = Run::start_erosion(&full, &t()).unwrap();
    assert!(!run.continue_by(1).unwrap().done);
    assert_eq!(run.levels(), [65535; 5]);
    assert!(run.continue_by(1).unwrap().done);
    assert_eq!(run.collect().unwrap(), [5, 4, 3, 2, 1]);
    assert_eq!(erosion(&full, &t().reflect().unwrap()), [1, 2, 3, 4, 5]);
    assert_eq!(dilation(&row("00100"), &t(), 2), [0, 0, 1, 2, 3]);
    assert_eq!(dilation(&row("00100"), &t(), 1), [0, 0, 1, 2, 0]);
}

/// The packed bytes of a look that has to be provisional, and the rows that it was taken at.
fn provisional(run: &Run, size: u64) -> (Vec<u8>, u64) {
    match run.provisional(size).unwrap() {
        Look::Provisional(seen) => (seen.bytes().to_vec(), seen.rows_done()),
        Look::Final(_) => panic!("rows are still due"),
    }
}

#[test]
fn a_look_at_a_cut_run() {
    let mut run = Run::start_erosion(&row("11111"), &t()).unwrap();
    run.continue_by(1).unwrap();
    // Eroding by 4 holds the first point; the row that is still due has to take the other four.
    assert_eq!(provisional(&run, 4), (vec![0xF8], 1));
    assert_eq!(number(run.threshold(4)), 13);
    assert_eq!(number(run.provisional(4097)), 8);
    run.finish().unwrap();
    assert_eq!(run.threshold(4).unwrap(), row("10000"));
    assert_eq!(run.provisional(4), Ok(Look::Final(row("10000"))));

    let mut run = Run::start_dilation(&row("00100"), &t(), 2).unwrap();
    assert_eq!(provisional(&run, 2), (vec![0x20], 0));
    assert_eq!(number(run.provisional(3)), 8);
    run.finish().unwrap();
    assert_eq!(run.provisional(2), Ok(Look::Final(row("00111"))));

    let (record, mut levels) = run.into_parts();
    levels.pop();
    let short = Run::from_parts(record, levels.clone());
    assert_eq!(number(short.provisional(2)), 10);
    let foreign = Run::from_parts([0; RECORD_WORDS], levels);
    assert_eq!(number(foreign.provisional(2)), 1);
}

#[test]
fn a_crop_keeps_its_border() {
    let full = Sheet::new(3, 3, vec![0xE0; 3]);
    assert_eq!(cropped(&full, &Element::cross(), 2), [MORE_THAN_CAP; 9]);
    let levels = cropped(&ring(), &Element::cross(), 2);
    assert_eq!(levels, [2, 1, 2, 1, 0, 1, 2, 1, 2]);
    let more = MORE_THAN_CAP;
    assert_eq!(cropped(&row("11011"), &t(), 2), [2, 1, 0, more, more]);
    assert_eq!(cropped(&row("11011"), &t(), 1), [more, 1, 0, more, more]);
    // The lower point is met by way of beyond the frame, in two steps.
    let element = Element::new(3, vec![0, 0, 0, 1, 1, 0, 0, 0, 1]);
    let column = Sheet::new(1, 2, vec![0x80, 0]);
    assert_eq!(cropped(&column, &element, 2), [2, 0]);
    assert_eq!(cropped(&column, &element, 1), [more, 0]);
}

#[test]
fn a_crop_has_sheets_looks_and_a_file() {
    let mut run = Run::start_cropped(&ring(), &Element::cross(), 1).unwrap();
    // Eroding by 1 leaves the corners; before any row, the look still has what lies beside the centre.
    assert_eq!(provisional(&run, 1), (vec![0xE0, 0xA0, 0xE0], 0));
    assert_eq!(number(run.threshold(1)), 13);
    run.finish().unwrap();
    assert_eq!(run.threshold(0).unwrap(), ring());
    assert_eq!(run.threshold(1).unwrap().bytes, [0xA0, 0, 0xA0]);
    assert_eq!(number(run.threshold(2)), 8);
    assert_eq!(
        run.provisional(1),
        Ok(Look::Final(run.threshold(1).unwrap()))
    );
    let text = "P2\n# rows 10 of 10\n3 3\n65535\n65535 1 65535\n1 0 1\n65535 1 65535\n";
    assert_eq!(run.write_pgm().unwrap(), text.as_bytes());
}

#[test]
fn a_file_of_five_digits_has_room() {
    let wide = Sheet::new(4094, 1, vec![0xFF; 512]);
    let mut run = Run::start_cropped(&wide, &Element::cross(), 1).unwrap();
    run.finish().unwrap();
    // Eleven numbers of five digits to a line of at most 70 characters, each followed by a blank or a line end.
    let header = "P2\n# rows 6 of 6\n4094 1\n65535\n";
    assert_eq!(run.write_pgm().unwrap().len(), header.len() + 4094 * 6);
}

#[test]
fn an_edge_rule_belongs_to_its_kind() {
    let run = Run::start_cropped(&row("1"), &t(), 1).unwrap();
    let (record, levels) = run.into_parts();
    assert_eq!((record[0], record[3], record[55]), (1, 1, 1));
    // Kind, cap, edge rule: an erosion has no cap, a dilation background beyond.
    for (kind, cap, edge_rule, refusal) in [
        (1, 1, 1, 0),
        (2, 1, 0, 0),
        (1, 1, 0, 1),
        (2, 1, 1, 1),
        (1, 1, 2, 1),
        (1, 1, 256, 1),
        (1, 1, 257, 1),
        (1, 2048, 1, 1),
    ] {
        let mut words = record;
        (words[0], words[3], words[55]) = (kind, cap, edge_rule);
        let mut changed = Run::from_parts(words, levels.clone());
        assert_eq!(number(changed.continue_by(1)), refusal);
    }
}

#[test]
fn dilation_is_not_clipped_between_steps() {
    let element = Element::new(3, vec![0, 0, 0, 1, 1, 0, 0, 0, 1]);
    let column = Sheet::new(1, 2, vec![0x80, 0]);
    assert_eq!(dilation(&column, &element, 2), [1, 3]);
    assert_eq!(dilation(&column, &element, 1), [1, 0]);
}

#[test]
fn opening_and_closing() {
    let sheet = row("10111");
    assert_eq!(erosion(&sheet, &t()), [1, 0, 3, 2, 1]);
    assert_eq!(sheet.opening_levels(&t()).unwrap(), [1, 0, 3, 3, 3]);
    assert_eq!(sheet.open(&t(), 1).unwrap(), row("00111"));
    let ends = row("1001");
    assert_eq!(ends.closing_levels(&t(), 2).unwrap(), [1, 3, 3, 1]);
    assert_eq!(ends.closing_levels(&t(), 1).unwrap(), [1, 0, 0, 1]);
    assert_eq!(ends.close(&t(), 2).unwrap(), row("1111"));
}

#[test]
fn chained_filters_fold() {
    let open = |sheet: &Sheet, size| sheet.open(&t(), size).unwrap();
    let close = |sheet: &Sheet, size| sheet.close(&t(), size).unwrap();
    let (sheet, ends) = (row("10111"), row("1001"));
    for (first, second) in [(0, 1), (1, 0), (1, 1), (1, 2), (2, 1), (1, 3), (3, 1)] {
        let larger = first.max(second);
        let (opened, closed) = (open(&sheet, larger), close(&ends, larger));
        assert_eq!(open(&open(&sheet, first), second).bytes, opened.bytes);
        assert_eq!(close(&close(&ends, first), second).bytes, closed.bytes);
    }
    assert_eq!(open(&open(&sheet, 1), 2), row("00111"));
    assert_eq!(open(&open(&sheet, 3), 1), row("00000"));
    assert_eq!(close(&close(&ends, 1), 2), row("1111"));
}

#[test]
fn dilations_seen_in_the_frame_do_not_fold() {
    let element = Element::new(3, vec![0, 0, 0, 1, 1, 0, 0, 0, 1]);
    let column = Sheet::new(1, 2, vec![0x80, 0]);
    let dilated = |sheet: &Sheet, size| {
        let mut run = Run::start_dilation(sheet, &element, size).unwrap();
        run.finish().unwrap();
        run.threshold(size).unwrap()
    };
    assert_eq!(dilated(&dilated(&column, 1), 1), column);
    assert_eq!(dilated(&column, 2), Sheet::new(1, 2, vec![0x80, 0x80]));
}

/// The mean level, and the share of the foreground at level 1.
fn fractions(spectrum: &Spectrum) -> (f64, f64) {
    (spectrum.mean_level(), spectrum.share_at_level_one())
}

/// The table of a spectrum, counted from the opening transform.
fn counted(sheet: &Sheet, element: &Element) -> Vec<u64> {
    let larger = usize::try_from(sheet.width.max(sheet.height)).unwrap();
    let mut table = vec![0; larger + 1];
    for level in sheet.opening_levels(element).unwrap() {
        table[usize::from(level)] += 1;
    }
    table
}

#[test]
fn a_spectrum_counts_each_level() {
    let spectrum = row("10111").spectrum(&t()).unwrap();
    assert_eq!(spectrum.table(), [1, 1, 0, 3, 0, 0]);
    assert_eq!((spectrum.points(3), spectrum.points(6)), (3, 0));
    assert_eq!(fractions(&spectrum), (2.5, 0.25));
    // All points have the highest level that the table has an entry for.
    let spectrum = row("11111").spectrum(&t()).unwrap();
    assert_eq!(spectrum.table(), [0, 0, 0, 0, 0, 5]);
    assert_eq!(fractions(&spectrum), (5.0, 0.0));
    // Opening by 1 takes the four corners and leaves a cross. No double is a ninth: each fraction is rounded once.
    let full = Sheet::new(3, 3, vec![0xE0; 3]);
    let spectrum = full.spectrum(&Element::cross()).unwrap();
    assert_eq!(spectrum.table(), [0, 4, 5, 0]);
    assert_eq!(fractions(&spectrum), (14.0 / 9.0, 4.0 / 9.0));
}

#[test]
fn a_spectrum_adds_up() {
    for sheet in [
        row("10111"),
        row("1"),
        ring(),
        Sheet::new(6, 5, vec![0x7C, 0xFC, 0xFC, 0x38, 0x04]),
        // Two columns, and padding bits that are no foreground.
        Sheet::new(2, 7, vec![0xFF, 0xC0, 0x7F, 0xC0, 0xC0, 0xFF, 0x80]),
    ] {
        for element in [Element::cross(), Element::square(), t()] {
            let spectrum = sheet.spectrum(&element).unwrap();
            let points: u64 = spectrum.table().iter().sum();
            assert_eq!(points, sheet.width * sheet.height);
            assert_eq!(spectrum.table(), counted(&sheet, &element));
        }
    }
}

#[test]
fn a_sheet_without_foreground_is_judged_last() {
    // The padding bits are set.
    let (blank, sheet, element) = (Sheet::new(5, 1, vec![0x07]), row("10111"), t());
    let given = |sheet| Given {
        width: 5,
        height: 1,
        sheet,
        side: element.side,
        cells: &element.bytes,
    };
    let (mut work_a, mut work_b) = ([7; 6], [8; 6]);
    let mut table = [9; 7];
    for (bytes, levels_a, levels_b, entries, refusal) in [
        (&blank.bytes, 5, 5, 6, 14),
        (&blank.bytes, 5, 5, 7, 11),
        (&blank.bytes, 5, 6, 7, 10),
        (&blank.bytes, 4, 5, 6, 10),
        (&sheet.bytes, 5, 5, 5, 11),
        (&sheet.bytes, 5, 4, 6, 10),
        (&sheet.bytes, 6, 5, 5, 10),
    ] {
        let (a, b) = (&mut work_a[..levels_a], &mut work_b[..levels_b]);
        let answer = lent::spectrum(given(bytes), a, b, &mut table[..entries]);
        assert_eq!(number(answer), refusal);
    }
    assert_eq!((work_a, work_b, table), ([7; 6], [8; 6], [9; 7]));
    let (a, b) = (&mut work_a[..5], &mut work_b[..5]);
    let summary = lent::spectrum(given(&sheet.bytes), a, b, &mut table[..6]).unwrap();
    let expected = Summary {
        mean_level: 2.5,
        share_at_level_one: 0.25,
    };
    assert_eq!(summary, expected);
    assert_eq!((work_a, work_b), ([0, 0, 0, 0, 0, 7], [0, 0, 0, 0, 0, 8]));
    assert_eq!(table, [1, 1, 0, 3, 0, 0, 9]);
    let refusal = blank.spectrum(&element).unwrap_err();
    let sentence = "refused 14: a spectrum was asked of a sheet without foreground";
    assert_eq!(refusal.to_string(), sentence);
}

/// A map of a row: its second and sixth point have sizes, and elsewhere it holds what no cap allows.
const TWO_SIZES: [u16; 7] = [65535, 0, 65535, 65535, 65535, 1, 65535];

#[test]
fn each_point_has_its_own_size() {
    let sheet = row("0100010");
    let by_map = |cap, map: &[u16]| sheet.dilate_by_map(&t(), cap, map).unwrap();
    assert_eq!(by_map(1, &TWO_SIZES), row("0100011"));
    // A larger cap makes a larger canvas, and no other sheet.
    assert_eq!(by_map(5, &TWO_SIZES), row("0100011"));
    assert_eq!(by_map(4, &[0, 4, 0, 0, 0, 0, 0]), row("0111110"));
    // The lower point is met by way of beyond the frame, in two steps.
    let element = Element::new(3, vec![0, 0, 0, 1, 1, 0, 0, 0, 1]);
    let column = Sheet::new(1, 2, vec![0x80, 0]);
    for (size, bytes) in [(0, [0x80, 0]), (1, [0x80, 0]), (2, [0x80, 0x80])] {
        let dilated = column.dilate_by_map(&element, 2, &[size, 0]).unwrap();
        assert_eq!(dilated.bytes, bytes);
    }
}

#[test]
fn a_map_of_one_size_is_a_plain_dilation() {
    let sheet = Sheet::new(6, 5, vec![0, 0x40, 0, 0, 0x04]);
    for element in [Element::cross(), Element::square(), t()] {
        let mut run = Run::start_dilation(&sheet, &element, 3).unwrap();
        run.finish().unwrap();
        for size in 0..=3 {
            let dilated = sheet.dilate_by_map(&element, 3, &[size; 30]);
            assert_eq!(dilated, run.threshold(u64::from(size)));
        }
    }
}

#[test]
fn a_size_above_the_cap_is_judged_last() {
    let (sheet, element) = (row("0100010"), t());
    let given = Given {
        width: sheet.width,
        height: sheet.height,
        sheet: &sheet.bytes,
        side: element.side,
        cells: &element.bytes,
    };
    // The canvas of the cap 1 is 9 by 3.
    let mut work = [7; 27];
    let mut out = [0xAA; 2];
    let mut above = TWO_SIZES;
    above[5] = 2;
    for (map, levels, bytes, refusal) in [
        (&above[..], 27, 1, 8),
        (&above[..], 27, 2, 11),
        (&above[..], 26, 2, 10),
        (&above[..6], 27, 2, 10),
        (&TWO_SIZES[..6], 27, 1, 10),
    ] {
        let (work, out) = (&mut work[..levels], &mut out[..bytes]);
        let answer = lent::dilate_by_map(given, 1, map, work, out);
        assert_eq!(number(answer), refusal);
    }
    assert_eq!((work, out), ([7; 27], [0xAA; 2]));
    lent::dilate_by_map(given, 1, &TWO_SIZES, &mut work, &mut out[..1]).unwrap();
    assert_eq!((work, out), ([0; 27], [0x46, 0xAA]));
    assert_eq!(number(sheet.dilate_by_map(&element, 1, &above)), 8);
    assert_eq!(sheet.dilate_by_map(&element, 2, &above), Ok(row("0100011")));
    assert_eq!(number(sheet.dilate_by_map(&element, 1, &above[..6])), 10);
}

#[test]
fn files_go_there_and_back() {
    let sheet = Sheet::new(9, 2, vec![0xAA, 0xFF, 0x55, 0x7F]);
    let file = sheet.write_pbm().unwrap();
    assert_eq!(file, b"P4\n9 2\n\xAA\x80\x55\x00");
    let back = Sheet::read_pbm(&file).unwrap();
    assert_eq!((back.width, back.height), (9, 2));
    assert_eq!(back.bytes, [0xAA, 0x80, 0x55, 0x00]);
    for (file, refusal) in [
        (&b"P5\n1 1\n\0"[..], 21),
        (b"P4\n1 x\n\0", 22),
        (b"P4\n0 1\n\0", 2),
        (b"P4\n1 1\n", 23),
        (b"P4\n1 1\n\0\0", 24),
        (b"", 21),
    ] {
        assert_eq!(number(Sheet::read_pbm(file)), refusal);
    }
}

#[test]
fn no_argument_is_too_wrong() {
    let huge = [0, 4097, u64::MAX / 2, u64::MAX];
    for side in huge {
        let sheet = Sheet::background(side, side);
        assert_eq!(number(Run::start_erosion(&sheet, &t())), 2);
        assert_eq!(number(Run::start_dilation(&sheet, &t(), u64::MAX)), 2);
        assert_eq!(number(Run::start_cropped(&sheet, &t(), u64::MAX)), 2);
        assert_eq!(number(sheet.close(&t(), 1)), 2);
        assert_eq!(number(sheet.dilate_by_map(&t(), u64::MAX, &[])), 2);
        assert_eq!(number(sheet.spectrum(&t())), 2);
        assert_eq!(number(sheet.write_pbm()), 2);
        assert!(!sheet.pixel(0, 0));
        let element = Element::new(side, vec![1; 9]);
        assert_eq!(number(element.reflect()), 4);
        assert_eq!(number(row("1").open(&element, 1)), 4);
        assert_eq!(number(row("1").close(&element, side)), 4);
        assert_eq!(number(row("1").dilate_by_map(&element, side, &[])), 4);
        assert_eq!(number(row("0").spectrum(&element)), 4);
    }
    assert_eq!(number(row("1").open(&t(), 4097)), 8);
    assert_eq!(number(row("1").close(&t(), u64::MAX)), 8);
    assert_eq!(number(row("1").closing_levels(&t(), 2048)), 8);
    assert_eq!(number(row("1").dilate_by_map(&t(), 2048, &[])), 8);
    // A margin of 2,047 on both sides leaves room for a frame of at most 2.
    assert_eq!(number(row("111").close(&t(), 2047)), 9);
    assert_eq!(number(row("111").dilate_by_map(&t(), 2047, &[])), 9);
    assert_eq!(number(Run::start_cropped(&row("111"), &t(), 2047)), 9);
    assert_eq!(number(Run::start_cropped(&row("111"), &t(), 2048)), 8);
    let mut foreign = Run::from_parts([u64::MAX; RECORD_WORDS], vec![]);
    assert_eq!(number(foreign.continue_by(1)), 1);
    assert_eq!(number(foreign.collect()), 1);
    assert_eq!(number(foreign.threshold(0)), 1);
    assert_eq!(number(foreign.write_pgm()), 1);
}

#[test]
fn a_kept_run_goes_on() {
    let sheet = Sheet::new(5, 4, vec![0xF8, 0x78, 0xF0, 0xD8]);
    let whole = dilation(&sheet, &Element::square(), 3);
    let mut run = Run::start_dilation(&sheet, &Element::square(), 3).unwrap();
    while !run.continue_by(3).unwrap().done {
        let (record, levels) = run.into_parts();
        run = Run::from_parts(record, levels);
    }
    assert_eq!(run.collect().unwrap(), whole);
}

#[test]
fn refusals_speak() {
    let refusal = Run::start_erosion(&row("1"), &Element::new(3, vec![0; 9])).unwrap_err();
    assert_eq!(refusal.number(), 6);
    assert_eq!(refusal.to_string(), "refused 6: the element's centre is 0");
}
