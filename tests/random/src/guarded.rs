//! A lent slice with guard zones on both sides, so that a write beyond either end is seen.

use crate::call::Double;

/// Elements on each side: more than a row of any small sheet, so that a row too many is caught too.
const ZONE: usize = 96;

/// What a guard zone holds at each place: values that vary, so that a zone copied onto itself one further is seen.
pub trait Pattern: Copy + PartialEq {
    fn at(place: usize) -> Self;
}

impl Pattern for u8 {
    fn at(place: usize) -> u8 {
        u8::try_from((place * 151 + 89) % 256).unwrap_or(0)
    }
}

impl Pattern for u16 {
    fn at(place: usize) -> u16 {
        u16::try_from((place * 40503 + 12345) % 65536).unwrap_or(0)
    }
}

impl Pattern for u64 {
    fn at(place: usize) -> u64 {
        (place as u64).wrapping_mul(0x9E37_79B9_7F4A_7C15) ^ 0x5555
    }
}

impl Pattern for Double {
    fn at(place: usize) -> Double {
        Double(u64::at(place))
    }
}

pub struct Guarded<T> {
    room: Vec<T>,
    length: usize,
}

impl<T: Pattern> Guarded<T> {
    pub fn new(content: &[T]) -> Guarded<T> {
        let mut room = Vec::with_capacity(content.len() + 2 * ZONE);
        room.extend((0..ZONE).map(T::at));
        room.extend_from_slice(content);
        room.extend((ZONE..2 * ZONE).map(T::at));
        Guarded {
            room,
            length: content.len(),
        }
    }

    /// Where the lent part begins, with its count. The pointer is that of the whole room, moved past the first zone,
    /// so that a stray write is one into memory that we hold.
    pub fn lend(&mut self) -> (*mut T, usize) {
        (self.room.as_mut_ptr().wrapping_add(ZONE), self.length)
    }

    /// The lent part afterwards, or nothing where a guard zone was written.
    pub fn take(self) -> Option<Vec<T>> {
        let end = ZONE + self.length;
        let intact = (0..ZONE).all(|place| {
            self.room[place] == T::at(place) && self.room[end + place] == T::at(ZONE + place)
        });
        intact.then(|| self.room[ZONE..end].to_vec())
    }
}
