//! The calls over sticks: the judge, and the evidence for a file.

use super::{answer, put, Boundary, C4ds, Cobs, Second};
use crate::{judge_stick, own_reader, Number, Refusal, Sums, ITEM_BYTES};

/// The calls over sticks.
pub trait Sticks {
    /// 1 of a good stick.
    fn stick_judge(&self, slip: &[u8], paths: &[u8], items: &[u8]) -> u64;
    /// 0, and the item has the evidence for a file or for its first part.
    fn stick_file(&self, path: &[u8], size: u64, bytes: &[u8], item: &mut [u8]) -> u64;
    /// 0, and the item has that of a further part too.
    fn stick_more(&self, part: &[u8], item: &mut [u8]) -> u64;
}

impl Sticks for Second {
    fn stick_judge(&self, slip: &[u8], paths: &[u8], items: &[u8]) -> u64 {
        answer(judge_stick(slip, paths, items).map(|()| 1))
    }

    fn stick_file(&self, path: &[u8], size: u64, bytes: &[u8], item: &mut [u8]) -> u64 {
        answer(of_its_length(item).map(|item| {
            let reader = own_reader(path);
            let sum = Sums::of(bytes).state();
            set(item, 2, &[1, size, sum, reader, answer_of(reader, bytes)]);
            0
        }))
    }

    fn stick_more(&self, part: &[u8], item: &mut [u8]) -> u64 {
        answer(of_its_length(item).map(|item| {
            let [.., sum, reader, answered] = numbers_of(item);
            let sum = Sums::of_state(sum).followed_by(part).state();
            let too_long = answer(Err(Number::TooLong.at(0)));
            let more = reader != 0 && !part.is_empty();
            set(
                item,
                4,
                &[sum, reader, if more { too_long } else { answered }],
            );
            0
        }))
    }
}

/// An item of just the bytes that it has, or 15.
fn of_its_length(item: &mut [u8]) -> Result<&mut [u8; ITEM_BYTES], Refusal> {
    item.try_into().map_err(|_| Number::NoRoom.at(ITEM_BYTES))
}

/// The seven numbers of an item.
pub(crate) fn numbers_of(item: &[u8; ITEM_BYTES]) -> [u64; 7] {
    let mut numbers = [0; 7];
    let each = numbers.iter_mut().zip(item.as_chunks().0);
    each.for_each(|(number, bytes)| *number = u64::from_le_bytes(*bytes));
    numbers
}

/// Puts numbers into an item, from the one of this place on.
pub(crate) fn set(item: &mut [u8; ITEM_BYTES], first: usize, numbers: &[u64]) {
    put(
        &mut item[8 * first..],
        numbers.iter().map(|number| number.to_le_bytes()),
    );
}

/// What a reader answers of some bytes; 0 where there is none.
fn answer_of(reader: u64, bytes: &[u8]) -> u64 {
    match reader {
        1 => Second.check(bytes),
        2 => Second.cob_check(bytes),
        3 => Second.c4d_check(bytes),
        _ => 0,
    }
}

#[cfg(feature = "tds")]
mod linked {
    //! The library under test.

    use super::Sticks;
    use crate::boundary::linked::{lend, read, Tds};

    extern "C" {
        fn tds_stick_judge(
            slip: *const u8,
            slip_len: usize,
            names: *const u8,
            names_len: usize,
            items: *const u8,
            items_len: usize,
        ) -> u64;
        fn tds_stick_file(
            path: *const u8,
            path_len: usize,
            size: u64,
            bytes: *const u8,
            bytes_len: usize,
            item: *mut u8,
            item_len: usize,
        ) -> u64;
        fn tds_stick_more(part: *const u8, part_len: usize, item: *mut u8, item_len: usize) -> u64;
    }

    // As for the calls over figures: the slices live through each call.
    impl Sticks for Tds {
        fn stick_judge(&self, slip: &[u8], paths: &[u8], items: &[u8]) -> u64 {
            let (a, a_len) = (read(slip, &[0]), slip.len());
            let (b, b_len) = (read(paths, &[0]), paths.len());
            unsafe { tds_stick_judge(a, a_len, b, b_len, read(items, &[0]), items.len()) }
        }

        fn stick_file(&self, path: &[u8], size: u64, bytes: &[u8], item: &mut [u8]) -> u64 {
            let (len, mut some) = (item.len(), [0; 8]);
            let item = lend(item, &mut some);
            let (a, a_len) = (read(path, &[0]), path.len());
            let (b, b_len) = (read(bytes, &[0]), bytes.len());
            unsafe { tds_stick_file(a, a_len, size, b, b_len, item, len) }
        }

        fn stick_more(&self, part: &[u8], item: &mut [u8]) -> u64 {
            let (len, mut some) = (item.len(), [0; 8]);
            let item = lend(item, &mut some);
            unsafe { tds_stick_more(read(part, &[0]), part.len(), item, len) }
        }
    }
}
