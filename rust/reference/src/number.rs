//! "A number is written in groups of seven bits, lowest first".

use crate::figures::MOST_GROUPS;

/// The largest number that a file can hold.
pub const LARGEST: u32 = (1 << (7 * MOST_GROUPS)) - 1;

/// The least number of so many groups; 1 for one group.
pub const fn least_of(groups: usize) -> u32 {
    1 << (7 * (groups - 1))
}

/// The least number of as many groups as there may be.
pub const LEAST_WIDE: u32 = least_of(MOST_GROUPS);

/// A fault of layout: cause 3, whichever it is.
#[derive(Clone, Copy, Debug, PartialEq, Eq)]
pub struct Fault;

pub type Read<T> = Result<T, Fault>;

/// Appends `number` in its shortest form.
pub fn write(number: u32, bytes: &mut Vec<u8>) {
    let mut rest = number;
    while rest >= 128 {
        bytes.push((rest & 127) as u8 | 128);
        rest >>= 7;
    }
    bytes.push(rest as u8);
}

/// A place in a file, from which numbers are read one after another.
#[derive(Clone, Debug)]
pub struct Reader<'a> {
    bytes: &'a [u8],
    at: usize,
}

impl<'a> Reader<'a> {
    pub fn new(bytes: &'a [u8]) -> Self {
        Reader { bytes, at: 0 }
    }

    /// How many bytes have been read.
    pub fn at(&self) -> usize {
        self.at
    }

    /// The bytes read since the place `start`.
    pub fn since(&self, start: usize) -> &'a [u8] {
        &self.bytes[start..self.at]
    }

    /// One number: no group is missing, none is too many, and the last one is zero only if it is the
    /// only one ("shortest form").
    pub fn number(&mut self) -> Read<u32> {
        let mut number = 0;
        for group in 0..MOST_GROUPS {
            let byte = *self.bytes.get(self.at).ok_or(Fault)?;
            self.at += 1;
            number |= u32::from(byte & 127) << (7 * group);
            if byte < 128 {
                return if byte == 0 && group > 0 {
                    Err(Fault)
                } else {
                    Ok(number)
                };
            }
        }
        Err(Fault)
    }

    /// A number with its bracket: "A figure in brackets after a file or a count is the most allowed."
    pub fn at_most(&mut self, most: u32) -> Read<u32> {
        let number = self.number()?;
        if number > most {
            return Err(Fault);
        }
        Ok(number)
    }

    /// A count, and then that many of what `item` reads.
    pub fn counted<T>(
        &mut self,
        most: u32,
        mut item: impl FnMut(&mut Self) -> Read<T>,
    ) -> Read<Vec<T>> {
        let count = self.at_most(most)?;
        (0..count).map(|_| item(self)).collect()
    }

    /// No bytes may be left over.
    pub fn finish(&self) -> Read<()> {
        if self.at == self.bytes.len() {
            Ok(())
        } else {
            Err(Fault)
        }
    }
}

#[cfg(test)]
mod tests {
    use super::*;

    fn read(bytes: &[u8]) -> Read<(u32, usize)> {
        let mut reader = Reader::new(bytes);
        let number = reader.number()?;
        Ok((number, reader.at()))
    }

    #[test]
    fn the_two_numbers_of_document_01() {
        assert_eq!(read(&[0x80, 0x01]), Ok((128, 2)));
        assert_eq!(read(&[0x80, 0x00]), Err(Fault));
    }

    #[test]
    fn the_largest_number_and_the_fifth_group() {
        assert_eq!(LARGEST, 268_435_455);
        assert_eq!(read(&[0xFF, 0xFF, 0xFF, 0x7F]), Ok((LARGEST, 4)));
        assert_eq!(read(&[0xFF, 0xFF, 0xFF, 0xFF, 0x7F]), Err(Fault));
        assert_eq!(read(&[0x80, 0x80, 0x80, 0x80, 0x01]), Err(Fault));
        assert_eq!(read(&[0x80, 0x80, 0x80, 0x80, 0x00]), Err(Fault));
    }

    #[test]
    fn the_least_number_of_four_groups() {
        assert_eq!(LEAST_WIDE, 2_097_152);
        assert_eq!(read(&[0x80, 0x80, 0x80, 0x01]), Ok((LEAST_WIDE, 4)));
        assert_eq!(read(&[0xFF, 0xFF, 0x7F]), Ok((LEAST_WIDE - 1, 3)));
        assert_eq!(read(&[0xFF, 0xFF, 0xFF, 0x00]), Err(Fault));
        assert_eq!(read(&[0x80, 0x80, 0x80, 0x00]), Err(Fault));
    }

    #[test]
    fn numbers_that_are_cut_off() {
        for length in 0..4 {
            assert_eq!(read(&[0x80; 4][..length]), Err(Fault));
            assert_eq!(read(&[0xFF; 4][..length]), Err(Fault));
        }
    }

    /// Zero, one, and the numbers around the end of each number of groups, as they are written.
    const BOUNDARIES: [(u32, &[u8]); 12] = [
        (0, &[0x00]),
        (1, &[0x01]),
        (127, &[0x7F]),
        (128, &[0x80, 0x01]),
        (129, &[0x81, 0x01]),
        (16_383, &[0xFF, 0x7F]),
        (16_384, &[0x80, 0x80, 0x01]),
        (16_385, &[0x81, 0x80, 0x01]),
        (2_097_151, &[0xFF, 0xFF, 0x7F]),
        (2_097_152, &[0x80, 0x80, 0x80, 0x01]),
        (2_097_153, &[0x81, 0x80, 0x80, 0x01]),
        (LARGEST, &[0xFF, 0xFF, 0xFF, 0x7F]),
    ];

    #[test]
    fn numbers_around_the_end_of_each_number_of_groups() {
        for (number, bytes) in BOUNDARIES {
            let mut written = Vec::new();
            write(number, &mut written);
            assert_eq!(written, bytes, "{number}");
            assert_eq!(read(bytes), Ok((number, bytes.len())));
        }
    }

    #[test]
    fn what_is_written_reads_back() {
        let small = 0..70_000;
        let large = (70_000..=LARGEST).step_by(4093).chain([LARGEST]);
        for number in small.chain(large) {
            let mut bytes = Vec::new();
            write(number, &mut bytes);
            let length = bytes.len();
            bytes.push(0xFF);
            assert_eq!(read(&bytes), Ok((number, length)));
            assert_eq!(read(&bytes[..length - 1]), Err(Fault));
        }
    }

    /// The third and the fourth of four bytes.
    const LAST_GROUPS: [[u8; 2]; 10] = [
        [0x00, 0x00],
        [0x01, 0x00],
        [0x7F, 0x00],
        [0x80, 0x00],
        [0xFF, 0x00],
        [0x80, 0x01],
        [0xFF, 0x01],
        [0x80, 0x7F],
        [0xFF, 0x7F],
        [0xFF, 0x80],
    ];

    #[test]
    fn what_reads_is_what_would_be_written() {
        let mut good = 0;
        for first in 0..=255 {
            for second in 0..=255 {
                for [third, fourth] in LAST_GROUPS {
                    let bytes = [first, second, third, fourth];
                    if let Ok((number, end)) = read(&bytes) {
                        let mut again = Vec::new();
                        write(number, &mut again);
                        assert_eq!(again, bytes[..end]);
                        good += 1;
                    }
                }
            }
        }
        assert!(good > 100_000);
    }
}
