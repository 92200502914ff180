//! Headers of tar members that are as most are. They are read by hand, since the library takes several times as long; what others are, it tells.

/// The bytes of a header, and of what data are padded to.
pub const BLOCK: usize = 512;

/// A plain file or a folder, whose name is in the header, whole.
#[derive(Debug, PartialEq)]
pub struct Plain<'a> {
    pub path: &'a [u8],
    pub is_folder: bool,
    pub size: u64,
}

impl<'a> Plain<'a> {
    /// None where this is another header, or none: a long name, a link, a damaged one, the end mark.
    pub fn of(block: &'a [u8; BLOCK]) -> Option<Self> {
        let is_folder = match block[156] {
            b'0' | 0 => false,
            b'5' => true,
            _ => return None,
        };
        let has_prefix = &block[257..265] == b"ustar\x0000" && block[345] != 0;
        let sound = octal(&block[148..156])? == checksum(block);
        (sound && !has_prefix).then_some(Plain {
            path: until_zero(&block[..100]),
            is_folder,
            size: octal(&block[124..136])?,
        })
    }

    /// What its bytes take in the archive.
    pub fn padded(&self) -> u64 {
        self.size.next_multiple_of(BLOCK as u64)
    }
}

/// The sum of the bytes, where those of the sum itself count as blanks.
fn checksum(block: &[u8; BLOCK]) -> u64 {
    sum(block) - sum(&block[148..156]) + 8 * u64::from(b' ')
}

/// The sum of bytes, a multiple of eight and at most a block: eight at a time, in four lanes of 16 bits, which 64 times twice 255 do not fill.
fn sum(bytes: &[u8]) -> u64 {
    const EVEN: u64 = 0x00FF_00FF_00FF_00FF;
    let (words, _) = bytes.as_chunks();
    let lanes = words.iter().fold(0, |lanes, word| {
        let word = u64::from_le_bytes(*word);
        lanes + (word & EVEN) + (word >> 8 & EVEN)
    });
    [0, 16, 32, 48]
        .iter()
        .map(|lane| lanes >> lane & 0xFFFF)
        .sum()
}

fn octal(field: &[u8]) -> Option<u64> {
    let digits = until_zero(field).trim_ascii();
    let digit = |sum: u64, digit: &u8| match digit {
        b'0'..=b'7' => Some(sum << 3 | u64::from(digit - b'0')),
        _ => None,
    };
    let number = digits.iter().try_fold(0, digit)?;
    (!digits.is_empty()).then_some(number)
}

fn until_zero(field: &[u8]) -> &[u8] {
    field.split(|byte| *byte == 0).next().unwrap_or_default()
}

#[cfg(test)]
mod tests {
    use super::*;
    use reference::random::Random;

    fn header(mut header: tar::Header, kind: u8) -> [u8; BLOCK] {
        header.set_path("folder/g0000001.bin").unwrap();
        header.set_size(0o1234567);
        header.set_entry_type(tar::EntryType::new(kind));
        header.set_cksum();
        *header.as_bytes()
    }

    /// What is said of a header is what the library says of it.
    fn agrees(block: &[u8; BLOCK]) -> bool {
        let Some(plain) = Plain::of(block) else {
            return false;
        };
        let header = tar::Header::from_byte_slice(block);
        let kind = header.entry_type();
        assert_eq!(plain.path, &*header.path_bytes());
        assert_eq!(plain.size, header.entry_size().unwrap());
        assert!(if plain.is_folder {
            kind.is_dir()
        } else {
            kind.is_file()
        });
        let counted = block[..148].iter().chain(&block[156..]);
        let sum: u32 = counted.map(|byte| u32::from(*byte)).sum();
        assert_eq!(header.cksum().unwrap(), sum + 8 * 32);
        true
    }

    #[test]
    fn the_library_says_the_same() {
        let mut random = Random::new(37);
        let mut plain = [0; 2];
        for _ in 0..20_000 {
            let old = [
                tar::Header::new_ustar,
                tar::Header::new_gnu,
                tar::Header::new_old,
            ];
            let kind = *random.choose(b"0\x00501257xLS");
            let mut block = header(random.choose(&old)(), kind);
            for _ in 0..random.below(3) {
                // Name, size and sum, prefix, or anywhere.
                let fields = [
                    random.below(100),
                    124 + random.below(32),
                    345,
                    random.below(BLOCK),
                ];
                block[*random.choose(&fields)] = *random.choose(b"\x00 017a/+\\\x80\xFF");
            }
            if random.below(2) == 0 {
                let mut header = tar::Header::new_old();
                header.as_mut_bytes().copy_from_slice(&block);
                header.set_cksum();
                block = *header.as_bytes();
            }
            plain[usize::from(agrees(&block))] += 1;
        }
        assert!(plain.iter().all(|count| *count > 2_000), "{plain:?}");
        assert!(!agrees(&[0; BLOCK]) && !agrees(&[0xFF; BLOCK]));
    }
}
