//! The salvage of a scene file: the file that it leaves, and a line for each change.
//!
//! It is written from the text of request 1 of the user's later requests, with the places and numbers that
//! this names, and shares nothing with the product.

use std::io::{self, Read};

/// A salvaged file is this long.
const SIZE: usize = 66_656;
/// Where the counts stand, and what they must say.
const COUNTS: [(usize, u32); 4] = [(0, 48), (52, 544), (600, 512), (1116, 65_536)];
/// Where the counter stands, and the largest one.
const COUNTER: usize = 50;
const LARGEST: u8 = 16;
/// Where the field stands.
const FIELD: usize = 51;

pub struct Salvaged {
    /// A line for each change, in their order, without its newline.
    pub lines: Vec<String>,
    pub bytes: Vec<u8>,
}

impl Salvaged {
    /// The lines, each with its newline.
    pub fn text(&self) -> String {
        self.lines.iter().map(|line| format!("{line}\n")).collect()
    }
}

/// The salvage of a file of this length. Of the file only its first 66,656 bytes are looked at.
pub fn salvaged(file: &[u8], length: u64) -> Salvaged {
    let mut lines = Vec::new();
    let mut bytes = file[..file.len().min(SIZE)].to_vec();
    let size = SIZE as u64;
    if length > size {
        lines.push(format!("cut {size} {}", length - size));
    }
    if length < size {
        lines.push(format!("fill {length} {}", size - length));
    }
    bytes.resize(SIZE, 0);
    for (at, right) in COUNTS {
        let mut old: u32 = 0;
        for k in (0..4).rev() {
            old = old * 256 + bytes[at + k] as u32;
        }
        if old != right {
            lines.push(format!("count {at} 4 {old} {right}"));
        }
        for k in 0..4 {
            bytes[at + k] = (right >> (8 * k)) as u8;
        }
    }
    let counter = bytes[COUNTER];
    if counter > LARGEST {
        lines.push(format!("value {COUNTER} 1 {counter} {LARGEST}"));
        bytes[COUNTER] = LARGEST;
    }
    let field = bytes[FIELD];
    if field > 1 {
        lines.push(format!("value {FIELD} 1 {field} {}", field % 2));
        bytes[FIELD] = field % 2;
    }
    Salvaged { lines, bytes }
}

/// The salvage of what is read, to its end. What is cut off is counted and not kept.
pub fn read(mut input: impl Read) -> io::Result<Salvaged> {
    let mut file = Vec::new();
    let kept = input.by_ref().take(SIZE as u64).read_to_end(&mut file)?;
    let after = io::copy(&mut input, &mut io::sink())?;
    Ok(salvaged(&file, kept as u64 + after))
}

#[cfg(test)]
mod tests {
    use super::*;
    use crate::kinds::{KINDS, scene};
    use crate::scene;

    /// A sound scene of random bytes.
    fn sound() -> Vec<u8> {
        scene(KINDS[0].0, 1).bytes()
    }

    /// The sound scene with some bytes of other values.
    fn with(places: &[(usize, u8)]) -> Vec<u8> {
        let mut file = sound();
        for (at, value) in places {
            file[*at] = *value;
        }
        file
    }

    /// The file has these lines and this salvage. The scene reader takes that, and a second salvage changes
    /// nothing.
    fn becomes(file: &[u8], bytes: &[u8], lines: &[&str]) {
        let done = salvaged(file, file.len() as u64);
        assert_eq!(done.lines, lines);
        assert!(done.bytes == bytes);
        let text: String = lines.iter().map(|line| line.to_string() + "\n").collect();
        assert_eq!(done.text(), text);
        assert!(scene::read(&done.bytes).is_ok());
        let again = salvaged(&done.bytes, SIZE as u64);
        assert!(again.lines.is_empty() && again.bytes == done.bytes);
        let read = read(file).unwrap();
        assert!(read.lines == done.lines && read.bytes == done.bytes);
    }

    /// Zeros but for the counts.
    fn zeros() -> Vec<u8> {
        let mut file = vec![0; SIZE];
        file[0] = 48;
        [file[52], file[53]] = [32, 2];
        file[601] = 2;
        file[1118] = 1;
        file
    }

    #[test]
    fn the_empty_file() {
        let lines = [
            "fill 0 66656",
            "count 0 4 0 48",
            "count 52 4 0 544",
            "count 600 4 0 512",
            "count 1116 4 0 65536",
        ];
        becomes(&[], &zeros(), &lines);
    }

    #[test]
    fn sound_files_of_every_kind() {
        for (kind, _) in KINDS {
            let file = scene(kind, 1).bytes();
            becomes(&file, &file, &[]);
        }
    }

    #[test]
    fn two_bytes() {
        let lines = [
            "fill 2 66654",
            "count 52 4 0 544",
            "count 600 4 0 512",
            "count 1116 4 0 65536",
        ];
        becomes(&[0x30, 0], &zeros(), &lines);
    }

    #[test]
    fn one_byte_short() {
        let file = sound();
        let filled = with(&[(SIZE - 1, 0)]);
        becomes(&file[..SIZE - 1], &filled, &["fill 66655 1"]);
    }

    #[test]
    fn cut_within_a_count() {
        let mut filled = sound();
        filled[1120..].fill(0);
        let lines = ["fill 1118 65538", "count 1116 4 0 65536"];
        becomes(&sound()[..1118], &filled, &lines);
        becomes(&sound()[..1119], &filled, &["fill 1119 65537"]);
    }

    #[test]
    fn bytes_after_the_end() {
        let file = sound();
        for (more, line) in [(3, "cut 66656 3"), (200_000, "cut 66656 200000")] {
            let long = [&file[..], &vec![0x30; more]].concat();
            becomes(&long, &file, &[line]);
        }
        let long = salvaged(&file, SIZE as u64 + 5_000_000_000);
        assert_eq!(long.lines, ["cut 66656 5000000000"]);
    }

    #[test]
    fn counter_and_field() {
        let both = ["value 50 1 17 16", "value 51 1 255 1"];
        let right = |counter, field| with(&[(50, counter), (51, field)]);
        becomes(&right(17, 255), &right(16, 1), &both);
        becomes(&right(3, 2), &right(3, 0), &["value 51 1 2 0"]);
        becomes(&right(16, 3), &right(16, 1), &["value 51 1 3 1"]);
        becomes(&right(255, 1), &right(16, 1), &["value 50 1 255 16"]);
    }

    #[test]
    fn old_counts_of_the_highest_bytes() {
        let lines = ["count 0 4 4278190128 48", "count 1116 4 2147549184 65536"];
        becomes(&with(&[(3, 255), (1119, 128)]), &sound(), &lines);
    }

    #[test]
    fn long_and_all_wrong() {
        let mut wanted = vec![255; SIZE];
        for (at, byte) in zeros().into_iter().enumerate() {
            if (0..4)
                .chain(52..56)
                .chain(600..604)
                .chain(1116..1120)
                .any(|k| k == at)
            {
                wanted[at] = byte;
            }
        }
        [wanted[50], wanted[51]] = [16, 1];
        let lines = [
            "cut 66656 9",
            "count 0 4 4294967295 48",
            "count 52 4 4294967295 544",
            "count 600 4 4294967295 512",
            "count 1116 4 4294967295 65536",
            "value 50 1 255 16",
            "value 51 1 255 1",
        ];
        becomes(&vec![255; SIZE + 9], &wanted, &lines);
    }
}
