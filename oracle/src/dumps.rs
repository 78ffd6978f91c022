//! Short, long and damaged scene files, given to the salvage programs, and held to the oracle's own salvage.

use crate::families::{Family, Sound, any_scene, changed, drawn, fed, with, wrong_byte};
use crate::frame::parting;
use crate::generator::Generator;
use crate::kinds::{KINDS, Kind, scene};
use crate::program::{Feed, Input, Program, found, run, run_to_end};
use crate::salvage::{Salvaged, salvaged};
use crate::scene::{COUNTER, COUNTS, FIELD, SIZE, read, start};
use std::ops::Range;

const FAMILIES: [Family; 20] = [
    Family {
        name: "sound scenes of every kind",
        inputs: KINDS.len() * 60,
        make: |sound, k| Input::whole(any_scene(sound, k)),
    },
    Family {
        name: "a bit flipped outside counts, counter and field",
        inputs: KINDS.len() * 60,
        make: |sound, k| {
            let mut bytes = any_scene(sound, k);
            let mut numbers = drawn(sound, k);
            let reach = [SIZE, 1200][k / KINDS.len() % 2];
            let places: Vec<usize> = (0..reach).filter(|at| !named(*at)).collect();
            bytes[places[any(&mut numbers, places.len())]] ^= 1 << numbers.below(8);
            Input::whole(bytes)
        },
    },
    Family {
        name: "each length near an edge, of scenes of every kind",
        inputs: LENGTHS * KINDS.len(),
        make: |sound, k| {
            let bytes = any_scene(sound, k % KINDS.len());
            Input::whole(resized(sound, bytes, near(k / KINDS.len()), k))
        },
    },
    Family {
        name: "each length near an edge, all wrong",
        inputs: LENGTHS * 3,
        make: |sound, k| {
            let mut numbers = drawn(sound, k);
            let byte = |_| [255, 1 + numbers.below(255) as u8, 17][k % 3];
            let bytes = (0..SIZE).map(byte).collect();
            Input::whole(resized(sound, bytes, near(k / 3), k))
        },
    },
    Family {
        name: "cut at any place",
        inputs: 1000,
        make: |sound, k| {
            let mut numbers = drawn(sound, k);
            let mut bytes = any_scene(sound, k);
            let reach = [SIZE, 1300][any(&mut numbers, 2)];
            bytes.truncate(any(&mut numbers, reach));
            Input::whole(bytes)
        },
    },
    Family {
        name: "lengthened",
        inputs: MORE * TAILS,
        make: |sound, k| Input::whole(lengthened(sound, more(k / TAILS), k)),
    },
    Family {
        name: "lengthened by megabytes",
        inputs: MEGABYTES.len(),
        make: |sound, k| Input::whole(lengthened(sound, MEGABYTES[k], k)),
    },
    Family {
        name: "each byte of each count",
        inputs: 16 * 255,
        make: wrong_byte,
    },
    Family {
        name: "counts of other values",
        inputs: 4 * VALUES,
        make: |sound, k| with(sound, |bytes| set_count(bytes, k / VALUES, k % VALUES)),
    },
    Family {
        name: "several counts",
        inputs: 15 * 40,
        make: |sound, k| {
            let mut numbers = drawn(sound, k);
            with(sound, |bytes| {
                for section in (0..4).filter(|section| (k % 15 + 1) >> section & 1 == 1) {
                    set_count(bytes, section, any(&mut numbers, VALUES));
                }
            })
        },
    },
    Family {
        name: "each counter",
        inputs: 256,
        make: |sound, k| changed(sound, &[(COUNTER, k as u8)]),
    },
    Family {
        name: "each field",
        inputs: 256,
        make: |sound, k| changed(sound, &[(FIELD, k as u8)]),
    },
    Family {
        name: "counter and field",
        inputs: 256 * 3,
        make: |sound, k| {
            let field = [k % 5, k * 67 % 256, 255 - k % 256][k / 256];
            changed(sound, &[(COUNTER, k as u8), (FIELD, field as u8)])
        },
    },
    Family {
        name: "cut around the counter and the field",
        inputs: 12 * 30,
        make: |sound, k| {
            let counter = [0, 16, 17, 18, 32, 255][k / 12 % 6];
            let field = [0, 1, 2, 3, 255][k / 72];
            let mut input = changed(sound, &[(COUNTER, counter), (FIELD, field)]);
            input.bytes.truncate(COUNTER - 4 + k % 12);
            input
        },
    },
    Family {
        name: "several damages with a cut or a tail",
        inputs: 1500,
        make: |sound, k| Input::whole(several(sound, k)),
    },
    Family {
        name: "random bytes",
        inputs: 1000,
        make: |sound, k| Input::whole(noise(sound, k)),
    },
    Family {
        name: "one byte over and over",
        inputs: (LENGTHS + 20) * 3,
        make: |sound, k| {
            let byte = [0, 255, any(&mut drawn(sound, k), 256) as u8][k % 3];
            let length = match (k / 3).checked_sub(LENGTHS) {
                None => near(k / 3),
                Some(n) => SIZE + (n + 1) * 33_333,
            };
            Input::whole(vec![byte; length])
        },
    },
    Family {
        name: "from a file",
        inputs: 600,
        make: |sound, k| Input::stored(mixed(sound, k)),
    },
    Family {
        name: "one byte at a time",
        inputs: 10,
        make: |sound, k| Input {
            bytes: match k {
                0 => sound.bytes.clone(),
                1 => sound.bytes[..SIZE - 1].to_vec(),
                2 => lengthened(sound, 1, 1),
                3 => lengthened(sound, 5000, 1),
                4 => changed(sound, &[(COUNTER, 17), (FIELD, 255)]).bytes,
                _ => mixed(sound, k),
            },
            feed: Feed::Pieces(vec![1]),
        },
    },
    Family {
        name: "in pieces, with pauses",
        inputs: 300,
        make: |sound, k| Input {
            bytes: mixed(sound, k),
            feed: Feed::Pieces(pieces(sound, k)),
        },
    },
];

/// Files of which nearly all is a hole: the number of bytes that are cut off takes more than 32 bits.
const HUGE: Family = Family {
    name: "more than four gigabytes, from a file",
    inputs: 2,
    make: |sound, k| {
        let mut input = changed(sound, &[(COUNTER, 17), (FIELD, 2)]);
        input.feed = Feed::Stored(SIZE as u64 + (1 << 32) + [0, 5][k]);
        input
    },
};

/// The lengths near an edge: up to 6 bytes from where a count begins or ends or a section ends, and all
/// below 63.
const NEAR: [Range<usize>; 4] = [0..63, 594..611, 1110..1127, SIZE - 6..SIZE + 7];
const LENGTHS: usize = 63 + 17 + 17 + 13;

fn near(k: usize) -> usize {
    NEAR.into_iter().flatten().nth(k).unwrap()
}

/// By how many bytes a scene is lengthened: 1 to 64, and from 3 less to 3 more than some numbers.
const MORE: usize = 64 + 7 * AROUND;

fn more(k: usize) -> usize {
    match k.checked_sub(64) {
        None => k + 1,
        Some(k) => around(k / 7) + k % 7 - 3,
    }
}

/// Numbers with which the digits become more, and others; multiples of 4,096, of 65,536 and of a scene's
/// length; and what makes the whole file a multiple of 4,096 or of 65,536.
const AROUND: usize = 34;

fn around(k: usize) -> usize {
    match k {
        0..6 => [100, 256, 1000, 10_000, 100_000, 200_000][k],
        6..21 => 4096 * (k - 5),
        21..26 => 65_536 * (k - 20),
        26..30 => SIZE * (k - 25),
        30 => 17 * 4096 - SIZE,
        _ => 65_536 * (k - 29) - SIZE,
    }
}

const MEGABYTES: [usize; 8] = [
    999_999, 1_000_000, 1_048_576, 3_333_333, 9_999_999, 10_000_000, 16_777_216, 16_777_217,
];

/// Any number below n.
fn any(numbers: &mut Generator, n: usize) -> usize {
    let [high, low] = [(); 2].map(|_| numbers.below(65536) as usize);
    (high * 65536 + low) % n
}

/// Whether a byte belongs to a count, or is the counter or the field.
fn named(at: usize) -> bool {
    let in_count = |k| (start(k)..start(k) + 4).contains(&at);
    at == COUNTER || at == FIELD || (0..4).any(in_count)
}

/// What comes after a scene's end: zeros, any bytes, the scene again, the largest bytes.
const TAILS: usize = 4;

fn lengthened(sound: &Sound, more: usize, k: usize) -> Vec<u8> {
    resized(sound, sound.bytes.clone(), SIZE + more, k)
}

/// Some bytes, cut to a length or lengthened to it.
fn resized(sound: &Sound, mut bytes: Vec<u8>, length: usize, k: usize) -> Vec<u8> {
    bytes.truncate(length);
    let more = length - bytes.len();
    let mut numbers = drawn(sound, k);
    match k % TAILS {
        0 => bytes.resize(length, 0),
        1 => bytes.extend((0..more).map(|_| numbers.below(256) as u8)),
        2 => bytes.extend(sound.bytes.iter().cycle().take(more)),
        _ => bytes.resize(length, 255),
    }
    bytes
}

/// The values that a count is given: ten of its own, then 0, powers of ten and what is one less.
const VALUES: usize = 10 + 20;

/// Gives count k a value.
fn set_count(bytes: &mut [u8], k: usize, value: usize) {
    let right = COUNTS[k] as u32;
    let value = match value {
        0 => right - 1,
        1 => right + 1,
        2 => u32::MAX,
        3 => u32::MAX - 1,
        4 => right.swap_bytes(),
        5 => right * 2,
        6 => right | 0x8000_0000,
        7 => right + 0x1_0000,
        8 => COUNTS[(k + 1) % 4] as u32,
        9 => right - right % 256 + 255,
        n => 10_u32.pow((n as u32 - 10) / 2) - (n as u32 % 2 == 0) as u32,
    };
    bytes[start(k)..start(k) + 4].copy_from_slice(&value.to_le_bytes());
}

/// One to six damages of a scene, then a cut, a tail or neither.
fn several(sound: &Sound, k: usize) -> Vec<u8> {
    let mut numbers = drawn(sound, k);
    let mut bytes = any_scene(sound, k);
    for _ in 0..1 + numbers.below(6) {
        let drawn = any(&mut numbers, 1 << 24);
        match numbers.below(6) {
            0..3 => set_count(&mut bytes, drawn % 4, drawn / 4 % VALUES),
            3 => bytes[COUNTER] = drawn as u8,
            4 => bytes[FIELD] = drawn as u8,
            _ => bytes[drawn % SIZE] = numbers.below(256) as u8,
        }
    }
    let length = match numbers.below(8) {
        0 => SIZE,
        1 | 2 => near(any(&mut numbers, LENGTHS)),
        3 => any(&mut numbers, SIZE),
        4 => SIZE + any(&mut numbers, 200_000),
        _ => SIZE + more(any(&mut numbers, MORE)),
    };
    resized(sound, bytes, length, k)
}

/// Any bytes of any length, up to the first sections, up to a scene, or far above. In some of them counts
/// are right.
fn noise(sound: &Sound, k: usize) -> Vec<u8> {
    let mut numbers = drawn(sound, k);
    let length = match numbers.below(4) {
        0 => any(&mut numbers, 1300),
        1 => any(&mut numbers, SIZE),
        2 => SIZE,
        _ => SIZE + any(&mut numbers, 200_000),
    };
    let mut bytes: Vec<u8> = (0..length).map(|_| numbers.below(256) as u8).collect();
    let right = numbers.below(16);
    for section in (0..4).filter(|section| right >> section & 1 == 1) {
        let place = start(section)..start(section) + 4;
        if place.end <= length {
            bytes[place.clone()].copy_from_slice(&sound.bytes[place]);
        }
    }
    bytes
}

/// Sound scenes, cuts, tails, several damages and random bytes.
fn mixed(sound: &Sound, k: usize) -> Vec<u8> {
    let mut numbers = drawn(sound, k);
    match k % 6 {
        0 => any_scene(sound, k / 6),
        1 => sound.bytes[..any(&mut numbers, SIZE)].to_vec(),
        2 => lengthened(sound, more(any(&mut numbers, MORE)), k / 6),
        3 => lengthened(sound, k / 6 + 1, k / 6),
        4 => several(sound, k),
        _ => noise(sound, k / 6),
    }
}

/// Pieces of any sizes, with a pause now and then; or two pieces that part near an edge, with a pause.
fn pieces(sound: &Sound, k: usize) -> Vec<usize> {
    let mut numbers = drawn(sound, k);
    if k / 6 % 2 == 0 {
        let mut sizes = vec![near(any(&mut numbers, LENGTHS))];
        sizes.extend([0; 20]);
        sizes.push(usize::MAX);
        return sizes;
    }
    let reach = [7, 60, 600, 6000][k / 12 % 4];
    let mut sizes: Vec<usize> = (0..97).map(|_| 1 + numbers.below(reach) as usize).collect();
    sizes.push(0);
    sizes
}

struct Programs {
    lines: Program,
    scene: Program,
    check: Program,
}

/// The oracle's salvage, held to its scene reader: this takes what is salvaged; a file that it takes has no
/// lines and comes out equal, and any other file has lines.
fn wanted(input: &Input) -> Result<Salvaged, String> {
    let wants = salvaged(&input.bytes, input.length());
    let whole = input.length() == input.bytes.len() as u64;
    let sound = whole && read(&input.bytes).is_ok();
    let kept = wants.bytes == input.bytes;
    if read(&wants.bytes).is_err() || sound != wants.lines.is_empty() || sound && !kept {
        return Err("the oracle's salvage and its scene reader disagree".to_string());
    }
    Ok(wants)
}

/// Looks whether a program wrote these lines. A failure says which line is another.
fn same_lines(has: &[u8], wants: &str) -> Result<(), String> {
    let has = String::from_utf8_lossy(has);
    if has == wants {
        return Ok(());
    }
    let [mut a, mut b] = [&has, wants].map(|text| text.split_inclusive('\n'));
    let mut n = 1;
    loop {
        match [a.next(), b.next()] {
            [x, y] if x == y => n += 1,
            parted => {
                let [x, y] = parted.map(|line| line.map_or("none".into(), |l| format!("{l:?}")));
                return Err(format!("line {n}: it has {x}, the oracle {y}"));
            }
        }
    }
}

fn same_bytes(has: &[u8], wants: &[u8]) -> Result<(), String> {
    match has == wants {
        true => Ok(()),
        false => Err(parting(has, wants)),
    }
}

/// The lines of a file, after both programs gave what they must, check_scene took the salvaged scene, and
/// both programs found nothing more to change in it.
fn one(programs: &Programs, input: &Input) -> Result<Vec<String>, String> {
    let wants = wanted(input)?;
    let has = run_to_end(&programs.lines, input)?;
    same_lines(&has, &wants.text()).map_err(|text| format!("salvage_lines: {text}"))?;
    let has = run_to_end(&programs.scene, input)?;
    same_bytes(&has, &wants.bytes).map_err(|text| format!("salvage_scene: {text}"))?;

    let again = Input::whole(has);
    let of_salvaged = |name, text| format!("{name}, on the salvaged scene: {text}");
    let has = run(&programs.check, &again)?;
    same_bytes(&has, b"accepted\n").map_err(|text| of_salvaged("check_scene", text))?;
    let has = run_to_end(&programs.lines, &again)?;
    same_lines(&has, "").map_err(|text| of_salvaged("salvage_lines", text))?;
    let has = run_to_end(&programs.scene, &again)?;
    same_bytes(&has, &again.bytes).map_err(|text| of_salvaged("salvage_scene", text))?;
    Ok(wants.lines)
}

/// How many files there were: all, those that were cut and filled, and those with each number of lines.
#[derive(Default)]
struct Counts {
    files: usize,
    cut: usize,
    filled: usize,
    lines: [usize; 8],
}

impl Counts {
    fn add(&mut self, lines: &[String]) {
        let has = |kind| lines.iter().any(|line| line.starts_with(kind));
        self.files += 1;
        self.cut += has("cut ") as usize;
        self.filled += has("fill ") as usize;
        self.lines[lines.len()] += 1;
    }

    fn told(&self) -> String {
        let Counts { cut, filled, .. } = self;
        let lines = self.lines.map(|files| files.to_string()).join(", ");
        format!("{cut} cut, {filled} filled; of 0 to 7 lines: {lines}")
    }
}

/// Feeds all of it, or of each family this many spread over it, and prints what was fed. A failure's input is
/// kept in a file.
pub fn all(programs: &str, seed: u32, most: Option<usize>) -> Result<(), String> {
    let programs = Programs {
        lines: found(programs, "salvage_lines")?,
        scene: found(programs, "salvage_scene")?,
        check: found(programs, "check_scene")?,
    };
    let sound = Sound {
        bytes: scene(Kind::Uniform, seed).bytes(),
        seed,
    };
    let huge = most.is_none().then_some(&HUGE);
    let most = most.unwrap_or(usize::MAX);
    let mut all = Counts::default();
    for family in FAMILIES.iter().chain(huge) {
        let mut counts = Counts::default();
        for lines in fed(family, &sound, most, "salvage", |input| {
            one(&programs, input)
        })? {
            counts.add(&lines);
            all.add(&lines);
        }
        println!("{}: {} files: {}", family.name, counts.files, counts.told());
    }
    println!(
        "all, seed {seed}: {} files to both programs, the salvaged scenes to check_scene and to both again: all right",
        all.files
    );
    println!("all, seed {seed}: {}", all.told());
    Ok(())
}
