//! Damaged scenes, given to the frame program and to check_scene, and held to the oracle's own reader and
//! to the Rust's plate.

use crate::families::{Family, Sound, any_scene, changed, drawn, fed, with, wrong_byte};
use crate::frame;
use crate::kinds::{KINDS, Kind, scene};
use crate::program::{Feed, Input, Program, found, run};
use crate::scene::{COUNTER, COUNTS, FIELD, SIZE, read, start};
use std::collections::BTreeMap;

const FAMILIES: [Family; 16] = [
    Family {
        name: "cut at every place",
        inputs: SIZE + 1,
        make: |sound, k| Input::whole(sound.bytes[..k].to_vec()),
    },
    Family {
        name: "bytes after the end",
        inputs: AFTER.len() * 3,
        make: after,
    },
    Family {
        name: "each byte of each count",
        inputs: 16 * 255,
        make: wrong_byte,
    },
    Family {
        name: "counts of other values",
        inputs: 4 * VALUES,
        make: |sound, k| with(sound, |bytes| set_count(bytes, k / VALUES, k % VALUES)),
    },
    Family {
        name: "two counts",
        inputs: 16 * VALUES * VALUES,
        make: |sound, k| {
            with(sound, |bytes| {
                set_count(bytes, k / 4 % 4, k / 16 % VALUES);
                set_count(bytes, k % 4, k / 16 / VALUES);
            })
        },
    },
    Family {
        name: "counters, sound fields",
        inputs: 256 * 2,
        make: |sound, k| changed(sound, &[(COUNTER, (k / 2) as u8), (FIELD, (k % 2) as u8)]),
    },
    Family {
        name: "fields, sound counters",
        inputs: 256 * 2,
        make: |sound, k| {
            changed(
                sound,
                &[(COUNTER, (k % 2 * 16) as u8), (FIELD, (k / 2) as u8)],
            )
        },
    },
    Family {
        name: "counter and field",
        inputs: 239 * 4,
        make: |sound, k| {
            let field = 2 + (k * 67 % 254) as u8;
            changed(sound, &[(COUNTER, 17 + (k / 4) as u8), (FIELD, field)])
        },
    },
    Family {
        name: "a cut around a section and a count",
        inputs: 9 * 11 * 4,
        make: |sound, k| {
            let edge = start(k / 44 / 2) + k / 44 % 2 * 4;
            let cut = (edge + k / 4 % 11).saturating_sub(5);
            with(sound, |bytes| {
                set_count(bytes, k % 4, k % VALUES);
                bytes.truncate(cut);
            })
        },
    },
    Family {
        name: "two to four damages",
        inputs: 6000,
        make: several,
    },
    Family {
        name: "each bit of counts and registers",
        inputs: (16 + 48) * 8,
        make: |sound, k| {
            let at = match k / 8 {
                n @ 0..52 => n,
                n => start((n - 52) / 4 + 1) + n % 4,
            };
            changed(sound, &[(at, sound.bytes[at] ^ 1 << (k % 8))])
        },
    },
    Family {
        name: "a bit anywhere, in scenes of every kind",
        inputs: 4500,
        make: |sound, k| {
            let mut bytes = any_scene(sound, k);
            let mut numbers = drawn(sound, k);
            let place = numbers.below(65536) * 65536 + numbers.below(65536);
            let reach = [SIZE, 1200][k / KINDS.len() % 2];
            bytes[place as usize / 8 % reach] ^= 1 << (place % 8);
            Input::whole(bytes)
        },
    },
    Family {
        name: "random bytes, sound counts first",
        inputs: 5000,
        make: noise,
    },
    Family {
        name: "one byte at a time",
        inputs: 8,
        make: |sound, k| Input {
            bytes: match k % 4 {
                0 => any_scene(sound, k / 4 * 8 + 1),
                1 => sound.bytes[..SIZE - 1].to_vec(),
                2 => [&sound.bytes[..], &[0]].concat(),
                _ => changed(sound, &[(COUNTER, 17)]).bytes,
            },
            feed: Feed::Pieces(vec![1]),
        },
    },
    Family {
        name: "in pieces, with pauses",
        inputs: 1200,
        make: pieces,
    },
    Family {
        name: "none, and without end",
        inputs: 8,
        make: long,
    },
];

/// How many bytes come after the end.
const AFTER: [usize; 16] = [
    1, 2, 3, 4, 5, 8, 48, 255, 256, 544, 4096, 65_535, 65_536, SIZE, 70_000, 1_000_000,
];

/// The values that a count is given.
const VALUES: usize = 12;

/// Gives count k a value: the right one at last.
fn set_count(bytes: &mut [u8], k: usize, value: usize) {
    let right = COUNTS[k] as u32;
    let value = match value {
        0 => right - 1,
        1 => right + 1,
        2 => 0,
        3 => u32::MAX,
        4 => right.swap_bytes(),
        5 => right * 2,
        6 => right / 2,
        7 => right | 0x8000_0000,
        8 => right + 0x1_0000,
        9 => COUNTS[(k + 1) % 4] as u32,
        10 => right + 4,
        _ => right,
    };
    bytes[start(k)..start(k) + 4].copy_from_slice(&value.to_le_bytes());
}

/// Zeros, any bytes or the scene again, after the end.
fn after(sound: &Sound, k: usize) -> Input {
    let mut numbers = drawn(sound, k);
    let more = AFTER[k / 3];
    with(sound, |bytes| match k % 3 {
        0 => bytes.resize(SIZE + more, 0),
        1 => bytes.extend((0..more).map(|_| numbers.below(256) as u8)),
        _ => bytes.extend(sound.bytes.iter().cycle().take(more)),
    })
}

/// Two to four damages of a scene, of any kinds.
fn several(sound: &Sound, k: usize) -> Input {
    let mut numbers = drawn(sound, k);
    let mut cut = None;
    let mut more = 0;
    let mut input = with(sound, |bytes| {
        for _ in 0..2 + numbers.below(3) {
            let any = numbers.below(65536) as usize;
            match numbers.below(6) {
                0 => set_count(bytes, any % 4, any / 4 % VALUES),
                1 => cut = Some((start(any % 5) + any / 5 % 12).saturating_sub(4)),
                2 => cut = Some(any * 2 % SIZE),
                3 => more = 1 + any % 70_000,
                4 => bytes[COUNTER] = any as u8,
                _ => bytes[FIELD] = any as u8,
            }
        }
    });
    input.bytes.truncate(cut.unwrap_or(SIZE).min(SIZE));
    input.bytes.resize(input.bytes.len() + more, 0x30);
    input
}

/// Any bytes of any length up to 70,000. In four of five the first counts are right, in some of these
/// all bytes are there, and in some of these the counter or the field or both are sound.
fn noise(sound: &Sound, k: usize) -> Input {
    let mut numbers = drawn(sound, k);
    let any = numbers.below(65536) as usize;
    let length = match any % 2 {
        0 => any * 70_001 / 65_536,
        _ => SIZE,
    };
    let mut bytes: Vec<u8> = (0..length).map(|_| numbers.below(256) as u8).collect();
    for section in (0..k % 5).filter(|section| start(*section) + 4 <= length) {
        set_count(&mut bytes, section, VALUES - 1);
    }
    if any / 2 % 2 == 1 && length > FIELD {
        bytes[COUNTER] %= 17;
    }
    if any / 4 % 2 == 1 && length > FIELD {
        bytes[FIELD] %= 2;
    }
    Input::whole(bytes)
}

/// Sound scenes, cuts, bytes after the end and several damages, in pieces of any sizes.
fn pieces(sound: &Sound, k: usize) -> Input {
    let mut numbers = drawn(sound, k);
    let mut input = match k % 4 {
        0 => Input::whole(any_scene(sound, k / 4)),
        1 => Input::whole(sound.bytes[..numbers.below(65536) as usize].to_vec()),
        2 => after(sound, k / 4 % (AFTER.len() * 3)),
        _ => several(sound, k),
    };
    let reach = [7, 60, 600, 6000][k / 4 % 4];
    let mut sizes: Vec<usize> = (0..97).map(|_| 1 + numbers.below(reach) as usize).collect();
    sizes.push(0);
    input.feed = Feed::Pieces(sizes);
    input
}

/// Nothing, or far too much: files of the system, and scenes with much after them.
fn long(sound: &Sound, k: usize) -> Input {
    const MUCH: usize = 16_000_000;
    let mut input = match k {
        0 | 1 => Input::whole(Vec::new()),
        2 => Input::whole(vec![0; 70_000]),
        3 => Input::whole(vec![0; MUCH]),
        4 => Input::whole(vec![0xff; MUCH]),
        5 => with(sound, |bytes| bytes.resize(MUCH, 0)),
        6 => Input::whole(sound.bytes.repeat(200)),
        _ => {
            let bad = changed(sound, &[(COUNTER, 17), (FIELD, 2)]);
            Input::whole(bad.bytes.repeat(200))
        }
    };
    match k {
        1 => input.feed = Feed::File("/dev/null"),
        2 => input.feed = Feed::File("/dev/zero"),
        _ => {}
    }
    input
}

/// The answer's number, 0 for a plate, after both programs gave it.
fn one(frame: &Program, check: &Program, input: &Input) -> Result<u8, String> {
    let refusal = read(&input.bytes).err();
    let wants = frame::answer(&input.bytes);
    let has = run(frame, input)?;
    if has != wants {
        return Err(format!("frame: {}", frame::parting(&has, &wants)));
    }
    let wants = refusal.map_or(b"accepted\n".to_vec(), frame::refused);
    let has = run(check, input)?;
    match has == wants {
        true => Ok(refusal.unwrap_or(0)),
        false => Err(format!("check_scene: {}", frame::parting(&has, &wants))),
    }
}

/// Feeds all of it, or of each family this many spread over it, and prints what was fed. A failure's input is
/// kept in a file.
pub fn all(programs: &str, seed: u32, most: usize) -> Result<(), String> {
    let frame = found(programs, "frame")?;
    let check = found(programs, "check_scene")?;
    let sound = Sound {
        bytes: scene(Kind::Picture, seed).bytes(),
        seed,
    };
    let mut all = BTreeMap::new();
    for family in &FAMILIES {
        let answers = fed(family, &sound, most, "damage", |input| {
            one(&frame, &check, input)
        })?;
        let inputs = answers.len();
        let mut counts = BTreeMap::new();
        for number in answers {
            *counts.entry(number).or_insert(0) += 1;
            *all.entry(number).or_insert(0) += 1;
        }
        println!("{}: {inputs} inputs: {}", family.name, told(&counts));
    }
    let inputs: usize = all.values().sum();
    println!(
        "all, seed {seed}: {inputs} inputs to both programs: {}",
        told(&all)
    );
    Ok(())
}

/// How often each answer was given.
fn told(counts: &BTreeMap<u8, usize>) -> String {
    let each: Vec<String> = counts
        .iter()
        .map(|(number, times)| match number {
            0 => format!("{times} plates"),
            n => format!("{times} refused {n}"),
        })
        .collect();
    each.join(", ")
}
