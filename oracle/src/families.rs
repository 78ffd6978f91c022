//! Inputs of many kinds, made of a sound scene, and how they are fed.

use crate::generator::Generator;
use crate::kinds::{KINDS, scene};
use crate::program::{Input, two_at_a_time};
use crate::scene::start;
use std::env::temp_dir;
use std::process::id;

/// What inputs are made of: a sound scene, and the seed of everything that is drawn.
pub struct Sound {
    pub bytes: Vec<u8>,
    pub seed: u32,
}

/// Inputs of one kind: how many, and the one of a number.
pub struct Family {
    pub name: &'static str,
    pub inputs: usize,
    pub make: fn(&Sound, usize) -> Input,
}

pub fn drawn(sound: &Sound, k: usize) -> Generator {
    let x = (sound.seed ^ k as u32).wrapping_mul(0x85eb_ca6b);
    Generator::new(x ^ x >> 15)
}

/// A sound scene of one of the kinds.
pub fn any_scene(sound: &Sound, k: usize) -> Vec<u8> {
    let seed = sound.seed.wrapping_add((k / KINDS.len()) as u32);
    scene(KINDS[k % KINDS.len()].0, seed).bytes()
}

pub fn with(sound: &Sound, damage: impl FnOnce(&mut Vec<u8>)) -> Input {
    let mut bytes = sound.bytes.clone();
    damage(&mut bytes);
    Input::whole(bytes)
}

/// Some bytes of other values.
pub fn changed(sound: &Sound, places: &[(usize, u8)]) -> Input {
    with(sound, |bytes| {
        for (at, value) in places {
            bytes[*at] = *value;
        }
    })
}

/// A byte of a count with another value: 255 of them for each of the 16 bytes.
pub fn wrong_byte(sound: &Sound, k: usize) -> Input {
    let at = start(k / 255 / 4) + k / 255 % 4;
    let value = sound.bytes[at].wrapping_add(1 + (k % 255) as u8);
    changed(sound, &[(at, value)])
}

/// Does a job on all inputs of a family, or on this many spread over it, and hands back what they found, in
/// no order. A failure's input is kept in a file, whose name begins with the word.
pub fn fed<T: Send>(
    family: &Family,
    sound: &Sound,
    most: usize,
    word: &str,
    job: impl Fn(&Input) -> Result<T, String> + Sync,
) -> Result<Vec<T>, String> {
    let fed = family.inputs.min(most);
    let found = two_at_a_time(fed, |n| {
        let k = n * family.inputs / fed + n % (family.inputs / fed);
        job(&(family.make)(sound, k)).map_err(|text| (k, text))
    });
    found.map_err(|(k, text)| {
        let file = temp_dir().join(format!("{word}-{}", id()));
        let kept = match (family.make)(sound, k).keep(&file) {
            Ok(_) => format!("kept in {}", file.display()),
            Err(e) => format!("not kept in {}: {e}", file.display()),
        };
        format!("{}, input {k}, {kept}: {text}", family.name)
    })
}
