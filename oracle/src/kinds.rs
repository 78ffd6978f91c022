//! Scenes of nine kinds, each drawn from a seed.
//!
//! Every register is drawn; then each kind has its own way with some of them, with the sprites and with
//! what the memories hold.

use crate::choice::{beside, put};
use crate::generator::Generator;
use crate::pictured;
use crate::rows::{any_registers, held, mode_of, turned};
use crate::scene::Scene;

#[derive(Clone, Copy, PartialEq)]
pub enum Kind {
    /// Every byte, forced blank in one of eight.
    Uniform,
    /// Crowds at the edges and around column 256, every size.
    Sprites,
    /// Both windows, every logic, tmw and tsw, the colour window.
    Windows,
    /// Every cgwsel in turn, every cgadsub, the sub screen.
    Math,
    /// Every size in turn, the counter above it, equal to it, below it and 0.
    Mosaic,
    /// Mode 3 with direct colour.
    Direct,
    /// Sprites in interlace, both fields, every size and flip.
    Interlace,
    /// Forced blank.
    Blank,
    /// Maps of runs, tiles of shapes, ramps of colours, groups of sprites.
    Picture,
}

pub const KINDS: [(Kind, &str); 9] = [
    (Kind::Uniform, "uniform"),
    (Kind::Sprites, "sprites"),
    (Kind::Windows, "windows"),
    (Kind::Math, "math"),
    (Kind::Mosaic, "mosaic"),
    (Kind::Direct, "direct"),
    (Kind::Interlace, "interlace"),
    (Kind::Blank, "blank"),
    (Kind::Picture, "picture"),
];

/// The kind of this name.
pub fn named(name: &str) -> Option<Kind> {
    let of_name = KINDS.iter().find(|(_, other)| *other == name);
    of_name.map(|(kind, _)| *kind)
}

/// Neighbouring seeds, and the kinds of one seed, begin far apart.
fn numbers(kind: Kind, seed: u32) -> Generator {
    let mut x = seed.wrapping_mul(16).wrapping_add(kind as u32);
    for factor in [0x85eb_ca6b, 0xc2b2_ae35] {
        x = (x ^ x >> 15).wrapping_mul(factor);
    }
    Generator::new(x ^ x >> 16)
}

pub fn scene(kind: Kind, seed: u32) -> Scene {
    let mut numbers = numbers(kind, seed);
    let (regs, [counter, field]) = any_registers(&mut numbers);
    let mut scene = Scene {
        regs,
        counter: counter % 17,
        field: field % 2,
        oam: [0; 544],
        cgram: [(); 256].map(|_| numbers.word()),
        vram: Vec::new(),
    };
    if kind == Kind::Picture {
        pictured::fill(&mut scene, &mut numbers);
        return scene;
    }
    let filling = numbers.below(4) * (kind != Kind::Uniform) as u32;
    scene.vram = (0..32768)
        .map(|i| {
            let [a, b] = [(); 2].map(|_| numbers.word());
            held(filling, i, a, b)
        })
        .collect();
    sprites(&mut scene, kind, &mut numbers);
    light(&mut scene, kind, numbers.below(64) as u8);
    own(&mut scene, kind, seed, &mut numbers);
    scene
}

/// Forced blank where the kind has it; else any brightness in uniform scenes, a bright one in the others.
fn light(scene: &mut Scene, kind: Kind, drawn: u8) {
    let inidisp = &mut scene.regs.inidisp;
    *inidisp %= 128;
    match kind {
        Kind::Blank => *inidisp |= 128,
        Kind::Uniform if drawn % 8 == 0 => *inidisp |= 128,
        Kind::Uniform => {}
        _ => *inidisp = *inidisp / 16 * 16 + 15 - drawn / 8,
    }
}

/// Sprite memory. In crowds the tops stand together, in one band or two, and the columns at the edges;
/// in some scenes some sprites are hidden, more or fewer, and in some all are small.
fn sprites(scene: &mut Scene, kind: Kind, numbers: &mut Generator) {
    let [drawn, other] = [(); 2].map(|_| numbers.word());
    let density = if other % 2 == 0 { 15 } else { drawn % 16 };
    let first = drawn / 16 % 256;
    let band = [4, 8, 32, 96][other as usize / 2 % 4];
    let apart = other / 8 % 2 * 96;
    let mixed = drawn / 4096 % 4 != 0;
    let crowd = matches!(kind, Kind::Sprites | Kind::Interlace);
    for i in 0..128 {
        let [a, b, c, d] = [(); 4].map(|_| numbers.word());
        let x9 = match a / 64 % 4 {
            _ if !crowd => b % 512,
            _ if a / 256 % 16 > density => 300,
            0 => (240 + b % 32) % 512,
            1 => beside(8, a, b),
            _ => (464 + b % 304) % 512,
        };
        let top = match c / 2048 % 4 {
            0 => c % 256,
            _ if crowd => first + c % 2 * apart + c / 2 % band,
            _ => c % 256,
        };
        let large = a / 32 % 2 == 1 && (mixed || !crowd);
        put(&mut scene.oam, i, x9, top, d, large);
    }
}

/// The kind's own registers. Modes 0, 1 and 3 are as frequent as all the others, but for the uniform ones.
fn own(scene: &mut Scene, kind: Kind, seed: u32, numbers: &mut Generator) {
    let drawn = numbers.word();
    let mode = mode_of(numbers.below(40));
    let turn = (seed % 16) as u8;
    let regs = &mut scene.regs;
    if !matches!(kind, Kind::Uniform | Kind::Blank) {
        regs.bgmode = regs.bgmode / 8 * 8 + mode;
    }
    match kind {
        Kind::Uniform | Kind::Blank | Kind::Picture => {}
        Kind::Sprites | Kind::Interlace => {
            turned(regs, 2, turn);
            regs.tm &= [0x10, 0x1f][drawn as usize % 2];
            regs.setini |= (kind == Kind::Interlace) as u8 * 2;
        }
        Kind::Windows => {
            let bits = [regs.w12sel, regs.w34sel, regs.wobjsel];
            turned(regs, 3, turn);
            if drawn % 2 == 0 {
                [regs.w12sel, regs.w34sel, regs.wobjsel] = bits;
            }
            if drawn / 2 % 2 == 0 {
                [regs.wh0, regs.wh2] = [regs.wh0 % 128, regs.wh2 % 192];
                [regs.wh1, regs.wh3] = [regs.wh1 | 128, regs.wh3 | 64];
            }
        }
        Kind::Math => {
            turned(regs, 4, turn);
            regs.cgwsel = seed as u8;
            regs.cgadsub |= [0x20, 0x3f, 0x11, 0][drawn as usize % 4];
            if drawn / 4 % 4 != 0 {
                [regs.tmw, regs.tsw] = [0, 0];
            }
        }
        Kind::Mosaic => {
            turned(regs, 5, turn);
            regs.mosaic = turn * 16 + (drawn % 16) as u8;
            scene.counter = beside_size(turn + 1, seed / 16 % 4, drawn);
        }
        Kind::Direct => {
            turned(regs, 6, turn);
            regs.setini = regs.setini & !2 | (drawn % 2 * 2) as u8;
        }
    }
}

/// A counter above a mosaic's size, equal to it, below it or 0. Above 16 there is none.
fn beside_size(size: u8, side: u32, drawn: u16) -> u8 {
    let drawn = (drawn / 16 % 16) as u8;
    match side {
        0 => 16 - drawn % (16 - size).max(1),
        1 => size,
        2 => drawn % size,
        _ => 0,
    }
}
