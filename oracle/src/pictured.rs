//! Scenes that look like a game's: a picture's maps, tiles, colours, sprites and registers.

use crate::choice::put;
use crate::generator::Generator;
use crate::scene::Scene;

/// The maps' words: two screens for each background.
const MAPS: usize = 0x5000;
const MAPS_END: usize = 0x7000;
/// Rows of eight pixels: nothing, a disc, a diamond, a slope, a frame, stripes, a chequer, all.
const SHAPES: [[u8; 8]; 8] = [
    [0; 8],
    [0x3c, 0x7e, 0xff, 0xff, 0xff, 0xff, 0x7e, 0x3c],
    [0x18, 0x3c, 0x7e, 0xff, 0xff, 0x7e, 0x3c, 0x18],
    [0x80, 0xc0, 0xe0, 0xf0, 0xf8, 0xfc, 0xfe, 0xff],
    [0xff, 0x81, 0x81, 0x81, 0x81, 0x81, 0x81, 0xff],
    [0xff, 0x00, 0x00, 0xff, 0x00, 0x00, 0xff, 0x00],
    [0xaa, 0x55, 0xaa, 0x55, 0xaa, 0x55, 0xaa, 0x55],
    [0xff; 8],
];

pub fn fill(scene: &mut Scene, numbers: &mut Generator) {
    scene.vram = vec![0; 32768];
    tiles(&mut scene.vram, numbers);
    maps(&mut scene.vram[MAPS..MAPS_END], numbers);
    colours(&mut scene.cgram, numbers);
    sprites(scene, numbers);
    registers(scene, numbers);
}

/// A shape in each plane; the first tile of each table is empty.
fn tiles(vram: &mut [u16], numbers: &mut Generator) {
    for (k, rows) in vram.chunks_mut(8).enumerate() {
        let drawn = numbers.below(64) as usize;
        let [low, high] = [SHAPES[drawn % 8], SHAPES[drawn / 8]];
        for (y, word) in rows.iter_mut().enumerate() {
            let empty = k % 512 < 4;
            *word = u16::from_le_bytes([low[y], high[y]]) * !empty as u16;
        }
    }
}

/// Runs of one entry; every other row is the one above. The empty tile is frequent.
fn maps(words: &mut [u16], numbers: &mut Generator) {
    let mut row = [0; 32];
    for (k, line) in words.chunks_mut(32).enumerate() {
        let mut x = 0;
        while k % 2 == 0 && x < 32 {
            let [entry, run] = [(); 2].map(|_| numbers.word());
            let entry = match run / 8 % 3 {
                0 => 0,
                1 => entry & 0x1c3f,
                _ => entry & 0xfc3f,
            };
            let end = (x + 1 + run as usize % 8).min(32);
            row[x..end].fill(entry);
            x = end;
        }
        line.copy_from_slice(&row);
    }
}

/// Ramps of sixteen colours, dark to bright.
fn colours(cgram: &mut [u16], numbers: &mut Generator) {
    for ramp in cgram.chunks_mut(16) {
        let hue = [(); 3].map(|_| numbers.below(32) as u16);
        for (i, word) in ramp.iter_mut().enumerate() {
            let [red, green, blue] = hue.map(|channel| channel * (i as u16 + 1) / 16);
            *word = red | green << 5 | blue << 10;
        }
    }
}

/// Groups of sprites side by side that share their palette and priority; the last ones below the picture.
fn sprites(scene: &mut Scene, numbers: &mut Generator) {
    let shown = 32 + numbers.below(97) as usize;
    let step = [8, 16, 32][numbers.below(3) as usize];
    let mut first = [0; 4];
    for i in 0..128 {
        let place = i as u16 % 8;
        if place == 0 {
            first = [(); 4].map(|_| numbers.word());
        }
        let [x, y, d, wide] = first;
        let columns = 2 + wide % 3;
        let x9 = (x % 288 + 496 + place % columns * step) % 512;
        let top = match i < shown {
            true => y % 224 + place / columns * step,
            false => 240,
        };
        let tile = (d & 0xff00) + (d % 256 + place * 2) % 256;
        put(&mut scene.oam, i, x9, top, tile, wide / 4 % 4 == 0);
    }
}

/// What a game would set: a mode of the drawn ones, its layers lit, small scrolls; sometimes a window,
/// sometimes colour math, sometimes a mosaic that starts with its block.
fn registers(scene: &mut Scene, numbers: &mut Generator) {
    let [a, b, c] = [(); 3].map(|_| numbers.word());
    let regs = &mut scene.regs;
    regs.inidisp = if a % 4 == 0 {
        8 + (a / 4 % 8) as u8
    } else {
        15
    };
    regs.objsel = (b % 6 * 32 + 1) as u8;
    regs.oamadd = if b / 64 % 4 == 0 { regs.oamadd } else { 0 };
    regs.bgmode = [0, 1, 9, 3][c as usize % 4] + (c / 4 % 16 * 16) as u8 * (c / 64 % 4 == 0) as u8;
    regs.bgsc = [0x50, 0x58, 0x60, 0x68].map(|base| base + (c / 256 % 4) as u8);
    [regs.bg12nba, regs.bg34nba] = [0x20, 0x31];
    regs.tm = 0x1f;
    regs.ts = [0, 0x10, 0x02, 0x13][a as usize / 256 % 4];
    [regs.tmw, regs.tsw] = [0, 0];
    [regs.cgwsel, regs.cgadsub] = [0, 0];
    regs.setini = 0;
    if a / 1024 % 3 == 0 {
        regs.cgwsel = 2;
        regs.cgadsub = [0x3f, 0x61, 0xa3, 0x20][b as usize / 256 % 4];
    }
    if a / 4096 % 3 == 0 {
        regs.tmw = 0x1f;
        [regs.wh0, regs.wh1] = [regs.wh0 % 96, 160 + regs.wh1 % 96];
    }
    let size = regs.mosaic / 16 + 1;
    if b / 1024 % 4 == 0 {
        scene.counter = size;
    } else {
        regs.mosaic = 0;
        scene.counter = 0;
    }
}
