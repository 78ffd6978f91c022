//! The list `oam`: the sprites that sprite memory describes, their sizes and their columns.

use crate::generator::Generator;
use rust_ppu::oam::{OAM, Sprite};

pub type Bytes = [u8; 544];

const MEMORIES: u32 = 6;

pub fn list() -> String {
    sprites() + &digests() + &sizes() + &columns()
}

/// Sprite memory that holds these bytes, filled through its own port.
pub fn loaded(bytes: &Bytes) -> OAM {
    let mut oam = OAM::new();
    oam.write_addr(0);
    for byte in bytes {
        oam.write_data(*byte);
    }
    oam
}

/// Nine bits of the column, as the Rust takes them.
fn nine_bits(x: i16) -> u16 {
    (x as u16) & 0x01ff
}

/// Twelve digits: the 16 bits of the column, top, tile, base.
pub fn place(s: &Sprite) -> u64 {
    let tiles = (s.tile as u64) << 16 | s.chr_base as u64;
    (s.x as u16 as u64) << 32 | (s.y as u64) << 24 | tiles
}

/// Seven digits: table, palette, priority; 1 if flipped in x, 2 if in y, 4 if large.
pub fn marks(s: &Sprite) -> u64 {
    let bits = s.flip_x as u64 + s.flip_y as u64 * 2 + s.large as u64 * 4;
    (s.name_table as u64) << 20 | (s.palette as u64) << 12 | (s.priority as u64) << 4 | bits
}

/// A digest and one more number: its high half, then its low half.
pub fn fold(digest: u32, v: u64) -> u32 {
    [(v >> 32) as u32, v as u32]
        .into_iter()
        .fold(digest, |d, half| d.wrapping_mul(31).wrapping_add(half))
}

/// The columns at which the rules change.
fn edge(k: usize) -> u16 {
    [0, 1, 255, 256, 257, 504, 505, 511][k]
}

/// Sets a sprite's two bits: bit 8 of the column and the size.
pub fn set_high(bytes: &mut Bytes, i: usize, bits: u8) {
    let shift = i % 4 * 2;
    let byte = &mut bytes[512 + i / 4];
    *byte = *byte & !(3 << shift) | bits << shift;
}

/// Random bytes; from memory 2 on the columns are at the edges in either size, and the attribute
/// bytes are the even or the odd ones.
fn memory(m: u32) -> Bytes {
    let mut numbers = Generator::new(10 + m);
    let mut bytes = [0; 544].map(|_: u8| numbers.below(256) as u8);
    if m >= 2 {
        for i in 0..128 {
            let x = edge(i / 4 % 8);
            bytes[i * 4] = (x % 256) as u8;
            bytes[i * 4 + 3] = ((i * 2 + m as usize) % 256) as u8;
            set_high(&mut bytes, i, (x / 256) as u8 + (i / 32 % 2) as u8 * 2);
        }
    }
    bytes
}

/// The 128 sprites of each memory, an objsel drawn for each.
fn sprites() -> String {
    let mut out = String::from("sprites\n");
    let mut numbers = Generator::new(9);
    for m in 0..MEMORIES {
        let oam = loaded(&memory(m));
        for i in 0..128 {
            let s = oam.get_sprite(i, numbers.below(256) as u8);
            out += &format!("{:012x}{:07x}\n", place(&s), marks(&s));
        }
    }
    out
}

/// Each memory, and for each every objsel: a digest of the 128 sprites.
fn digests() -> String {
    let mut out = String::from("sprites digests\n");
    for m in 0..MEMORIES {
        let oam = loaded(&memory(m));
        for objsel in 0..=255 {
            let digest = (0..128).fold(0, |digest, i| {
                let s = oam.get_sprite(i, objsel);
                fold(fold(digest, place(&s)), marks(&s))
            });
            out += &format!("{digest:08x}\n");
        }
    }
    out
}

/// Every objsel: width and height of the small size, then of the large one.
fn sizes() -> String {
    let mut out = String::from("sizes\n");
    for objsel in 0..=255 {
        for large in [false, true] {
            let (width, height) = OAM::sprite_size(objsel, large);
            out += &format!("{width:02x}{height:02x}");
        }
        out += "\n";
    }
    out
}

/// For each 2,048 columns from 0 up, and as many from -1 down: a digest of their nine bits.
fn columns() -> String {
    let mut out = String::from("columns digests\n");
    for block in 0..16 {
        let digest = (0..2048).fold(0, |digest, n| {
            let x: i16 = block * 2048 + n;
            fold(fold(digest, nine_bits(x) as u64), nine_bits(-1 - x) as u64)
        });
        out += &format!("{digest:08x}\n");
    }
    out
}
