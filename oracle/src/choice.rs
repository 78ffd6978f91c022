//! The list `choice`: the sprites chosen for a row, their counting tiles, the flags.

use crate::generator::Generator;
use crate::oam::{Bytes, fold, loaded, marks, place, set_high};
use rust_ppu::oam::{OAM, Sprite};

/// The rows of a scene that are written out, and the sprites of a pile.
const LINES: u32 = 48;
pub const SEED: u32 = 20;

pub fn list(seed: u32) -> String {
    scenes(seed) + &piles(seed.wrapping_add(1)) + &settings(seed.wrapping_add(2))
}

/// What the Rust chooses for a row.
struct Choice {
    visible: Vec<(u8, Sprite)>,
    tiles: u64,
    time_over: bool,
    range_over: bool,
}

fn choose(oam: &OAM, row: u32, objsel: u8, oamadd: u16, interlace: bool) -> Choice {
    let (visible, time_over, range_over) =
        oam.eval_sprites_for_scanline(row as usize, objsel, oamadd, interlace);
    let tiles = visible.iter().map(|(_, s)| counting(s, objsel)).sum();
    Choice {
        visible,
        tiles,
        time_over,
        range_over,
    }
}

/// A chosen sprite's counting tiles, by the loop of the Rust, which hands out no count.
fn counting(sprite: &Sprite, objsel: u8) -> u64 {
    let (width, _) = OAM::sprite_size(objsel, sprite.large);
    let x9 = (sprite.x as u16) & 0x01FF;
    let w = width as u16;
    let mut tile_count = 0;
    for t in 0..(w / 8) {
        let tile_x = (x9 + t * 8) & 0x01FF;
        let off_screen = (256..512 - 7).contains(&tile_x);
        if x9 == 256 || !off_screen {
            tile_count += 1;
        }
    }
    tile_count
}

impl Choice {
    /// 1 for time over, and 2 for range over.
    fn flags(&self) -> u64 {
        self.time_over as u64 + self.range_over as u64 * 2
    }

    /// A digest of the 32 places: index and sprite, and zeros from the list's length on.
    fn places(&self) -> u32 {
        (0..32).fold(0, |digest, k| {
            let (index, place, marks) = self
                .visible
                .get(k)
                .map_or((0, 0, 0), |(i, s)| (*i as u64, place(s), marks(s)));
            fold(fold(fold(digest, index), place), marks)
        })
    }

    /// A digest with all of it.
    fn folded(&self, digest: u32) -> u32 {
        [
            self.visible.len() as u64,
            self.tiles,
            self.flags(),
            self.places() as u64,
        ]
        .into_iter()
        .fold(digest, fold)
    }

    /// Length, counting tiles, flags, kept flags; the places' digest.
    fn line(&self, kept: &OAM) -> String {
        format!(
            "{:02x}{:03x}{:x}{:x} {:08x}\n",
            self.visible.len(),
            self.tiles,
            self.flags(),
            kept.time_over as u8 + kept.range_over as u8 * 2,
            self.places()
        )
    }
}

/// The columns at which the rules change for some width, before the last, which is any column.
fn edge(k: u16, any: u16) -> u16 {
    [0, 256, 504, 240, 448, 480, 496, any][k as usize]
}

/// A column at an edge or one beside it, of the first `edges` edges.
pub fn beside(edges: u16, a: u16, b: u16) -> u16 {
    (edge(a % edges, b % 512) + 511 + a / 8 % 3) % 512
}

/// Writes a sprite: column, top; tile and attributes from d; size.
pub fn put(bytes: &mut Bytes, i: usize, x9: u16, top: u16, d: u16, large: bool) {
    bytes[i * 4] = (x9 % 256) as u8;
    bytes[i * 4 + 1] = (top % 256) as u8;
    bytes[i * 4 + 2] = (d % 256) as u8;
    bytes[i * 4 + 3] = (d / 256) as u8;
    set_high(bytes, i, (x9 / 256) as u8 + large as u8 * 2);
}

/// Three kinds of scenes: any column and top; a crowd at the first row; tops from 240 on.
fn fill(bytes: &mut Bytes, kind: u32, first: u16, numbers: &mut Generator) {
    for i in 0..128 {
        let [a, b, c, d] = [(); 4].map(|_| numbers.word());
        let x9 = if kind == 0 { b % 512 } else { beside(8, a, b) };
        let top = match kind {
            0 => c,
            1 => first + c % 16,
            _ => 240 + c % 16,
        };
        put(bytes, i, x9, top, d, a / 32 % 2 == 1);
    }
}

/// Each kind at the eight settings of the size, interlace off and on: objsel and the first row; 48
/// rows from there on, the flags kept but for a clear now and then; a digest of the even rows, or of
/// the odd ones.
fn scenes(seed: u32) -> String {
    let mut out = String::from("scenes\n");
    let mut numbers = Generator::new(seed);
    let mut bytes = [0; 544];
    for n in 0..48 {
        let objsel = (n % 8 * 32) as u8 + numbers.below(32) as u8;
        let drawn = numbers.below(224);
        let kind = n / 16;
        let first = if kind == 2 { 0 } else { drawn };
        let interlace = n / 8 % 2 == 1;
        fill(&mut bytes, kind, first as u16, &mut numbers);
        let mut oam = loaded(&bytes);
        out += &format!("{objsel:02x}{first:02x}\n");
        for k in 0..LINES {
            let choice = choose(&oam, (first + k) % 224, objsel, numbers.word(), interlace);
            if k % 16 == 13 {
                oam.clear_flags();
            }
            oam.latch_flags(choice.time_over, choice.range_over);
            out += &choice.line(&oam);
        }
        let digest = (0..112).fold(0, |digest, k| {
            choose(&oam, k * 2 + n % 2, objsel, numbers.word(), interlace).folded(digest)
        });
        out += &format!("{digest:08x}\n");
    }
    out
}

/// The eight settings of the size, interlace off and on, then off with small sprites alone: objsel
/// and the row; then one sprite more at a time that meets the row, and the same lines as above.
fn piles(seed: u32) -> String {
    let mut out = String::from("piles\n");
    let mut numbers = Generator::new(seed);
    for n in 0..24 {
        let objsel = (n % 8 * 32) as u8 + numbers.below(32) as u8;
        let drawn = numbers.below(224);
        let row = match n {
            0 => 0,
            1 => 223,
            _ => drawn,
        };
        let interlace = n / 8 == 1;
        let mut bytes = [0; 544];
        for i in 0..128 {
            put(&mut bytes, i, 300, row as u16, 0, false);
        }
        let mut kept = OAM::new();
        out += &format!("{objsel:02x}{row:02x}\n");
        for k in 0..LINES {
            let [a, b, c, d] = [(); 4].map(|_| numbers.word());
            let top = row as u16 + 256 - c % 4;
            put(
                &mut bytes,
                (k * 37 % 128) as usize,
                beside(4, a, b),
                top,
                d,
                n < 16 && a / 32 % 2 == 1,
            );
            let choice = choose(&loaded(&bytes), row, objsel, numbers.word(), interlace);
            kept.latch_flags(choice.time_over, choice.range_over);
            out += &choice.line(&kept);
        }
    }
    out
}

/// Every objsel over one memory of any columns and tops, interlace off and on: a digest of 4 rows.
fn settings(seed: u32) -> String {
    let mut out = String::from("settings digests\n");
    let mut numbers = Generator::new(seed);
    let mut bytes = [0; 544];
    fill(&mut bytes, 0, 0, &mut numbers);
    let oam = loaded(&bytes);
    for n in 0..512 {
        let objsel = (n / 2) as u8;
        let digest = (0..4).fold(0, |digest, _| {
            let row = numbers.below(224);
            choose(&oam, row, objsel, numbers.word(), n % 2 == 1).folded(digest)
        });
        out += &format!("{digest:08x}\n");
    }
    out
}
