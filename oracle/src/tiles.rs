//! The list `tiles`: the three decoders over a VRAM of random words.

use crate::generator::Generator;
use rust_ppu::rendering::renderer::Renderer;
use rust_ppu::vram::{RawVRAM, VRAM};

const PIXELS: usize = 4000;

pub fn list() -> String {
    let mut vram = VRAM::new().memory;
    let mut numbers = Generator::new(2);
    for word in vram.iter_mut() {
        *word = numbers.word();
    }
    wraps(&vram) + &random(&vram)
}

/// Tile words at both ends of VRAM and of their range, and the eight rows of each: the row's pixels
/// in 2bpp and in 4bpp, a digit each; then in 8bpp, two digits each.
fn wraps(vram: &RawVRAM) -> String {
    let mut out = String::from("wraps\n");
    for base in (0..8).chain(32728..32776).chain(65496..65536) {
        for y in 0..8 {
            for x in 0..8 {
                out += &format!(
                    "{:x}",
                    Renderer::decode_2bpp_tile_pixel_from(vram, base, x, y)
                );
            }
            for x in 0..8 {
                out += &format!(
                    "{:x}",
                    Renderer::decode_4bpp_tile_pixel_from(vram, base, x, y)
                );
            }
            out += " ";
            for x in 0..8 {
                out += &format!(
                    "{:02x}",
                    Renderer::decode_8bpp_tile_pixel_from(vram, base, x, y)
                );
            }
            out += "\n";
        }
    }
    out
}

/// Random pixels: tile word, x, y; the three answers.
fn random(vram: &RawVRAM) -> String {
    let mut out = String::from("random pixels\n");
    let mut numbers = Generator::new(3);
    for _ in 0..PIXELS {
        let base = numbers.below(65536) as usize;
        let x = numbers.below(8) as usize;
        let y = numbers.below(8) as usize;
        let two = Renderer::decode_2bpp_tile_pixel_from(vram, base, x, y);
        let four = Renderer::decode_4bpp_tile_pixel_from(vram, base, x, y);
        let eight = Renderer::decode_8bpp_tile_pixel_from(vram, base, x, y);
        out += &format!("{base:04x}{x:x}{y:x}{two:x}{four:x}{eight:02x}\n");
    }
    out
}
