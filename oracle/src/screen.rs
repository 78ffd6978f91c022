//! Rows that the Rust draws, as the colours that they show.
//!
//! Brightness 15 keeps each channel in its byte's high bits.

use rust_ppu::ppu::PPU;
use rust_ppu::rendering::renderer::Renderer;

pub type Row = [u16; 256];

/// The low byte of a word, then its high byte.
pub fn bytes(word: u16) -> [u8; 2] {
    word.to_le_bytes()
}

/// The first column, the last one and any.
pub fn column_of(k: u32, drawn: u32) -> u32 {
    match k {
        0 => 0,
        1 => 255,
        _ => drawn % 256,
    }
}

pub struct Screen {
    pub ppu: PPU,
    renderer: Renderer,
}

impl Screen {
    pub fn new() -> Screen {
        let mut ppu = PPU::new();
        ppu.regs.inidisp = 15;
        Screen {
            ppu,
            renderer: Renderer::new(),
        }
    }

    /// The bytes of a row, as the registers stand.
    pub fn row(&mut self, y: u32) -> &[u8] {
        self.renderer.render_scanline(&self.ppu, y as usize);
        let at = y as usize * 768;
        &self.renderer.framebuffer[at..at + 768]
    }

    /// The row, with these bits of cgwsel beside direct colour's, and this cgadsub.
    pub fn drawn(&mut self, y: u32, cgwsel: u8, cgadsub: u8) -> Row {
        let kept = self.ppu.regs.cgwsel;
        self.ppu.regs.cgwsel |= cgwsel;
        self.ppu.regs.cgadsub = cgadsub;
        self.renderer.render_scanline(&self.ppu, y as usize);
        self.ppu.regs.cgwsel = kept;
        std::array::from_fn(|x| {
            let at = (y as usize * 256 + x) * 3;
            let channel = |i: usize| (self.renderer.framebuffer[at + i] >> 3) as u16;
            channel(0) | channel(1) << 5 | channel(2) << 10
        })
    }
}
