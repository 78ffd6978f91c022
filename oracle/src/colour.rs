//! The list `colour`: direct colour, brightness and colour math, a line for each input.

use crate::generator::Generator;
use rust_ppu::ppu::PPU;
use rust_ppu::rendering::renderer::Renderer;

const PAIRS: usize = 2000;

pub fn list() -> String {
    direct() + &bright() + &digests() + &math() + &random()
}

/// Every index, and for each the eight palettes: the colour word.
fn direct() -> String {
    let mut out = String::from("direct\n");
    for n in 0..2048 {
        out += &format!(
            "{:04x}\n",
            Renderer::direct_color((n / 8) as u8, (n % 8) as u8)
        );
    }
    out
}

/// Every level, and for each the 256 colours i * 257: red, green, blue.
fn bright() -> String {
    let mut out = String::from("bright\n");
    for n in 0..4096 {
        let (r, g, b) = Renderer::apply_brightness(n % 256 * 257, n / 256);
        out += &format!("{r:02x}{g:02x}{b:02x}\n");
    }
    out
}

/// Every level: a digest of the bytes of all 65,536 colours.
fn digests() -> String {
    let mut out = String::from("bright digests\n");
    for level in 0..16 {
        let mut digest: u32 = 0;
        for color in 0..=65535 {
            let (r, g, b) = Renderer::apply_brightness(color, level);
            for byte in [r, g, b] {
                digest = digest.wrapping_mul(31).wrapping_add(byte as u32);
            }
        }
        out += &format!("{digest:08x}\n");
    }
    out
}

/// Colour math is private in the Rust, so a row is drawn: no layer is lit, the backdrop is the main
/// colour, the fixed colour the other, and brightness 15 keeps each channel in its byte's high bits.
struct Mixer {
    ppu: PPU,
    renderer: Renderer,
}

impl Mixer {
    fn new() -> Mixer {
        let mut ppu = PPU::new();
        ppu.regs.inidisp = 15;
        Mixer {
            ppu,
            renderer: Renderer::new(),
        }
    }

    fn mix(&mut self, main: u16, sub: u16, subtract: bool, half: bool) -> u16 {
        self.ppu.cgram.memory[0] = main;
        self.ppu.regs.coldata = sub;
        self.ppu.regs.cgadsub = 0x20 | (subtract as u8) << 7 | (half as u8) << 6;
        self.renderer.render_scanline(&self.ppu, 0);
        let channel = |i: usize| (self.renderer.framebuffer[i] >> 3) as u16;
        channel(0) | channel(1) << 5 | channel(2) << 10
    }

    /// Add, add and halve, subtract, subtract and halve.
    fn four(&mut self, main: u16, sub: u16) -> String {
        [(false, false), (false, true), (true, false), (true, true)]
            .map(|(subtract, half)| format!("{:04x}", self.mix(main, sub, subtract, half)))
            .concat()
    }
}

/// Every pair of channels, the same in red, green and blue: the four words.
fn math() -> String {
    let mut out = String::from("math\n");
    let mut mixer = Mixer::new();
    for n in 0..1024 {
        out += &mixer.four(n / 32 * 0x421, n % 32 * 0x421);
        out += "\n";
    }
    out
}

/// Pairs of 16-bit words: main, sub; the four words.
fn random() -> String {
    let mut out = String::from("math of random words\n");
    let mut mixer = Mixer::new();
    let mut numbers = Generator::new(1);
    for _ in 0..PAIRS {
        let main = numbers.word();
        let sub = numbers.word();
        out += &format!("{main:04x}{sub:04x} {}\n", mixer.four(main, sub));
    }
    out
}
