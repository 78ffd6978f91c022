//! The list `rows`: all rows of whole scenes, as the picture's bytes.
//!
//! Every register is drawn; then each kind of scene has its own way with some of them, and some kinds
//! change a few from row to row.

use crate::choice::{beside, put};
use crate::generator::Generator;
use crate::oam::{Bytes, fold, loaded};
use crate::screen::{Screen, bytes};
use rust_ppu::registers::PPURegisters;

const FILLINGS: u32 = 8;
/// The scenes of a filling of VRAM and colour memory.
const SCENES: u32 = 16;
pub const ROWS: u32 = 224;
pub const SEED: u32 = 60;

pub fn list(seed: u32) -> String {
    let mut stage = Stage {
        screen: Screen::new(),
        numbers: Generator::new(seed),
    };
    let mut out = String::from("scenes\n");
    for n in 0..FILLINGS * SCENES {
        if n % SCENES == 0 {
            stage.fill(n / SCENES);
        }
        out += &stage.scene(n);
    }
    out
}

/// What VRAM holds at i, of two words: any word; nothing, few bits or many, in runs of 16 words; a
/// picture's.
pub fn held(filling: u32, i: usize, a: u16, b: u16) -> u16 {
    match filling % 4 {
        0 => a,
        2 => pictured(i, a, b),
        _ => match i / 16 % 8 {
            0 => 0,
            1 | 3 | 5 => a & b,
            _ => a,
        },
    }
}

/// Eight maps, in which three entries of four are tile 0 and the others are of 64 tiles; then tiles, of
/// which the first is empty wherever a background's begin.
fn pictured(i: usize, a: u16, b: u16) -> u16 {
    match (i, i / 32 % 4) {
        (0..8192, _) if b % 4 == 0 => a & 0xfc3f,
        (0..8192, _) => 0,
        _ if i % 4096 < 32 => 0,
        (_, 0) => 0,
        (_, 1) => a & b,
        (_, 2) if b % 2 == 0 => 0xff00,
        (_, 2) => 0x00ff,
        _ => a,
    }
}

/// Modes 0, 1 and 3 and one of the modes that draw as mode 1, in turn.
pub fn mode_of(n: u32) -> u8 {
    let turn = n / 8 + n % 8;
    match turn % 4 {
        0 => 0,
        1 => 1,
        2 => 3,
        _ => [2, 4, 5, 6, 7][turn as usize / 4 % 5],
    }
}

/// Forced blank in two scenes; the full brightness in half of the others, 4 or more in the rest.
fn light(n: u32, byte: u8) -> u8 {
    match n {
        40 | 101 => byte | 128,
        _ if n / 8 % 2 == 0 => byte % 128 / 16 * 16 + 15,
        _ => byte % 128 / 16 * 16 + 4 + byte % 12,
    }
}

/// The mosaic counter after a row.
pub fn stepped(mosaic: u8, counter: u8) -> u8 {
    match counter {
        0 | 1 => mosaic / 16 + 1,
        _ => counter - 1,
    }
}

/// The kinds of scenes: any registers; backgrounds, at every brightness; crowds of sprites; windows;
/// colour math, at every setting; mosaics of every size; direct colour and sprites in interlace; a
/// picture of few tiles.
pub fn turned(regs: &mut PPURegisters, kind: u32, turn: u8) {
    match kind {
        0 if turn % 2 == 0 => {
            regs.tm |= 0x11;
            regs.cgwsel %= 64;
        }
        1 => {
            regs.tm |= 0x0f;
            [regs.tmw, regs.tsw, regs.cgadsub] = [0, 0, 0];
            regs.cgwsel %= 64;
        }
        2 => {
            regs.tm |= 0x10;
            regs.objsel = turn % 8 * 32 + regs.objsel % 32;
            regs.cgwsel %= 64;
        }
        3 => {
            regs.w12sel |= 0xaa;
            regs.w34sel |= 0xaa;
            regs.wobjsel |= 0xaa;
            regs.tm |= 0x1f;
            regs.cgwsel = turn % 12 * 16 + regs.cgwsel % 16;
        }
        4 => {
            regs.tm |= 0x11;
            regs.wobjsel |= 0x20;
            regs.wh0 %= 128;
            regs.wh1 |= 128;
        }
        5 => {
            regs.tm |= 0x0f;
            regs.mosaic = turn * 16 + 15;
            regs.cgwsel %= 64;
            if turn % 2 == 1 {
                regs.bg1vofs %= 4;
                regs.bgvofs = regs.bgvofs.map(|scroll| scroll % 4);
            }
        }
        6 => {
            regs.bgmode = regs.bgmode / 8 * 8 + 3;
            regs.cgwsel = regs.cgwsel % 64 | 1;
            regs.tm |= 0x11;
            regs.setini |= 2;
            regs.objsel = turn / 2 * 32 + regs.objsel % 32;
        }
        7 => {
            regs.bgsc = regs.bgsc.map(|byte| byte % 32);
            regs.bg12nba = regs.bg12nba & 0x33 | 0x22;
            regs.bg34nba = regs.bg34nba & 0x33 | 0x22;
            regs.tm |= 0x1f;
            regs.tmw = 0;
            regs.mosaic %= 16;
            regs.cgwsel = turn % 4;
            regs.inidisp = 15;
        }
        _ => {}
    }
}

/// What changes from row to row: brightness; the colour window's logic and window 1; the settings of
/// colour math.
fn at_row(regs: &mut PPURegisters, kind: u32, y: u8) {
    match kind {
        1 => regs.inidisp = y % 16,
        3 => {
            regs.wobjlog = y % 16;
            regs.wh0 = y;
            regs.wh1 = 255 - y;
        }
        4 => {
            regs.cgwsel = y % 16 * 16 + y / 16 % 2 * 2 + regs.cgwsel % 2;
            regs.cgadsub = y / 32 % 4 * 64 + regs.cgadsub % 64;
        }
        _ => {}
    }
}

/// A sprite's column: in a crowd at an edge or across the picture. In the pictures three of four sprites
/// are hidden.
fn column(kind: u32, a: u16, b: u16) -> u16 {
    match kind {
        2 if a / 64 % 2 == 0 => beside(8, a, b),
        2 => (464 + b % 304) % 512,
        7 if a / 64 % 4 != 0 => 300,
        _ => b % 512,
    }
}

fn top(kind: u32, turn: u16, c: u16) -> u16 {
    match kind {
        2 => turn % 4 * 48 + c % 64,
        _ => c,
    }
}

fn two(numbers: &mut Generator) -> [u8; 2] {
    bytes(numbers.word())
}

/// Registers of every value, and two bytes for the counter and the field.
pub fn any_registers(numbers: &mut Generator) -> (PPURegisters, [u8; 2]) {
    let mut regs = PPURegisters::new();
    [regs.inidisp, regs.objsel] = two(numbers);
    regs.oamadd = numbers.word();
    [regs.bgmode, regs.mosaic] = two(numbers);
    let inputs = two(numbers);
    let [first, second] = [(); 2].map(|_| two(numbers));
    regs.bgsc = [first[0], first[1], second[0], second[1]];
    [regs.bg12nba, regs.bg34nba] = two(numbers);
    let h = [(); 4].map(|_| numbers.word());
    let v = [(); 4].map(|_| numbers.word());
    (regs.bg1hofs, regs.bghofs) = (h[0], [h[1], h[2], h[3]]);
    (regs.bg1vofs, regs.bgvofs) = (v[0], [v[1], v[2], v[3]]);
    [regs.w12sel, regs.w34sel] = two(numbers);
    [regs.wobjsel, regs.wobjlog] = two(numbers);
    [[regs.wh0, regs.wh1], [regs.wh2, regs.wh3]] = [(); 2].map(|_| two(numbers));
    [regs.wbglog, regs.setini] = two(numbers);
    [[regs.tm, regs.ts], [regs.tmw, regs.tsw]] = [(); 2].map(|_| two(numbers));
    [regs.cgwsel, regs.cgadsub] = two(numbers);
    regs.coldata = numbers.word();
    (regs, inputs)
}

struct Stage {
    screen: Screen,
    numbers: Generator,
}

impl Stage {
    /// VRAM and colour memory.
    fn fill(&mut self, filling: u32) {
        let ppu = &mut self.screen.ppu;
        for (i, word) in ppu.vram.memory.iter_mut().enumerate() {
            let [a, b] = [(); 2].map(|_| self.numbers.word());
            *word = held(filling, i, a, b);
        }
        for word in ppu.cgram.memory.iter_mut() {
            *word = self.numbers.word();
        }
    }

    /// Registers of every value, turned to the scene's kind, the counter and the field.
    fn registers(&mut self, n: u32) {
        let (mut regs, [counter, field]) = any_registers(&mut self.numbers);
        regs.inidisp = light(n, regs.inidisp);
        regs.bgmode = regs.bgmode / 8 * 8 + mode_of(n);
        turned(&mut regs, n % 8, (n / 8 % 16) as u8);
        let ppu = &mut self.screen.ppu;
        ppu.mosaic_vcounter = counter % 17;
        ppu.frame = (field % 2) as u64;
        ppu.regs = regs;
    }

    /// Sprite memory.
    fn sprites(&mut self, n: u32) {
        let mut memory: Bytes = [0; 544];
        for i in 0..128 {
            let [a, b, c, d] = [(); 4].map(|_| self.numbers.word());
            let x9 = column(n % 8, a, b);
            let top = top(n % 8, (n / 8) as u16, c);
            put(&mut memory, i, x9, top, d, a / 32 % 2 == 1);
        }
        self.screen.ppu.oam = loaded(&memory);
    }

    /// Six digits of a digest of row y.
    fn row(&mut self, y: u32) -> u32 {
        let bytes = self.screen.row(y).iter();
        bytes.fold(0, |digest, byte| fold(digest, *byte as u64)) % 0x1000000
    }

    /// The scene and its kind, inidisp, bgmode and mosaic; a digest of each row; then one row again and
    /// its digest twice: the replay lays its layers one by one in another order, and draws it into a
    /// picture.
    fn scene(&mut self, n: u32) -> String {
        self.registers(n);
        self.sprites(n);
        let again = self.numbers.below(65536) % ROWS;
        let regs = &self.screen.ppu.regs;
        let [inidisp, bgmode, mosaic] = [regs.inidisp, regs.bgmode, regs.mosaic];
        let mut out = format!("{n:02x}{:x} {inidisp:02x}{bgmode:02x}{mosaic:02x}\n", n % 8);
        let mut digests = [0; ROWS as usize];
        for y in 0..ROWS {
            at_row(&mut self.screen.ppu.regs, n % 8, y as u8);
            digests[y as usize] = self.row(y);
            let ppu = &mut self.screen.ppu;
            ppu.mosaic_vcounter = stepped(mosaic, ppu.mosaic_vcounter);
        }
        for line in digests.chunks(16) {
            let words: Vec<String> = line.iter().map(|digest| format!("{digest:06x}")).collect();
            out += &(words.join(" ") + "\n");
        }
        let digest = digests[again as usize];
        out + &format!("{again:02x} {digest:06x} {digest:06x}\n")
    }
}
