//! The scene file, as the rules have it: what a scene holds, its bytes, and a reader that refuses.

use crate::oam::{Bytes, loaded};
use crate::screen::Screen;
use rust_ppu::registers::PPURegisters;

/// The sections in their order: how many bytes each has.
pub const COUNTS: [usize; 4] = [48, 544, 512, 65536];
/// All bytes of a scene.
pub const SIZE: usize = 66656;
/// Where the counter stands in a scene, and where the field.
pub const COUNTER: usize = 4 + 46;
pub const FIELD: usize = 4 + 47;

pub struct Scene {
    pub regs: PPURegisters,
    pub counter: u8,
    pub field: u8,
    pub oam: Bytes,
    pub cgram: [u16; 256],
    pub vram: Vec<u16>,
}

/// Where section k begins, with its count.
pub fn start(k: usize) -> usize {
    COUNTS[..k].iter().map(|count| 4 + count).sum()
}

/// The sections' bodies, or the refusal's number: in each section 9 for a cut count, 8 for a wrong one,
/// 9 for a cut body; after the last one 10 for bytes that follow.
fn sections(bytes: &[u8]) -> Result<[&[u8]; 4], u8> {
    let mut rest = bytes;
    let mut bodies = [bytes; 4];
    for (body, count) in bodies.iter_mut().zip(COUNTS) {
        let (said, after) = rest.split_first_chunk::<4>().ok_or(9)?;
        if u32::from_le_bytes(*said) as usize != count {
            return Err(8);
        }
        (*body, rest) = after.split_at_checked(count).ok_or(9)?;
    }
    match rest {
        [] => Ok(bodies),
        _ => Err(10),
    }
}

/// The words of a section.
fn words(section: &[u8]) -> impl Iterator<Item = u16> {
    section
        .chunks_exact(2)
        .map(|pair| u16::from_le_bytes([pair[0], pair[1]]))
}

/// The registers section's bytes but for the counter and the field.
fn registers(section: &[u8]) -> PPURegisters {
    let byte = |at: usize| section[at];
    let word = |at: usize| u16::from_le_bytes([section[at], section[at + 1]]);
    let mut regs = PPURegisters::new();
    [regs.inidisp, regs.objsel] = [byte(0), byte(1)];
    regs.oamadd = word(2);
    [regs.bgmode, regs.mosaic] = [byte(4), byte(5)];
    regs.bgsc = [byte(6), byte(7), byte(8), byte(9)];
    [regs.bg12nba, regs.bg34nba] = [byte(10), byte(11)];
    (regs.bg1hofs, regs.bghofs) = (word(12), [word(14), word(16), word(18)]);
    (regs.bg1vofs, regs.bgvofs) = (word(20), [word(22), word(24), word(26)]);
    [regs.w12sel, regs.w34sel, regs.wobjsel] = [byte(28), byte(29), byte(30)];
    [regs.wh0, regs.wh1, regs.wh2, regs.wh3] = [byte(31), byte(32), byte(33), byte(34)];
    [regs.wbglog, regs.wobjlog] = [byte(35), byte(36)];
    [regs.tm, regs.ts, regs.tmw, regs.tsw] = [byte(37), byte(38), byte(39), byte(40)];
    [regs.cgwsel, regs.cgadsub] = [byte(41), byte(42)];
    regs.coldata = word(43);
    regs.setini = byte(45);
    regs
}

/// The scene, or the refusal's number: after what the sections refuse, 6 for a counter above 16, then
/// 11 for a field above 1.
pub fn read(bytes: &[u8]) -> Result<Scene, u8> {
    let [section, oam, cgram, vram] = sections(bytes)?;
    let [counter, field] = [section[46], section[47]];
    if counter > 16 {
        return Err(6);
    }
    if field > 1 {
        return Err(11);
    }
    let mut scene = Scene {
        regs: registers(section),
        counter,
        field,
        oam: [0; 544],
        cgram: [0; 256],
        vram: words(vram).collect(),
    };
    scene.oam.copy_from_slice(oam);
    for (entry, word) in scene.cgram.iter_mut().zip(words(cgram)) {
        *entry = word;
    }
    Ok(scene)
}

impl Scene {
    /// The registers section.
    fn section(&self) -> Vec<u8> {
        let r = &self.regs;
        let mut out = vec![r.inidisp, r.objsel];
        out.extend(r.oamadd.to_le_bytes());
        out.extend([r.bgmode, r.mosaic]);
        out.extend(r.bgsc);
        out.extend([r.bg12nba, r.bg34nba]);
        for scroll in [r.bg1hofs].iter().chain(&r.bghofs) {
            out.extend(scroll.to_le_bytes());
        }
        for scroll in [r.bg1vofs].iter().chain(&r.bgvofs) {
            out.extend(scroll.to_le_bytes());
        }
        out.extend([r.w12sel, r.w34sel, r.wobjsel]);
        out.extend([r.wh0, r.wh1, r.wh2, r.wh3, r.wbglog, r.wobjlog]);
        out.extend([r.tm, r.ts, r.tmw, r.tsw, r.cgwsel, r.cgadsub]);
        out.extend(r.coldata.to_le_bytes());
        out.extend([r.setini, self.counter, self.field]);
        out
    }

    /// The scene's bytes.
    pub fn bytes(&self) -> Vec<u8> {
        let low_first = |words: &[u16]| words.iter().flat_map(|word| word.to_le_bytes()).collect();
        let bodies: [Vec<u8>; 4] = [
            self.section(),
            self.oam.to_vec(),
            low_first(&self.cgram),
            low_first(&self.vram),
        ];
        let mut out = Vec::with_capacity(SIZE);
        for body in bodies {
            out.extend((body.len() as u32).to_le_bytes());
            out.extend(body);
        }
        out
    }

    /// A screen that shows the scene's first row.
    pub fn screen(self) -> Screen {
        let mut screen = Screen::new();
        let ppu = &mut screen.ppu;
        ppu.regs = self.regs;
        ppu.mosaic_vcounter = self.counter;
        ppu.frame = self.field as u64;
        ppu.oam = loaded(&self.oam);
        ppu.cgram.memory = self.cgram;
        ppu.vram.memory.copy_from_slice(&self.vram);
        screen
    }
}
