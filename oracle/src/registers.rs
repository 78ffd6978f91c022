//! The list `registers`: every public reader of the registers, a line for each input.

use crate::generator::Generator;
use rust_ppu::ppu::PPU;
use rust_ppu::registers::PPURegisters;

const SCROLLS: usize = 48;

/// Window 1's edges, window 2's, and what the other windows' bits of the registers are filled with.
const LAYOUTS: [(u8, u8, u8, u8, u8); 10] = [
    (40, 140, 100, 200, 0x00),
    (10, 60, 120, 180, 0xff),
    (20, 230, 90, 110, 0xa5),
    (90, 110, 20, 230, 0x5a),
    (77, 77, 78, 78, 0x3c),
    (150, 50, 30, 90, 0xc3),
    (30, 90, 150, 50, 0x96),
    (0, 255, 255, 0, 0x69),
    (0, 0, 255, 255, 0x0f),
    (1, 254, 128, 127, 0xf0),
];

pub fn list() -> String {
    screen() + &backgrounds() + &mosaic() + &scroll() + &windows()
}

/// Registers that are each another turn of v's bits, or the opposite of one: over all v each byte
/// takes every value, and no two bytes have the same bit at the same place.
fn scattered(v: u8) -> PPU {
    let mut ppu = PPU::new();
    let regs = &mut ppu.regs;
    regs.inidisp = v;
    regs.bgmode = v.rotate_left(1);
    regs.mosaic = v.rotate_left(2);
    regs.bgsc = [3, 4, 5, 6].map(|k| v.rotate_left(k));
    regs.bg12nba = v.rotate_left(7);
    regs.bg34nba = !v;
    regs.tm = !v.rotate_left(1);
    regs.ts = !v.rotate_left(2);
    regs.tmw = !v.rotate_left(3);
    regs.tsw = !v.rotate_left(4);
    regs.cgwsel = !v.rotate_left(5);
    regs.cgadsub = !v.rotate_left(6);
    regs.setini = !v.rotate_left(7);
    ppu
}

/// The layers' bits as the renderers test them, BG1's the lowest.
fn layers(byte: u8) -> u8 {
    (0..5)
        .filter(|layer| byte & (1 << layer) != 0)
        .map(|layer| 1 << layer)
        .sum()
}

/// Every v: mode, direct colour, forced blank, brightness, sprite interlace; mosaic size; the layers
/// of tm, ts, tmw, tsw.
fn screen() -> String {
    let mut out = String::from("screen\n");
    for v in 0..=255 {
        let ppu = scattered(v);
        let regs = &ppu.regs;
        out += &format!("{:x}{:x}", regs.bg_mode(), regs.direct_color() as u8);
        out += &format!(
            "{:x}{:x}{:x}",
            ppu.force_blank() as u8,
            ppu.brightness(),
            ppu.obj_interlace() as u8
        );
        out += &format!("{:02x}", regs.mosaic_size());
        for byte in [regs.tm, regs.ts, regs.tmw, regs.tsw] {
            out += &format!("{:02x}", layers(byte));
        }
        out += "\n";
    }
    out
}

/// Every v, and for each the four backgrounds: map address; character address; 1 if the map is wide,
/// and 2 if it is tall; 1 if the tile side is 16, and 2 if mosaic is on; mosaic block.
fn backgrounds() -> String {
    let mut out = String::from("backgrounds\n");
    for v in 0..=255 {
        let regs = scattered(v).regs;
        for bg in 0..4 {
            let (w64, h64) = regs.bg_tilemap_size(bg);
            let block = if regs.bg_mosaic(bg) {
                regs.mosaic_size()
            } else {
                1
            };
            out += &format!(
                "{:04x}{:04x}",
                regs.bg_tilemap_addr(bg),
                regs.bg_tiledata_addr(bg)
            );
            out += &format!("{:x}", w64 as u8 + h64 as u8 * 2);
            out += &format!(
                "{:x}{block:02x}\n",
                regs.bg_tile16(bg) as u8 + regs.bg_mosaic(bg) as u8 * 2
            );
        }
    }
    out
}

/// Every mosaic size, and for each the counters 0 to 16: the offset, and the four backgrounds', in
/// decimal.
fn mosaic() -> String {
    let mut out = String::from("mosaic offsets\n");
    for n in 0..272 {
        let mut ppu = PPU::new();
        ppu.regs.mosaic = (n / 17 * 16 + n % 16) as u8;
        ppu.mosaic_vcounter = (n % 17) as u8;
        out += &format!("{}", ppu.mosaic_voffset());
        for bg in 0..4 {
            let offset = if ppu.regs.bg_mosaic(bg) {
                ppu.mosaic_voffset()
            } else {
                0
            };
            out += &format!(" {offset}");
        }
        out += "\n";
    }
    out
}

/// Random scrolls, and for each the four backgrounds: horizontal, vertical.
fn scroll() -> String {
    let mut out = String::from("scroll\n");
    let mut numbers = Generator::new(4);
    for _ in 0..SCROLLS {
        let mut regs = PPURegisters::new();
        regs.bg1hofs = numbers.word();
        regs.bghofs = [(); 3].map(|_| numbers.word());
        regs.bg1vofs = numbers.word();
        regs.bgvofs = [(); 3].map(|_| numbers.word());
        for bg in 0..4 {
            let (x, y) = regs.bg_scroll(bg);
            out += &format!("{x:04x}{y:04x}\n");
        }
    }
    out
}

/// The registers of a layout, in which one window (BG1 to BG4, sprites, colour: 0 to 5) has these four
/// bits and this logic. Every other window's bits are the fill's.
fn window(
    (wh0, wh1, wh2, wh3, fill): (u8, u8, u8, u8, u8),
    which: usize,
    bits: u8,
    logic: u8,
) -> PPURegisters {
    let sel = |first: usize| match which.checked_sub(first) {
        Some(0) => fill & 0xf0 | bits,
        Some(1) => fill & 0x0f | bits << 4,
        _ => fill,
    };
    let log = |first: usize| match which.checked_sub(first) {
        Some(k @ 0..4) => fill & !(3 << (2 * k)) | logic << (2 * k),
        _ => fill,
    };
    let mut regs = PPURegisters::new();
    (regs.wh0, regs.wh1, regs.wh2, regs.wh3) = (wh0, wh1, wh2, wh3);
    (regs.w12sel, regs.w34sel, regs.wobjsel) = (sel(0), sel(2), sel(4));
    (regs.wbglog, regs.wobjlog) = (log(0), log(4));
    regs
}

/// A number of 14 bits: the answers at the columns before, at and after each of the four edges, as
/// far as there are such, then at 0 and at 255.
fn columns(regs: &PPURegisters, answer: impl Fn(usize) -> bool) -> u16 {
    [regs.wh0, regs.wh1, regs.wh2, regs.wh3]
        .into_iter()
        .flat_map(|edge| [edge.saturating_sub(1), edge, edge.saturating_add(1)])
        .chain([0, 255])
        .fold(0, |bits, x| bits * 2 + answer(x as usize) as u16)
}

/// Every layout: window 1, window 2; then every window at each logic, and for each the sixteen
/// settings of its four bits.
fn windows() -> String {
    let mut out = String::from("windows\n");
    for layout in LAYOUTS {
        let regs = window(layout, 0, 0, 0);
        out += &format!("{:04x}", columns(&regs, |x| regs.in_window1(x)));
        out += &format!("{:04x}\n", columns(&regs, |x| regs.in_window2(x)));
        for n in 0..384 {
            let which = n / 64;
            let regs = window(layout, which, (n % 16) as u8, (n / 16 % 4) as u8);
            let bits = columns(&regs, |x| match which {
                0..4 => regs.bg_window_masked(which, x),
                4 => regs.obj_window_masked(x),
                _ => regs.in_color_window(x),
            });
            out += &format!("{bits:04x}\n");
        }
    }
    out
}
