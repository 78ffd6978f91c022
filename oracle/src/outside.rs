//! The list `outside`: what the Rust does on inputs that the rules do not cover, a line for each case.
//!
//! It depends on the build: a debug build stops at a sum that overflows, a release build goes on.

use crate::frame;
use crate::kinds::{self, Kind};
use crate::rows::{ROWS, stepped};
use rust_ppu::oam::OAM;
use rust_ppu::ppu::{PPU, PpuEvent};
use rust_ppu::rendering::renderer::{BgParams, BitDepth, Layer, Priority, Renderer};
use rust_ppu::vram::VRAM;
use std::collections::BTreeSet;
use std::fmt::Debug;
use std::panic::{self, AssertUnwindSafe};

/// A case's line: the answer, or that the Rust panics.
fn line<T: Debug>(case: &str, run: impl FnOnce() -> T) -> String {
    match panic::catch_unwind(AssertUnwindSafe(run)) {
        Ok(answer) => format!("{case}: answer {answer:?}\n"),
        Err(_) => format!("{case}: panic\n"),
    }
}

pub fn list() -> String {
    panic::set_hook(Box::new(|_| ()));
    rows() + &backgrounds() + &lines() + &windows() + &sprites() + &tiles() + &rest() + &counters()
}

fn rows() -> String {
    let mut out = String::new();
    for (case, inidisp) in [
        ("render_scanline row 224", 15),
        ("render_scanline row 224, forced blank", 0x80),
    ] {
        let mut ppu = PPU::new();
        ppu.regs.inidisp = inidisp;
        out += &line(case, || Renderer::new().render_scanline(&ppu, 224));
    }
    out
}

/// Each byte is another, so that an answer tells which one it was read from.
fn backgrounds() -> String {
    let mut ppu = PPU::new();
    ppu.regs.bgsc = [0x04, 0x08, 0x0d, 0x13];
    ppu.regs.bg12nba = 0x21;
    ppu.regs.bg34nba = 0x43;
    ppu.regs.bghofs = [2, 3, 4];
    ppu.regs.bgvofs = [6, 7, 8];
    ppu.regs.bgmode = 0xff;
    ppu.regs.mosaic = 0x1f;
    let mut out = line("bg_tilemap_addr background 4", || {
        ppu.regs.bg_tilemap_addr(4)
    });
    out += &line("bg_tiledata_addr background 4", || {
        ppu.regs.bg_tiledata_addr(4)
    });
    out += &line("bg_tilemap_size background 4", || {
        ppu.regs.bg_tilemap_size(4)
    });
    out += &line("bg_scroll background 4", || ppu.regs.bg_scroll(4));
    out += &line("bg_tile16 background 4", || ppu.regs.bg_tile16(4));
    out += &line("bg_tile16 background 8", || ppu.regs.bg_tile16(8));
    out += &line("bg_mosaic background 4", || ppu.regs.bg_mosaic(4));
    out += &line("bg_mosaic background 5", || ppu.regs.bg_mosaic(5));
    ppu.regs.mosaic = 0x01;
    out += &line("bg_mosaic background 8, mosaic of BG1 alone", || {
        ppu.regs.bg_mosaic(8)
    });
    ppu.regs.mosaic = 0xfe;
    out += &line("bg_mosaic background 8, mosaic of all but BG1", || {
        ppu.regs.bg_mosaic(8)
    });
    out
}

/// The parameters of a background of 8bpp from colour 32 on: its last colours lie past the end.
fn params(layer: Layer, palette_base: u8) -> BgParams {
    BgParams {
        tilemap_base: 0,
        tiledata_base: 0,
        scroll_x: 0,
        scroll_y: 0,
        bpp: BitDepth::Eight,
        palette_base,
        w64: false,
        h64: false,
        tile16: false,
        mosaic: true,
        z_low: Priority::new(5),
        z_high: Priority::new(11),
        layer,
        to_main: true,
        to_sub: false,
    }
}

/// Every index is 255.
fn lines() -> String {
    let mut ppu = PPU::new();
    ppu.vram.memory.fill(0xffff);
    let layer = match Layer::from_bg(4) {
        Layer::Bg4 => "Bg4",
        _ => "another",
    };
    let mut out = line("from_bg background 4", || layer);
    for (case, layer, base, y, counter) in [
        ("row 224", Layer::Bg1, 0, 224, 0),
        ("counter 17", Layer::Bg1, 0, 0, 17),
        ("the layer of sprites", Layer::Obj, 0, 0, 0),
        ("8bpp from colour 32 on", Layer::Bg1, 32, 0, 0),
    ] {
        ppu.mosaic_vcounter = counter;
        out += &line(&format!("render_bg_scanline {case}"), || {
            Renderer::new().render_bg_scanline(&ppu, y, &params(layer, base))
        });
    }
    out
}

fn windows() -> String {
    let mut ppu = PPU::new();
    ppu.regs.wh1 = 255;
    // BG3 alone has its windows enabled. Window 1 holds column 0, window 2 does not.
    ppu.regs.w34sel = 0x0a;
    (ppu.regs.wh2, ppu.regs.wh3) = (1, 1);
    let mut out = String::new();
    for (case, wbglog) in [("OR of BG1 alone", 0x54), ("AND of BG1 alone", 0x01)] {
        ppu.regs.wbglog = wbglog;
        out += &line(
            &format!("bg_window_masked background 4, column 0, {case}"),
            || ppu.regs.bg_window_masked(4, 0),
        );
    }
    out += &line("in_window1 column 255, edges 0 and 255", || {
        ppu.regs.in_window1(255)
    });
    out += &line("in_window1 column 256, edges 0 and 255", || {
        ppu.regs.in_window1(256)
    });
    ppu.regs.w12sel = 0x03;
    out += &line(
        "bg_window_masked background 0, column 256, inverted",
        || ppu.regs.bg_window_masked(0, 256),
    );
    out
}

/// Sprite 0 has top 224, the others have top 100.
fn sprites() -> String {
    let mut oam = OAM::new();
    for n in 0..512 {
        oam.write_data(if n == 1 { 224 } else { 100 });
    }
    let mut out = line("get_sprite sprite 128", || oam.get_sprite(128, 0));
    for row in [224, 356] {
        out += &line(&format!("eval_sprites_for_scanline row {row}"), || {
            let (visible, time_over, range_over) = oam.eval_sprites_for_scanline(row, 0, 0, false);
            (visible.len(), time_over, range_over)
        });
    }
    let mut ppu = PPU::new();
    ppu.regs.tm = 0x10;
    ppu.oam = oam;
    for row in [224, 356] {
        out += &line(&format!("render_sprites row {row}"), || {
            Renderer::new().render_sprites(&ppu, row)
        });
    }
    ppu.mosaic_vcounter = 17;
    out += &line("render_sprites counter 17", || {
        Renderer::new().render_sprites(&ppu, 100)
    });
    out
}

/// Row 0 of the tile at word 0, leftmost pixel: the plane pairs hold 1, 3, 2, 1. What follows is blank.
/// Its rightmost pixel is 2 in the first pair and 0 in the others.
fn tiles() -> String {
    let mut vram = VRAM::new();
    vram.memory[0] = 0x0180;
    vram.memory[8] = 0x8080;
    vram.memory[16] = 0x8000;
    vram.memory[24] = 0x0080;
    let v = &vram.memory;
    let mut out = String::new();
    for (case, base, x, y) in [
        ("tile pixel 0, 0", 0, 0, 0),
        ("tile pixel 8, 0", 0, 8, 0),
        ("tile pixel 0, 8", 0, 0, 8),
        ("tile word 65,536", 65536, 0, 0),
    ] {
        out += &line(&format!("decode_2bpp {case}"), || {
            Renderer::decode_2bpp_tile_pixel_from(v, base, x, y)
        });
        out += &line(&format!("decode_4bpp {case}"), || {
            Renderer::decode_4bpp_tile_pixel_from(v, base, x, y)
        });
        out += &line(&format!("decode_8bpp {case}"), || {
            Renderer::decode_8bpp_tile_pixel_from(v, base, x, y)
        });
    }
    out
}

fn rest() -> String {
    let mut ppu = PPU::new();
    ppu.mosaic_vcounter = 17;
    let mut out = line("apply_brightness 0x7fff, brightness 16", || {
        Renderer::apply_brightness(0x7fff, 16)
    });
    out += &line("mosaic_voffset size 1, counter 17", || ppu.mosaic_voffset());
    out
}

/// Ticks to the start of the next scanline, where the Rust steps the counter itself.
fn next_scanline(ppu: &mut PPU) {
    while !matches!(ppu.tick(), Some(PpuEvent::ScanlineStart(_))) {}
}

/// The counter after a scanline. Row 0 is scanline 1.
fn walked(mosaic: u8, counter: u8, scanline: u16) -> u8 {
    let mut ppu = PPU::new();
    ppu.regs.mosaic = mosaic;
    ppu.mosaic_vcounter = counter;
    ppu.scanline = scanline;
    next_scanline(&mut ppu);
    ppu.mosaic_vcounter
}

/// The counters for which the Rust's step after row 0 is another than that of the rules.
fn apart(mosaic: u8) -> Vec<u8> {
    (0..=16)
        .filter(|counter| walked(mosaic, *counter, 1) != stepped(mosaic, *counter))
        .collect()
}

/// The rows of a picture with this mosaic that show something else where the Rust walks by itself, from
/// scanline 0 on.
fn rows_apart(mosaic: u8, counter: u8) -> Vec<u32> {
    let [mut ours, mut own] = [(); 2].map(|_| {
        let mut scene = kinds::scene(Kind::Picture, 1);
        scene.regs.mosaic = mosaic;
        scene.counter = counter;
        scene.screen()
    });
    let plate = frame::plate(&mut ours);
    let row = |y: u32| &plate[15 + y as usize * 768..][..768];
    (0..ROWS)
        .filter(|y| {
            next_scanline(&mut own.ppu);
            own.row(*y) != row(*y)
        })
        .collect()
}

/// The Rust's own walk of the mosaic counter beside that of the rules.
fn counters() -> String {
    let mut out = String::new();
    for (mosaic, counter) in [(0x00, 0), (0x00, 1), (0x01, 0), (0x01, 1)] {
        out += &line(
            &format!("the counter after row 0, mosaic {mosaic:#04x}, counter {counter}"),
            || walked(mosaic, counter, 1),
        );
    }
    for (mosaic, counter) in [(0x00, 1), (0x01, 0), (0x31, 2)] {
        out += &line(
            &format!("the counter at row 0, mosaic {mosaic:#04x}, counter {counter} before it"),
            || walked(mosaic, counter, 0),
        );
    }
    for (case, on) in [("a mosaic", true), ("no mosaic", false)] {
        out += &line(
            &format!("the counters whose step parts, with {case} on"),
            || {
                let registers = (0..=255).filter(|mosaic| (mosaic % 16 != 0) == on);
                registers.flat_map(apart).collect::<BTreeSet<u8>>()
            },
        );
    }
    for (mosaic, counter) in [(0x00, 0), (0x01, 0), (0x01, 1), (0x31, 4)] {
        out += &line(
            &format!("the rows that part, mosaic {mosaic:#04x}, counter {counter}"),
            || rows_apart(mosaic, counter),
        );
    }
    out
}
