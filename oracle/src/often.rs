//! A scene drawn again and again by the Rust, as the program draw_often draws it with ours.

use crate::oam::fold;
use crate::rows::{ROWS, stepped};
use crate::scene;
use crate::screen::Screen;

/// Draws the rows, the counter walking as in a frame, and hands each to the digest.
fn once(screen: &mut Screen, mut digest: u32, with: impl Fn(u32, &[u8]) -> u32) -> u32 {
    let first = screen.ppu.mosaic_vcounter;
    for y in 0..ROWS {
        digest = with(digest, screen.row(y));
        let ppu = &mut screen.ppu;
        ppu.mosaic_vcounter = stepped(ppu.regs.mosaic, ppu.mosaic_vcounter);
    }
    screen.ppu.mosaic_vcounter = first;
    digest
}

/// The digest's line, for a count of four bytes and a scene: one byte of each row each time, and every byte
/// once more.
pub fn digest(input: &[u8]) -> Result<String, String> {
    let (count, bytes) = input.split_first_chunk().ok_or("no count")?;
    let scene = scene::read(bytes).map_err(|number| format!("refused {number}"))?;
    let mut screen = scene.screen();
    let times = u16::try_from(u32::from_le_bytes(*count)).unwrap_or(0);
    let mut digest = 1;
    for k in 0..times as usize {
        digest = once(&mut screen, digest, |d, row| {
            fold(d, row[k % row.len()] as u64)
        });
    }
    digest = once(&mut screen, digest, |d, row| {
        row.iter().fold(d, |d, byte| fold(d, *byte as u64))
    });
    Ok(format!("{digest:08x}\n"))
}
