//! What the frame program writes, drawn by the Rust.

use crate::rows::{ROWS, stepped};
use crate::scene::{self, Scene};
use crate::screen::Screen;

const HEAD: &[u8] = b"P6\n256 224\n255\n";

pub fn refused(number: u8) -> Vec<u8> {
    format!("refused {number}\n").into_bytes()
}

/// The plate: the counter walks from row to row.
pub fn plate(screen: &mut Screen) -> Vec<u8> {
    let mut out = HEAD.to_vec();
    for y in 0..ROWS {
        out.extend(screen.row(y));
        let ppu = &mut screen.ppu;
        ppu.mosaic_vcounter = stepped(ppu.regs.mosaic, ppu.mosaic_vcounter);
    }
    out
}

/// The plate of a scene's bytes, or the refusal.
pub fn answer(bytes: &[u8]) -> Vec<u8> {
    match scene::read(bytes).map(Scene::screen) {
        Ok(mut screen) => plate(&mut screen),
        Err(number) => refused(number),
    }
}

/// Where two answers part: the row, the column and the channel of a plate, or the byte; and what both have.
pub fn parting(has: &[u8], wants: &[u8]) -> String {
    let differs = has.iter().zip(wants).position(|(a, b)| a != b);
    let at = differs.unwrap_or(has.len().min(wants.len()));
    let place = match at.checked_sub(HEAD.len()) {
        Some(n) if wants.starts_with(HEAD) => {
            format!("row {}, column {}, channel {}", n / 768, n % 768 / 3, n % 3)
        }
        _ => format!("byte {at}"),
    };
    let shown = |bytes: &[u8]| match bytes.get(at) {
        _ if bytes.len() < 20 => format!("{:?}", String::from_utf8_lossy(bytes)),
        Some(byte) => format!("{byte:#04x} of {} bytes", bytes.len()),
        None => format!("nothing, after {} bytes", bytes.len()),
    };
    format!(
        "at {place} it has {}, the oracle {}",
        shown(has),
        shown(wants)
    )
}
