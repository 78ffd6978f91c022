//! The list `port`: the data port of sprite memory.
//!
//! The address and the latch are private in the Rust. They show in what later accesses do.

use crate::generator::Generator;
use crate::oam::fold;
use rust_ppu::oam::OAM;

pub const SEED: u32 = 30;

pub fn list(seed: u32) -> String {
    let mut oam = OAM::new();
    mixed(&mut oam, seed)
        + &runs(&mut oam, seed.wrapping_add(1))
        + &latch(&mut oam, seed.wrapping_add(2))
        + &whole(&mut oam)
}

/// A digest of the 544 bytes, put together from the sprites: reading through the port would move it.
fn digest(oam: &OAM) -> u32 {
    let mut bytes = [0; 544];
    for i in 0..128 {
        let s = oam.get_sprite(i as u8, 0);
        let flips = (s.flip_x as u8) << 6 | (s.flip_y as u8) << 7;
        bytes[i * 4] = (s.x as u16 % 256) as u8;
        bytes[i * 4 + 1] = s.y;
        bytes[i * 4 + 2] = s.tile;
        bytes[i * 4 + 3] = s.name_table | s.palette << 1 | s.priority << 4 | flips;
        bytes[512 + i / 4] |= ((s.x < 0) as u8 + s.large as u8 * 2) << (i % 4 * 2);
    }
    bytes
        .iter()
        .fold(0, |digest, byte| fold(digest, *byte as u64))
}

/// The byte read, in two digits.
fn read(oam: &mut OAM) -> String {
    format!("{:02x}", oam.read_data())
}

fn edge(k: u16) -> u16 {
    [0, 255, 256, 271, 272, 511, 512, 65535][k as usize]
}

/// One access: an address, an edge's address, a byte written or a byte read.
fn access(oam: &mut OAM, op: u16, value: u16) -> String {
    match op {
        0 => oam.write_addr(value),
        1 => oam.write_addr(edge(value % 8)),
        2..9 => oam.write_data((value % 256) as u8),
        _ => return read(oam),
    }
    String::new()
}

/// Random accesses, 64 to a line: the bytes read; the memory's digest.
fn mixed(oam: &mut OAM, seed: u32) -> String {
    let mut out = String::from("mixed\n");
    let mut numbers = Generator::new(seed);
    for n in 0..8192 {
        let op = numbers.below(16) as u16;
        let value = numbers.word();
        out += &access(oam, op, value);
        if n % 64 == 63 {
            out += &format!(" {:08x}\n", digest(oam));
        }
    }
    out
}

/// From each edge, and from one byte further on: 80 bytes written; the memory's digest; 80 bytes read
/// from the same place.
fn runs(oam: &mut OAM, seed: u32) -> String {
    let mut out = String::from("runs\n");
    let mut numbers = Generator::new(seed);
    for n in 0..16 {
        let start = |oam: &mut OAM| {
            oam.write_addr(edge(n / 2));
            if n % 2 == 1 {
                oam.read_data();
            }
        };
        start(oam);
        for _ in 0..80 {
            oam.write_data(numbers.below(256) as u8);
        }
        out += &format!("{:08x} ", digest(oam));
        start(oam);
        for _ in 0..80 {
            out += &read(oam);
        }
        out += "\n";
    }
    out
}

/// A byte waits in the latch while the address is written, a byte is read and, every other time,
/// the second table is written to. Then the pair is stored elsewhere and read back.
fn latch(oam: &mut OAM, seed: u32) -> String {
    let mut out = String::from("latch\n");
    let mut numbers = Generator::new(seed);
    for n in 0..64 {
        let [from, to] = [(); 2].map(|_| numbers.below(256) as u16);
        let [first, second, other] = [(); 3].map(|_| numbers.below(256) as u8);
        oam.write_addr(from);
        oam.write_data(first);
        if n % 2 == 1 {
            oam.write_addr(256);
            oam.write_data(other);
        }
        oam.write_addr(to);
        out += &read(oam);
        oam.write_data(second);
        oam.write_addr(to);
        out += &read(oam);
        out += &read(oam);
        out += "\n";
    }
    out
}

/// All 1,024 addresses, 32 to a line.
fn whole(oam: &mut OAM) -> String {
    let mut out = String::from("whole\n");
    oam.write_addr(0);
    for n in 0..1024 {
        out += &read(oam);
        if n % 32 == 31 {
            out += "\n";
        }
    }
    out
}
