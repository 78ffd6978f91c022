//! The list `background`: rows of scenes in which one background alone is lit.
//!
//! The lines of both screens are private in the Rust, so a row is drawn for each thing that is asked
//! of them.

use crate::generator::Generator;
use crate::oam::fold;
use crate::screen::{Row, Screen, bytes, column_of};

const SCENES: u32 = 160;
/// The rows of a scene, and the columns that are asked in each.
const ROWS: u32 = 4;
const COLUMNS: u32 = 6;
pub const SEED: u32 = 40;

pub fn list(seed: u32) -> String {
    let mut screen = Screen::new();
    let mut numbers = Generator::new(seed);
    let mut out = String::from("scenes\n");
    for n in 0..SCENES {
        if n % 40 == 0 {
            screen.fill(&mut numbers);
        }
        out += &screen.scene(n, &mut numbers);
    }
    out
}

/// Mode 0, mode 3, mode 1 and one of the modes that draw as mode 1, in turn.
fn mode_of(n: u32) -> u8 {
    match n % 4 {
        0 => 0,
        1 => 3,
        2 => 1,
        _ => [2, 4, 5, 6, 7][n as usize / 4 % 5],
    }
}

/// The backgrounds of a mode.
fn backgrounds(mode: u8) -> u32 {
    match mode {
        0 => 4,
        3 => 2,
        _ => 3,
    }
}

/// What VRAM holds at i, of two words: nothing, few bits or many, in runs of 16 words.
fn held(i: usize, a: u16, b: u16) -> u16 {
    match i / 16 % 8 {
        0 => 0,
        1 | 3 | 5 => a & b,
        _ => a,
    }
}

/// The first row, the last one and any.
fn row_of(k: u32, drawn: u32) -> u32 {
    match k {
        0 => 0,
        1 => 223,
        _ => drawn % 224,
    }
}

/// The lines of a row: the colours of both, and the background that each pixel of main came from, 4
/// for none.
struct Lines {
    main: Row,
    sub: Row,
    from: Row,
}

impl Lines {
    /// Main's background and colour at a column, then sub's colour.
    fn at(&self, x: usize) -> u64 {
        let main = self.from[x] as u64 * 32768 + self.main[x] as u64;
        main << 32 | self.sub[x] as u64
    }
}

impl Screen {
    /// VRAM and colour memory.
    fn fill(&mut self, numbers: &mut Generator) {
        for (i, word) in self.ppu.vram.memory.iter_mut().enumerate() {
            let [a, b] = [(); 2].map(|_| numbers.word());
            *word = held(i, a, b);
        }
        for word in self.ppu.cgram.memory.iter_mut() {
            *word = numbers.word();
        }
    }

    /// Main is shown without colour math. Sub is added to a main that is kept nowhere, and so black.
    /// White is added to the same main where it came from the background.
    fn lines(&mut self, y: u32, bg: u32, screens: u8) -> Lines {
        self.ppu.regs.tm = (screens % 2) << bg;
        self.ppu.regs.ts = (screens / 2) << bg;
        let main = self.drawn(y, 0, 0);
        let sub = self.drawn(y, 0xc2, 0x2f);
        let coldata = self.ppu.regs.coldata;
        self.ppu.regs.coldata = 0x7fff;
        let white = self.drawn(y, 0xc0, 1 << bg);
        self.ppu.regs.coldata = coldata;
        let from = white.map(|c| if c == 0 { 4 } else { bg as u16 });
        Lines { main, sub, from }
    }

    /// Registers of every value. In some scenes all mosaics are on, their size is large and the vertical
    /// scrolls are small, so that lines from above the map are shown.
    fn registers(&mut self, n: u32, numbers: &mut Generator) {
        let above = n / 4 % 7 == 6;
        let regs = &mut self.ppu.regs;
        let [bgmode, mosaic] = bytes(numbers.word());
        regs.bgmode = bgmode / 8 * 8 + mode_of(n);
        regs.mosaic = if above { mosaic | 0x8f } else { mosaic };
        let [first, second] = [(); 2].map(|_| bytes(numbers.word()));
        regs.bgsc = [first[0], first[1], second[0], second[1]];
        [regs.bg12nba, regs.bg34nba] = bytes(numbers.word());
        regs.bg1hofs = numbers.word();
        regs.bghofs = [(); 3].map(|_| numbers.word());
        let scrolls = [(); 4].map(|_| match numbers.word() {
            word if above => word % 4,
            word => word,
        });
        regs.bg1vofs = scrolls[0];
        regs.bgvofs = [scrolls[1], scrolls[2], scrolls[3]];
        [regs.w12sel, regs.w34sel] = bytes(numbers.word());
        [regs.wh0, regs.wh1] = bytes(numbers.word());
        [regs.wh2, regs.wh3] = bytes(numbers.word());
        [regs.tmw, regs.tsw] = bytes(numbers.word());
        regs.wbglog = bytes(numbers.word())[0];
        regs.coldata = numbers.word();
        regs.cgwsel = (n / 8 % 2) as u8;
    }

    /// The modes in turn, in each the backgrounds that it has, direct colour off and on: bgmode, the
    /// background, mosaic; then for each row the row and the counter, a digest of the lines with the
    /// background on main alone, on sub alone and on both, and a digest of the last at some columns.
    fn scene(&mut self, n: u32, numbers: &mut Generator) -> String {
        self.registers(n, numbers);
        let bg = n / 4 % backgrounds(mode_of(n));
        let regs = &self.ppu.regs;
        let mut out = format!("{:02x}{bg:x}{:02x}\n", regs.bgmode, regs.mosaic);
        for k in 0..ROWS {
            let y = row_of(k, numbers.below(65536));
            self.ppu.mosaic_vcounter = numbers.below(17) as u8;
            let shown = [1, 2, 3].map(|screens| self.lines(y, bg, screens));
            let whole = shown.iter().fold(0, |digest, lines| {
                (0..256).fold(digest, |digest, x| fold(digest, lines.at(x)))
            });
            let some = (0..COLUMNS).fold(0, |digest, k| {
                let x = column_of(k, numbers.below(65536));
                fold(digest, shown[2].at(x as usize))
            });
            out += &format!(
                "{y:02x}{:02x} {whole:08x} {some:08x}\n",
                self.ppu.mosaic_vcounter
            );
        }
        out
    }
}
