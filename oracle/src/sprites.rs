//! The list `sprites`: rows of scenes in which sprites alone are lit.
//!
//! The lines of both screens are private in the Rust, so a row is drawn for each thing that is asked
//! of them. Where a priority is asked, a background lies over every column: words 0 to 71 of VRAM are
//! a row of a map with low entries, one with high entries, and the opaque tile of both.

use crate::choice::{beside, put};
use crate::generator::Generator;
use crate::oam::{Bytes, fold, loaded};
use crate::screen::{Row, Screen, bytes, column_of};

const SCENES: u32 = 160;
/// The rows of a scene, and the columns that are asked in each.
const ROWS: u32 = 4;
const COLUMNS: u32 = 6;
pub const SEED: u32 = 50;
/// The sprites' bit of tm and ts.
const OBJ: u8 = 0x10;

pub fn list(seed: u32) -> String {
    let mut stage = Stage {
        screen: Screen::new(),
        numbers: Generator::new(seed),
    };
    let mut out = String::from("scenes\n");
    for n in 0..SCENES {
        if n % 40 == 0 {
            stage.fill();
        }
        out += &stage.scene(n);
    }
    out
}

/// What VRAM holds at i, of two words: a map and its tile, then nothing, few bits, rows with nothing
/// or many bits, in runs of 16 words.
fn held(i: usize, a: u16, b: u16) -> u16 {
    match (i, i / 16 % 4) {
        (0..32, _) => 0x0008,
        (32..64, _) => 0x2008,
        (64..72, _) => 0xffff,
        (_, 0) => 0,
        (_, 1) => a & b,
        (_, 2) if b % 4 == 0 => 0,
        _ => a,
    }
}

/// The first row, the last one and any; row 0 for the kind whose sprites stand above the picture.
fn first_of(kind: u32, drawn: u32) -> u32 {
    match drawn % 8 {
        _ if kind == 2 => 0,
        0 => 0,
        1 => 223,
        _ => drawn / 8 % 224,
    }
}

/// Five kinds of scenes: any column and top; at the edges, around a row; at the edges, above the
/// picture; a pile at the left; across the picture, at more lines.
fn column(kind: u32, a: u16, b: u16) -> u16 {
    match kind {
        0 => b % 512,
        1 | 2 => beside(8, a, b),
        3 => (496 + b % 64) % 512,
        _ => (464 + b % 304) % 512,
    }
}

fn top(kind: u32, first: u16, c: u16) -> u16 {
    match kind {
        0 => c,
        1 => first + 256 - c % 16,
        2 => 240 + c % 16,
        3 => first + 256 - c % 8,
        _ => first + 256 - c % 64,
    }
}

/// A background that is opaque in every column: its bgmode, its bit, the map's row.
struct Cover {
    bgmode: u8,
    bit: u8,
    row: u16,
}

/// Between the sprites' priorities: 5, 8 and 11.
const BETWEEN: [Cover; 3] = [
    Cover {
        bgmode: 0,
        bit: 4,
        row: 1,
    },
    Cover {
        bgmode: 0,
        bit: 1,
        row: 0,
    },
    Cover {
        bgmode: 0,
        bit: 1,
        row: 1,
    },
];
/// Above them: 13.
const ABOVE: Cover = Cover {
    bgmode: 9,
    bit: 4,
    row: 1,
};

/// The lines of a row. In each column main has the colour and 32,768 times its marks: 16 for a sprite,
/// 2 times a third of its priority, 1 for the math mark. Sub has the colour and 32,768 for a sprite.
struct Lines {
    main: [u64; 256],
    sub: [u64; 256],
}

impl Lines {
    fn at(&self, x: usize) -> u64 {
        self.main[x] << 32 | self.sub[x]
    }
}

struct Stage {
    screen: Screen,
    numbers: Generator,
}

impl Stage {
    /// VRAM and colour memory.
    fn fill(&mut self) {
        let ppu = &mut self.screen.ppu;
        for (i, word) in ppu.vram.memory.iter_mut().enumerate() {
            let [a, b] = [(); 2].map(|_| self.numbers.word());
            *word = held(i, a, b);
        }
        for word in ppu.cgram.memory.iter_mut() {
            *word = self.numbers.word();
        }
    }

    /// Every size, interlace off and on, both fields; the rest is drawn.
    fn registers(&mut self, n: u32) {
        let words = [(); 6].map(|_| self.numbers.word());
        let ppu = &mut self.screen.ppu;
        let [names, setini] = bytes(words[0]);
        ppu.frame = (n / 16 % 2) as u64;
        ppu.regs.objsel = (n % 8 * 32) as u8 + names % 32;
        ppu.regs.setini = setini & !2 | (n / 8 % 2 * 2) as u8;
        [ppu.regs.wobjsel, ppu.regs.wobjlog] = bytes(words[1]);
        [ppu.regs.wh0, ppu.regs.wh1] = bytes(words[2]);
        [ppu.regs.wh2, ppu.regs.wh3] = bytes(words[3]);
        [ppu.regs.tmw, ppu.regs.tsw] = bytes(words[4]);
        ppu.regs.coldata = words[5];
    }

    /// Sprite memory. A sprite that is not kept stands left of the picture; in some scenes all are small.
    fn sprites(&mut self, kind: u32, first: u32) {
        let drawn = self.numbers.word();
        let density = drawn % 16;
        let mixed = drawn / 16 % 4 != 0;
        let mut memory: Bytes = [0; 544];
        for i in 0..128 {
            let [a, b, c, d] = [(); 4].map(|_| self.numbers.word());
            let x9 = match kind {
                1.. if a / 64 % 16 > density => 300,
                _ => column(kind, a, b),
            };
            let top = top(kind, first as u16, c);
            put(&mut memory, i, x9, top, d, mixed && a / 32 % 2 == 1);
        }
        self.screen.ppu.oam = loaded(&memory);
    }

    /// The row with a background over every column of main.
    fn covered(&mut self, y: u32, cover: &Cover, cgwsel: u8) -> Row {
        let regs = &mut self.screen.ppu.regs;
        let scroll = (cover.row * 8 + 255 - y as u16) % 256;
        regs.bgmode = cover.bgmode;
        regs.tm += cover.bit;
        regs.bg1vofs = scroll;
        regs.bgvofs = [scroll; 3];
        let row = self.screen.drawn(y, cgwsel, cover.bit);
        self.screen.ppu.regs.tm -= cover.bit;
        row
    }

    /// Main is shown without colour math. White is added to a main that is kept nowhere, and so black,
    /// where a sprite has the math mark, where main is the backdrop, and where a background lies over
    /// what main has.
    fn main(&mut self, y: u32) -> [u64; 256] {
        let colours = self.screen.drawn(y, 0, 0);
        let coldata = self.screen.ppu.regs.coldata;
        self.screen.ppu.regs.coldata = 0x7fff;
        let math = self.screen.drawn(y, 0xc0, OBJ);
        let backdrop = self.screen.drawn(y, 0xc0, 0x20);
        let barred = BETWEEN.each_ref().map(|c| self.covered(y, c, 0xc0));
        self.screen.ppu.regs.coldata = coldata;
        std::array::from_fn(|x| {
            let third = 1 + barred.iter().filter(|row| row[x] == 0).count() as u64;
            let marks = match backdrop[x] {
                0 => 16 + 2 * third + (math[x] != 0) as u64,
                _ => 0,
            };
            marks * 32768 + colours[x] as u64
        })
    }

    /// Sub is added to a main that is black and a background's. Where it is the backdrop, it changes
    /// with coldata.
    fn sub(&mut self, y: u32) -> [u64; 256] {
        let colours = self.covered(y, &ABOVE, 0xc2);
        self.screen.ppu.regs.coldata ^= 0x7fff;
        let others = self.covered(y, &ABOVE, 0xc2);
        self.screen.ppu.regs.coldata ^= 0x7fff;
        std::array::from_fn(|x| {
            let sprite = (colours[x] == others[x]) as u64;
            sprite * 32768 + colours[x] as u64
        })
    }

    /// Main with the sprites alone and no window: the sprite line over the backdrop.
    fn line(&mut self, y: u32) -> [u64; 256] {
        let [tmw, tsw] = [self.screen.ppu.regs.tmw, self.screen.ppu.regs.tsw];
        let regs = &mut self.screen.ppu.regs;
        [regs.tm, regs.ts, regs.tmw, regs.tsw] = [OBJ, 0, 0, 0];
        let line = self.main(y);
        let regs = &mut self.screen.ppu.regs;
        [regs.tmw, regs.tsw] = [tmw, tsw];
        line
    }

    fn lines(&mut self, y: u32, screens: u8) -> Lines {
        self.screen.ppu.regs.tm = screens % 2 * OBJ;
        self.screen.ppu.regs.ts = screens / 2 * OBJ;
        Lines {
            main: self.main(y),
            sub: self.sub(y),
        }
    }

    /// objsel, setini, the field and the kind; then for each row the row and oamadd, a digest of the
    /// sprite line, a digest of the lines with the sprites on neither screen, on main, on sub and on
    /// both, and a digest of the last at some columns.
    fn scene(&mut self, n: u32) -> String {
        let kind = n / 32;
        self.registers(n);
        let first = first_of(kind, self.numbers.below(65536));
        self.sprites(kind, first);
        let ppu = &self.screen.ppu;
        let [objsel, setini] = [ppu.regs.objsel, ppu.regs.setini];
        let mut out = format!("{objsel:02x}{setini:02x}{:x}{kind:x}\n", ppu.frame);
        for k in 0..ROWS {
            let y = (first + k * k) % 224;
            let oamadd = self.numbers.word();
            self.screen.ppu.regs.oamadd = oamadd;
            let line = self.line(y).into_iter().fold(0, fold);
            let shown = [0, 1, 2, 3].map(|screens| self.lines(y, screens));
            let whole = shown.iter().fold(0, |digest, lines| {
                (0..256).fold(digest, |digest, x| fold(digest, lines.at(x)))
            });
            let some = (0..COLUMNS).fold(0, |digest, k| {
                let x = column_of(k, self.numbers.below(65536));
                fold(digest, shown[3].at(x as usize))
            });
            out += &format!("{y:02x}{oamadd:04x} {line:08x} {whole:08x} {some:08x}\n");
        }
        out
    }
}
