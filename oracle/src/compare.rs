//! The programs beside the Rust, on scenes and lists of many seeds.

use crate::frame;
use crate::kinds::{KINDS, scene};
use crate::program::{Input, Program, found, run, two_at_a_time};
use crate::rows::ROWS;
use crate::scene::read;
use crate::screen::Screen;
use crate::{background, choice, port, rows, sprites};

/// A list that a replay program prints of any seed.
pub struct List {
    pub name: &'static str,
    /// The seed of the kept list.
    pub seed: u32,
    pub make: fn(u32) -> String,
    /// What a list holds.
    holds: &'static str,
    /// The scenes that are drawn for each of these lists.
    share: u32,
}

pub const LISTS: [List; 5] = [
    List {
        name: "choice",
        seed: choice::SEED,
        make: choice::list,
        holds: "10,880 choices with their flags",
        share: 6,
    },
    List {
        name: "port",
        seed: port::SEED,
        make: port::list,
        holds: "12,000 accesses",
        share: 6,
    },
    List {
        name: "background",
        seed: background::SEED,
        make: background::list,
        holds: "1,920 pairs of lines",
        share: 30,
    },
    List {
        name: "sprites",
        seed: sprites::SEED,
        make: sprites::list,
        holds: "640 sprite lines and 2,560 pairs of lines",
        share: 60,
    },
    List {
        name: "rows",
        seed: rows::SEED,
        make: rows::list,
        holds: "28,672 whole rows",
        share: 120,
    },
];

/// What was drawn of a scene: its kind, whether it is all black, the rows with time over and range over.
struct Drawn {
    kind: usize,
    black: bool,
    time_over: u32,
    range_over: u32,
}

/// The rows with time over and with range over, where a screen shows sprites.
fn overs(screen: &Screen) -> [u32; 2] {
    let ppu = &screen.ppu;
    let shown = !ppu.force_blank() && (ppu.regs.tm | ppu.regs.ts) & 0x10 != 0;
    let mut overs = [0; 2];
    for y in (0..ROWS).take_while(|_| shown) {
        let (_, time_over, range_over) = ppu.oam.eval_sprites_for_scanline(
            y as usize,
            ppu.regs.objsel,
            ppu.regs.oamadd,
            ppu.obj_interlace(),
        );
        overs[0] += time_over as u32;
        overs[1] += range_over as u32;
    }
    overs
}

/// One scene of kind k, by the frame program and by the Rust.
fn one_scene(program: &Program, k: usize, seed: u32) -> Result<Drawn, String> {
    let (kind, name) = KINDS[k];
    let said = |text: String| format!("oracle scene {name} {seed}: {text}");
    let bytes = scene(kind, seed).bytes();
    let own = read(&bytes).map_err(|number| said(format!("the oracle refuses it {number}")))?;
    let mut screen = own.screen();
    let wants = frame::plate(&mut screen);
    let has = run(program, &Input::whole(bytes)).map_err(said)?;
    if has != wants {
        return Err(said(frame::parting(&has, &wants)));
    }
    let [time_over, range_over] = overs(&screen);
    Ok(Drawn {
        kind: k,
        black: wants[15..].iter().all(|byte| *byte == 0),
        time_over,
        range_over,
    })
}

fn scenes(programs: &str, n: u32, seed: u32) -> Result<(), String> {
    let program = found(programs, "frame")?;
    let turns = n.div_ceil(KINDS.len() as u32);
    let drawn = two_at_a_time(turns as usize * KINDS.len(), |k| {
        let turn = (k / KINDS.len()) as u32;
        one_scene(&program, k % KINDS.len(), seed.wrapping_add(turn))
    })?;
    let plates = drawn.len();
    println!("scenes: {turns} of each kind, the seeds from {seed} on");
    for (k, (_, name)) in KINDS.iter().enumerate() {
        let of_kind = || drawn.iter().filter(|one| one.kind == k);
        let rows = of_kind().count() * ROWS as usize;
        let black = of_kind().filter(|one| one.black).count();
        let time_over: u32 = of_kind().map(|one| one.time_over).sum();
        let range_over: u32 = of_kind().map(|one| one.range_over).sum();
        println!(
            "  {name:9} {rows:7} rows, time over on {time_over}, range over on {range_over}; {black} plates all black"
        );
    }
    println!(
        "  {plates} plates, {} rows, {} bytes: equal",
        plates * ROWS as usize,
        plates * 172_047
    );
    Ok(())
}

/// Lists of seeds that stand far apart.
fn lists(programs: &str, list: &List, n: u32, seed: u32) -> Result<(), String> {
    let program = found(programs, &format!("replay_{}", list.name))?;
    two_at_a_time(n as usize, |k| {
        let seed = seed.wrapping_add((k as u32).wrapping_mul(0x9e37_79b9));
        let said = |text: String| format!("oracle {} {seed}: {text}", list.name);
        let wants = (list.make)(seed).into_bytes();
        let has = run(&program, &Input::whole(seed.to_le_bytes().to_vec())).map_err(said)?;
        match has == wants {
            true => Ok(()),
            false => Err(said(frame::parting(&has, &wants))),
        }
    })?;
    println!(
        "{}: {n} lists, each of {}, the seeds {seed} + 2654435769 k: equal",
        list.name, list.holds
    );
    Ok(())
}

/// Compares all of it, and prints what was compared. A failure names the scene or the list.
pub fn all(programs: &str, n: u32, seed: u32) -> Result<(), String> {
    scenes(programs, n, seed)?;
    for list in &LISTS {
        lists(programs, list, n.div_ceil(list.share), seed)?;
    }
    Ok(())
}
