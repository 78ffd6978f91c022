//! `oracle LIST [SEED]` prints a list of what the Rust answers; the other commands draw scenes, and hold
//! the programs to the Rust.

mod background;
mod choice;
mod colour;
mod compare;
mod damage;
mod dumps;
mod families;
mod frame;
mod generator;
mod kinds;
mod oam;
mod often;
mod outside;
mod pictured;
mod port;
mod program;
mod registers;
mod rows;
mod salvage;
mod scene;
mod screen;
mod sprites;
mod tiles;

use std::env;
use std::io::{self, Read, Write};
use std::num::NonZero;
use std::process::ExitCode;

const USAGE: &str = "usage: oracle colour | tiles | registers | oam | outside
       oracle choice | port | background | sprites | rows [SEED]
       oracle scene KIND SEED    a scene of a kind: uniform, sprites, windows, math, mosaic, direct,
                                 interlace, blank, picture
       oracle frame              what the frame program writes for the scene on standard input
       oracle often              what draw_often writes for the count and the scene on standard input
       oracle salvage-lines      what salvage_lines writes for the file on standard input
       oracle salvage-scene      what salvage_scene writes for it
       oracle compare PROGRAMS SCENES SEED
       oracle damage | salvage PROGRAMS SEED [MOST]
PROGRAMS is a folder of programs, or a script that runs the program that it is given the name of.";

/// All of the standard input.
fn given() -> Result<Vec<u8>, String> {
    let mut bytes = Vec::new();
    let read = io::stdin().read_to_end(&mut bytes);
    read.map(|_| bytes).map_err(|e| e.to_string())
}

/// The salvage of the standard input.
fn salvaged() -> Result<salvage::Salvaged, String> {
    salvage::read(io::stdin()).map_err(|e| e.to_string())
}

/// What a command writes. None for words that are no command, a failure's text for one that failed.
fn answer(words: &[&str]) -> Option<Result<Vec<u8>, String>> {
    let list = match *words {
        ["colour"] => colour::list(),
        ["tiles"] => tiles::list(),
        ["registers"] => registers::list(),
        ["oam"] => oam::list(),
        ["outside"] => outside::list(),
        ["scene", kind, seed] => {
            let scene = kinds::scene(kinds::named(kind)?, seed.parse().ok()?);
            return Some(Ok(scene.bytes()));
        }
        ["frame"] => return Some(given().map(|bytes| frame::answer(&bytes))),
        ["often"] => {
            let digest = given().and_then(|bytes| often::digest(&bytes));
            return Some(digest.map(String::into_bytes));
        }
        ["salvage-lines"] => return Some(salvaged().map(|done| done.text().into_bytes())),
        ["salvage-scene"] => return Some(salvaged().map(|done| done.bytes)),
        ["compare", programs, scenes, seed] => {
            let scenes: NonZero<u32> = scenes.parse().ok()?;
            let compared = compare::all(programs, scenes.get(), seed.parse().ok()?);
            return Some(compared.map(|()| Vec::new()));
        }
        [word @ ("damage" | "salvage"), programs, seed, ref most @ ..] => {
            let seed = seed.parse().ok()?;
            let most = match *most {
                [] => None,
                [most] => Some(most.parse::<NonZero<usize>>().ok()?.get()),
                _ => return None,
            };
            let fed = match word {
                "damage" => damage::all(programs, seed, most.unwrap_or(usize::MAX)),
                _ => dumps::all(programs, seed, most),
            };
            return Some(fed.map(|()| Vec::new()));
        }
        [name, ref rest @ ..] => {
            let list = compare::LISTS.iter().find(|list| list.name == name)?;
            match *rest {
                [] => (list.make)(list.seed),
                [seed] => (list.make)(seed.parse().ok()?),
                _ => return None,
            }
        }
        [] => return None,
    };
    Some(Ok(list.into_bytes()))
}

fn main() -> ExitCode {
    let words: Vec<String> = env::args().skip(1).collect();
    match answer(&words.iter().map(String::as_str).collect::<Vec<_>>()) {
        None => {
            eprintln!("{USAGE}");
            ExitCode::from(2)
        }
        Some(Err(text)) => {
            eprintln!("{text}");
            ExitCode::FAILURE
        }
        Some(Ok(bytes)) => match io::stdout().write_all(&bytes) {
            Ok(()) => ExitCode::SUCCESS,
            Err(_) => ExitCode::FAILURE,
        },
    }
}
