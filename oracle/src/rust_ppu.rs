//! The Rust sources, compiled unchanged from the folder that build.rs finds.
#![allow(dead_code)]

// The sources say `common::u16_split`, which lies beside them here.
extern crate self as common;

include!(concat!(env!("OUT_DIR"), "/modules.rs"));
