//! The original sources, compiled as they are, over small stand-ins.
//! The build script lays them out in OUT_DIR; nothing of them is kept here.

// The warnings are those of a text that is not ours to edit.
#![allow(warnings)]

include!(concat!(env!("OUT_DIR"), "/mount.rs"));
