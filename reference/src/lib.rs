//! A second, independent model of a four-channel transfer controller.
//!
//! It is written for reading beside the rules: settings are taken apart into
//! named choices, and one interpreter carries out planned cycles.

pub mod board;
pub mod book;
pub mod controller;
pub mod cover;
pub mod law;
pub mod make;
pub mod play;
pub mod settings;
pub mod step;
pub mod text;
pub mod world;
