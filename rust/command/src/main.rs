//! The command `odif`: see `odif --help`.

mod args;
mod asked;
mod base64;
mod beside;
mod blocks;
mod catalog;
mod charset;
mod check;
mod date;
mod dimensions;
mod explain;
mod export;
mod faults;
mod files;
mod foreign;
mod grep;
mod hash;
mod identity;
mod input;
mod items;
mod list;
mod make;
mod man;
mod modules;
mod names;
mod normal;
mod offsets;
mod on_pages;
mod order;
mod outline;
mod pages;
mod pool;
mod profile;
mod progress;
mod protected;
mod same;
mod show;
mod sources;
mod status;
mod survey;
mod text;
mod trace;
mod tree;
mod undated;
mod units;
mod view;

use std::process::ExitCode;

fn main() -> ExitCode {
    args::run(std::env::args_os())
}
