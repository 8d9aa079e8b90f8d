//! `tablet STORE` reads wishes in words and the module's replies from standard input, one to a
//! line, and writes lines for the module and lines for a person, which begin with `# `.

#![forbid(unsafe_code)]

use std::io;
use std::path::PathBuf;
use std::process::exit;
use tablet::program::{self, Ended};

fn main() {
    let arguments: Vec<_> = std::env::args_os().skip(1).collect();
    let store = match arguments.as_slice() {
        [store] => PathBuf::from(store),
        _ => {
            eprintln!("usage: tablet STORE");
            exit(2);
        }
    };
    match program::run(&store, io::stdin().lock(), io::stdout().lock()) {
        Ok(Ended::Input) => {}
        Ok(Ended::NotLoaded) => exit(1),
        Ok(Ended::NotWritten) => exit(3),
        Err(fault) => {
            eprintln!("tablet: {}", fault);
            exit(4);
        }
    }
}
