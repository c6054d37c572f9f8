//! Lowers the ticket on standard input: prints the listing, or says on
//! standard error why there is none.
//!
//! `cargo run --example lower < ticket`

use std::{
    error::Error,
    io::{self, Read, Write},
    process::ExitCode,
};

fn run() -> Result<(), Box<dyn Error>> {
    let mut ticket = Vec::new();
    io::stdin().read_to_end(&mut ticket)?;
    let listing = wesknuft_lower::lower_to_vec(&ticket)?;
    io::stdout().write_all(&listing)?;
    Ok(())
}

fn main() -> ExitCode {
    match run() {
        Ok(()) => ExitCode::SUCCESS,
        Err(error) => {
            eprintln!("{error}");
            ExitCode::FAILURE
        }
    }
}
