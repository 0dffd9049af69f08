//! Prints the arenas of a saved table: `picture FILE`, `-` being the standard input. The file has
//! the bytes of `struct sirqobal_state`, then those of the 32 records, as they lie in memory.
#![forbid(unsafe_code)]

use sirqobal::{saved, Picture};
use std::error::Error;
use std::io::{self, Read, Write};
use std::process::ExitCode;
use std::{env, fs};

fn main() -> ExitCode {
    let arguments: Vec<_> = env::args_os().skip(1).collect();
    let [file] = &arguments[..] else {
        eprintln!("usage: picture FILE");
        return ExitCode::from(2);
    };
    let bytes = match file.to_str() {
        Some("-") => stdin(),
        _ => fs::read(file),
    };
    match bytes.map_err(Into::into).and_then(|bytes| print(&bytes)) {
        Ok(()) => ExitCode::SUCCESS,
        Err(error) => {
            eprintln!("picture: {}: {error}", file.to_string_lossy());
            ExitCode::FAILURE
        }
    }
}

fn print(bytes: &[u8]) -> Result<(), Box<dyn Error>> {
    let (state, records) = saved::from_bytes(bytes)?;
    let picture = Picture::new(&records, state.count).to_string();
    io::stdout().write_all(picture.as_bytes())?;
    Ok(())
}

/// No more of it than shows that it is too long.
fn stdin() -> io::Result<Vec<u8>> {
    let mut bytes = Vec::new();
    let most = saved::BYTES as u64 + 1;
    io::stdin().lock().take(most).read_to_end(&mut bytes)?;
    Ok(bytes)
}
