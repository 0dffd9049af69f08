//! Options of the form `--name N`.

use std::process::exit;

/// Reads the command line into these numbers; anything else ends the program with status 2.
pub fn read<const N: usize>(names: [&str; N], mut numbers: [u64; N]) -> [u64; N] {
    let mut args = std::env::args().skip(1);
    while let Some(name) = args.next() {
        let place = names.iter().position(|n| *n == name);
        let number = args.next().and_then(|text| text.parse().ok());
        match (place, number) {
            (Some(place), Some(number)) => numbers[place] = number,
            _ => {
                eprintln!("options, each with a number: {}", names.join(" "));
                exit(2);
            }
        }
    }
    numbers
}
