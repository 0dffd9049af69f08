// error[E0451]: `Rise`
// A rise that no join gave.
#![forbid(unsafe_code)]

use sirqobal::Rise;

fn main() {
    let rise = Rise { by: 3, arenas: 1 };
    println!("{:?}", rise.id(0));
}
