// error[E0603]: `Os`
// A give-back of a heap address through the host that talks to the OS.
#![forbid(unsafe_code)]

use sirqobal::linux::Os;
use sirqobal::Host;

fn main() {
    let block = vec![1u8; 1 << 25];
    Os::default().give_back(block.as_ptr() as u64, block.len() as u64);
    println!("{}", block[7]);
}
