//! What the process has mapped, as the system says.

use sirqobal::linux::Memory;
use sirqobal::Moment;
use std::fs;
use std::ops::Range;

/// Whether an address of this range is mapped.
pub fn is_mapped(range: &Range<u64>) -> bool {
    let maps = fs::read_to_string("/proc/self/maps").unwrap();
    maps.lines().any(|line| {
        let (start, end) = line.split(' ').next().unwrap().split_once('-').unwrap();
        let [start, end] = [start, end].map(|number| u64::from_str_radix(number, 16).unwrap());
        start < range.end && range.start < end
    })
}

/// The addresses of an arena.
pub fn area(memory: &Memory, id: i32) -> Range<u64> {
    let (base, bytes) = memory.layer().arena_area(Moment::default(), id).unwrap();
    base..base + bytes
}

/// How many pages of address space the process has.
pub fn mapped_pages() -> u64 {
    let statm = fs::read_to_string("/proc/self/statm").unwrap();
    statm.split(' ').next().unwrap().parse().unwrap()
}
