//! Modules of the original that are not published, as far as the published ones call them.

pub mod options {
    use crate::script;

    pub fn get(option: usize) -> i64 {
        match option {
            15 => script::get().delay,
            _ => unreachable!("the layer asks for no option {option}"),
        }
    }

    pub fn get_size(option: usize) -> usize {
        match option {
            23 => script::get().reserve,
            _ => unreachable!("the layer asks for no size {option}"),
        }
    }

    pub fn is_enabled(option: usize) -> bool {
        match option {
            5 => script::get().decommits,
            27 => script::get().off,
            _ => unreachable!("the layer asks for no flag {option}"),
        }
    }

    pub fn out_fmt(message: &str) {
        eprint!("{message}");
    }
}

pub mod segment_map {
    pub fn contains(_ptr: *const u8) -> bool {
        crate::script::get().mapped
    }
}

pub mod page {
    /// For bins.rs, whose division by a block size nothing here calls.
    pub const fn odd_mod_inverse(odd: usize) -> usize {
        let mut inverse = odd;
        let mut step = 0;
        while step < 6 {
            inverse = inverse.wrapping_mul(2usize.wrapping_sub(odd.wrapping_mul(inverse)));
            step += 1;
        }
        inverse
    }
}
