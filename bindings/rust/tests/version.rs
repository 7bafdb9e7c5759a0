//! What the library tells of itself.

use peatcloak::library;
use peatcloak::places::{FLOATS, LAYOUT, NUMBERS, VERSION};
use peatcloak::sys;

#[test]
fn the_library_is_the_one_of_the_crate() {
    library::check();
    let told = [VERSION, LAYOUT, FLOATS as u32, NUMBERS as u32];
    for len in 0..7 {
        let mut out = vec![7; len];
        // SAFETY: the list is there and is this long.
        let refused = unsafe { sys::peatcloak_version(out.as_mut_ptr(), len) };
        let expected: Vec<u32> = if len < told.len() {
            vec![7; len]
        } else {
            told.into_iter().chain(vec![7; len - told.len()]).collect()
        };
        assert_eq!((refused, out), (if len < told.len() { 19 } else { 0 }, expected));
    }
}
