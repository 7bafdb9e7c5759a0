//! Whether the library that is linked is the one that this crate is written for.

use std::sync::OnceLock;

use crate::places::{FLOATS, LAYOUT, NUMBERS, VERSION};
use crate::sys;

/// A library's version, its layout's, and the sizes of the two lists, as it tells them.
type Told = [u32; 4];

const OURS: Told = [VERSION, LAYOUT, FLOATS as u32, NUMBERS as u32];

/// Panics where another library is linked. The crate looks before it makes a table or plays a script; who calls `sys`
/// alone may look here.
pub fn check() {
    static LINKED: OnceLock<Told> = OnceLock::new();
    must_be_ours(*LINKED.get_or_init(told));
}

fn told() -> Told {
    let mut out = [0; 4];
    // SAFETY: the array is there and is this long.
    unsafe { sys::peatcloak_version(out.as_mut_ptr(), out.len()) };
    out
}

fn must_be_ours(linked: Told) {
    assert!(
        linked == OURS,
        "the libpeatcloak.a that is linked has {}; this crate is written for {}. Link the library of the crate's own \
         repository (`oracle/library` writes it, PEATCLOAK_LIB names its folder), or take the crate that goes \
         with this library.",
        shown(linked),
        shown(OURS)
    );
}

/// 20100 is version 2.1.0.
fn shown([version, layout, floats, numbers]: Told) -> String {
    let (major, minor, patch) = (version / 10_000, version / 100 % 100, version % 100);
    format!(
        "version {major}.{minor}.{patch}, layout {layout}, {floats} floats and {numbers} numbers"
    )
}

#[cfg(test)]
mod tests {
    use std::panic::catch_unwind;

    use super::{OURS, check, must_be_ours, shown};

    #[test]
    fn the_linked_library_is_ours() {
        check();
    }

    #[test]
    fn another_library_is_told_with_what_to_do() {
        for at in 0..OURS.len() {
            let mut other = OURS;
            other[at] += 1;
            let panicked = catch_unwind(|| must_be_ours(other)).expect_err("it is another");
            let message = panicked.downcast::<String>().expect("a text");
            for part in [&shown(other), &shown(OURS), "oracle/library", "PEATCLOAK_LIB"] {
                assert!(message.contains(part), "{message}");
            }
        }
    }
}
