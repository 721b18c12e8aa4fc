//! The version of the linked library, which has to be that of this crate, except for the patch number.

use crate::library_version;

/// What the minor number counts in `mold_library_version`, and what the major number counts without the patch number.
const UNIT: u32 = 1000;
/// The version that this crate needs, without the patch number.
const NEEDED: u32 = number(env!("CARGO_PKG_VERSION_MAJOR")) * UNIT + number(env!("CARGO_PKG_VERSION_MINOR"));

/// The number with these decimal digits.
const fn number(digits: &str) -> u32 {
    let (mut number, mut i) = (0, 0);
    while i < digits.len() {
        number = number * 10 + (digits.as_bytes()[i] - b'0') as u32;
        i += 1;
    }
    number
}

/// Panics if the library has another version. Its calls could have other structs.
pub(crate) fn check() {
    let linked = library_version();
    let (major, minor, patch) = (linked / UNIT / UNIT, linked / UNIT % UNIT, linked % UNIT);
    assert!(
        linked / UNIT == NEEDED,
        "the linked libmold.a has version {major}.{minor}.{patch}, and the crate `mold` has version {}: build the \
         library of the same repository, or set MOLD_LIB_DIR to the folder of its archive",
        env!("CARGO_PKG_VERSION")
    );
}
