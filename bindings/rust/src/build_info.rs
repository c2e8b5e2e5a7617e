//! The origin of the library that is linked.

use crate::ffi;
use std::ffi::CStr;

/// Returns what the linked library is: whether its code is proved, of which commit, and by which kit.
///
/// ```text
/// proved; commit 62e73a10e2c0f3b4a5968778695a4b3c2d1e0f00; kit rattle-kit-13b logic dac8208d650f15bf
/// ```
///
/// The first word is `proved` or `unproved`: only a proved one is for production. The commit is followed by ` with changes` where sources
/// were changed since, and is `unknown` where the library was built outside a repository.
///
/// # Panics
///
/// Panics where the text is not UTF-8, which the library's build rules out.
pub fn build_info() -> &'static str {
    // SAFETY: the header says that it is text of the library's own that ends with a zero byte, and nothing ever changes or frees it.
    let text = unsafe { CStr::from_ptr(ffi::simplex_build_info()) };
    text.to_str().expect("the build writes text")
}
