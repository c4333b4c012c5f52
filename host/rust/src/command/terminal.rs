//! Whether an open file is a terminal. All that is unsafe in the command stands here.

use std::os::unix::io::AsRawFd;

mod c_library {
    extern "C" {
        pub fn isatty(file: i32) -> i32;
    }
}

pub fn is_terminal(file: &impl AsRawFd) -> bool {
    // SAFETY: the call is given the number of an open file, and no memory.
    unsafe { c_library::isatty(file.as_raw_fd()) == 1 }
}
