//! Whether a stream is a terminal, and what standard input is.
use std::fs;
use std::os::unix::fs::FileTypeExt;
use std::path::Path;

/// Whether a descriptor leads to a terminal. (`std::io::IsTerminal` is younger than the Rust that Debian 12 has.)
fn is_terminal(descriptor: u8) -> bool {
    match fs::read_link(format!("/proc/self/fd/{descriptor}")) {
        Err(_) => false,
        Ok(name) => {
            let name = name.to_string_lossy();
            name.starts_with("/dev/pts/") || name.starts_with("/dev/tty") || name == "/dev/console"
        }
    }
}

pub(crate) fn output_is_terminal() -> bool {
    is_terminal(1)
}

pub(crate) fn errors_are_terminal() -> bool {
    is_terminal(2)
}

/// Whether standard input brings something: a pipe, a socket or a file, and no terminal or other device.
pub(crate) fn input_is_given() -> bool {
    match fs::metadata(Path::new("/dev/stdin")) {
        Err(_) => false,
        Ok(about) => {
            let kind = about.file_type();
            kind.is_file() || kind.is_fifo() || kind.is_socket()
        }
    }
}
