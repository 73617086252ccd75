//! The file that a page goes to: written whole, or not at all.
use crate::name::harmless;
use crate::output::reason;
use crate::source::Source;
use std::ffi::OsStr;
use std::fs::{self, File, OpenOptions};
use std::io::{self, ErrorKind, Write};
use std::os::unix::ffi::OsStrExt;
use std::os::unix::fs::MetadataExt;
use std::path::{Path, PathBuf};

/// So many names are tried for the file beside it.
const TRIES: u32 = 16;

pub(in super::super) struct Target {
    /// Its name, shown harmlessly.
    pub(in super::super) name: String,
    path: PathBuf,
}

impl Target {
    /// The file of this name, if a page can be written there: that is tried now, since a trace may take long.
    pub(in super::super) fn of(typed: &OsStr, source: &Source) -> Result<Target, String> {
        let name = harmless(typed);
        let failed = |words: &str| format!("{name}: cannot be written: {words}");
        // a link stays a link: the file that it leads to is replaced
        let path = fs::canonicalize(typed).unwrap_or_else(|_| PathBuf::from(typed));
        if let Ok(about) = fs::metadata(&path) {
            if !about.is_file() {
                return Err(failed("it is no regular file"));
            }
            if is_source(source, &about) {
                return Err(failed("it is the trace itself"));
            }
        } else if typed.is_empty() {
            return Err(failed("it has no name"));
        } else if typed.as_bytes().ends_with(b"/") {
            return Err(failed("it names a folder"));
        }
        let beside = beside(&path).and_then(|(beside, _)| fs::remove_file(beside));
        match beside {
            Err(error) => Err(failed(&reason(&error))),
            Ok(()) => Ok(Target { name, path }),
        }
    }

    /// Writes a page.
    pub(in super::super) fn write(&self, page: &[u8]) -> Result<(), String> {
        let result = self.replace(page);
        result.map_err(|error| format!("{}: cannot be written: {}", self.name, reason(&error)))
    }

    fn replace(&self, page: &[u8]) -> io::Result<()> {
        let (beside, mut file) = beside(&self.path)?;
        let written = file
            .write_all(page)
            .and_then(|()| file.flush())
            .and_then(|()| fs::rename(&beside, &self.path));
        if written.is_err() {
            // where it cannot be taken away either there is nothing left to try
            let _ = fs::remove_file(&beside);
        }
        written
    }
}

fn is_source(source: &Source, about: &fs::Metadata) -> bool {
    let name = match source {
        Source::File(name) => name.as_os_str(),
        Source::Input => OsStr::new("/dev/stdin"),
        Source::Sample => return false,
    };
    fs::metadata(name).map_or(false, |trace| {
        (trace.dev(), trace.ino()) == (about.dev(), about.ino())
    })
}

/// A new file in the folder of this one.
fn beside(path: &Path) -> io::Result<(PathBuf, File)> {
    let mut last = io::Error::from(ErrorKind::AlreadyExists);
    for k in 0..TRIES {
        let name = format!(".machhurel-{}-{k}.new", std::process::id());
        let beside = path.with_file_name(name);
        match OpenOptions::new()
            .write(true)
            .create_new(true)
            .open(&beside)
        {
            Ok(file) => return Ok((beside, file)),
            Err(error) if error.kind() == ErrorKind::AlreadyExists => last = error,
            Err(error) => return Err(error),
        }
    }
    Err(last)
}
