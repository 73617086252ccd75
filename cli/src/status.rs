//! How the command ends.

/// How the command ends; a higher one is worse.
#[derive(Clone, Copy, Debug, PartialEq, Eq, PartialOrd, Ord)]
pub enum Status {
    /// All was read.
    Done,
    /// What was looked for was not found, and may be where nobody could look.
    Unsure,
    /// What was looked for was found: a part write, a difference.
    Found,
    /// A trace could not be opened, is damaged or cut, or output could not be written.
    Failed,
    /// Wrong usage.
    Usage,
}

impl Status {
    /// The exit status.
    pub const fn number(self) -> u8 {
        match self {
            Status::Done => 0,
            Status::Failed => 1,
            Status::Usage => 2,
            Status::Found => 3,
            Status::Unsure => 4,
        }
    }
}
