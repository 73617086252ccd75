//! Options and their values.

/// An option of a command.
pub struct Choice {
    /// How it is typed: `--format`.
    pub name: &'static str,
    /// What stands behind it: `FORMAT`.
    pub value: &'static str,
    /// The values that there are, where they are few.
    pub values: &'static [&'static str],
    /// What it does.
    pub words: &'static str,
}

/// The option that every command over traces has.
pub(crate) const FORMAT: Choice = Choice {
    name: "--format",
    value: "FORMAT",
    values: &["text", "csv", "json"],
    words: "text for people (if nothing is said), csv with a header, or json, an object to a line",
};
