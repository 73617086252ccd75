//! The formats of a line. Each is one file.
mod csv;
mod json;
mod text;

use crate::arguments::Arguments;
use crate::choice::FORMAT;
use crate::line::{Place, What};
pub(crate) use csv::quoted as csv_quoted;
pub(crate) use json::quoted as json_quoted;

/// How a line is written. The bytes before what it says are the same for all lines of a record, and written once.
pub(crate) trait Format {
    /// What stands before the first line.
    fn header(&self) -> &'static str {
        ""
    }

    /// The part of a line that says where it belongs.
    fn place(&self, out: &mut Vec<u8>, place: &Place<'_>);

    /// The rest of the line, its end among it.
    fn what(&self, out: &mut Vec<u8>, what: &What);
}

/// The formats by their names.
#[derive(Clone, Copy, PartialEq, Eq)]
pub(crate) enum Kind {
    Text,
    Csv,
    Json,
}

impl Kind {
    pub(crate) fn of(arguments: &Arguments) -> Kind {
        match arguments.last(&FORMAT) {
            Some("csv") => Kind::Csv,
            Some("json") => Kind::Json,
            _ => Kind::Text,
        }
    }

    /// The format of lines; in text a trace is named where there are several.
    pub(crate) fn lines(self, several: bool) -> Box<dyn Format> {
        match self {
            Kind::Text => Box::new(text::Text { several }),
            Kind::Csv => Box::new(csv::Csv),
            Kind::Json => Box::new(json::Json),
        }
    }
}

/// Puts words into bytes. Bytes in memory take any words.
macro_rules! put {
    ($out:expr, $($words:tt)*) => {
        { let _ = std::io::Write::write_fmt($out, format_args!($($words)*)); }
    };
}
pub(crate) use put;
