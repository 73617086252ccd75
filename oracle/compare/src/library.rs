//! The library under test: its C interface.

use crate::lent::Lent;
use answers::input::Call;
use machhurel::ffi::*;

/// Makes one call; `subject` is the record or the log.
pub fn answer(call: Call, subject: &Lent, file: &Lent, buffer: &mut Lent, start: usize) -> u64 {
    // Safety: every pointer and length is that of a live part of a `Lent`.
    unsafe {
        match call {
            Call::Visit => machhurel_visit(
                subject.pointer(),
                subject.length(),
                file.pointer(),
                file.length(),
                buffer.pointer_mut(),
                buffer.length(),
                start,
            ),
            Call::Listing => {
                machhurel_listing(subject.pointer(), subject.length(), buffer.pointer_mut(), buffer.length(), start)
            }
            Call::Digest => machhurel_digest(subject.pointer(), subject.length()),
            Call::Privilege => machhurel_privilege(subject.pointer(), subject.length()),
            Call::Exceptions => machhurel_exceptions(subject.pointer(), subject.length()),
            Call::Event => machhurel_event(subject.pointer(), subject.length(), start),
        }
    }
}
