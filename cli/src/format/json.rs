//! JSON, an object to a line. Addresses are text: a number of 64 bits does not survive every reader.
use super::{put, Format};
use crate::line::{Place, What};
use machhurel::{opcode_name, Event, Refusal};

pub(super) struct Json;

impl Format for Json {
    fn place(&self, out: &mut Vec<u8>, place: &Place<'_>) {
        put!(
            out,
            "{{\"trace\":{},\"record\":{},",
            quoted(place.trace),
            place.record
        );
        match place.rip {
            Some(rip) => put!(out, "\"rip\":\"{rip:#x}\","),
            None => put!(out, "\"rip\":null,"),
        }
    }

    fn what(&self, out: &mut Vec<u8>, what: &What) {
        put!(out, "\"event\":\"{}\"", what.kind());
        match what {
            What::Nothing => {}
            What::Event(Event::RegisterRead(register) | Event::RegisterWrite(register)) => {
                put!(out, ",\"register\":\"{register}\"");
            }
            What::Event(
                Event::MemoryRead { address, size } | Event::MemoryWrite { address, size },
            ) => match address {
                Some(address) => put!(out, ",\"address\":\"0x{address:016x}\",\"size\":{size}"),
                None => put!(out, ",\"address\":null,\"size\":{size}"),
            },
            What::Refused(refused) => put_refusal(out, refused.refusal, Some(refused.opcode)),
            What::BadFile(refusal) => put_refusal(out, *refusal, None),
        }
        out.extend_from_slice(b"}\n");
    }
}

fn put_refusal(out: &mut Vec<u8>, refusal: Refusal, opcode: Option<u16>) {
    put!(out, ",\"number\":{}", refusal.number());
    if let Some(opcode) = opcode {
        put!(out, ",\"opcode\":{opcode},\"name\":");
        match opcode_name(opcode) {
            Some(name) => put!(out, "\"{name}\""),
            None => put!(out, "null"),
        }
    }
    put!(out, ",\"reason\":{}", quoted(refusal.reason()));
}

/// A text that is harmless already, as JSON: quotes and backslashes are written out.
pub(crate) fn quoted(text: &str) -> String {
    format!("\"{}\"", text.replace('\\', "\\\\").replace('"', "\\\""))
}
