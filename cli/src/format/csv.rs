//! Comma-separated values, with a header.
use super::{put, Format};
use crate::line::{Place, What};
use machhurel::{opcode_name, Event, Refusal};
use std::borrow::Cow;

pub(super) struct Csv;

impl Format for Csv {
    fn header(&self) -> &'static str {
        "trace,record,rip,event,register,address,size,number,opcode,name,reason\n"
    }

    fn place(&self, out: &mut Vec<u8>, place: &Place<'_>) {
        put!(out, "{},{},", quoted(place.trace), place.record);
        if let Some(rip) = place.rip {
            put!(out, "{rip:#x}");
        }
        out.push(b',');
    }

    fn what(&self, out: &mut Vec<u8>, what: &What) {
        put!(out, "{},", what.kind());
        match what {
            What::Nothing => put!(out, ",,,,,,\n"),
            What::Event(Event::RegisterRead(register) | Event::RegisterWrite(register)) => {
                put!(out, "{register},,,,,,\n");
            }
            What::Event(
                Event::MemoryRead { address, size } | Event::MemoryWrite { address, size },
            ) => match address {
                Some(address) => put!(out, ",0x{address:016x},{size},,,,\n"),
                None => put!(out, ",unknown,{size},,,,\n"),
            },
            What::Refused(refused) => put_refusal(out, refused.refusal, Some(refused.opcode)),
            What::BadFile(refusal) => put_refusal(out, *refusal, None),
        }
    }
}

fn put_refusal(out: &mut Vec<u8>, refusal: Refusal, opcode: Option<u16>) {
    put!(out, ",,,{},", refusal.number());
    if let Some(opcode) = opcode {
        put!(out, "{opcode},{}", opcode_name(opcode).unwrap_or(""));
    } else {
        out.push(b',');
    }
    put!(out, ",{}\n", quoted(refusal.reason()));
}

/// A field, in quotes where a comma or a quote is in it.
pub(crate) fn quoted(field: &str) -> Cow<'_, str> {
    if field.contains([',', '"']) {
        return Cow::Owned(format!("\"{}\"", field.replace('"', "\"\"")));
    }
    Cow::Borrowed(field)
}
