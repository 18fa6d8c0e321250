//! The compiled leaves, as `crates/probe` exports them. The one file with `unsafe`: no function of
//! `crates/probe` has a `requires`, so that each may be called with any slices and numbers.

use crate::layout::{Key, Place};

/// The input is one that the leaf's `requires` forbids.
#[derive(Clone, Copy, Debug, PartialEq, Eq)]
pub struct Refused;

/// What `crates/probe` answers for such input where it answers a number.
const REFUSED: usize = usize::MAX;

/// The messages that requests bring.
#[derive(Clone, Copy, Debug, PartialEq, Eq)]
#[repr(u8)]
pub enum Schema {
    NoFields = 0,
    ListOpcodes = 1,
    Import = 2,
    /// Destroy and Export.
    Name = 3,
}

/// Of bytes where they lie in the body, of a uint32 or a bool its number.
#[derive(Clone, Copy, Debug, Default, PartialEq, Eq)]
pub struct Value {
    pub start: usize,
    pub length: usize,
    pub number: u64,
}

// A slice is passed as its pointer and its length.
unsafe extern "C" {
    fn probe_read_header(bytes: *const u8, length: usize, out: &mut [u64; 12]);
    fn probe_response_header(
        provider: u8,
        session: u64,
        content_length: u32,
        opcode: u16,
        status: u16,
        out: &mut [u8; 26],
    );
    fn probe_read_varint(bytes: *const u8, length: usize, at: usize, out: &mut [u64; 3]);
    fn probe_read_body(body: *const u8, length: usize, schema: u8, out: &mut [u64; 16]);
    fn probe_write_varint(out: *mut u8, length: usize, number: u64) -> usize;
    fn probe_write_number_field(out: *mut u8, length: usize, number: u64, value: u64) -> usize;
    fn probe_write_bytes_field(
        out: *mut u8,
        length: usize,
        number: u64,
        bytes: *const u8,
        bytes_length: usize,
    ) -> usize;
    fn probe_registry_is_well_formed(registry: *const u8, length: usize) -> bool;
    fn probe_find_application(
        registry: *const u8,
        length: usize,
        name: *const u8,
        name_length: usize,
    ) -> usize;
    fn probe_find_slot(
        registry: *const u8,
        length: usize,
        line: usize,
        name: *const u8,
        name_length: usize,
    ) -> usize;
    fn probe_fill_slot(
        registry: *mut u8,
        length: usize,
        line: usize,
        slot: usize,
        name: *const u8,
        name_length: usize,
        data: *const u8,
        data_length: usize,
        bits: u16,
        export_allowed: bool,
        verify_allowed: bool,
    ) -> bool;
    fn probe_clear_slot(registry: *mut u8, length: usize, line: usize, slot: usize) -> bool;
    fn probe_key_data(
        registry: *const u8,
        length: usize,
        line: usize,
        slot: usize,
        out: *mut u8,
        out_length: usize,
    ) -> usize;
    fn probe_is_exportable(registry: *const u8, length: usize, line: usize, slot: usize) -> usize;
    fn probe_load_roster(
        file: *const u8,
        file_length: usize,
        registry: *mut u8,
        length: usize,
    ) -> usize;
    fn probe_connection_is_well_formed(connection: *const u8, length: usize) -> bool;
    fn probe_open_connection(connection: *mut u8, length: usize) -> bool;
    fn razidkot_probe_verify(
        key: *const u8,
        key_length: usize,
        bits: usize,
        hash: *const u8,
        hash_length: usize,
        signature: *const u8,
        signature_length: usize,
    ) -> u64;
}

fn unless_refused(answer: usize) -> Result<usize, Refused> {
    if answer == REFUSED {
        Err(Refused)
    } else {
        Ok(answer)
    }
}

fn if_done(done: bool) -> Result<(), Refused> {
    done.then_some(()).ok_or(Refused)
}

/// The eleven fields behind the magic, in their order; `Err` for fewer than 28 bytes.
pub fn read_header(bytes: &[u8]) -> Result<[u64; 11], Refused> {
    let mut out = [0; 12];
    unsafe { probe_read_header(bytes.as_ptr(), bytes.len(), &mut out) };
    let [found, fields @ ..] = out;
    if_done(found == 1).map(|()| fields)
}

pub fn response_header(
    provider: u8,
    session: u64,
    content_length: u32,
    opcode: u16,
    status: u16,
) -> [u8; 26] {
    let mut out = [0; 26];
    unsafe {
        probe_response_header(provider, session, content_length, opcode, status, &mut out);
    }
    out
}

/// A varint's value and the position behind it.
pub fn read_varint(bytes: &[u8], at: usize) -> Option<(u64, usize)> {
    let mut out = [0; 3];
    unsafe { probe_read_varint(bytes.as_ptr(), bytes.len(), at, &mut out) };
    let [found, value, next] = out;
    (found == 1).then_some((value, next as usize))
}

/// The values of field numbers 1 to 5, or where the tag of the first unreadable field starts.
pub fn read_body(body: &[u8], schema: Schema) -> Result<[Value; 5], usize> {
    let mut out = [0; 16];
    unsafe { probe_read_body(body.as_ptr(), body.len(), schema as u8, &mut out) };
    if out[0] == 0 {
        return Err(out[1] as usize);
    }
    Ok(std::array::from_fn(|place| {
        let numbers = &out[1 + 3 * place..];
        Value {
            start: numbers[0] as usize,
            length: numbers[1] as usize,
            number: numbers[2],
        }
    }))
}

pub fn write_varint(out: &mut [u8], number: u64) -> Result<usize, Refused> {
    unless_refused(unsafe { probe_write_varint(out.as_mut_ptr(), out.len(), number) })
}

pub fn write_number_field(out: &mut [u8], number: u64, value: u64) -> Result<usize, Refused> {
    unless_refused(unsafe { probe_write_number_field(out.as_mut_ptr(), out.len(), number, value) })
}

pub fn write_bytes_field(out: &mut [u8], number: u64, bytes: &[u8]) -> Result<usize, Refused> {
    unless_refused(unsafe {
        probe_write_bytes_field(
            out.as_mut_ptr(),
            out.len(),
            number,
            bytes.as_ptr(),
            bytes.len(),
        )
    })
}

pub fn registry_is_well_formed(registry: &[u8]) -> bool {
    unsafe { probe_registry_is_well_formed(registry.as_ptr(), registry.len()) }
}

/// The line of an application, if it is on the roster.
pub fn find_application(registry: &[u8], name: &[u8]) -> Result<Option<usize>, Refused> {
    let line = unless_refused(unsafe {
        probe_find_application(registry.as_ptr(), registry.len(), name.as_ptr(), name.len())
    })?;
    Ok((line < crate::layout::LINES).then_some(line))
}

/// The first slot of a line that has this name; the empty name is that of a free slot.
pub fn find_slot(registry: &[u8], line: usize, name: &[u8]) -> Result<Option<usize>, Refused> {
    let slot = unless_refused(unsafe {
        probe_find_slot(
            registry.as_ptr(),
            registry.len(),
            line,
            name.as_ptr(),
            name.len(),
        )
    })?;
    Ok((slot < crate::layout::SLOTS).then_some(slot))
}

pub fn fill_slot(registry: &mut [u8], place: Place, key: &Key) -> Result<(), Refused> {
    if_done(unsafe {
        probe_fill_slot(
            registry.as_mut_ptr(),
            registry.len(),
            place.line,
            place.slot,
            key.name.as_ptr(),
            key.name.len(),
            key.data.as_ptr(),
            key.data.len(),
            key.bits,
            key.export_allowed,
            key.verify_allowed,
        )
    })
}

pub fn clear_slot(registry: &mut [u8], place: Place) -> Result<(), Refused> {
    if_done(unsafe {
        probe_clear_slot(
            registry.as_mut_ptr(),
            registry.len(),
            place.line,
            place.slot,
        )
    })
}

/// Copies a key's data to the front of `out` and says how many bytes they are.
pub fn key_data(registry: &[u8], place: Place, out: &mut [u8]) -> Result<usize, Refused> {
    unless_refused(unsafe {
        probe_key_data(
            registry.as_ptr(),
            registry.len(),
            place.line,
            place.slot,
            out.as_mut_ptr(),
            out.len(),
        )
    })
}

pub fn is_exportable(registry: &[u8], place: Place) -> Result<bool, Refused> {
    let answer = unless_refused(unsafe {
        probe_is_exportable(registry.as_ptr(), registry.len(), place.line, place.slot)
    })?;
    Ok(answer == 1)
}

/// `Err` with the digit of R0 to R5 for a file that is refused.
pub fn load_roster(file: &[u8], registry: &mut [u8]) -> Result<(), u8> {
    let answer = unsafe {
        probe_load_roster(
            file.as_ptr(),
            file.len(),
            registry.as_mut_ptr(),
            registry.len(),
        )
    };
    match answer {
        6 => Ok(()),
        fault => Err(fault as u8),
    }
}

pub fn connection_is_well_formed(connection: &[u8]) -> bool {
    unsafe { probe_connection_is_well_formed(connection.as_ptr(), connection.len()) }
}

/// `Err` for memory of another size.
pub fn open_connection(connection: &mut [u8]) -> Result<(), Refused> {
    if_done(unsafe { probe_open_connection(connection.as_mut_ptr(), connection.len()) })
}

/// The number of a signature's outcome, and how many modular multiplications the power took.
pub fn verify(data: &[u8], bits: usize, hash: &[u8], signature: &[u8]) -> (u8, u64) {
    let answer = unsafe {
        razidkot_probe_verify(
            data.as_ptr(),
            data.len(),
            bits,
            hash.as_ptr(),
            hash.len(),
            signature.as_ptr(),
            signature.len(),
        )
    };
    ((answer % 4) as u8, answer / 4)
}
