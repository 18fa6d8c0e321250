//! The functions of the archive, as include/razidkot_client.h declares them. The one file with `unsafe`.
//!
//! Each call is sound for every argument that its safe function can have. The compiled functions
//! are proved to read and write nothing but what they are lent, and none has a precondition. What
//! the header leaves undefined can't come from references: they are valid for their length and
//! aligned, and what is lent `&mut` overlaps nothing else. A slice of length 0 is not read, so that
//! its pointer may dangle. `Request`, `OutputNumbers` and `Answer` are `repr(C)`, field by field
//! those of the header.

use crate::raw::{Answer, Request};

unsafe extern "C" {
    fn razidkot_client_write_ping(
        out: *mut u8,
        out_length: usize,
        session: u64,
        content_type: u8,
        accept_type: u8,
        named: bool,
        application: *const u8,
        application_length: usize,
    ) -> Request;
    fn razidkot_client_write_list_providers(
        out: *mut u8,
        out_length: usize,
        session: u64,
        content_type: u8,
        accept_type: u8,
        named: bool,
        application: *const u8,
        application_length: usize,
    ) -> Request;
    fn razidkot_client_write_list_opcodes(
        out: *mut u8,
        out_length: usize,
        session: u64,
        content_type: u8,
        accept_type: u8,
        named: bool,
        application: *const u8,
        application_length: usize,
        provider: u32,
    ) -> Request;
    fn razidkot_client_write_import(
        out: *mut u8,
        out_length: usize,
        session: u64,
        content_type: u8,
        accept_type: u8,
        named: bool,
        application: *const u8,
        application_length: usize,
        name: *const u8,
        name_length: usize,
        bytes: *const u8,
        bytes_length: usize,
        bits: u32,
        exported: bool,
        verified: bool,
    ) -> Request;
    fn razidkot_client_write_destroy(
        out: *mut u8,
        out_length: usize,
        session: u64,
        content_type: u8,
        accept_type: u8,
        named: bool,
        application: *const u8,
        application_length: usize,
        name: *const u8,
        name_length: usize,
    ) -> Request;
    fn razidkot_client_write_export(
        out: *mut u8,
        out_length: usize,
        session: u64,
        content_type: u8,
        accept_type: u8,
        named: bool,
        application: *const u8,
        application_length: usize,
        name: *const u8,
        name_length: usize,
    ) -> Request;
    fn razidkot_client_write_verify(
        out: *mut u8,
        out_length: usize,
        session: u64,
        content_type: u8,
        accept_type: u8,
        named: bool,
        application: *const u8,
        application_length: usize,
        name: *const u8,
        name_length: usize,
        hash: *const u8,
        hash_length: usize,
        signature: *const u8,
        signature_length: usize,
    ) -> Request;
    fn razidkot_client_begin(
        state: *mut u8,
        state_length: usize,
        opcode: u16,
        session: u64,
        accept_type: u8,
    ) -> u32;
    fn razidkot_client_read(
        state: *mut u8,
        state_length: usize,
        chunk: *const u8,
        chunk_length: usize,
    ) -> Answer;
    fn razidkot_client_read_list(
        accept_type: u8,
        packed: *const u8,
        packed_length: usize,
        entries: *mut u32,
        entries_length: usize,
    ) -> usize;
}

/// Writes a Ping.
pub fn write_ping(
    out: &mut [u8],
    session: u64,
    content_type: u8,
    accept_type: u8,
    named: bool,
    application: &[u8],
) -> Request {
    unsafe {
        razidkot_client_write_ping(
            out.as_mut_ptr(),
            out.len(),
            session,
            content_type,
            accept_type,
            named,
            application.as_ptr(),
            application.len(),
        )
    }
}

/// Writes a ListProviders.
pub fn write_list_providers(
    out: &mut [u8],
    session: u64,
    content_type: u8,
    accept_type: u8,
    named: bool,
    application: &[u8],
) -> Request {
    unsafe {
        razidkot_client_write_list_providers(
            out.as_mut_ptr(),
            out.len(),
            session,
            content_type,
            accept_type,
            named,
            application.as_ptr(),
            application.len(),
        )
    }
}

/// Writes a ListOpcodes of a provider.
pub fn write_list_opcodes(
    out: &mut [u8],
    session: u64,
    content_type: u8,
    accept_type: u8,
    named: bool,
    application: &[u8],
    provider: u32,
) -> Request {
    unsafe {
        razidkot_client_write_list_opcodes(
            out.as_mut_ptr(),
            out.len(),
            session,
            content_type,
            accept_type,
            named,
            application.as_ptr(),
            application.len(),
            provider,
        )
    }
}

/// Writes a PsaImportKey.
#[allow(clippy::too_many_arguments)]
pub fn write_import(
    out: &mut [u8],
    session: u64,
    content_type: u8,
    accept_type: u8,
    named: bool,
    application: &[u8],
    name: &[u8],
    bytes: &[u8],
    bits: u32,
    exported: bool,
    verified: bool,
) -> Request {
    unsafe {
        razidkot_client_write_import(
            out.as_mut_ptr(),
            out.len(),
            session,
            content_type,
            accept_type,
            named,
            application.as_ptr(),
            application.len(),
            name.as_ptr(),
            name.len(),
            bytes.as_ptr(),
            bytes.len(),
            bits,
            exported,
            verified,
        )
    }
}

/// Writes a PsaDestroyKey of a key.
pub fn write_destroy(
    out: &mut [u8],
    session: u64,
    content_type: u8,
    accept_type: u8,
    named: bool,
    application: &[u8],
    name: &[u8],
) -> Request {
    unsafe {
        razidkot_client_write_destroy(
            out.as_mut_ptr(),
            out.len(),
            session,
            content_type,
            accept_type,
            named,
            application.as_ptr(),
            application.len(),
            name.as_ptr(),
            name.len(),
        )
    }
}

/// Writes a PsaExportPublicKey of a key.
pub fn write_export(
    out: &mut [u8],
    session: u64,
    content_type: u8,
    accept_type: u8,
    named: bool,
    application: &[u8],
    name: &[u8],
) -> Request {
    unsafe {
        razidkot_client_write_export(
            out.as_mut_ptr(),
            out.len(),
            session,
            content_type,
            accept_type,
            named,
            application.as_ptr(),
            application.len(),
            name.as_ptr(),
            name.len(),
        )
    }
}

/// Writes a PsaAsymmetricVerify of a signature on a hash with a key.
#[allow(clippy::too_many_arguments)]
pub fn write_verify(
    out: &mut [u8],
    session: u64,
    content_type: u8,
    accept_type: u8,
    named: bool,
    application: &[u8],
    name: &[u8],
    hash: &[u8],
    signature: &[u8],
) -> Request {
    unsafe {
        razidkot_client_write_verify(
            out.as_mut_ptr(),
            out.len(),
            session,
            content_type,
            accept_type,
            named,
            application.as_ptr(),
            application.len(),
            name.as_ptr(),
            name.len(),
            hash.as_ptr(),
            hash.len(),
            signature.as_ptr(),
            signature.len(),
        )
    }
}

/// Makes `state` the reader of the response to a request: 0; 1 for memory of another size, 2 for an
/// opcode and 3 for an accept type that is not listed, and then it stays as it was.
pub fn begin(state: &mut [u8], opcode: u16, session: u64, accept_type: u8) -> u32 {
    unsafe {
        razidkot_client_begin(
            state.as_mut_ptr(),
            state.len(),
            opcode,
            session,
            accept_type,
        )
    }
}

/// Takes bytes of the chunk up to the response's last, or the refusal's, or all.
pub fn read(state: &mut [u8], chunk: &[u8]) -> Answer {
    unsafe { razidkot_client_read(state.as_mut_ptr(), state.len(), chunk.as_ptr(), chunk.len()) }
}

/// The entries of a list that lies there in the format of this accept type, as many as there is room
/// for, and how many those are.
pub fn read_list(accept_type: u8, packed: &[u8], entries: &mut [u32]) -> usize {
    unsafe {
        razidkot_client_read_list(
            accept_type,
            packed.as_ptr(),
            packed.len(),
            entries.as_mut_ptr(),
            entries.len(),
        )
    }
}
