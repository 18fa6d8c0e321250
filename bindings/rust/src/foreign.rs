//! The functions of the archive, as include/razidkot.h declares them. The one file with `unsafe`.
//!
//! Each call is sound for every argument that its safe function can have. The compiled functions
//! are proved to read and write nothing but what they are lent, and none has a precondition. What
//! the header leaves undefined can't come from references: they are valid for their length and
//! aligned, and what is lent `&mut` overlaps nothing else. A slice of length 0 is not read, so that
//! its pointer may dangle. `Counters`, `Answer`, `BillAnswer`, `JournalAnswer`, `AuditPlace`,
//! `AuditStep` and `AuditEnd` are `repr(C)`, field by field those of the header.

use crate::raw::{
    Answer, AuditChunks, AuditEnd, AuditLent, AuditPlace, AuditStep, BillAnswer, JournalAnswer,
};
use crate::Counters;

unsafe extern "C" {
    fn razidkot_load_roster(
        file: *const u8,
        file_length: usize,
        registry: *mut u8,
        registry_length: usize,
    ) -> u32;
    fn razidkot_open_connection(memory: *mut u8, length: usize) -> u32;
    fn razidkot_clear_counters(counters: &mut Counters);
    fn razidkot_call(
        chunk: *const u8,
        chunk_length: usize,
        connection: *mut u8,
        connection_length: usize,
        registry: *mut u8,
        registry_length: usize,
        list: *const u8,
        list_length: usize,
        counters: &mut Counters,
        response: *mut u8,
        response_length: usize,
        journal: *mut u8,
        journal_length: usize,
    ) -> Answer;
    fn razidkot_journal_begin(state: *mut u8, length: usize) -> u32;
    fn razidkot_journal_read(
        state: *mut u8,
        state_length: usize,
        registry: *mut u8,
        registry_length: usize,
        chunk: *const u8,
        chunk_length: usize,
    ) -> JournalAnswer;
    fn razidkot_bill(
        out: *mut u8,
        out_length: usize,
        counters: &Counters,
        registry: *const u8,
        registry_length: usize,
        connection: *const u8,
        connection_length: usize,
    ) -> BillAnswer;
    fn razidkot_audit_begin() -> AuditPlace;
    fn razidkot_audit_step(
        audit: AuditPlace,
        requests: *const u8,
        requests_length: usize,
        responses: *const u8,
        responses_length: usize,
        is_last: bool,
        connection: *mut u8,
        connection_length: usize,
        registry: *mut u8,
        registry_length: usize,
        list: *const u8,
        list_length: usize,
        pending: *mut u8,
        pending_length: usize,
        journal: *mut u8,
        journal_length: usize,
    ) -> AuditStep;
    fn razidkot_audit_end(
        audit: AuditPlace,
        pending: *const u8,
        pending_length: usize,
        rest: *const u8,
        rest_length: usize,
    ) -> AuditEnd;
}

pub fn load_roster(file: &[u8], registry: &mut [u8]) -> u32 {
    unsafe {
        razidkot_load_roster(
            file.as_ptr(),
            file.len(),
            registry.as_mut_ptr(),
            registry.len(),
        )
    }
}

pub fn open_connection(memory: &mut [u8]) -> u32 {
    unsafe { razidkot_open_connection(memory.as_mut_ptr(), memory.len()) }
}

pub fn clear_counters(counters: &mut Counters) {
    unsafe { razidkot_clear_counters(counters) }
}

pub fn call(
    chunk: &[u8],
    connection: &mut [u8],
    registry: &mut [u8],
    list: &[u8],
    counters: &mut Counters,
    response: &mut [u8],
    journal: &mut [u8],
) -> Answer {
    unsafe {
        razidkot_call(
            chunk.as_ptr(),
            chunk.len(),
            connection.as_mut_ptr(),
            connection.len(),
            registry.as_mut_ptr(),
            registry.len(),
            list.as_ptr(),
            list.len(),
            counters,
            response.as_mut_ptr(),
            response.len(),
            journal.as_mut_ptr(),
            journal.len(),
        )
    }
}

pub fn journal_begin(state: &mut [u8]) -> u32 {
    unsafe { razidkot_journal_begin(state.as_mut_ptr(), state.len()) }
}

pub fn journal_read(state: &mut [u8], registry: &mut [u8], chunk: &[u8]) -> JournalAnswer {
    unsafe {
        razidkot_journal_read(
            state.as_mut_ptr(),
            state.len(),
            registry.as_mut_ptr(),
            registry.len(),
            chunk.as_ptr(),
            chunk.len(),
        )
    }
}

pub fn bill(out: &mut [u8], counters: &Counters, registry: &[u8], connection: &[u8]) -> BillAnswer {
    unsafe {
        razidkot_bill(
            out.as_mut_ptr(),
            out.len(),
            counters,
            registry.as_ptr(),
            registry.len(),
            connection.as_ptr(),
            connection.len(),
        )
    }
}

pub fn audit_begin() -> AuditPlace {
    unsafe { razidkot_audit_begin() }
}

pub fn audit_step(audit: AuditPlace, chunks: &AuditChunks, lent: &mut AuditLent) -> AuditStep {
    unsafe {
        razidkot_audit_step(
            audit,
            chunks.requests.as_ptr(),
            chunks.requests.len(),
            chunks.responses.as_ptr(),
            chunks.responses.len(),
            chunks.is_last,
            lent.connection.as_mut_ptr(),
            lent.connection.len(),
            lent.registry.as_mut_ptr(),
            lent.registry.len(),
            lent.list.as_ptr(),
            lent.list.len(),
            lent.pending.as_mut_ptr(),
            lent.pending.len(),
            lent.journal.as_mut_ptr(),
            lent.journal.len(),
        )
    }
}

pub fn audit_end(audit: AuditPlace, pending: &[u8], rest: &[u8]) -> AuditEnd {
    unsafe {
        razidkot_audit_end(
            audit,
            pending.as_ptr(),
            pending.len(),
            rest.as_ptr(),
            rest.len(),
        )
    }
}
