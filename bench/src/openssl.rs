//! OpenSSL's check of a signature, through openssl.c. The one file with `unsafe`: each function is
//! given whole slices, and a context that the first of them made.

use std::ffi::c_void;

unsafe extern "C" {
    fn razidkot_bench_openssl_read(data: *const u8, length: usize) -> *mut c_void;
    fn razidkot_bench_openssl_verify(
        context: *mut c_void,
        hash: *const u8,
        hash_length: usize,
        signature: *const u8,
        signature_length: usize,
    ) -> i32;
    fn razidkot_bench_openssl_read_and_verify(
        data: *const u8,
        length: usize,
        hash: *const u8,
        hash_length: usize,
        signature: *const u8,
        signature_length: usize,
    ) -> i32;
}

/// A key that has been read.
pub struct Key(*mut c_void);

impl Key {
    pub fn read(data: &[u8]) -> Key {
        let context = unsafe { razidkot_bench_openssl_read(data.as_ptr(), data.len()) };
        assert!(!context.is_null(), "OpenSSL reads the key");
        Key(context)
    }

    pub fn verify(&self, hash: &[u8], signature: &[u8]) -> bool {
        let answer = unsafe {
            razidkot_bench_openssl_verify(
                self.0,
                hash.as_ptr(),
                hash.len(),
                signature.as_ptr(),
                signature.len(),
            )
        };
        answer == 1
    }
}

pub fn read_and_verify(data: &[u8], hash: &[u8], signature: &[u8]) -> bool {
    let answer = unsafe {
        razidkot_bench_openssl_read_and_verify(
            data.as_ptr(),
            data.len(),
            hash.as_ptr(),
            hash.len(),
            signature.as_ptr(),
            signature.len(),
        )
    };
    answer == 1
}
