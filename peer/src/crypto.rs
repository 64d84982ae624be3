//! SHA-256 and AES-256 by OpenSSL's libcrypto.
//!
//! Its low-level functions are used: they cost neither a look-up of the algorithm nor heap at each call. On x86-64
//! SHA256_Update chooses its code by the processor (SHA extensions, AVX2, SSSE3); the environment variable
//! OPENSSL_ia32cap=0x0:0x0 switches all of that off and leaves the portable code,
//! OPENSSL_ia32cap=~0x200000200000000:0 switches AES-NI, PCLMULQDQ, AVX2 and the SHA extensions off. AES_encrypt has no
//! AES-NI in any case.

use std::ffi::{c_int, c_uchar, c_void};
use std::mem::MaybeUninit;

/// SHA256_CTX of openssl/sha.h.
#[repr(C)]
struct Sha256Context {
    h: [u32; 8],
    nl: u32,
    nh: u32,
    data: [u32; 16],
    num: u32,
    md_len: u32,
}

/// AES_KEY of openssl/aes.h.
#[repr(C)]
#[derive(Clone)]
struct AesKey {
    rd_key: [u32; 60],
    rounds: c_int,
}

unsafe extern "C" {
    fn SHA256_Init(context: *mut Sha256Context) -> c_int;
    fn SHA256_Update(context: *mut Sha256Context, data: *const c_void, length: usize) -> c_int;
    fn SHA256_Final(digest: *mut c_uchar, context: *mut Sha256Context) -> c_int;
    fn AES_set_encrypt_key(key: *const c_uchar, bits: c_int, schedule: *mut AesKey) -> c_int;
    fn AES_encrypt(input: *const c_uchar, output: *mut c_uchar, schedule: *const AesKey);
}

/// SHA-256 of the parts, one after the other.
pub fn sha256_of(parts: &[&[u8]]) -> [u8; 32] {
    let mut context = MaybeUninit::<Sha256Context>::uninit();
    let mut digest = [0; 32];
    // SAFETY: SHA256_Init fills the context; each part is there for its length; the digest takes 32 bytes.
    let done = unsafe {
        let mut done = SHA256_Init(context.as_mut_ptr()) == 1;
        for part in parts {
            done &= SHA256_Update(context.as_mut_ptr(), part.as_ptr().cast(), part.len()) == 1;
        }
        done & (SHA256_Final(digest.as_mut_ptr(), context.as_mut_ptr()) == 1)
    };
    assert!(done, "libcrypto computes SHA-256");
    digest
}

pub fn sha256(data: &[u8]) -> [u8; 32] {
    sha256_of(&[data])
}

/// AES-256 under one key; encryption of single blocks.
#[derive(Clone)]
pub struct Aes256 {
    schedule: AesKey,
}

impl Aes256 {
    pub fn new(key: &[u8; 32]) -> Self {
        let mut schedule = AesKey { rd_key: [0; 60], rounds: 0 };
        // SAFETY: the key has 256 bits and the schedule is an AES_KEY.
        let status = unsafe { AES_set_encrypt_key(key.as_ptr(), 256, &mut schedule) };
        assert_eq!(status, 0, "libcrypto expands a key of 256 bits");
        Aes256 { schedule }
    }

    pub fn encrypt(&self, block: &[u8; 16]) -> [u8; 16] {
        let mut output = [0; 16];
        // SAFETY: both blocks have 16 bytes; the schedule was made by AES_set_encrypt_key.
        unsafe { AES_encrypt(block.as_ptr(), output.as_mut_ptr(), &self.schedule) };
        output
    }
}
