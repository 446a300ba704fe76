use hmac::{Hmac, Mac};
use sha1::Sha1;
use sha2::{Digest, Sha256};
use std::slice::{from_raw_parts, from_raw_parts_mut};

/// # Safety
/// Pointers and lengths are those of C arrays; `out` has room for the hash.
#[no_mangle]
pub unsafe extern "C" fn rustcrypto_hash(hash: u32, m: *const u8, n: usize, out: *mut u8) {
    let m = from_raw_parts(m, n);
    match hash {
        3 => from_raw_parts_mut(out, 20).copy_from_slice(&Sha1::digest(m)),
        _ => from_raw_parts_mut(out, 32).copy_from_slice(&Sha256::digest(m)),
    }
}

/// # Safety
/// As above.
#[no_mangle]
pub unsafe extern "C" fn rustcrypto_hmac(hash: u32, key: *const u8, k: usize, m: *const u8, n: usize, out: *mut u8) {
    let (key, m) = (from_raw_parts(key, k), from_raw_parts(m, n));
    match hash {
        3 => {
            let mut mac = Hmac::<Sha1>::new_from_slice(key).unwrap();
            mac.update(m);
            from_raw_parts_mut(out, 20).copy_from_slice(&mac.finalize().into_bytes());
        }
        _ => {
            let mut mac = Hmac::<Sha256>::new_from_slice(key).unwrap();
            mac.update(m);
            from_raw_parts_mut(out, 32).copy_from_slice(&mac.finalize().into_bytes());
        }
    }
}
