//! The calls of c/tlsf.h that are taken here.

use crate::heap::Figures;
use core::ffi::c_void;

extern "C" {
    pub fn tlsf_create_with_pool(mem: *mut c_void, bytes: usize) -> *mut c_void;
    pub fn tlsf_create_records(mem: *mut c_void, bytes: usize, records: u32) -> *mut c_void;
    pub fn tlsf_add_pool(tlsf: *mut c_void, mem: *mut c_void, bytes: usize) -> *mut c_void;
    pub fn tlsf_get_pool(tlsf: *mut c_void) -> *mut c_void;
    pub fn tlsf_destroy(tlsf: *mut c_void);
    pub fn tlsf_malloc(tlsf: *mut c_void, bytes: usize) -> *mut c_void;
    pub fn tlsf_memalign(tlsf: *mut c_void, align: usize, bytes: usize) -> *mut c_void;
    #[cfg(target_has_atomic = "8")]
    pub fn tlsf_realloc(tlsf: *mut c_void, ptr: *mut c_void, size: usize) -> *mut c_void;
    pub fn tlsf_free(tlsf: *mut c_void, ptr: *mut c_void);
    pub fn tlsf_stats(tlsf: *mut c_void, figures: *mut Figures) -> i32;
    pub fn tlsf_check(tlsf: *mut c_void) -> i32;
}
