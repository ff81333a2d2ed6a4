//! ISA-L's functions, found when the program runs: the build does not need them.

use std::ffi::{c_char, c_int, c_void, CStr};
use std::mem::transmute;

/// Makes the n × k matrix of a code: the identity, and a Cauchy matrix below it.
type MakeMatrix = unsafe extern "C" fn(*mut u8, c_int, c_int);
/// Makes the tables of some rows of a matrix, 32 bytes for each of its symbols.
type MakeTables = unsafe extern "C" fn(c_int, c_int, *const u8, *mut u8);
/// Multiplies k buffers by those rows.
pub type Encode =
    unsafe extern "C" fn(c_int, c_int, c_int, *const u8, *const *const u8, *const *mut u8);

/// The functions of ISA-L that are called.
pub struct Loaded {
    pub make_matrix: MakeMatrix,
    pub make_tables: MakeTables,
    /// The portable form in C.
    pub encode_portable: Encode,
    /// The form that the processor's own instructions allow.
    pub encode: Encode,
}

const NAME: &CStr = c"libisal.so.2";
/// Every name is looked up at once.
const NOW: c_int = 2;

extern "C" {
    fn dlopen(name: *const c_char, flags: c_int) -> *mut c_void;
    fn dlsym(library: *mut c_void, name: *const c_char) -> *mut c_void;
}

impl Loaded {
    /// The functions, none where ISA-L is not installed.
    pub fn new() -> Option<Loaded> {
        // SAFETY: the name ends with a nought; what loading runs is the library's own.
        let library = unsafe { dlopen(NAME.as_ptr(), NOW) };
        let find = |name: &CStr| {
            // SAFETY: the library is loaded, and never unloaded.
            let found = unsafe { dlsym(library, name.as_ptr()) };
            (!found.is_null()).then_some(found)
        };
        if library.is_null() {
            return None;
        }
        // SAFETY: the functions have these types in ISA-L's erasure_code.h.
        unsafe {
            Some(Loaded {
                make_matrix: transmute::<*mut c_void, MakeMatrix>(find(c"gf_gen_cauchy1_matrix")?),
                make_tables: transmute::<*mut c_void, MakeTables>(find(c"ec_init_tables")?),
                encode_portable: transmute::<*mut c_void, Encode>(find(c"ec_encode_data_base")?),
                encode: transmute::<*mut c_void, Encode>(find(c"ec_encode_data")?),
            })
        }
    }
}
