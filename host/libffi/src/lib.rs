//! The preparation of a call by libffi (`ffi_prep_cif`), where the machine has it: it is looked for
//! when the program runs, and nothing is linked with it.

use std::ffi::{c_char, c_int, c_uint, c_ushort, c_void, CStr};
use std::ptr;
use std::sync::OnceLock;

/// The types that libffi has a name for.
#[derive(Clone, Copy, Debug, PartialEq, Eq)]
pub enum Name {
    Sint8,
    Uint8,
    Sint16,
    Uint16,
    Sint32,
    Uint32,
    Sint64,
    Uint64,
    Pointer,
    Float,
    Double,
    LongDouble,
}

const NAMES: [&CStr; 12] = [
    c"ffi_type_sint8",
    c"ffi_type_uint8",
    c"ffi_type_sint16",
    c"ffi_type_uint16",
    c"ffi_type_sint32",
    c"ffi_type_uint32",
    c"ffi_type_sint64",
    c"ffi_type_uint64",
    c"ffi_type_pointer",
    c"ffi_type_float",
    c"ffi_type_double",
    c"ffi_type_longdouble",
];

pub enum Type {
    Named(Name),
    Struct(Vec<Type>),
}

/// `ffi_type`
#[repr(C)]
struct RawType {
    size: usize,
    alignment: c_ushort,
    kind: c_ushort,
    elements: *mut *mut RawType,
}

/// `FFI_TYPE_STRUCT`
const STRUCT: c_ushort = 13;
/// `FFI_UNIX64`, the default of x86-64 Linux.
const UNIX64: c_uint = 2;

/// Room for an `ffi_cif`, which has 32 bytes on x86-64.
#[repr(C, align(16))]
struct RawCall([u8; 128]);

type Prepare =
    unsafe extern "C" fn(*mut RawCall, c_uint, c_uint, *mut RawType, *mut *mut RawType) -> c_int;

struct Library {
    prepare: Prepare,
    void: *mut RawType,
    named: [*mut RawType; NAMES.len()],
}

// SAFETY: the named types are constants of libffi, which nobody writes.
unsafe impl Send for Library {}
// SAFETY: as above.
unsafe impl Sync for Library {}

extern "C" {
    fn dlopen(name: *const c_char, flags: c_int) -> *mut c_void;
    fn dlsym(library: *mut c_void, name: *const c_char) -> *mut c_void;
}

/// `RTLD_NOW`
const NOW: c_int = 2;

fn library() -> Option<&'static Library> {
    static LIBRARY: OnceLock<Option<Library>> = OnceLock::new();
    LIBRARY.get_or_init(load).as_ref()
}

fn load() -> Option<Library> {
    if !cfg!(all(target_arch = "x86_64", target_os = "linux")) {
        return None;
    }
    let names = [c"libffi.so.8", c"libffi.so.7", c"libffi.so"];
    // SAFETY: the names are C strings; what a library of that name does as it is loaded is libffi's.
    let opened = names.map(|name| unsafe { dlopen(name.as_ptr(), NOW) });
    let opened = opened.into_iter().find(|library| !library.is_null())?;
    let symbol = |name: &CStr| {
        // SAFETY: an opened library and a C string.
        let found = unsafe { dlsym(opened, name.as_ptr()) };
        (!found.is_null()).then_some(found)
    };
    let mut named = [ptr::null_mut(); NAMES.len()];
    for (place, name) in named.iter_mut().zip(NAMES) {
        *place = symbol(name)?.cast();
    }
    let prepare = symbol(c"ffi_prep_cif")?;
    Some(Library {
        // SAFETY: that function has this type, by libffi's header.
        prepare: unsafe { std::mem::transmute::<*mut c_void, Prepare>(prepare) },
        void: symbol(c"ffi_type_void")?.cast(),
        named,
    })
}

/// Whether the machine has it.
pub fn found() -> bool {
    library().is_some()
}

/// A call's types as libffi has them in memory.
pub struct Call {
    result: *mut RawType,
    arguments: Vec<*mut RawType>,
    /// The struct types, each of which is a box's, and their lists of fields.
    structs: Vec<*mut RawType>,
    fields: Vec<Vec<*mut RawType>>,
    raw: Box<RawCall>,
}

impl Call {
    /// Nothing where libffi is not found.
    pub fn new(result: Option<Type>, arguments: Vec<Type>) -> Option<Call> {
        let library = library()?;
        let mut call = Call {
            result: library.void,
            arguments: Vec::new(),
            structs: Vec::new(),
            fields: Vec::new(),
            raw: Box::new(RawCall([0; 128])),
        };
        if let Some(result) = result {
            call.result = call.raw_type(library, &result);
        }
        for argument in &arguments {
            let argument = call.raw_type(library, argument);
            call.arguments.push(argument);
        }
        Some(call)
    }

    fn raw_type(&mut self, library: &Library, of: &Type) -> *mut RawType {
        match of {
            Type::Named(name) => library.named[*name as usize],
            Type::Struct(fields) => {
                let fields = fields.iter().map(|field| self.raw_type(library, field));
                let mut fields: Vec<*mut RawType> = fields.collect();
                fields.push(ptr::null_mut());
                let place = Box::into_raw(Box::new(RawType {
                    size: 0,
                    alignment: 0,
                    kind: STRUCT,
                    elements: fields.as_mut_ptr(),
                }));
                self.fields.push(fields);
                self.structs.push(place);
                place
            }
        }
    }

    /// Prepares the call anew, the layout of its structs too; whether libffi accepts it.
    pub fn prepare(&mut self) -> bool {
        let Some(library) = library() else {
            return false;
        };
        for &place in &self.structs {
            // SAFETY: a box's that this call alone has, and which it frees only as it is dropped.
            let raw = unsafe { &mut *place };
            raw.size = 0;
            raw.alignment = 0;
        }
        // SAFETY: the types and the lists of them are this call's or libffi's own and outlive it, each list of
        // fields ends with a null, and the room is larger than an `ffi_cif`.
        let status = unsafe {
            (library.prepare)(
                &mut *self.raw,
                UNIX64,
                self.arguments.len() as c_uint,
                self.result,
                self.arguments.as_mut_ptr(),
            )
        };
        status == 0
    }
}

impl Drop for Call {
    fn drop(&mut self) {
        for &place in &self.structs {
            // SAFETY: it was made from a box, and is freed here alone.
            drop(unsafe { Box::from_raw(place) });
        }
    }
}

#[cfg(test)]
mod tests {
    use super::*;

    #[test]
    fn prepares_where_it_is_found() {
        let fields = vec![Type::Named(Name::Sint32), Type::Named(Name::Double)];
        let arguments = vec![Type::Named(Name::Pointer), Type::Struct(fields)];
        match Call::new(Some(Type::Named(Name::LongDouble)), arguments) {
            Some(mut call) => {
                assert!(call.prepare() && call.prepare());
                // SAFETY: the call is not yet dropped.
                let raw = unsafe { &*call.structs[0] };
                assert_eq!((raw.size, raw.alignment), (16, 8));
            }
            None => assert!(!found()),
        }
    }
}
