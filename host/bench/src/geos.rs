//! GEOS, found at run time where its C library is installed: its LineMerger, and its
//! WKBReader and WKBWriter.
//!
//! Each unsafe line calls a function of that library by the signature that `geos_c.h` declares, on
//! pointers that the library gave out and that are given back to it once.
#![allow(unsafe_code)]

use answers::BuildCall;
use std::ffi::{CStr, CString};
use std::mem::{replace, size_of, transmute_copy};
use std::os::raw::{c_char, c_double, c_int, c_uint, c_void};
use std::ptr::null_mut;

pub(crate) type Pointer = *mut c_void;

extern "C" {
    fn dlopen(name: *const c_char, flags: c_int) -> Pointer;
    fn dlsym(library: Pointer, name: *const c_char) -> Pointer;
}

/// Names are bound as they are first called.
const LAZY: c_int = 1;

/// The names under which systems have the library.
const NAMES: [&str; 3] = ["libgeos_c.so.1", "libgeos_c.so", "libgeos_c.dylib"];

/// GEOS's number for the flavour of WKB that is ISO's.
const ISO: c_int = 2;

/// GEOS's number for a geometry of several lines.
const MULTI_LINE: c_int = 5;

/// The library, open, with what is called of it.
pub struct Geos {
    library: Pointer,
    handle: Pointer,
    version: String,
    sequence: unsafe extern "C" fn(Pointer, c_uint, c_uint) -> Pointer,
    set_x: unsafe extern "C" fn(Pointer, Pointer, c_uint, c_double) -> c_int,
    set_y: unsafe extern "C" fn(Pointer, Pointer, c_uint, c_double) -> c_int,
    set_z: unsafe extern "C" fn(Pointer, Pointer, c_uint, c_double) -> c_int,
    line: unsafe extern "C" fn(Pointer, Pointer) -> Pointer,
    collection: unsafe extern "C" fn(Pointer, c_int, *mut Pointer, c_uint) -> Pointer,
    merge: unsafe extern "C" fn(Pointer, Pointer) -> Pointer,
    count: unsafe extern "C" fn(Pointer, Pointer) -> c_int,
    destroy: unsafe extern "C" fn(Pointer, Pointer),
}

impl Geos {
    /// The library, where it is installed.
    pub fn find() -> Option<Geos> {
        let library = NAMES.iter().find_map(|name| library(name))?;
        unsafe {
            let init: unsafe extern "C" fn() -> Pointer = function(library, "GEOS_init_r")?;
            let version: unsafe extern "C" fn() -> *const c_char =
                function(library, "GEOSversion")?;
            Some(Geos {
                library,
                handle: init(),
                version: CStr::from_ptr(version()).to_string_lossy().into_owned(),
                sequence: function(library, "GEOSCoordSeq_create_r")?,
                set_x: function(library, "GEOSCoordSeq_setX_r")?,
                set_y: function(library, "GEOSCoordSeq_setY_r")?,
                set_z: function(library, "GEOSCoordSeq_setZ_r")?,
                line: function(library, "GEOSGeom_createLineString_r")?,
                collection: function(library, "GEOSGeom_createCollection_r")?,
                merge: function(library, "GEOSLineMerge_r")?,
                count: function(library, "GEOSGetNumGeometries_r")?,
                destroy: function(library, "GEOSGeom_destroy_r")?,
            })
        }
    }

    pub(crate) fn library(&self) -> Pointer {
        self.library
    }

    pub(crate) fn handle(&self) -> Pointer {
        self.handle
    }

    /// The version by which the library calls itself.
    pub fn version(&self) -> &str {
        &self.version
    }

    /// The lines of a call, made ready to be merged.
    pub fn merging(&self, call: &BuildCall) -> Result<Merging<'_>, String> {
        let firsts = call.firsts();
        let line = |line: usize| self.line(call.numbers(line, firsts[line]), call.stride());
        let mut lines: Vec<Pointer> = (0..call.lines()).map(line).collect();
        let count = lines.len() as c_uint;
        let lines =
            unsafe { (self.collection)(self.handle, MULTI_LINE, lines.as_mut_ptr(), count) };
        match lines.is_null() {
            true => Err("GEOS does not take the lines".to_string()),
            false => Ok(Merging(Geometry { geos: self, pointer: lines })),
        }
    }

    /// The library's reader of WKB.
    pub fn wkb_reader(&self) -> Option<WkbReader<'_>> {
        unsafe {
            let create: unsafe extern "C" fn(Pointer) -> Pointer =
                function(self.library, "GEOSWKBReader_create_r")?;
            Some(WkbReader {
                geos: self,
                read: function(self.library, "GEOSWKBReader_read_r")?,
                destroy: function(self.library, "GEOSWKBReader_destroy_r")?,
                reader: create(self.handle),
            })
        }
    }

    /// The library's writer of WKB in a byte order, of coordinates of so many numbers. That of heights
    /// writes ISO's flavour, which GEOS has from 3.10 on.
    pub fn wkb_writer(&self, order: u8, stride: usize) -> Option<WkbWriter<'_>> {
        type Set = unsafe extern "C" fn(Pointer, Pointer, c_int);
        unsafe {
            let create: unsafe extern "C" fn(Pointer) -> Pointer =
                function(self.library, "GEOSWKBWriter_create_r")?;
            let set_order: Set = function(self.library, "GEOSWKBWriter_setByteOrder_r")?;
            let writer = WkbWriter {
                geos: self,
                write: function(self.library, "GEOSWKBWriter_write_r")?,
                free: function(self.library, "GEOSFree_r")?,
                destroy: function(self.library, "GEOSWKBWriter_destroy_r")?,
                writer: create(self.handle),
            };
            set_order(self.handle, writer.writer, c_int::from(order));
            if stride > 2 {
                let set_flavour: Set = function(self.library, "GEOSWKBWriter_setFlavor_r")?;
                let set_dimension: Set =
                    function(self.library, "GEOSWKBWriter_setOutputDimension_r")?;
                set_flavour(self.handle, writer.writer, ISO);
                set_dimension(self.handle, writer.writer, 3);
            }
            Some(writer)
        }
    }

    /// A line by the bits of its coordinates of so many numbers, if GEOS takes it.
    pub fn geometry(&self, coordinates: &[u64], stride: usize) -> Option<Geometry<'_>> {
        let pointer = self.line(coordinates, stride);
        (!pointer.is_null()).then_some(Geometry { geos: self, pointer })
    }

    /// So many numbers of each coordinate of a line, x, y and the height, by their bits.
    pub fn coordinates(&self, line: &Geometry<'_>, stride: usize) -> Option<Vec<u64>> {
        type Get = unsafe extern "C" fn(Pointer, Pointer, c_uint, *mut c_double) -> c_int;
        unsafe {
            let sequence: unsafe extern "C" fn(Pointer, Pointer) -> Pointer =
                function(self.library, "GEOSGeom_getCoordSeq_r")?;
            let size: unsafe extern "C" fn(Pointer, Pointer, *mut c_uint) -> c_int =
                function(self.library, "GEOSCoordSeq_getSize_r")?;
            let get_x: Get = function(self.library, "GEOSCoordSeq_getX_r")?;
            let get_y: Get = function(self.library, "GEOSCoordSeq_getY_r")?;
            let get_z: Get = function(self.library, "GEOSCoordSeq_getZ_r")?;
            let gets = [get_x, get_y, get_z];
            let sequence = sequence(self.handle, line.pointer);
            let mut count = 0;
            size(self.handle, sequence, &mut count);
            let number = |get: Get, k: c_uint| {
                let mut number = 0.0;
                get(self.handle, sequence, k, &mut number);
                number.to_bits()
            };
            let of = |k| gets.into_iter().take(stride).map(move |get| (get, k));
            Some((0..count).flat_map(of).map(|(get, k)| number(get, k)).collect())
        }
    }

    fn line(&self, coordinates: &[u64], stride: usize) -> Pointer {
        let count = (coordinates.len() / stride) as c_uint;
        unsafe {
            let sequence = (self.sequence)(self.handle, count, stride as c_uint);
            for (k, numbers) in (0..).zip(coordinates.chunks_exact(stride)) {
                let sets = [self.set_x, self.set_y, self.set_z];
                for (set, &bits) in sets.into_iter().zip(numbers) {
                    set(self.handle, sequence, k, f64::from_bits(bits));
                }
            }
            (self.line)(self.handle, sequence)
        }
    }
}

/// The library of a name, open, where there is one.
fn library(name: &str) -> Option<Pointer> {
    let name = CString::new(name).ok()?;
    let library = unsafe { dlopen(name.as_ptr(), LAZY) };
    (!library.is_null()).then_some(library)
}

/// A function of the library by its name. F is the function's type.
pub(crate) unsafe fn function<F: Copy>(library: Pointer, name: &str) -> Option<F> {
    assert_eq!(size_of::<F>(), size_of::<Pointer>(), "a function is not as wide as a pointer");
    let name = CString::new(name).ok()?;
    let pointer = dlsym(library, name.as_ptr());
    (!pointer.is_null()).then(|| transmute_copy(&pointer))
}

/// A geometry of the library's.
pub struct Geometry<'a> {
    geos: &'a Geos,
    pointer: Pointer,
}

impl Geometry<'_> {
    pub(crate) fn pointer(&self) -> Pointer {
        self.pointer
    }
}

impl Drop for Geometry<'_> {
    fn drop(&mut self) {
        let pointer = replace(&mut self.pointer, null_mut());
        unsafe { (self.geos.destroy)(self.geos.handle, pointer) }
    }
}

/// Lines that are ready to be merged.
pub struct Merging<'a>(Geometry<'a>);

impl<'a> Merging<'a> {
    /// The merged lines.
    pub fn run(&self) -> Geometry<'a> {
        let Geometry { geos, pointer } = &self.0;
        Geometry { geos, pointer: unsafe { (geos.merge)(geos.handle, *pointer) } }
    }

    /// Tests that there are so many merged lines.
    pub fn check(&self, lines: usize) -> Result<(), String> {
        let merged = self.run();
        let count = match merged.pointer.is_null() {
            true => -1,
            false => unsafe { (merged.geos.count)(merged.geos.handle, merged.pointer) },
        };
        match i64::from(count) == lines as i64 {
            true => Ok(()),
            false => Err(format!("GEOS has {count} merged lines, not {lines}")),
        }
    }
}

/// GEOS's reader of WKB.
pub struct WkbReader<'a> {
    geos: &'a Geos,
    reader: Pointer,
    read: unsafe extern "C" fn(Pointer, Pointer, *const u8, usize) -> Pointer,
    destroy: unsafe extern "C" fn(Pointer, Pointer),
}

impl<'a> WkbReader<'a> {
    /// The geometry of a record, if GEOS takes it.
    pub fn read(&self, record: &[u8]) -> Option<Geometry<'a>> {
        let geos = self.geos;
        let pointer =
            unsafe { (self.read)(geos.handle, self.reader, record.as_ptr(), record.len()) };
        (!pointer.is_null()).then_some(Geometry { geos, pointer })
    }
}

impl Drop for WkbReader<'_> {
    fn drop(&mut self) {
        unsafe { (self.destroy)(self.geos.handle, self.reader) }
    }
}

/// GEOS's writer of WKB.
pub struct WkbWriter<'a> {
    geos: &'a Geos,
    writer: Pointer,
    write: unsafe extern "C" fn(Pointer, Pointer, Pointer, *mut usize) -> *mut u8,
    free: unsafe extern "C" fn(Pointer, Pointer),
    destroy: unsafe extern "C" fn(Pointer, Pointer),
}

impl<'a> WkbWriter<'a> {
    /// The record of a geometry, if GEOS writes it.
    pub fn write(&self, geometry: &Geometry<'_>) -> Option<WkbRecord<'_>> {
        let mut length = 0;
        let bytes =
            unsafe { (self.write)(self.geos.handle, self.writer, geometry.pointer, &mut length) };
        (!bytes.is_null()).then_some(WkbRecord { writer: self, bytes, length })
    }
}

impl Drop for WkbWriter<'_> {
    fn drop(&mut self) {
        unsafe { (self.destroy)(self.geos.handle, self.writer) }
    }
}

/// A record in memory of GEOS's.
pub struct WkbRecord<'a> {
    writer: &'a WkbWriter<'a>,
    bytes: *mut u8,
    length: usize,
}

impl WkbRecord<'_> {
    /// Its bytes.
    pub fn bytes(&self) -> &[u8] {
        unsafe { std::slice::from_raw_parts(self.bytes, self.length) }
    }
}

impl Drop for WkbRecord<'_> {
    fn drop(&mut self) {
        unsafe { (self.writer.free)(self.writer.geos.handle, self.bytes.cast()) }
    }
}
