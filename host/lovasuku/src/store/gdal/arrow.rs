//! Arrow's C interfaces: streams of batches, whose columns are read where they lie.
//!
//! The layout is that of Arrow's documents "The Arrow C data interface" and "The Arrow C stream
//! interface". The interfaces do not tell how long a buffer is: that follows from the length of the
//! column and from its last offset, and is believed.

use super::columns::{Column, Format};
use super::messages::text;
use std::marker::PhantomData;
use std::os::raw::{c_char, c_int, c_void};

/// The type of a column, or of a batch, whose columns are its children.
#[repr(C)]
pub struct ArrowSchema {
    format: *const c_char,
    name: *const c_char,
    metadata: *const c_char,
    flags: i64,
    n_children: i64,
    children: *mut *mut ArrowSchema,
    dictionary: *mut ArrowSchema,
    release: Option<unsafe extern "C" fn(*mut ArrowSchema)>,
    private_data: *mut c_void,
}

/// The values of a column, or a batch, whose columns are its children.
#[repr(C)]
pub struct ArrowArray {
    pub(super) length: i64,
    pub(super) null_count: i64,
    pub(super) offset: i64,
    pub(super) n_buffers: i64,
    pub(super) n_children: i64,
    pub(super) buffers: *mut *const c_void,
    pub(super) children: *mut *mut ArrowArray,
    dictionary: *mut ArrowArray,
    release: Option<unsafe extern "C" fn(*mut ArrowArray)>,
    private_data: *mut c_void,
}

/// A stream of batches.
#[repr(C)]
pub struct ArrowArrayStream {
    get_schema: Option<unsafe extern "C" fn(*mut ArrowArrayStream, *mut ArrowSchema) -> c_int>,
    get_next: Option<unsafe extern "C" fn(*mut ArrowArrayStream, *mut ArrowArray) -> c_int>,
    get_last_error: Option<unsafe extern "C" fn(*mut ArrowArrayStream) -> *const c_char>,
    release: Option<unsafe extern "C" fn(*mut ArrowArrayStream)>,
    private_data: *mut c_void,
}

/// Structures of the interfaces that nobody has filled: all their bytes are zero, which is none of
/// each pointer and of each function.
macro_rules! empty {
    ($type:ty) => {
        // SAFETY: the type has numbers, pointers and functions that may be missing alone.
        unsafe { std::mem::zeroed::<$type>() }
    };
}

/// What is released by the function that came with it.
macro_rules! released {
    ($type:ty) => {
        impl Drop for $type {
            fn drop(&mut self) {
                if let Some(release) = self.release {
                    // SAFETY: it is released once, by the one who made it.
                    unsafe { release(self) };
                }
            }
        }
    };
}

released!(ArrowSchema);
released!(ArrowArray);
released!(ArrowArrayStream);

// SAFETY: a batch is only read from, and only released by the one who owns it.
unsafe impl Sync for ArrowArray {}

impl ArrowArrayStream {
    /// A stream that nobody has filled.
    pub fn empty() -> Self {
        empty!(ArrowArrayStream)
    }
}

/// A stream of a layer's batches. It ends before the layer does.
pub struct Stream<'l> {
    stream: Box<ArrowArrayStream>,
    layer: PhantomData<&'l ()>,
}

impl<'l> Stream<'l> {
    /// The stream that was filled by a layer.
    pub fn of(stream: Box<ArrowArrayStream>) -> Self {
        Stream { stream, layer: PhantomData }
    }

    /// The names and formats of the columns.
    pub fn columns(&mut self) -> Result<Vec<(String, Format)>, String> {
        let mut schema = empty!(ArrowSchema);
        let get = self.stream.get_schema.ok_or("the stream is closed")?;
        // SAFETY: the stream is open, and the schema is empty.
        match unsafe { get(&mut *self.stream, &mut schema) } {
            0 => Ok(schema.children().into_iter().map(named).collect()),
            _ => Err(self.fault()),
        }
    }

    /// The next batch, or none where the last was given.
    pub fn batch(&mut self) -> Result<Option<Batch>, String> {
        let mut array = empty!(ArrowArray);
        let get = self.stream.get_next.ok_or("the stream is closed")?;
        // SAFETY: the stream is open, and the array is empty.
        match unsafe { get(&mut *self.stream, &mut array) } {
            0 => Ok(array.release.is_some().then_some(Batch(array))),
            _ => Err(self.fault()),
        }
    }

    fn fault(&mut self) -> String {
        // SAFETY: the words stay until the next call.
        self.stream
            .get_last_error
            .map_or_else(String::new, |get| unsafe { text(get(&mut *self.stream)) })
    }
}

/// The name and the format of a column.
fn named(schema: &ArrowSchema) -> (String, Format) {
    // SAFETY: a name is null or ends with a zero.
    (unsafe { text(schema.name) }, schema.format())
}

impl ArrowSchema {
    fn children(&self) -> Vec<&ArrowSchema> {
        let child = |k: usize| {
            // SAFETY: there are as many pointers to children as the schema tells.
            unsafe { (*self.children.add(k)).as_ref() }
        };
        (0..usize::try_from(self.n_children).unwrap_or(0)).filter_map(child).collect()
    }

    fn format(&self) -> Format {
        let item = self.children().first().map(|item| item.format());
        // SAFETY: a format ends with a zero.
        Format::of(&unsafe { text(self.format) }, item)
    }
}

/// A batch: rows in columns.
pub struct Batch(ArrowArray);

impl Batch {
    /// The number of rows.
    pub fn rows(&self) -> usize {
        usize::try_from(self.0.length).unwrap_or(0)
    }

    /// Column k, of a format that was told of it, if there is one.
    pub fn column<'b>(&'b self, k: usize, format: &'b Format) -> Option<Column<'b>> {
        let column = self.0.child(k).map(|array| Column { array, format })?;
        (self.0.offset == 0 && column.length() >= self.rows()).then_some(column)
    }
}

impl ArrowArray {
    /// Child k, if there is one.
    pub(super) fn child(&self, k: usize) -> Option<&ArrowArray> {
        let all = usize::try_from(self.n_children).ok()?;
        // SAFETY: there are as many pointers to children as the array tells.
        (k < all).then(|| unsafe { (*self.children.add(k)).as_ref() }).flatten()
    }

    /// Where buffer k lies, if there is one.
    fn buffer(&self, k: usize) -> Option<*const c_void> {
        let all = usize::try_from(self.n_buffers).ok()?;
        // SAFETY: there are as many pointers to buffers as the array tells.
        (k < all).then(|| unsafe { *self.buffers.add(k) }).filter(|place| !place.is_null())
    }

    /// How many items are left out before the first.
    fn skipped(&self) -> usize {
        usize::try_from(self.offset).unwrap_or(0)
    }

    /// So many items of buffer k, from the array's offset on. Where there is no buffer there are none.
    ///
    /// # Safety
    ///
    /// The buffer has items of this type, that many behind the offset.
    pub(super) unsafe fn items<T>(&self, k: usize, count: usize) -> &[T] {
        match self.buffer(k) {
            None => &[],
            Some(place) => std::slice::from_raw_parts(place.cast::<T>().add(self.skipped()), count),
        }
    }

    /// So many bytes of buffer k, whatever the array's offset is.
    ///
    /// # Safety
    ///
    /// The buffer has that many.
    pub(super) unsafe fn bytes(&self, k: usize, count: usize) -> &[u8] {
        match self.buffer(k) {
            None => &[],
            Some(place) => std::slice::from_raw_parts(place.cast::<u8>(), count),
        }
    }

    /// Bit k of a buffer of bits, counted from the array's offset; 1 where there is no buffer.
    ///
    /// # Safety
    ///
    /// The buffer has as many bits as the array tells, and k is below that.
    pub(super) unsafe fn bit(&self, buffer: usize, k: usize) -> bool {
        let k = k + self.skipped();
        match self.buffer(buffer) {
            None => true,
            Some(place) => *place.cast::<u8>().add(k / 8) >> (k % 8) & 1 == 1,
        }
    }
}
