//! The C interface of GDAL, as far as it is used: declared once, under GDAL's own names.
//!
//! Handles are pointers that GDAL alone looks behind. Lists of texts are pointers to texts, with a
//! null behind the last.

use super::arrow::ArrowArrayStream;
use super::library::Library;
use std::ffi::CString;
use std::os::raw::{c_char, c_double, c_int, c_uchar, c_uint, c_void};

/// A handle of GDAL's: of a driver, a dataset, a layer, a feature ..
pub type Handle = *mut c_void;

/// A text that ends with a zero.
pub type Text = *const c_char;

/// Texts, with a null behind the last.
pub type Texts = *const *const c_char;

/// What GDAL calls with its messages: their class, their number and their words.
pub type Heeds = unsafe extern "C" fn(c_int, c_int, Text);

/// Declares functions, and how they are found in the library.
macro_rules! functions {
    ($($name:ident($($type:ty),*) $(-> $result:ty)?;)*) => {
        /// The functions of GDAL.
        #[allow(non_snake_case)]
        pub struct Gdal {
            $(pub $name: unsafe extern "C" fn($($type),*) $(-> $result)?,)*
        }

        impl Gdal {
            /// The functions as they lie in the library, or what is told of one that is missing.
            pub fn of(library: Library) -> Result<Self, String> {
                Ok(Gdal {
                    $($name: {
                        let name = CString::new(stringify!($name)).map_err(|_| String::new())?;
                        let place = library.find(&name)?;
                        // SAFETY: what has this name in GDAL is a function of these types.
                        unsafe { std::mem::transmute(place) }
                    },)*
                })
            }
        }
    };
}

functions! {
    GDALAllRegister();
    CPLSetErrorHandler(Option<Heeds>) -> Option<Heeds>;

    GDALOpenEx(Text, c_uint, Texts, Texts, Texts) -> Handle;
    GDALClose(Handle);
    GDALGetDriverByName(Text) -> Handle;
    GDALGetMetadataItem(Handle, Text, Text) -> Text;
    GDALCreate(Handle, Text, c_int, c_int, c_int, c_int, Texts) -> Handle;
    GDALDatasetGetLayerCount(Handle) -> c_int;
    GDALDatasetGetLayer(Handle, c_int) -> Handle;
    GDALDatasetGetLayerByName(Handle, Text) -> Handle;
    GDALDatasetExecuteSQL(Handle, Text, Handle, Text) -> Handle;
    GDALDatasetReleaseResultSet(Handle, Handle);
    GDALDatasetCreateLayer(Handle, Text, Handle, c_uint, Texts) -> Handle;
    GDALDatasetTestCapability(Handle, Text) -> c_int;
    GDALDatasetStartTransaction(Handle, c_int) -> c_int;
    GDALDatasetCommitTransaction(Handle) -> c_int;
    GDALDatasetRollbackTransaction(Handle) -> c_int;

    OGR_L_GetName(Handle) -> Text;
    OGR_L_GetLayerDefn(Handle) -> Handle;
    OGR_L_GetFIDColumn(Handle) -> Text;
    OGR_L_GetFeatureCount(Handle, c_int) -> i64;
    OGR_L_SetAttributeFilter(Handle, Text) -> c_int;
    OGR_L_GetArrowStream(Handle, *mut ArrowArrayStream, Texts) -> bool;
    OGR_L_ResetReading(Handle);
    OGR_L_GetNextFeature(Handle) -> Handle;
    OGR_L_CreateField(Handle, Handle, c_int) -> c_int;
    OGR_L_CreateFeature(Handle, Handle) -> c_int;

    OGR_FD_GetFieldCount(Handle) -> c_int;
    OGR_FD_GetFieldDefn(Handle, c_int) -> Handle;
    OGR_FD_GetFieldIndex(Handle, Text) -> c_int;
    OGR_FD_GetGeomFieldCount(Handle) -> c_int;
    OGR_FD_GetGeomFieldDefn(Handle, c_int) -> Handle;
    OGR_GFld_GetNameRef(Handle) -> Text;
    OGR_GFld_GetSpatialRef(Handle) -> Handle;
    OGR_Fld_Create(Text, c_int) -> Handle;
    OGR_Fld_Destroy(Handle);
    OGR_Fld_GetNameRef(Handle) -> Text;
    OGR_Fld_GetType(Handle) -> c_int;
    OGR_Fld_GetSubType(Handle) -> c_int;
    OGR_Fld_SetSubType(Handle, c_int);
    OGR_Fld_GetWidth(Handle) -> c_int;
    OGR_Fld_SetWidth(Handle, c_int);
    OGR_Fld_GetPrecision(Handle) -> c_int;
    OGR_Fld_SetPrecision(Handle, c_int);

    OGR_F_Create(Handle) -> Handle;
    OGR_F_Destroy(Handle);
    OGR_F_GetFID(Handle) -> i64;
    OGR_F_GetGeomFieldRef(Handle, c_int) -> Handle;
    OGR_F_IsFieldSetAndNotNull(Handle, c_int) -> c_int;
    OGR_F_GetFieldAsInteger64(Handle, c_int) -> i64;
    OGR_F_GetFieldAsDouble(Handle, c_int) -> c_double;
    OGR_F_GetFieldAsString(Handle, c_int) -> Text;
    OGR_F_GetFieldAsBinary(Handle, c_int, *mut c_int) -> *const c_uchar;
    OGR_F_GetFieldAsIntegerList(Handle, c_int, *mut c_int) -> *const c_int;
    OGR_F_GetFieldAsInteger64List(Handle, c_int, *mut c_int) -> *const i64;
    OGR_F_GetFieldAsDoubleList(Handle, c_int, *mut c_int) -> *const c_double;
    OGR_F_GetFieldAsStringList(Handle, c_int) -> Texts;
    OGR_F_GetFieldAsDateTimeEx(
        Handle, c_int, *mut c_int, *mut c_int, *mut c_int, *mut c_int, *mut c_int, *mut f32, *mut c_int
    ) -> c_int;
    OGR_F_SetFID(Handle, i64) -> c_int;
    OGR_F_SetGeometryDirectly(Handle, Handle) -> c_int;
    OGR_F_SetFieldInteger64(Handle, c_int, i64);
    OGR_F_SetFieldDouble(Handle, c_int, c_double);
    OGR_F_SetFieldString(Handle, c_int, Text);
    OGR_F_SetFieldBinary(Handle, c_int, c_int, *const c_void);
    OGR_F_SetFieldIntegerList(Handle, c_int, c_int, *const c_int);
    OGR_F_SetFieldInteger64List(Handle, c_int, c_int, *const i64);
    OGR_F_SetFieldDoubleList(Handle, c_int, c_int, *const c_double);
    OGR_F_SetFieldStringList(Handle, c_int, Texts);
    OGR_G_WkbSize(Handle) -> c_int;
    OGR_G_ExportToIsoWkb(Handle, c_int, *mut c_uchar) -> c_int;
    OGR_G_CreateFromWkb(*const c_uchar, Handle, *mut Handle, c_int) -> c_int;

    OSRNewSpatialReference(Text) -> Handle;
    OSRDestroySpatialReference(Handle);
    OSRClone(Handle) -> Handle;
    OSRSetFromUserInput(Handle, Text) -> c_int;
    OSRSetAxisMappingStrategy(Handle, c_int);
    OSRIsGeographic(Handle) -> c_int;
    OSRGetLinearUnits(Handle, *mut *mut c_char) -> c_double;
    OSRGetAuthorityName(Handle, Text) -> Text;
    OSRGetAuthorityCode(Handle, Text) -> Text;
    OSRGetName(Handle) -> Text;
}
