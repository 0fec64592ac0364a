//! The features of a layer, one by one.

use super::columns::Value;
use super::dataset::Layer;
use super::declared::{Gdal, Handle};
use super::messages::{failure, failures};
use super::types::FieldType;
use anyhow::Result;
use std::ffi::CStr;
use std::marker::PhantomData;
use std::os::raw::{c_int, c_void};
use std::ptr::NonNull;

/// A walk over the features of a layer.
pub struct Cursor<'l> {
    gdal: &'static Gdal,
    layer: NonNull<c_void>,
    of: PhantomData<&'l ()>,
}

impl Layer<'_> {
    /// Begins with its first feature.
    pub fn cursor(&mut self) -> Cursor<'_> {
        let gdal = self.dataset.gdal;
        // SAFETY: the layer is there as long as its dataset.
        unsafe { (gdal.OGR_L_ResetReading)(self.handle.as_ptr()) };
        Cursor { gdal, layer: self.handle, of: PhantomData }
    }
}

impl Cursor<'_> {
    /// The next feature, or none behind the last.
    pub fn next(&mut self) -> Result<Option<Found>> {
        let gdal = self.gdal;
        // SAFETY: the layer is there as long as this is.
        let handle = unsafe { (gdal.OGR_L_GetNextFeature)(self.layer.as_ptr()) };
        match (NonNull::new(handle), failures()) {
            (_, Some(fault)) => Err(fault),
            (found, None) => Ok(found.map(|handle| Found { gdal, handle })),
        }
    }
}

/// A feature that was found.
pub struct Found {
    gdal: &'static Gdal,
    handle: NonNull<c_void>,
}

impl Drop for Found {
    fn drop(&mut self) {
        // SAFETY: it is the owner's, and is taken away once.
        unsafe { (self.gdal.OGR_F_Destroy)(self.handle.as_ptr()) };
    }
}

/// The least byte first.
const LITTLE: c_int = 1;

impl Found {
    /// Its id.
    pub fn id(&self) -> i64 {
        // SAFETY: the feature is there.
        unsafe { (self.gdal.OGR_F_GetFID)(self.handle.as_ptr()) }
    }

    /// Puts the geometry of a column behind a run, as WKB of ISO's; nothing where there is none.
    pub fn wkb(&self, column: usize, run: &mut Vec<u8>) -> Result<()> {
        let gdal = self.gdal;
        let column = c_int::try_from(column)?;
        // SAFETY: the feature keeps its geometry, which is written into as many bytes as it tells.
        unsafe {
            let geometry = (gdal.OGR_F_GetGeomFieldRef)(self.handle.as_ptr(), column);
            if geometry.is_null() {
                return Ok(());
            }
            let length = usize::try_from((gdal.OGR_G_WkbSize)(geometry))?;
            let begin = run.len();
            run.resize(begin + length, 0);
            let place = run.as_mut_ptr().add(begin);
            match (gdal.OGR_G_ExportToIsoWkb)(geometry, LITTLE, place) {
                0 => Ok(()),
                _ => Err(failure()),
            }
        }
    }

    /// The value of a field of a type.
    pub fn value(&self, field: usize, kind: FieldType) -> Value<'_> {
        let (gdal, feature) = (self.gdal, self.handle.as_ptr());
        let field = c_int::try_from(field).unwrap_or(c_int::MAX);
        // SAFETY: the feature keeps what it gives until it goes, and has the field where that is set.
        unsafe {
            if (gdal.OGR_F_IsFieldSetAndNotNull)(feature, field) == 0 {
                return Value::Null;
            }
            let whole = || (gdal.OGR_F_GetFieldAsInteger64)(feature, field);
            match kind.name() {
                "Integer" if kind.sub == FieldType::BOOLEAN.sub => Value::Boolean(whole() != 0),
                "Integer" | "Integer64" => Value::Whole(whole()),
                "Real" => Value::Real((gdal.OGR_F_GetFieldAsDouble)(feature, field)),
                "Binary" => Value::Bytes(items(feature, field, gdal.OGR_F_GetFieldAsBinary)),
                "Date" | "Time" | "DateTime" => time(gdal, feature, field, kind),
                "IntegerList" => {
                    let all = items(feature, field, gdal.OGR_F_GetFieldAsIntegerList);
                    Value::List(all.iter().map(|&item| whole_or_truth(item, kind)).collect())
                }
                "Integer64List" => {
                    let all = items(feature, field, gdal.OGR_F_GetFieldAsInteger64List);
                    Value::List(all.iter().map(|&item| Value::Whole(item)).collect())
                }
                "RealList" => {
                    let all = items(feature, field, gdal.OGR_F_GetFieldAsDoubleList);
                    Value::List(all.iter().map(|&item| Value::Real(item)).collect())
                }
                "StringList" => texts((gdal.OGR_F_GetFieldAsStringList)(feature, field)),
                _ => Value::Text(bytes_of((gdal.OGR_F_GetFieldAsString)(feature, field))),
            }
        }
    }
}

fn whole_or_truth(item: c_int, kind: FieldType) -> Value<'static> {
    match kind.sub == FieldType::BOOLEANS.sub {
        true => Value::Boolean(item != 0),
        false => Value::Whole(i64::from(item)),
    }
}

/// The items of a field.
///
/// # Safety
///
/// The feature has the field, and the function gives so many items of it as it tells.
unsafe fn items<'f, T>(
    feature: Handle,
    field: c_int,
    get: unsafe extern "C" fn(Handle, c_int, *mut c_int) -> *const T,
) -> &'f [T] {
    let mut count = 0;
    let place = get(feature, field, &mut count);
    match usize::try_from(count) {
        Ok(count) if !place.is_null() => std::slice::from_raw_parts(place, count),
        _ => &[],
    }
}

/// The bytes of a text; none where there is no text.
///
/// # Safety
///
/// The text is null, or ends with a zero.
unsafe fn bytes_of<'f>(text: *const std::os::raw::c_char) -> &'f [u8] {
    match text.is_null() {
        true => &[],
        false => CStr::from_ptr(text).to_bytes(),
    }
}

/// The texts of a list that a null ends.
///
/// # Safety
///
/// The list is null or such, and its texts end with zeros.
unsafe fn texts<'f>(mut list: *const *const std::os::raw::c_char) -> Value<'f> {
    let mut all = Vec::new();
    while !list.is_null() && !(*list).is_null() {
        all.push(Value::Text(bytes_of(*list)));
        list = list.add(1);
    }
    Value::List(all)
}

/// A date, a time or a moment of a field, in words.
///
/// # Safety
///
/// The feature has the field, which is one of these.
unsafe fn time<'f>(gdal: &Gdal, feature: Handle, field: c_int, kind: FieldType) -> Value<'f> {
    let [mut year, mut month, mut day, mut hour, mut minute, mut zone] = [0; 6];
    let mut second = 0.0;
    let told = (gdal.OGR_F_GetFieldAsDateTimeEx)(
        feature,
        field,
        &mut year,
        &mut month,
        &mut day,
        &mut hour,
        &mut minute,
        &mut second,
        &mut zone,
    );
    if told == 0 {
        return Value::Null;
    }
    let date = format!("{year:04}-{month:02}-{day:02}");
    let time = format!("{hour:02}:{minute:02}:{}", seconds(second));
    Value::Told(match kind.name() {
        "Date" => date,
        "Time" => time,
        _ => format!("{date}T{time}{}", zone_of(zone)),
    })
}

/// Seconds to the thousandth, with the decimals that they have.
fn seconds(second: f32) -> String {
    let text = format!("{:06.3}", second.min(59.999));
    text.trim_end_matches('0').trim_end_matches('.').to_owned()
}

/// GDAL's number of universal time, from which zones are counted by quarters of an hour. Those below
/// are no zones.
const UNIVERSAL: c_int = 100;
const QUARTER: c_int = 15;

/// A zone as it is written behind a time.
fn zone_of(number: c_int) -> String {
    let minutes = (number - UNIVERSAL) * QUARTER;
    let sign = if minutes < 0 { '-' } else { '+' };
    match number {
        0 | 1 => String::new(),
        UNIVERSAL => "Z".into(),
        _ => format!("{sign}{:02}:{:02}", minutes.abs() / 60, minutes.abs() % 60),
    }
}

#[cfg(test)]
mod tests {
    use super::{seconds, zone_of};

    #[test]
    fn zones_and_seconds() {
        assert_eq!([0, 1, 100, 108, 86].map(zone_of), ["", "", "Z", "+02:00", "-03:30"]);
        assert_eq!([0.0, 5.25, 59.9999].map(seconds), ["00", "05.25", "59.999"]);
    }
}
