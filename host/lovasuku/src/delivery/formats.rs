//! Other formats than GeoJSON: what a file is, and how it is read.

use std::path::Path;

/// How a format is read.
#[derive(Clone, Copy)]
enum By {
    /// GDAL reads the file.
    Gdal,
    /// GDAL reads the file behind this prefix.
    GdalBehind(&'static str),
    /// A command writes it out as GeoJSON.
    Command(&'static str),
}

/// The bytes that a format begins with, what it is, and how it is read. The first that applies counts.
const FORMATS: [(&[u8], &str, By); 20] = [
    (b"\x1f\x8b", "compressed by gzip", By::Command("gzip -dc")),
    (b"BZh", "compressed by bzip2", By::Command("bzip2 -dc")),
    (b"\xfd7zXZ\0", "compressed by xz", By::Command("xz -dc")),
    (b"\x28\xb5\x2f\xfd", "compressed by zstd", By::Command("zstd -dc")),
    (b"PK\x03\x04", "a ZIP archive", By::GdalBehind("/vsizip/")),
    (b"SQLite format 3\0", "an SQLite database, as a GeoPackage is", By::Gdal),
    (b"\0\0\x27\x0a", "a Shapefile", By::Gdal),
    (b"fgb\x03fgb", "a FlatGeobuf", By::Gdal),
    (b"PAR1", "a Parquet file", By::Gdal),
    (b"ARROW1", "an Arrow file", By::Gdal),
    (b"\x89HDF", "an HDF5 file", By::Gdal),
    (b"II*\0", "a TIFF image", By::Gdal),
    (b"\xff\xfe", "text in UTF-16", By::Command("iconv -f UTF-16 -t UTF-8")),
    (b"\xfe\xff", "text in UTF-16", By::Command("iconv -f UTF-16 -t UTF-8")),
    (b"<?xml", "XML, as GML, KML, GPX and OSM are", By::Gdal),
    (b"<kml", "KML", By::Gdal),
    (b"<gpx", "GPX", By::Gdal),
    (b"<osm", "OSM XML", By::Gdal),
    (b"LINESTRING", "WKT", By::Gdal),
    (b"MULTILINESTRING", "WKT", By::Gdal),
];

/// What a file is that GDAL reads, by the bytes that it begins with, and what GDAL wants before its name.
pub fn by_gdal(start: &[u8]) -> Option<(&'static str, &'static str)> {
    match of(start)? {
        (what, By::Gdal) => Some((what, "")),
        (what, By::GdalBehind(prefix)) => Some((what, prefix)),
        (_, By::Command(_)) => None,
    }
}

/// What the bytes are and how they are read, where they are not GeoJSON.
pub fn told(bytes: &[u8], path: &Path) -> Option<String> {
    let (what, by) = of(bytes)?;
    Some(match by {
        By::Command(command) => {
            let name = if path == Path::new("-") { "FILE".into() } else { quoted(path) };
            let pipe = format!("{command} {name} | lovasuku join - -o OUT");
            format!("it is {what}, and what is read is GeoJSON; try: {pipe}")
        }
        By::Gdal | By::GdalBehind(_) => {
            format!("it is {what}, which is read by its name; try: lovasuku join FILE -o OUT")
        }
    })
}

fn of(bytes: &[u8]) -> Option<(&'static str, By)> {
    let known = FORMATS.into_iter().find(|(start, ..)| bytes.starts_with(start));
    if let Some((_, what, by)) = known {
        return Some((what, by));
    }
    let start = &bytes[..bytes.len().min(512)];
    let has = |words: &[u8]| start.windows(words.len()).any(|window| window == words);
    let json =
        |kind: &str| [kind.to_owned(), kind.replace(':', ": ")].iter().any(|t| has(t.as_bytes()));
    if has(b"OSMHeader") {
        Some(("an OSM PBF file", By::Gdal))
    } else if json(r#""type":"Topology""#) {
        Some(("TopoJSON", By::Gdal))
    } else if has(b"\"esriGeometryPolyline\"") {
        Some(("Esri JSON", By::Gdal))
    } else if start.contains(&0) {
        Some(("a binary file", By::Gdal))
    } else {
        None
    }
}

/// A path as a shell reads it.
fn quoted(path: &Path) -> String {
    let path = path.display().to_string();
    let plain = |c: char| c.is_ascii_alphanumeric() || "/._-+,:@%".contains(c);
    match path.chars().all(plain) {
        true => path,
        false => format!("'{}'", path.replace('\'', "'\\''")),
    }
}
