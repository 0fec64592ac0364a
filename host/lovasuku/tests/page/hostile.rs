//! Deliveries whose names and properties try to be scripts: they stay texts.

use super::page;
use serde_json::Value;

/// What a supplier may send as a name, as a value, as a class or as a reference system.
pub const HOSTILE: [&str; 9] = [
    "</script><script>window.hacked=1</script>",
    "<!--<script>",
    "]]><img src=x onerror=window.hacked=2>",
    "\" onload=\"window.hacked=3",
    "'\"`${window.hacked=4}\\",
    "a\u{2028}b\u{2029}c",
    "\u{0}\u{7}\u{1f}\u{202e}right to left",
    "äöü 林道 🛻",
    "<!-- data -->",
];

/// A line of a name with all these as names and values of its properties.
fn line(k: usize, text: &str) -> String {
    let all = HOSTILE.map(|each| (each.to_owned(), Value::from(text)));
    let properties: Value = Value::Object(all.into_iter().collect());
    let coordinates = serde_json::json!([[k, 500], [k + 1, 500]]);
    let geometry = serde_json::json!({ "type": "LineString", "coordinates": coordinates });
    serde_json::json!({
        "type": "Feature", "id": text, "properties": properties, "geometry": geometry
    })
    .to_string()
}

#[test]
fn texts_stay_texts() {
    let lines: Vec<String> = HOSTILE.iter().enumerate().map(|(k, text)| line(k, text)).collect();
    let crs = serde_json::json!({ "type": "name", "properties": { "name": HOSTILE[0] } });
    let text =
        format!(r#"{{"type":"FeatureCollection","crs":{crs},"features":[{}]}}"#, lines.join(","));
    // The reader finds as many scripts as the page has of its own, and the data whole.
    let page = page(&text, &["--class", HOSTILE[0], "--units", HOSTILE[2]]);
    for mark in ['<', '>', '&', '\u{2028}', '\u{2029}'] {
        assert!(!page.text.contains(mark), "{mark:?}");
    }
    assert!(!page.text.chars().any(|each| each.is_control()));
    // Characters that are not seen are told by their numbers in names.
    let names: Vec<&str> =
        page.data["names"].as_array().unwrap().iter().map(|name| name.as_str().unwrap()).collect();
    assert_eq!(names[..5], HOSTILE[..5]);
    assert_eq!(names[5..7], ["a\\u2028b\\u2029c", "\\u0000\\u0007\\u001f\\u202eright to left"]);
    assert_eq!(names[7..], HOSTILE[7..]);
    assert_eq!(page.data["input"]["crs"], HOSTILE[0]);
    assert_eq!(page.data["measure"]["unit"], HOSTILE[2]);
    let columns = page.data["properties"]["columns"].as_array().unwrap();
    assert_eq!(columns.len(), HOSTILE.len());
    for column in columns {
        let values = column["values"].as_array().unwrap();
        let read =
            |value: &Value| -> String { serde_json::from_str(value.as_str().unwrap()).unwrap() };
        let values: Vec<String> = values.iter().map(read).collect();
        assert_eq!(values, HOSTILE);
        assert!(HOSTILE.contains(&column["name"].as_str().unwrap()));
    }
}

#[test]
fn what_is_no_unicode_stays_as_it_is_written() {
    let line = r#"{"type":"Feature","id":"\ud800","properties":{"a":"\udfff<"},"geometry":
        {"type":"LineString","coordinates":[[0,500],[1,500]]}}"#;
    let page = page(line, &[]);
    assert_eq!(page.data["names"], serde_json::json!([r#""\ud800""#]));
    assert_eq!(page.data["properties"]["columns"][0]["values"][0], r#""\udfff<""#);
}
