//! The page as a file: HTML with its style, its scripts and its data, and the policy that lets nothing
//! else run.

use super::bytes::base64;
use sha2::{Digest, Sha256};

const HTML: &str = include_str!("web/page.html");
const STYLE: &str = concat!(include_str!("web/colours.css"), include_str!("web/style.css"));

/// The scripts in the order in which they are read.
pub const SCRIPTS: [(&str, &str); 19] = [
    ("data.js", include_str!("web/data.js")),
    ("words.js", include_str!("web/words.js")),
    ("network.js", include_str!("web/network.js")),
    ("grid.js", include_str!("web/grid.js")),
    ("reasons.js", include_str!("web/reasons.js")),
    ("whatif.js", include_str!("web/whatif.js")),
    ("view.js", include_str!("web/view.js")),
    ("picked.js", include_str!("web/picked.js")),
    ("marks.js", include_str!("web/marks.js")),
    ("painter.js", include_str!("web/painter.js")),
    ("hits.js", include_str!("web/hits.js")),
    ("moving.js", include_str!("web/moving.js")),
    ("elements.js", include_str!("web/elements.js")),
    ("legend.js", include_str!("web/legend.js")),
    ("details.js", include_str!("web/details.js")),
    ("crossing.js", include_str!("web/crossing.js")),
    ("overview.js", include_str!("web/overview.js")),
    ("search.js", include_str!("web/search.js")),
    ("main.js", include_str!("web/main.js")),
];

/// The page of data, which is JSON.
pub fn framed(data: &str) -> String {
    let mut page = HTML.to_owned();
    let scripts: String = SCRIPTS.iter().map(|(_, text)| element("script", text)).collect();
    for (mark, text) in [
        ("<!-- policy -->", policy()),
        ("<!-- style -->", element("style", STYLE)),
        ("<!-- scripts -->", scripts),
    ] {
        page = page.replacen(mark, &text, 1);
    }
    // The data comes last, so that nothing in it is taken for a mark.
    page.replacen("<!-- data -->", &safe(data), 1)
}

fn element(name: &str, text: &str) -> String {
    format!("<{name}>{text}</{name}>\n")
}

/// What the page may do: run its own scripts and take its own style, each by its checksum. Nothing is
/// fetched, no text becomes a script, and nothing is sent.
fn policy() -> String {
    let sources =
        |texts: &[&str]| texts.iter().map(|text| source(text)).collect::<Vec<_>>().join(" ");
    let scripts: Vec<&str> = SCRIPTS.iter().map(|(_, text)| *text).collect();
    format!(
        "<meta http-equiv=\"Content-Security-Policy\" content=\"default-src 'none'; script-src {}; \
         style-src {}; base-uri 'none'; form-action 'none'; require-trusted-types-for 'script'; \
         trusted-types 'none'\">",
        sources(&scripts),
        sources(&[STYLE])
    )
}

/// The checksum of an element's text as a policy names it.
fn source(text: &str) -> String {
    format!("'sha256-{}'", base64(&Sha256::digest(text.as_bytes())))
}

/// JSON that no browser takes for anything else, whatever its texts hold: marks of HTML, and the two
/// characters that are ends of lines in scripts alone, are written by their numbers. They stand in texts
/// only, since JSON has them nowhere else.
fn safe(json: &str) -> String {
    let mut out = String::with_capacity(json.len());
    for each in json.chars() {
        match each {
            '<' | '>' | '&' | '\u{2028}' | '\u{2029}' => {
                out.push_str(&format!("\\u{:04x}", each as u32));
            }
            each => out.push(each),
        }
    }
    out
}

#[cfg(test)]
mod tests {
    use super::{safe, source, HTML, SCRIPTS, STYLE};

    #[test]
    fn texts_are_never_marks() {
        let wild = "\"</script><!--<script>&\u{2028}\u{2029}é\"";
        let text = safe(wild);
        let wanted =
            "\"\\u003c/script\\u003e\\u003c!--\\u003cscript\\u003e\\u0026\\u2028\\u2029é\"";
        assert_eq!(text, wanted);
        let [back, same]: [String; 2] =
            [&text, wild].map(|text| serde_json::from_str(text).unwrap());
        assert_eq!(back, same);
    }

    #[test]
    fn checksums_as_a_policy_names_them() {
        let wanted = "'sha256-47DEQpj8HBSa+/TImW+5JCeuQeRkm5NMpJWZG3hSuFU='";
        assert_eq!(source(""), wanted);
    }

    /// What stands in the page's own sources can't end an element, and asks for nothing that the policy
    /// refuses or that comes from elsewhere.
    #[test]
    fn the_sources_hold_nothing_that_the_policy_refuses() {
        let refused = [
            "</script",
            "</style",
            "<!--",
            "eval(",
            "new Function",
            "innerHTML",
            "outerHTML",
            "insertAdjacentHTML",
            "document.write",
            "fetch(",
            "XMLHttpRequest",
            "import(",
            "src=",
            "https:",
            "@import",
            "url(",
        ];
        for (name, text) in SCRIPTS.iter().copied().chain([("style.css", STYLE)]) {
            for words in refused {
                assert!(!text.contains(words), "{name} has {words}");
            }
        }
        for mark in ["policy", "style", "scripts", "data"] {
            assert_eq!(HTML.matches(&format!("<!-- {mark} -->")).count(), 1, "{mark}");
        }
        // No attribute is a script or a style.
        let attributes = HTML.split_whitespace().filter(|word| word.contains("=\""));
        for attribute in attributes {
            let refused = attribute.starts_with("on") || attribute.starts_with("style=");
            assert!(!refused, "{attribute}");
        }
    }
}
