//! Elements of HTML, and text inside them.

/// Text that may stand in HTML and inside quoted attributes.
pub fn escaped(text: &str) -> String {
    let mut out = String::with_capacity(text.len());
    for sign in text.chars() {
        match sign {
            '&' => out.push_str("&amp;"),
            '<' => out.push_str("&lt;"),
            '>' => out.push_str("&gt;"),
            '"' => out.push_str("&quot;"),
            '\'' => out.push_str("&#39;"),
            _ => out.push(sign),
        }
    }
    out
}

/// The beginning of an element, with its attributes; the values are text.
pub fn tag(name: &str, attributes: &[(&str, &str)]) -> String {
    let attribute = |(name, value): &(&str, &str)| format!(" {name}=\"{}\"", escaped(value));
    format!("<{name}{}>", attributes.iter().map(attribute).collect::<String>())
}

/// A whole element, around HTML.
pub fn element(name: &str, attributes: &[(&str, &str)], inner: &str) -> String {
    format!("{}{inner}</{name}>", tag(name, attributes))
}

/// An element that stands in lines of its own.
pub fn block(name: &str, attributes: &[(&str, &str)], inner: &str) -> String {
    format!("{}\n{inner}</{name}>\n", tag(name, attributes))
}

pub fn code(text: &str) -> String {
    element("code", &[], &escaped(text))
}

/// The number of a record, after what stands there.
pub fn record(number: usize) -> String {
    element("span", &[("class", "record")], &format!("record {number}"))
}

/// What may be wider than the page, and is then moved by itself; `by` is the id of its title.
pub fn scrolling(by: &str, inner: &str) -> String {
    block("div", &[("class", "scroll"), ("tabindex", "0"), ("role", "group"), ("aria-labelledby", by)], inner)
}

#[cfg(test)]
mod tests {
    use super::*;

    #[test]
    fn signs_are_escaped() {
        assert_eq!(escaped("a<b> & \"c\" 'd'"), "a&lt;b&gt; &amp; &quot;c&quot; &#39;d&#39;");
        assert_eq!(element("p", &[("title", "\"")], &code("<")), "<p title=\"&quot;\"><code>&lt;</code></p>");
    }
}
