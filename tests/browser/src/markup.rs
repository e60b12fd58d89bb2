//! A small checker of XML: one root, elements closed in order, attributes quoted and each once, no stray signs.

/// An element's name and attributes, as its tag gives them.
#[derive(Clone, Debug, PartialEq, Eq)]
pub struct Tag {
    pub name: String,
    pub attributes: Vec<(String, String)>,
    /// The tags that it stands in, the outermost first, by their places in the list.
    pub inside: Vec<usize>,
}

impl Tag {
    pub fn attribute(&self, name: &str) -> Option<&str> {
        self.attributes.iter().find(|(known, _)| known == name).map(|(_, value)| value.as_str())
    }

    /// Whether it has this class.
    pub fn is(&self, class: &str) -> bool {
        self.attribute("class").is_some_and(|classes| classes.split(' ').any(|one| one == class))
    }
}

/// All elements of a document, in the order of their tags, or what is wrong with it.
pub fn elements(document: &str) -> Result<Vec<Tag>, String> {
    let mut tags: Vec<Tag> = Vec::new();
    let mut open: Vec<usize> = Vec::new();
    let mut rest = document;
    while let Some((text, after)) = rest.split_once('<') {
        plain(text, !open.is_empty())?;
        let (inner, behind) = after.split_once('>').ok_or("a tag does not end")?;
        rest = behind;
        if let Some(name) = inner.strip_prefix('/') {
            let closed = open.pop().ok_or("a tag closes nothing")?;
            if tags[closed].name != name {
                return Err(format!("</{name}> closes <{}>", tags[closed].name));
            }
            continue;
        }
        if open.is_empty() && !tags.is_empty() {
            return Err("there is a second root".to_string());
        }
        let tag = tag(inner.strip_suffix('/').unwrap_or(inner), open.clone())?;
        if !inner.ends_with('/') {
            open.push(tags.len());
        }
        tags.push(tag);
    }
    plain(rest, false)?;
    if open.is_empty() && !tags.is_empty() {
        Ok(tags)
    } else {
        Err("an element is not closed".to_string())
    }
}

/// Text between tags or in a value: no '<' or '>', no '&' that names no sign; outside the root only white space.
fn plain(text: &str, inside: bool) -> Result<(), String> {
    if text.contains(['<', '>']) || !(inside || text.trim().is_empty()) {
        return Err(format!("stray text '{}'", text.trim()));
    }
    let named =
        |after: &str| ["amp;", "lt;", "gt;", "quot;", "#39;"].iter().any(|sign| after.starts_with(sign));
    match text.split('&').skip(1).find(|after| !named(after)) {
        Some(after) => Err(format!("stray '&{}'", after.chars().take(8).collect::<String>())),
        None => Ok(()),
    }
}

fn tag(inner: &str, inside: Vec<usize>) -> Result<Tag, String> {
    let (name, mut rest) = inner.split_once(char::is_whitespace).unwrap_or((inner, ""));
    named(name)?;
    let mut attributes: Vec<(String, String)> = Vec::new();
    while !rest.trim_start().is_empty() {
        let (key, after) = rest.trim_start().split_once("=\"").ok_or(format!("no value in <{name}>"))?;
        let (value, behind) = after.split_once('"').ok_or(format!("no end of a value in <{name}>"))?;
        named(key)?;
        plain(value, true)?;
        if attributes.iter().any(|(known, _)| known == key) || !(behind.is_empty() || behind.starts_with(' '))
        {
            return Err(format!("{key} in <{name}>"));
        }
        attributes.push((key.to_string(), value.to_string()));
        rest = behind;
    }
    Ok(Tag { name: name.to_string(), attributes, inside })
}

fn named(name: &str) -> Result<(), String> {
    let letters = |sign: char| sign.is_ascii_alphanumeric() || "-:_".contains(sign);
    let sound = name.starts_with(|first: char| first.is_ascii_alphabetic()) && name.chars().all(letters);
    if sound {
        Ok(())
    } else {
        Err(format!("'{name}' is no name"))
    }
}

#[cfg(test)]
mod tests {
    use super::*;

    #[test]
    fn sound_documents() {
        let tags = elements("<a x=\"1\" y-z=\"&lt;\">b<c/><d e=\"f\"/></a>\n").expect("it is sound");
        assert_eq!(tags.len(), 3);
        assert_eq!((tags[0].attribute("y-z"), tags[2].attribute("e")), (Some("&lt;"), Some("f")));
        assert_eq!(tags[1].inside, [0]);
    }

    #[test]
    fn other_documents_are_refused() {
        for document in [
            "",
            "a",
            "<a>",
            "</a>",
            "<a></b>",
            "<a/><b/>",
            "<a x></a>",
            "<a x=1/>",
            "<a x=\"1\" x=\"2\"/>",
            "<a>&</a>",
        ] {
            assert!(elements(document).is_err(), "{document}");
        }
        for document in
            ["<a><b></a></b>", "<a x=\"1\"y=\"2\"/>", "<a x=\"<\"/>", "<a>></a>", "<1/>", "<a/>b", "b<a/>"]
        {
            assert!(elements(document).is_err(), "{document}");
        }
    }
}
