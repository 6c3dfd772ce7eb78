//! What an SVG picture of the command map holds: its elements by their attributes.

/// An element of a picture: its name, the text of its attributes, and the text behind its tag.
pub struct Element<'a> {
    /// The element's name.
    pub name: &'a str,
    attributes: &'a str,
    /// The text up to the next tag.
    pub text: &'a str,
}

impl<'a> Element<'a> {
    /// An attribute's value.
    pub fn get(&self, name: &str) -> Option<&'a str> {
        let start = self.attributes.find(&format!(" {name}=\""))? + name.len() + 3;
        self.attributes[start..].split('"').next()
    }

    /// An attribute's value as a whole number.
    pub fn number(&self, name: &str) -> Option<i64> {
        self.get(name)?.parse().ok()
    }

    /// The numbers behind a word of the transformation, as `translate(1 2)`.
    pub fn transformed(&self, word: &str) -> Option<[f64; 2]> {
        let behind = self.get("transform")?.split(&format!("{word}(")).nth(1)?;
        let (first, second) = behind.split(')').next()?.split_once(' ')?;
        Some([first.parse().ok()?, second.parse().ok()?])
    }
}

/// The elements of a picture in order.
pub fn elements(svg: &str) -> Vec<Element<'_>> {
    svg.split('<')
        .skip(1)
        .filter(|part| !part.starts_with('/'))
        .filter_map(|part| {
            let (tag, text) = part.split_once('>')?;
            let end = tag.find(' ').unwrap_or(tag.len());
            Some(Element { name: tag[..end].trim_end_matches('/'), attributes: &tag[end..], text })
        })
        .collect()
}

/// The places of a path of rectangles one place high, `M3 4h5v1h-5z`, as column, row and length.
pub fn rectangles(path: &str) -> Option<Vec<[usize; 3]>> {
    let rectangle = |part: &str| {
        let (start, rest) = part.split_once('h')?;
        let (column, row) = start.split_once(' ')?;
        let (length, back) = rest.split_once("v1h-")?;
        let same = back.strip_suffix('z')? == length;
        same.then_some([column.parse().ok()?, row.parse().ok()?, length.parse().ok()?])
    };
    path.split('M').skip(1).map(rectangle).collect()
}
