//! A reader for as much of SVG as the page of K4 needs: elements, attributes, text. What it does not know it
//! refuses, so that nothing on a page goes unread.

/// An element with what is in it. Text is kept of `text`, `style`, `title` and `desc` alone.
#[derive(Debug, Default)]
pub struct Node {
    pub name: String,
    attributes: Vec<(String, String)>,
    pub nodes: Vec<Node>,
    pub text: String,
}

/// What is known, and how it is drawn; `svg` stands outermost alone.
const GROUPS: [&str; 2] = ["svg", "g"];
const TEXTS: [&str; 4] = ["text", "style", "title", "desc"];
const SHAPES: [&str; 6] = ["rect", "line", "path", "polyline", "polygon", "circle"];
#[rustfmt::skip]
const ATTRIBUTES: [&str; 45] = [
    "xmlns", "version", "width", "height", "viewBox", "preserveAspectRatio", "class", "id", "style", "type",
    "transform", "x", "y", "x1", "y1", "x2", "y2", "rx", "ry", "cx", "cy", "r", "d", "points",
    "fill", "stroke", "stroke-width", "stroke-dasharray", "stroke-linecap", "stroke-linejoin",
    "font-family", "font-size", "font-weight", "font-style", "text-anchor", "dominant-baseline",
    "shape-rendering", "text-rendering", "letter-spacing",
    "xml:space", "xml:lang", "lang", "role", "aria-label", "aria-labelledby",
];
/// What hides a thing, moves it, or fetches one from elsewhere.
const REFUSED: [&str; 8] =
    ["display", "visibility", "opacity", "transform", "clip", "mask", "url(", "@import"];
const DEEPEST: usize = 12;

impl Node {
    pub fn get(&self, name: &str) -> Option<&str> {
        self.attributes.iter().find(|a| a.0 == name).map(|a| &a.1[..])
    }

    pub fn has_class(&self, class: &str) -> bool {
        self.get("class").is_some_and(|all| all.split_whitespace().any(|c| c == class))
    }

    /// A length without a unit; 0 if it is not there.
    pub fn number(&self, name: &str) -> Result<f64, String> {
        let Some(text) = self.get(name) else { return Ok(0.0) };
        number(text).ok_or_else(|| format!("{name}='{text}' of <{}> is not understood", self.name))
    }

    /// The text with its white space as it is drawn.
    pub fn words(&self) -> String {
        self.text.split_whitespace().collect::<Vec<_>>().join(" ")
    }

    pub fn is_shape(&self) -> bool {
        SHAPES.contains(&&self.name[..])
    }
}

pub fn number(text: &str) -> Option<f64> {
    let plain = text.bytes().all(|b| b.is_ascii_digit() || b"+-.".contains(&b));
    text.parse().ok().filter(|n: &f64| plain && n.is_finite())
}

/// The numbers of a list: between two of them white space, a comma or both.
pub fn numbers(list: &str) -> Option<Vec<f64>> {
    let fields = list.split(',').map(|field| field.split_whitespace().collect::<Vec<_>>());
    let fields: Vec<Vec<&str>> = fields.collect();
    if fields.iter().any(Vec::is_empty) {
        return None;
    }
    fields.concat().into_iter().map(number).collect()
}

/// Reads a page: its outermost element.
pub fn read(page: &str) -> Result<Node, String> {
    let mut reader = Reader { page, at: 0 };
    let node = reader.whole();
    node.map_err(|reason| {
        let line = 1 + page.bytes().take(reader.at).filter(|&b| b == b'\n').count();
        format!("line {line} of the page: {reason}")
    })
}

struct Reader<'a> {
    page: &'a str,
    at: usize,
}

impl<'a> Reader<'a> {
    fn rest(&self) -> &'a str {
        &self.page[self.at..]
    }

    fn takes(&mut self, text: &str) -> bool {
        let there = self.rest().starts_with(text);
        if there {
            self.at += text.len();
        }
        there
    }

    fn takes_space(&mut self) -> bool {
        let before = self.at;
        self.at += self.rest().len() - self.rest().trim_start_matches([' ', '\t', '\r', '\n']).len();
        self.at > before
    }

    /// All up to `end`, which is taken too.
    fn until(&mut self, end: &str) -> Result<&'a str, String> {
        let rest = self.rest();
        let length = rest.find(end).ok_or_else(|| format!("{end} does not come"))?;
        self.at += length + end.len();
        Ok(&rest[..length])
    }

    fn name(&mut self) -> Result<&'a str, String> {
        let rest = self.rest();
        let end =
            rest.find(|c: char| !(c.is_ascii_alphanumeric() || "-_:".contains(c))).unwrap_or(rest.len());
        self.at += end;
        if end == 0 {
            return Err("a name does not come".into());
        }
        Ok(&rest[..end])
    }

    fn whole(&mut self) -> Result<Node, String> {
        if self.takes("<?xml ") {
            self.until("?>")?;
        }
        self.between()?;
        let node = self.element(0)?;
        self.between()?;
        match self.rest() {
            "" if node.name == "svg" => Ok(node),
            "" => Err(format!("<{}> stands outermost, not <svg>", node.name)),
            _ => Err("something stands behind the outermost element".into()),
        }
    }

    /// White space and comments outside the outermost element.
    fn between(&mut self) -> Result<(), String> {
        while self.takes_space() || self.comment()? {}
        Ok(())
    }

    fn comment(&mut self) -> Result<bool, String> {
        let there = self.takes("<!--");
        if there {
            self.until("-->")?;
        }
        Ok(there)
    }

    fn element(&mut self, depth: usize) -> Result<Node, String> {
        if !self.takes("<") {
            return Err("an element does not come".into());
        }
        let name = self.name()?;
        let mut node = Node { name: name.into(), ..Node::default() };
        let group = GROUPS.contains(&name);
        if !(group || TEXTS.contains(&name) || node.is_shape()) || (name == "svg") != (depth == 0) {
            return Err(format!("<{name}> is not understood here"));
        }
        if depth > DEEPEST {
            return Err("elements stand too deep in each other".into());
        }
        if !self.attributes(&mut node)? {
            return Ok(node);
        }
        loop {
            let rest = self.rest();
            if self.takes("</") {
                if self.name()? != name {
                    return Err(format!("<{name}> is not closed"));
                }
                self.takes_space();
                break match self.takes(">") {
                    true => Ok(()),
                    false => Err(format!("</{name} is not closed")),
                };
            } else if self.comment()? {
            } else if self.takes("<![CDATA[") {
                node.text.push_str(self.until("]]>")?);
            } else if rest.starts_with('<') {
                let inner = self.element(depth + 1)?;
                if !group && inner.name != "title" {
                    return Err(format!("<{}> in <{name}> is not understood", inner.name));
                }
                node.nodes.push(inner);
            } else {
                let length = rest.find('<').ok_or_else(|| format!("<{name}> is not closed"))?;
                node.text.push_str(&plain(&rest[..length])?);
                self.at += length;
            }
        }?;
        if !TEXTS.contains(&name) && !node.words().is_empty() {
            return Err(format!("text in <{name}> is not drawn: {}", node.words()));
        }
        if name == "style" {
            allowed(&node.text)?;
        }
        Ok(node)
    }

    /// The attributes, up to the `>`; whether something is in the element.
    fn attributes(&mut self, node: &mut Node) -> Result<bool, String> {
        loop {
            let space = self.takes_space();
            if self.takes("/>") {
                return Ok(false);
            }
            if self.takes(">") {
                return Ok(true);
            }
            let name = self.name()?;
            self.takes_space();
            let equals = self.takes("=");
            self.takes_space();
            let quote = ["'", "\""].into_iter().find(|quote| self.takes(quote));
            let (true, true, Some(quote)) = (space, equals, quote) else {
                return Err(format!("the attribute {name} is not understood"));
            };
            let value = plain(self.until(quote)?)?;
            if !ATTRIBUTES.contains(&name) || node.get(name).is_some() || value.contains('<') {
                return Err(format!("the attribute {name} of <{}> is not understood", node.name));
            }
            if name != "transform" {
                allowed(&value)?;
            }
            node.attributes.push((name.into(), value));
        }
    }
}

fn allowed(style: &str) -> Result<(), String> {
    let lower = style.to_lowercase();
    match REFUSED.iter().find(|word| lower.contains(**word)) {
        Some(word) => Err(format!("{word} is not understood")),
        None => Ok(()),
    }
}

/// Text with its references to characters as characters.
fn plain(text: &str) -> Result<String, String> {
    let mut parts = text.split('&');
    let mut out: String = parts.next().unwrap_or_default().into();
    for part in parts {
        let (name, rest) = part.split_once(';').unwrap_or((part, ""));
        let code = match name.strip_prefix('#') {
            Some(code) => match code.strip_prefix('x') {
                Some(hex) => u32::from_str_radix(hex, 16).ok().and_then(char::from_u32),
                None => code.parse().ok().and_then(char::from_u32),
            },
            None => [("lt", '<'), ("gt", '>'), ("amp", '&'), ("quot", '"'), ("apos", '\'')]
                .into_iter()
                .find(|known| known.0 == name)
                .map(|known| known.1),
        };
        out.push(code.ok_or_else(|| format!("&{name} is not understood"))?);
        out.push_str(rest);
    }
    Ok(out)
}
