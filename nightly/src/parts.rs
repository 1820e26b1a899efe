//! Parts of an input that look whole: an element with its closing tag, or a pair of braces. A guess for the shrinker, not a
//! reading: it counts brackets and knows no strings and no comments.

/// A part, and what stands inside its tags or braces.
#[derive(Clone, Copy, PartialEq, Eq, Debug)]
pub struct Part {
    pub start: usize,
    pub inside_start: usize,
    pub inside_end: usize,
    pub end: usize,
}

/// What is open: a brace, or an opening tag that ends at `end`.
enum Open {
    Brace(usize),
    Tag { start: usize, end: usize },
}

pub fn parts(bytes: &[u8]) -> Vec<Part> {
    let mut found = Vec::new();
    let mut open = Vec::new();
    let mut tag_starts = Vec::new();
    for (at, byte) in bytes.iter().enumerate() {
        match byte {
            b'<' => tag_starts.push(at),
            b'{' => open.push(Open::Brace(at)),
            b'}' => found.extend(closed_brace(&mut open, at)),
            b'>' => {
                let start = tag_starts.pop();
                found.extend(start.and_then(|start| tag(bytes, &mut open, start, at + 1)));
            }
            _ => {}
        }
    }
    found
}

/// Tags that were never closed lie above the brace.
fn closed_brace(open: &mut Vec<Open>, at: usize) -> Option<Part> {
    while let Some(last) = open.pop() {
        if let Open::Brace(start) = last {
            return Some(Part {
                start,
                inside_start: start + 1,
                inside_end: at,
                end: at + 1,
            });
        }
    }
    None
}

/// A tag ends: a closing one ends a part, a self-closed one is a part, an opening one is kept.
fn tag(bytes: &[u8], open: &mut Vec<Open>, start: usize, end: usize) -> Option<Part> {
    if bytes[start..].starts_with(b"</") {
        let Some(Open::Tag {
            start: first,
            end: inside,
        }) = open.pop()
        else {
            return None;
        };
        return Some(Part {
            start: first,
            inside_start: inside,
            inside_end: start,
            end,
        });
    }
    if bytes[start..end].ends_with(b"/>") {
        return Some(Part {
            start,
            inside_start: start + 1,
            inside_end: end - 2,
            end,
        });
    }
    open.push(Open::Tag { start, end });
    None
}

#[cfg(test)]
mod tests {
    use super::*;

    #[test]
    fn elements_and_braces() {
        let text = b"<a b={c}><d/>{e}</a>";
        let found: Vec<&[u8]> = parts(text)
            .iter()
            .map(|part| &text[part.start..part.end])
            .collect();
        assert_eq!(found, [&b"{c}"[..], b"<d/>", b"{e}", &text[..]]);
        let whole = parts(text)[3];
        assert_eq!(&text[whole.inside_start..whole.inside_end], b"<d/>{e}");
    }

    #[test]
    fn broken_inputs_have_parts_too() {
        assert_eq!(parts(b"}></a>{<").len(), 0);
        assert_eq!(parts(b"<a>{<b></a>}").len(), 2);
    }
}
