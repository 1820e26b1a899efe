//! Classes of differences of public parsers that docs/DIFFERENCES.md tells: only other ones are news.

/// A line of the file: parser, class, row of docs/DIFFERENCES.md, with `|` between.
pub struct Known {
    classes: Vec<(String, String)>,
}

impl Known {
    pub fn of(text: &str) -> Result<Known, String> {
        let mut classes = Vec::new();
        for line in text.lines() {
            let line = line.trim();
            if line.is_empty() || line.starts_with('#') {
                continue;
            }
            let fields: Vec<&str> = line.split('|').map(str::trim).collect();
            let [parser, class, _row] = fields[..] else {
                return Err(format!("not `parser | class | row`: {line}"));
            };
            classes.push((parser.to_string(), class.to_string()));
        }
        Ok(Known { classes })
    }

    pub fn has(&self, parser: &str, class: &str) -> bool {
        self.classes
            .iter()
            .any(|(name, words)| name == parser && words == class)
    }
}

#[cfg(test)]
mod tests {
    use super::*;

    #[test]
    fn lines_and_remarks() {
        let known = Known::of("# remark\n\nbabel | it accepts | a row\n").unwrap();
        assert!(known.has("babel", "it accepts"));
        assert!(!known.has("acorn-jsx", "it accepts"));
        assert!(!known.has("babel", "it refuses"));
        assert!(Known::of("babel | it accepts").is_err());
    }
}
