//! A planted fault as an edit of the plain engine's text: a comment that says what is wrong,
//! then `file:` and pairs of `old:` and `new:`. Lines in a row with one mark are one text.

/// What is wrong, and the texts to replace.
#[derive(Debug, PartialEq)]
pub struct Edit {
    pub what: String,
    pub changes: Vec<Change>,
}

/// One text of a file, and what takes its place.
#[derive(Debug, PartialEq)]
pub struct Change {
    pub file: String,
    pub old: String,
    pub new: String,
}

/// Reads an edit.
pub fn parse(text: &str) -> Result<Edit, String> {
    let mut lines = text.lines();
    let what = lines.next().and_then(|line| line.strip_prefix("# "));
    let what = what.ok_or("the first line is no comment that says what is wrong")?;
    let mut texts = texts(lines)?.into_iter();
    let mut file = String::new();
    let mut changes = Vec::new();
    while let Some((mark, text)) = texts.next() {
        if mark == "file" {
            file = text;
            continue;
        }
        let change = match (mark, texts.next()) {
            ("old", Some(("new", new))) if new != text => Change {
                file: file.clone(),
                old: text,
                new,
            },
            _ => return Err(format!("no pair of an old text and a new one: {text}")),
        };
        changes.push(change);
    }
    Ok(Edit {
        what: what.into(),
        changes,
    })
}

/// The marks and their texts in turn.
fn texts<'a>(lines: impl Iterator<Item = &'a str>) -> Result<Vec<(&'a str, String)>, String> {
    let mut texts: Vec<(&str, String)> = Vec::new();
    for line in lines {
        let (mark, rest) = line.split_once(':').unwrap_or((line, ""));
        if !["file", "old", "new"].contains(&mark) {
            return Err(format!("neither file: nor old: nor new: {line}"));
        }
        let rest = rest.strip_prefix(' ').unwrap_or(rest);
        match texts.last_mut() {
            Some((last, text)) if *last == mark => *text = format!("{text}\n{rest}"),
            _ => texts.push((mark, rest.into())),
        }
    }
    Ok(texts)
}

/// Replaces the old text, which must stand in the source exactly once.
pub fn replace(source: &str, change: &Change) -> Result<String, String> {
    match source.matches(&change.old).count() {
        1 if !change.old.is_empty() => Ok(source.replacen(&change.old, &change.new, 1)),
        count => Err(format!(
            "its old text stands {count} times in {}, not once: {}",
            change.file, change.old
        )),
    }
}

#[cfg(test)]
mod tests {
    use super::{parse, replace, Change};

    const EDIT: &str = "# two wrong\nfile: a.rs\nold: one\nnew: two\nold: x;\nold:     y;\nnew:";

    fn change(old: &str, new: &str) -> Change {
        Change {
            file: "a.rs".into(),
            old: old.into(),
            new: new.into(),
        }
    }

    #[test]
    fn pairs_and_texts_of_several_lines() {
        let edit = parse(EDIT).unwrap();
        assert_eq!(edit.what, "two wrong");
        assert_eq!(
            edit.changes,
            [change("one", "two"), change("x;\n    y;", "")]
        );
    }

    #[test]
    fn what_is_no_edit() {
        for text in [
            "file: a.rs\nold: one\nnew: two",
            "# w\nfile: a.rs\nold: one",
            "# w\nfile: a.rs\nnew: one",
            "# w\nfile: a.rs\nold: one\nnew: one",
            "# w\nfile: a.rs\nold: one\nnew: two\nnow: three",
        ] {
            assert!(parse(text).is_err(), "{text}");
        }
    }

    #[test]
    fn the_old_text_stands_once() {
        assert_eq!(replace("a b c", &change("b", "x")), Ok("a x c".into()));
        for source in ["a c", "a b b c"] {
            assert!(replace(source, &change("b", "x")).is_err());
        }
        assert!(replace("a", &change("", "x")).is_err());
    }
}
