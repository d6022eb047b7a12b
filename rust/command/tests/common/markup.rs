//! Whether an SVG or HTML text is well-formed: one element with all others inside it, tags in pairs, attributes quoted,
//! marks escaped. It takes what this repository writes: no comments, and no text that is not escaped.

/// The elements that an HTML page leaves open.
const VOID: [&str; 4] = ["br", "col", "hr", "meta"];

/// What may stand between `&` and `;`.
const ESCAPES: [&str; 5] = ["amp", "lt", "gt", "quot", "#39"];

/// Refuses a text that is not well-formed, and says where.
pub fn well_formed(text: &str) -> Result<(), String> {
    let html = text.strip_prefix("<!DOCTYPE html>");
    let mut rest = html.unwrap_or(text).trim();
    let mut open: Vec<&str> = Vec::new();
    if !rest.starts_with('<') {
        return Err(format!("no element at {:?}", beginning(rest)));
    }
    while let Some(tagged) = rest.strip_prefix('<') {
        let (tag, after) = tagged
            .split_once('>')
            .ok_or_else(|| format!("an open tag at {:?}", beginning(rest)))?;
        follow(tag, html.is_some(), &mut open)?;
        let next = after.find('<').unwrap_or(after.len());
        escaped(&after[..next])?;
        rest = &after[next..];
        if open.is_empty() && !after.is_empty() {
            return Err(format!("more than one element at {:?}", beginning(after)));
        }
    }
    match open.last() {
        Some(name) => Err(format!("{name} is not closed")),
        None => Ok(()),
    }
}

/// Opens or closes the element of a tag, given without its angle brackets.
fn follow<'a>(tag: &'a str, html: bool, open: &mut Vec<&'a str>) -> Result<(), String> {
    if let Some(name) = tag.strip_prefix('/') {
        return match open.pop() {
            Some(opened) if opened == name => Ok(()),
            opened => Err(format!("{name} closes {opened:?}")),
        };
    }
    let whole = tag.strip_suffix('/');
    let (name, attributes) = split_name(whole.unwrap_or(tag))?;
    well_formed_attributes(attributes)?;
    if whole.is_none() && !(html && VOID.contains(&name)) {
        open.push(name);
    }
    Ok(())
}

/// Attributes, each after a space: a name, an equals sign and a value in double quotes.
fn well_formed_attributes(mut rest: &str) -> Result<(), String> {
    let mut names = Vec::new();
    while !rest.is_empty() {
        let failure = || format!("no attribute at {:?}", beginning(rest));
        let (name, after) = split_name(rest.strip_prefix([' ', '\n']).ok_or_else(failure)?)?;
        let value = after.strip_prefix("=\"").ok_or_else(failure)?;
        let (value, after) = value.split_once('"').ok_or_else(failure)?;
        escaped(value)?;
        if names.contains(&name) {
            return Err(format!("{name} is given twice"));
        }
        names.push(name);
        rest = after;
    }
    Ok(())
}

/// The name that a text begins with, and what follows.
fn split_name(text: &str) -> Result<(&str, &str), String> {
    let in_name = |letter: char| letter.is_ascii_alphanumeric() || letter == '-' || letter == ':';
    let end = text.find(|letter| !in_name(letter)).unwrap_or(text.len());
    match text.starts_with(|letter: char| letter.is_ascii_alphabetic()) {
        true => Ok(text.split_at(end)),
        false => Err(format!("no name at {:?}", beginning(text))),
    }
}

/// Refuses a text with a mark that is not escaped or a character that XML forbids.
fn escaped(text: &str) -> Result<(), String> {
    let forbidden = |letter: char| match letter {
        '\t' | '\n' => false,
        '<' | '>' | '\u{fffe}' | '\u{ffff}' => true,
        _ => letter.is_control(),
    };
    let known = |part: &str| {
        let name = part.split_once(';').map(|(name, _)| name);
        name.is_some_and(|name| ESCAPES.contains(&name))
    };
    match text.split('&').skip(1).all(known) && !text.contains(forbidden) {
        true => Ok(()),
        false => Err(format!("not escaped: {text:?}")),
    }
}

/// As much of a text as a message shows.
fn beginning(text: &str) -> String {
    text.chars().take(40).collect()
}
