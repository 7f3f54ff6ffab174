//! A field of the head as it is given on the command line.

use crate::ends::{DIGEST, SIG1, SIZE};
use second::head::may_repeat;
use second::text::{is_name_byte, is_value_byte, trim};
use streams::head::Field;

/// The field of a word `Name: value`. Blanks around the value are not part of it. If it is none, the error says why.
pub fn parse(word: &str) -> Result<Field, String> {
    let fault = |what: String| format!("--header: {what}");
    let (name, rest) =
        word.split_once(':').ok_or_else(|| fault(format!("{word:?} has no colon; write 'Name: value'")))?;
    check_name(name).map_err(fault)?;
    let value = &rest[trim(rest.as_bytes())];
    check_value(&format!("--header {name}"), value)?;
    Ok(Field::new(name, value))
}

/// Whether this is a name, and none of a field that the stream has of itself.
fn check_name(name: &str) -> Result<(), String> {
    if name.is_empty() {
        return Err("a field needs a name before its colon".to_string());
    }
    if let Some(place) = name.bytes().position(|byte| !is_name_byte(byte)) {
        let byte = name.as_bytes()[place].escape_ascii();
        return Err(format!("'{byte}' at offset {place} may not stand in a field's name"));
    }
    if name.eq_ignore_ascii_case("Content-Type") {
        return Err(format!("{name} is set by --type"));
    }
    if [DIGEST, SIZE, SIG1].iter().any(|own| name.eq_ignore_ascii_case(own)) {
        return Err(format!("{name} is about the show's end and is set by --ends"));
    }
    if !may_repeat(name.as_bytes()) {
        return Err(format!("{name} belongs to the format of signed streams and cannot be given"));
    }
    Ok(())
}

/// Whether a text may stand in a field; if not, the error says where it goes wrong.
pub fn check_value(name: &str, value: &str) -> Result<(), String> {
    if let Some(place) = value.bytes().position(|byte| !is_value_byte(byte)) {
        let byte = value.as_bytes()[place].escape_ascii();
        return Err(format!("{name}: {byte} at offset {place} may not stand in a field's value"));
    }
    if trim(value.as_bytes()) != (0..value.len()) {
        return Err(format!("{name}: a field's value has no blanks at its ends"));
    }
    Ok(())
}
