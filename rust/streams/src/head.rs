//! A head as a status line and a list of field lines that can be edited before it is written out.

use crate::limits::before;

/// A field line: name, colon, blanks, value, blanks.
#[derive(Clone)]
pub struct Field {
    pub name: Vec<u8>,
    pub left: Vec<u8>,
    pub value: Vec<u8>,
    pub right: Vec<u8>,
}

impl Field {
    pub fn new(name: impl Into<Vec<u8>>, value: impl Into<Vec<u8>>) -> Self {
        Field { name: name.into(), left: b" ".to_vec(), value: value.into(), right: Vec::new() }
    }

    /// The line with its CR LF.
    pub fn line(&self) -> Vec<u8> {
        [&self.name[..], b":", &self.left, &self.value, &self.right, b"\r\n"].concat()
    }
}

#[derive(Clone)]
pub struct Head {
    /// Without its CR LF.
    pub status_line: Vec<u8>,
    pub fields: Vec<Field>,
}

impl Head {
    pub fn bytes(&self) -> Vec<u8> {
        let mut out = [&self.status_line[..], b"\r\n"].concat();
        for field in &self.fields {
            out.extend(field.line());
        }
        out.extend(b"\r\n");
        out
    }

    /// The number of the field of that name.
    pub fn index(&self, name: &str) -> usize {
        let found = self.fields.iter().position(|field| field.name.eq_ignore_ascii_case(name.as_bytes()));
        found.unwrap_or_else(|| panic!("the head has no field {name}"))
    }

    pub fn field(&mut self, name: &str) -> &mut Field {
        let index = self.index(name);
        &mut self.fields[index]
    }

    pub fn drop_field(&mut self, name: &str) {
        let index = self.index(name);
        self.fields.remove(index);
    }

    pub fn set(&mut self, name: &str, value: &[u8]) {
        self.field(name).value = value.to_vec();
    }

    /// Replaces a text in a value. It must be there, so that an edit never is an empty one.
    pub fn replace(&mut self, name: &str, old: &[u8], new: &[u8]) {
        let value = &mut self.field(name).value;
        *value = replaced(value, old, new);
    }
}

/// The bytes with the first `old` replaced by `new`. `old` must be there.
pub fn replaced(bytes: &[u8], old: &[u8], new: &[u8]) -> Vec<u8> {
    let start = bytes
        .windows(old.len())
        .position(|window| window == old)
        .unwrap_or_else(|| panic!("{:?} is not there", String::from_utf8_lossy(old)));
    [&bytes[..start], new, &bytes[start + old.len()..]].concat()
}

/// How many bytes a stream's head has without its end; all of them if there is none.
fn length_before_end(stream: &[u8]) -> usize {
    stream.windows(4).position(|four| four == b"\r\n\r\n").unwrap_or(stream.len())
}

/// How many bytes a stream's head has.
pub fn length(stream: &[u8]) -> usize {
    length_before_end(stream) + 4
}

/// What stands before the first colon of each line of a stream's head, the status line's the first.
pub fn line_names(stream: &[u8]) -> impl Iterator<Item = &[u8]> {
    let head = &stream[..length_before_end(stream)];
    head.split(|&byte| byte == b'\n').map(|line| line.split(|&byte| byte == b':').next().unwrap_or(line))
}

/// Whether a stream's head has more bytes or fields than paper 01 allowed before request #108.
pub fn is_longer(stream: &[u8]) -> bool {
    length(stream) > before::SECTION || line_names(stream).skip(1).count() > before::FIELDS
}
