//! Books as rows of name numbers, and their bytes.

pub const NAME_LIMIT: usize = 64;
pub const BOOK_ROWS: usize = 256;
pub const ROW_LIMIT: usize = 40;
pub const STATE_LIMIT: usize = 512;

#[derive(Clone, Copy, Debug, PartialEq, Eq)]
pub enum Class {
    Context(u8, u8),
    SeenSet,
    Last(u8),
}

/// The classes that are timed.
pub const CLASSES: [Class; 13] = [
    Class::Context(1, 1),
    Class::Context(2, 1),
    Class::Context(2, 2),
    Class::Context(3, 1),
    Class::Context(4, 2),
    Class::Context(8, 1),
    Class::Context(8, 4),
    Class::Context(8, 8),
    Class::SeenSet,
    Class::Last(0),
    Class::Last(1),
    Class::Last(2),
    Class::Last(8),
];

impl Class {
    pub fn settings(self) -> [u8; 3] {
        match self {
            Class::Context(k, h) => [0, k, h],
            Class::SeenSet => [1, 0, 0],
            Class::Last(j) => [2, j, 0],
        }
    }

    fn of_settings(settings: &[u8]) -> Class {
        match settings[0] {
            0 => Class::Context(settings[1], settings[2]),
            1 => Class::SeenSet,
            _ => Class::Last(settings[1]),
        }
    }

    pub fn label(self) -> String {
        match self {
            Class::Context(k, h) => format!("({k},{h})"),
            Class::SeenSet => "seen set".to_string(),
            Class::Last(j) => format!("last {j}"),
        }
    }

    /// The label as part of a file's name.
    pub fn file_label(self) -> String {
        match self {
            Class::Context(k, h) => format!("context-{k}-{h}"),
            Class::SeenSet => "seen-set".to_string(),
            Class::Last(j) => format!("last-{j}"),
        }
    }
}

#[derive(Clone)]
pub struct Book {
    pub names: Vec<Vec<u8>>,
    pub class: Class,
    pub rows: Vec<Vec<u8>>,
}

/// The first `count` of 64 names of two letters, in ascending order.
pub fn short_names(count: usize) -> Vec<Vec<u8>> {
    (0..count as u8).map(|i| vec![b'a' + i / 8, b'a' + i % 8]).collect()
}

pub fn put_field(bytes: &mut Vec<u8>, mark: u8, body: &[u8]) {
    bytes.push(mark);
    bytes.extend_from_slice(&(body.len() as u16).to_be_bytes());
    bytes.extend_from_slice(body);
}

pub fn put_names(bytes: &mut Vec<u8>, names: &[Vec<u8>]) {
    names.iter().for_each(|name| put_field(bytes, 1, name));
}

pub fn put_rows(bytes: &mut Vec<u8>, rows: &[Vec<u8>]) {
    rows.iter().for_each(|row| put_field(bytes, 3, row));
}

/// The fields of bytes that consist of whole ones: of each its mark and its body.
pub fn fields(bytes: &[u8]) -> impl Iterator<Item = (u8, &[u8])> {
    let mut rest = bytes;
    std::iter::from_fn(move || {
        let [mark, high, low, after @ ..] = rest else {
            return None;
        };
        let (body, next) = after.split_at(usize::from(*high) * 256 + usize::from(*low));
        rest = next;
        Some((*mark, body))
    })
}

impl Book {
    pub fn bytes(&self) -> Vec<u8> {
        let mut bytes = Vec::new();
        put_names(&mut bytes, &self.names);
        put_field(&mut bytes, 2, &self.class.settings());
        put_rows(&mut bytes, &self.rows);
        bytes
    }

    /// The book of these bytes, which `bytes` wrote.
    pub fn read(bytes: &[u8]) -> Book {
        let mut book = Book { names: Vec::new(), class: Class::Context(2, 1), rows: Vec::new() };
        for (mark, body) in fields(bytes) {
            match mark {
                1 => book.names.push(body.to_vec()),
                2 => book.class = Class::of_settings(body),
                _ => book.rows.push(body.to_vec()),
            }
        }
        book
    }

    pub fn with_class(&self, class: Class) -> Book {
        Book { class, ..self.clone() }
    }
}
