//! A plan read by recursive descent: the elements whose start tags are met, and the first place where no plan can go on.

use crate::fields::{begins_name, is_in_name, NAME_LENGTH_LIMIT};

/// An element that is met, as soon as its name is read.
#[derive(Clone, Copy, Debug, PartialEq, Eq)]
pub struct Element<'a> {
    pub name: &'a [u8],
    /// The place of the byte after the name, in the start tag or empty-element tag.
    pub after_name: usize,
    /// The element that it is a child of, by its number in the order of start tags; none for the outermost.
    pub parent: Option<usize>,
}

#[derive(Clone, Debug, PartialEq, Eq)]
pub struct Reading<'a> {
    /// In the order of their start tags.
    pub elements: Vec<Element<'a>>,
    /// The first byte, or the end, that no plan with the same bytes before it has there.
    pub impossible: Option<usize>,
}

/// Reads up to the first impossible place. The depth of the calls is that of the elements.
pub fn read(plan: &[u8]) -> Reading<'_> {
    let mut reader = Reader { plan, at: 0, elements: vec![] };
    let impossible = reader.whole_plan().err().map(|Impossible(at)| at);
    Reading { elements: reader.elements, impossible }
}

/// No plan goes on like this at the place.
struct Impossible(usize);

struct Reader<'a> {
    plan: &'a [u8],
    at: usize,
    elements: Vec<Element<'a>>,
}

impl<'a> Reader<'a> {
    /// White space, the outermost element, white space, and the end.
    fn whole_plan(&mut self) -> Result<(), Impossible> {
        self.skip(usize::MAX, is_white);
        self.take(|byte| byte == b'<')?;
        self.element(None)?;
        self.skip(usize::MAX, is_white);
        if self.at < self.plan.len() {
            return Err(Impossible(self.at));
        }
        Ok(())
    }

    /// An element, from behind its first `<`.
    fn element(&mut self, parent: Option<usize>) -> Result<(), Impossible> {
        let name = self.name()?;
        let number = self.elements.len();
        self.elements.push(Element { name, after_name: self.at, parent });
        self.skip(usize::MAX, is_white);
        if self.take(|byte| byte == b'/' || byte == b'>')? == b'>' {
            self.content(number)?;
            for &expected in name {
                self.take(|byte| byte == expected)?;
            }
            self.skip(usize::MAX, is_white);
        }
        self.take(|byte| byte == b'>')?;
        Ok(())
    }

    /// Text and elements, and the `</` that ends them.
    fn content(&mut self, parent: usize) -> Result<(), Impossible> {
        loop {
            self.skip(usize::MAX, |byte| byte != b'<' && byte != b'&');
            self.take(|byte| byte == b'<')?;
            if self.skip(1, |byte| byte == b'/') == 1 {
                return Ok(());
            }
            self.element(Some(parent))?;
        }
    }

    /// The longest name that stands here.
    fn name(&mut self) -> Result<&'a [u8], Impossible> {
        let start = self.at;
        self.take(begins_name)?;
        self.skip(NAME_LENGTH_LIMIT - 1, is_in_name);
        Ok(&self.plan[start..self.at])
    }

    /// Goes past one byte that must be of these.
    fn take(&mut self, allowed: impl Fn(u8) -> bool) -> Result<u8, Impossible> {
        match self.plan.get(self.at) {
            Some(&byte) if allowed(byte) => {
                self.at += 1;
                Ok(byte)
            }
            _ => Err(Impossible(self.at)),
        }
    }

    /// Goes past all bytes that are of these, up to so many. Gives their number.
    fn skip(&mut self, most: usize, allowed: impl Fn(u8) -> bool) -> usize {
        let count = self.plan[self.at..].iter().take(most).take_while(|&&byte| allowed(byte)).count();
        self.at += count;
        count
    }
}

pub fn is_white(byte: u8) -> bool {
    matches!(byte, b' ' | b'\t' | b'\r' | b'\n')
}
