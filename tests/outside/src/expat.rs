//! Expat, a parser of XML in C: whether it accepts a document, and the tags it met.

use std::ffi::{c_char, c_int, c_void, CStr};

/// A tag that expat tells of; it tells of an empty element as of a start and an end.
#[derive(Clone, Debug, PartialEq, Eq)]
pub enum Tag {
    Start(Vec<u8>),
    End,
}

type Parser = *mut c_void;
pub type StartHandler = unsafe extern "C" fn(*mut c_void, *const c_char, *const *const c_char);
pub type EndHandler = unsafe extern "C" fn(*mut c_void, *const c_char);

extern "C" {
    fn XML_ParserCreate(encoding: *const c_char) -> Parser;
    fn XML_SetUserData(parser: Parser, data: *mut c_void);
    fn XML_SetElementHandler(parser: Parser, start: StartHandler, end: EndHandler);
    fn XML_Parse(parser: Parser, bytes: *const c_char, length: c_int, is_last: c_int) -> c_int;
    fn XML_ParserFree(parser: Parser);
}

/// `data` is the vector of tags that `tags` handed to expat.
unsafe extern "C" fn on_start(data: *mut c_void, name: *const c_char, _attributes: *const *const c_char) {
    let (tags, name) = unsafe { (&mut *data.cast::<Vec<Tag>>(), CStr::from_ptr(name)) };
    tags.push(Tag::Start(name.to_bytes().to_vec()));
}

unsafe extern "C" fn on_end(data: *mut c_void, _name: *const c_char) {
    unsafe { &mut *data.cast::<Vec<Tag>>() }.push(Tag::End);
}

/// Whether expat accepts the document; it calls the handlers with `data`.
///
/// # Safety
/// Throughout the call, `data` is what the handlers expect.
pub unsafe fn parse(document: &[u8], data: *mut c_void, start: StartHandler, end: EndHandler) -> bool {
    // SAFETY: expat reads the document within its length; the parser is freed once
    unsafe {
        let parser = XML_ParserCreate(std::ptr::null());
        assert!(!parser.is_null(), "expat has no memory");
        XML_SetUserData(parser, data);
        XML_SetElementHandler(parser, start, end);
        let status = XML_Parse(parser, document.as_ptr().cast(), document.len() as c_int, 1);
        XML_ParserFree(parser);
        status == 1
    }
}

/// The tags of a document in their order; none where expat does not accept it.
pub fn tags(document: &[u8]) -> Option<Vec<Tag>> {
    let mut tags: Vec<Tag> = vec![];
    // SAFETY: `tags`, which the handlers expect, outlives the call
    let accepted = unsafe { parse(document, (&raw mut tags).cast(), on_start, on_end) };
    accepted.then_some(tags)
}
