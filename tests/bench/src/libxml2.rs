//! libxml2 reading a text into its tree.

use std::ffi::{c_char, c_int, c_void};

#[link(name = "xml2")]
extern "C" {
    fn xmlReadMemory(buffer: *const c_char, size: c_int, url: *const c_char, encoding: *const c_char, options: c_int) -> *mut c_void;
    fn xmlFreeDoc(document: *mut c_void);
}

/// XML_PARSE_NOERROR, XML_PARSE_NOWARNING, XML_PARSE_NONET.
const OPTIONS: c_int = 32 | 64 | 2048;

/// Reads a text and frees the tree. False if it isn't well-formed.
pub fn read(text: &[u8]) -> bool {
    let none = std::ptr::null();
    // The buffer is a living slice of that size; the document is freed once, if there is one.
    unsafe {
        let document = xmlReadMemory(text.as_ptr().cast(), text.len() as c_int, none, none, OPTIONS);
        if !document.is_null() {
            xmlFreeDoc(document);
        }
        !document.is_null()
    }
}
