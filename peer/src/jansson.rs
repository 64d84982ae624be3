//! The export and its reader over a JSON library, jansson, for the benchmark alone. All but the JSON is the peer's. It takes more
//! than the request allows (other escapes, for one), so it stands beside no other call.

use std::borrow::Cow;
use std::ffi::{CStr, c_char, c_int, c_void};

use crate::base64;
use crate::export::{Receipts, certificate_good, groups_in, pairs_in, read_elements};
use crate::register::{Refused, State, take_over};

/// A value of jansson's, with its count of references.
type Value = *mut c_void;

#[rustfmt::skip]
#[link(name = "jansson")]
unsafe extern "C" {
    fn json_loadb(text: *const u8, length: usize, flags: usize, error: *mut c_void) -> Value;
    fn json_dumpb(value: *const c_void, output: *mut u8, size: usize, flags: usize) -> usize;
    fn json_delete(value: Value);
    fn json_object() -> Value;
    fn json_array() -> Value;
    fn json_stringn(text: *const u8, length: usize) -> Value;
    fn json_object_set_new(object: Value, name: *const c_char, value: Value) -> c_int;
    fn json_object_get(object: *const c_void, name: *const c_char) -> Value;
    fn json_array_append_new(array: Value, value: Value) -> c_int;
    fn json_array_size(array: *const c_void) -> usize;
    fn json_array_get(array: *const c_void, place: usize) -> Value;
    fn json_string_value(string: *const c_void) -> *const u8;
    fn json_string_length(string: *const c_void) -> usize;
}

const REJECT_DUPLICATES: usize = 1;
const COMPACT: usize = 0x20;

const GROUPS: &CStr = c"Belege-Gruppe";
const CERTIFICATE: &CStr = c"Signaturzertifikat";
const ISSUERS: &CStr = c"Zertifizierungsstellen";
const RECEIPTS: &CStr = c"Belege-kompakt";

fn no(number: u32) -> Refused {
    Refused { number, index: 0 }
}

/// A value that nothing else refers to, freed at its end.
struct Owned(Value);

impl Drop for Owned {
    fn drop(&mut self) {
        // SAFETY: the value is not null, and this is its only reference.
        unsafe { json_delete(self.0) }
    }
}

// SAFETY of every call below: each value is one that jansson made and that lives, or null where jansson takes null; each text
// comes with its length.

fn string(text: &[u8]) -> Value {
    unsafe { json_stringn(text.as_ptr(), text.len()) }
}

fn array(items: impl Iterator<Item = Value>) -> Value {
    let array = unsafe { json_array() };
    for item in items {
        assert_eq!(unsafe { json_array_append_new(array, item) }, 0);
    }
    array
}

fn object<const MEMBERS: usize>(members: [(&CStr, Value); MEMBERS]) -> Value {
    let object = unsafe { json_object() };
    for (name, value) in members {
        assert_eq!(unsafe { json_object_set_new(object, name.as_ptr(), value) }, 0);
    }
    object
}

fn certificate(certificate: &[u8]) -> Value {
    let mut text = vec![0; base64::padded_letters(certificate.len())];
    base64::write_padded(certificate, &mut text);
    string(&text)
}

/// The export of a journal, as the peer's.
pub fn export(
    journal: &[u8],
    key: &[u8; 32],
    width: u64,
    certificates: &[u8],
    output: &mut [u8],
) -> Result<usize, Refused> {
    take_over(journal, key, width)?;
    let pairs = pairs_in(journal).expect("an accepted journal");
    let groups = groups_in(certificates, pairs.len()).ok_or(no(28))?;
    let elements = pairs.iter().zip(&groups).map(|(receipts, group)| {
        object([
            (CERTIFICATE, certificate(group[0])),
            (ISSUERS, array(group[1..].iter().map(|issuer| certificate(issuer)))),
            (RECEIPTS, array(receipts.iter().map(|receipt| string(receipt)))),
        ])
    });
    let whole = Owned(object([(GROUPS, array(elements))]));
    let length = unsafe { json_dumpb(whole.0, output.as_mut_ptr(), output.len(), COMPACT) };
    if length > output.len() { Err(no(23)) } else { Ok(length) }
}

fn member(object: Value, name: &CStr) -> Value {
    unsafe { json_object_get(object, name.as_ptr()) }
}

fn items(array: Value) -> impl Iterator<Item = Value> {
    let size = unsafe { json_array_size(array) };
    (0..size).map(move |place| unsafe { json_array_get(array, place) })
}

/// The bytes of a string, which live as long as the whole; None where the value is no string.
fn bytes(_whole: &Owned, string: Value) -> Option<&[u8]> {
    let start = unsafe { json_string_value(string) };
    (!start.is_null()).then(|| unsafe { std::slice::from_raw_parts(start, json_string_length(string)) })
}

/// The receipts of an element.
fn element(whole: &Owned, element: Value) -> Option<Receipts<'_>> {
    let certificates = std::iter::once(member(element, CERTIFICATE)).chain(items(member(element, ISSUERS)));
    for certificate in certificates {
        bytes(whole, certificate).filter(|text| certificate_good(text))?;
    }
    items(member(element, RECEIPTS)).map(|receipt| bytes(whole, receipt).map(Cow::Borrowed)).collect()
}

/// The journal of a text and the state after it, as the peer's.
pub fn read_export(text: &[u8], key: &[u8], width: u64, output: &mut [u8]) -> Result<(usize, State), Refused> {
    let whole = unsafe { json_loadb(text.as_ptr(), text.len(), REJECT_DUPLICATES, std::ptr::null_mut()) };
    if whole.is_null() {
        return Err(no(28));
    }
    let whole = Owned(whole);
    let elements: Option<Vec<Receipts>> = items(member(whole.0, GROUPS)).map(|one| element(&whole, one)).collect();
    let elements = elements.filter(|elements| !elements.is_empty()).ok_or(no(28))?;
    read_elements(&elements, key, width, output)
}
