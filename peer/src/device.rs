//! The static library under test: a safe wrapper over include/ditgrux.h.

use crate::calls::{Calls, Exported, Listed, Part, TakenOver, Written};
use crate::receipt::Details;

/// Every result by pointer starts as this, so that one that is not written shows.
const UNWRITTEN: u32 = 0xa5a5_a5a5;
const UNWRITTEN_LENGTH: usize = 0xa5a5_a5a5_a5a5_a5a5;

#[rustfmt::skip]
unsafe extern "C" {
    safe fn ditgrux_version() -> u32;
    fn ditgrux_settings(csp: *const u8, csp_length: usize, id: *const u8, id_length: usize, serial: *const u8,
        serial_length: usize, width: usize, key: *const u8, key_length: usize, settings: *mut u8,
        settings_length: usize) -> u32;
    fn ditgrux_counter(state: *const u8, state_length: usize) -> i64;
    fn ditgrux_last_number(state: *const u8, state_length: usize) -> u32;
    fn ditgrux_receipts(state: *const u8, state_length: usize) -> u32;
    fn ditgrux_journal_length(state: *const u8, state_length: usize) -> usize;
    fn ditgrux_serials(state: *const u8, state_length: usize) -> u32;
    fn ditgrux_serial(state: *const u8, state_length: usize, which: u32, output: *mut u8, output_length: usize,
        length: *mut usize) -> u32;
    fn ditgrux_settings_in(state: *const u8, state_length: usize, which: u32, settings: *mut u8,
        settings_length: usize) -> u32;
    fn ditgrux_open(settings: *const u8, settings_length: usize, journal: *mut u8, journal_length: usize,
        state: *mut u8, state_length: usize) -> u32;
    fn ditgrux_open_shared(settings: *const u8, settings_length: usize, journal: *mut u8, journal_length: usize,
        state: *mut u8, state_length: usize) -> u32;
    fn ditgrux_prepare(state: *const u8, state_length: usize, number: u32, year: u32, month: u32, day: u32, hour: u32,
        minute: u32, second: u32, standard: i64, reduced_1: i64, reduced_2: i64, zero: i64, special: i64, kind: u32,
        output: *mut u8, output_length: usize, length: *mut usize) -> u32;
    fn ditgrux_issue(state: *mut u8, state_length: usize, number: u32, year: u32, month: u32, day: u32, hour: u32,
        minute: u32, second: u32, standard: i64, reduced_1: i64, reduced_2: i64, zero: i64, special: i64, kind: u32,
        signature: *const u8, signature_length: usize, journal: *mut u8, journal_length: usize) -> u32;
    fn ditgrux_issue_list(state: *mut u8, state_length: usize, list: *const u8, list_length: usize, journal: *mut u8,
        journal_length: usize, issued: *mut usize) -> u32;
    fn ditgrux_change(state: *mut u8, state_length: usize, serial: *const u8, serial_length: usize, journal: *mut u8,
        journal_length: usize) -> u32;
    fn ditgrux_take_over(journal: *const u8, journal_length: usize, key: *const u8, key_length: usize, width: usize,
        state: *mut u8, state_length: usize, index: *mut u32) -> u32;
    fn ditgrux_check_head(journal: *const u8, journal_length: usize, key: *const u8, key_length: usize, width: usize,
        state: *mut u8, state_length: usize) -> u32;
    fn ditgrux_check_steps(state: *mut u8, state_length: usize, journal: *const u8, journal_length: usize, steps: usize,
        index: *mut u32) -> u32;
    fn ditgrux_read(settings: *const u8, settings_length: usize, form: *const u8, form_length: usize, details: *mut u8,
        details_length: usize, signature: *mut u8, signature_size: usize, length: *mut usize) -> u32;
    fn ditgrux_code(form: *const u8, form_length: usize, output: *mut u8, output_length: usize,
        length: *mut usize) -> u32;
    fn ditgrux_uncode(code: *const u8, code_length: usize, output: *mut u8, output_length: usize,
        length: *mut usize) -> u32;
    fn ditgrux_fields(code: *const u8, code_length: usize, start: *mut usize, length: *mut usize) -> u32;
    fn ditgrux_export(journal: *const u8, journal_length: usize, key: *const u8, key_length: usize, width: usize,
        certificates: *const u8, certificates_length: usize, output: *mut u8, output_length: usize, length: *mut usize,
        index: *mut u32) -> u32;
    fn ditgrux_read_export(text: *const u8, text_length: usize, key: *const u8, key_length: usize, width: usize,
        output: *mut u8, output_length: usize, state: *mut u8, state_length: usize, length: *mut usize,
        index: *mut u32) -> u32;
    fn ditgrux_line(code: *const u8, code_length: usize, output: *mut u8, output_length: usize,
        length: *mut usize) -> u32;
    fn ditgrux_unline(line: *const u8, line_length: usize, output: *mut u8, output_length: usize,
        length: *mut usize) -> u32;
    fn ditgrux_sha256(data: *const u8, data_length: usize, output: *mut u8, output_length: usize) -> u32;
    fn ditgrux_base64(url: u32, data: *const u8, data_length: usize, output: *mut u8, output_length: usize,
        length: *mut usize) -> u32;
    fn ditgrux_unbase64(url: u32, text: *const u8, text_length: usize, output: *mut u8, output_length: usize,
        length: *mut usize) -> u32;
    fn ditgrux_base32(data: *const u8, data_length: usize, output: *mut u8, output_length: usize,
        length: *mut usize) -> u32;
    fn ditgrux_unbase32(text: *const u8, text_length: usize, output: *mut u8, output_length: usize,
        length: *mut usize) -> u32;
}

/// A call that reads one text and writes another, with its length.
type TextCall = unsafe extern "C" fn(*const u8, usize, *mut u8, usize, *mut usize) -> u32;

/// Open, of either way.
type OpenCall = unsafe extern "C" fn(*const u8, usize, *mut u8, usize, *mut u8, usize) -> u32;

/// libdevice.a.
pub struct Library;

// SAFETY of every call below: each pointer is that of a slice with the length beside it, or of a local number; no slice
// that is written overlaps another, as it is borrowed mutably; a slice of length 0 has a pointer that is not null.

fn text_call(call: TextCall, text: &[u8], output: &mut [u8]) -> Written {
    let mut length = UNWRITTEN_LENGTH;
    let number = unsafe { call(text.as_ptr(), text.len(), output.as_mut_ptr(), output.len(), &mut length) };
    Written { number, length }
}

fn open_call(call: OpenCall, settings: &[u8], journal: &mut [u8], state: &mut [u8]) -> u32 {
    unsafe {
        call(settings.as_ptr(), settings.len(), journal.as_mut_ptr(), journal.len(), state.as_mut_ptr(), state.len())
    }
}

impl Calls for Library {
    fn version(&self) -> u32 {
        ditgrux_version()
    }

    fn settings(&self, csp: &[u8], id: &[u8], serial: &[u8], width: usize, key: &[u8], settings: &mut [u8]) -> u32 {
        unsafe {
            ditgrux_settings(
                csp.as_ptr(),
                csp.len(),
                id.as_ptr(),
                id.len(),
                serial.as_ptr(),
                serial.len(),
                width,
                key.as_ptr(),
                key.len(),
                settings.as_mut_ptr(),
                settings.len(),
            )
        }
    }

    fn counter(&self, state: &[u8]) -> i64 {
        unsafe { ditgrux_counter(state.as_ptr(), state.len()) }
    }

    fn last_number(&self, state: &[u8]) -> u32 {
        unsafe { ditgrux_last_number(state.as_ptr(), state.len()) }
    }

    fn receipts(&self, state: &[u8]) -> u32 {
        unsafe { ditgrux_receipts(state.as_ptr(), state.len()) }
    }

    fn journal_length(&self, state: &[u8]) -> usize {
        unsafe { ditgrux_journal_length(state.as_ptr(), state.len()) }
    }

    fn serials(&self, state: &[u8]) -> u32 {
        unsafe { ditgrux_serials(state.as_ptr(), state.len()) }
    }

    fn serial(&self, state: &[u8], which: u32, output: &mut [u8]) -> Written {
        let mut length = UNWRITTEN_LENGTH;
        let number = unsafe {
            ditgrux_serial(state.as_ptr(), state.len(), which, output.as_mut_ptr(), output.len(), &mut length)
        };
        Written { number, length }
    }

    fn settings_in(&self, state: &[u8], which: u32, settings: &mut [u8]) -> u32 {
        unsafe { ditgrux_settings_in(state.as_ptr(), state.len(), which, settings.as_mut_ptr(), settings.len()) }
    }

    fn open(&self, settings: &[u8], journal: &mut [u8], state: &mut [u8]) -> u32 {
        open_call(ditgrux_open, settings, journal, state)
    }

    fn open_shared(&self, settings: &[u8], journal: &mut [u8], state: &mut [u8]) -> u32 {
        open_call(ditgrux_open_shared, settings, journal, state)
    }

    fn prepare(&self, state: &[u8], details: &Details, output: &mut [u8]) -> Written {
        let mut length = UNWRITTEN_LENGTH;
        let [standard, reduced_1, reduced_2, zero, special] = details.amounts;
        let number = unsafe {
            ditgrux_prepare(
                state.as_ptr(),
                state.len(),
                details.number,
                details.date.year,
                details.date.month,
                details.date.day,
                details.date.hour,
                details.date.minute,
                details.date.second,
                standard,
                reduced_1,
                reduced_2,
                zero,
                special,
                details.kind,
                output.as_mut_ptr(),
                output.len(),
                &mut length,
            )
        };
        Written { number, length }
    }

    fn issue(&self, state: &mut [u8], details: &Details, signature: &[u8], journal: &mut [u8]) -> u32 {
        let [standard, reduced_1, reduced_2, zero, special] = details.amounts;
        unsafe {
            ditgrux_issue(
                state.as_mut_ptr(),
                state.len(),
                details.number,
                details.date.year,
                details.date.month,
                details.date.day,
                details.date.hour,
                details.date.minute,
                details.date.second,
                standard,
                reduced_1,
                reduced_2,
                zero,
                special,
                details.kind,
                signature.as_ptr(),
                signature.len(),
                journal.as_mut_ptr(),
                journal.len(),
            )
        }
    }

    fn issue_list(&self, state: &mut [u8], list: &[u8], journal: &mut [u8]) -> Listed {
        let mut issued = UNWRITTEN_LENGTH;
        let number = unsafe {
            ditgrux_issue_list(
                state.as_mut_ptr(),
                state.len(),
                list.as_ptr(),
                list.len(),
                journal.as_mut_ptr(),
                journal.len(),
                &mut issued,
            )
        };
        Listed { number, issued }
    }

    fn change(&self, state: &mut [u8], serial: &[u8], journal: &mut [u8]) -> u32 {
        unsafe {
            ditgrux_change(
                state.as_mut_ptr(),
                state.len(),
                serial.as_ptr(),
                serial.len(),
                journal.as_mut_ptr(),
                journal.len(),
            )
        }
    }

    fn take_over(&self, journal: &[u8], key: &[u8], width: usize, state: &mut [u8]) -> TakenOver {
        let mut index = UNWRITTEN;
        let number = unsafe {
            ditgrux_take_over(
                journal.as_ptr(),
                journal.len(),
                key.as_ptr(),
                key.len(),
                width,
                state.as_mut_ptr(),
                state.len(),
                &mut index,
            )
        };
        TakenOver { number, index }
    }

    fn check_head(&self, journal: &[u8], key: &[u8], width: usize, state: &mut [u8]) -> u32 {
        unsafe {
            ditgrux_check_head(
                journal.as_ptr(),
                journal.len(),
                key.as_ptr(),
                key.len(),
                width,
                state.as_mut_ptr(),
                state.len(),
            )
        }
    }

    fn check_steps(&self, state: &mut [u8], journal: &[u8], steps: usize) -> TakenOver {
        let mut index = UNWRITTEN;
        let number = unsafe {
            ditgrux_check_steps(state.as_mut_ptr(), state.len(), journal.as_ptr(), journal.len(), steps, &mut index)
        };
        TakenOver { number, index }
    }

    fn read(&self, settings: &[u8], form: &[u8], details: &mut [u8], signature: &mut [u8]) -> Written {
        let mut length = UNWRITTEN_LENGTH;
        let number = unsafe {
            ditgrux_read(
                settings.as_ptr(),
                settings.len(),
                form.as_ptr(),
                form.len(),
                details.as_mut_ptr(),
                details.len(),
                signature.as_mut_ptr(),
                signature.len(),
                &mut length,
            )
        };
        Written { number, length }
    }

    fn code(&self, form: &[u8], output: &mut [u8]) -> Written {
        text_call(ditgrux_code, form, output)
    }

    fn uncode(&self, code: &[u8], output: &mut [u8]) -> Written {
        text_call(ditgrux_uncode, code, output)
    }

    fn fields(&self, code: &[u8]) -> Part {
        let mut start = UNWRITTEN_LENGTH;
        let mut length = UNWRITTEN_LENGTH;
        let number = unsafe { ditgrux_fields(code.as_ptr(), code.len(), &mut start, &mut length) };
        Part { number, start, length }
    }

    fn export(&self, journal: &[u8], key: &[u8], width: usize, certificates: &[u8], output: &mut [u8]) -> Exported {
        let (mut length, mut index) = (UNWRITTEN_LENGTH, UNWRITTEN);
        let number = unsafe {
            ditgrux_export(
                journal.as_ptr(),
                journal.len(),
                key.as_ptr(),
                key.len(),
                width,
                certificates.as_ptr(),
                certificates.len(),
                output.as_mut_ptr(),
                output.len(),
                &mut length,
                &mut index,
            )
        };
        Exported { number, index, length }
    }

    fn read_export(&self, text: &[u8], key: &[u8], width: usize, output: &mut [u8], state: &mut [u8]) -> Exported {
        let (mut length, mut index) = (UNWRITTEN_LENGTH, UNWRITTEN);
        let number = unsafe {
            ditgrux_read_export(
                text.as_ptr(),
                text.len(),
                key.as_ptr(),
                key.len(),
                width,
                output.as_mut_ptr(),
                output.len(),
                state.as_mut_ptr(),
                state.len(),
                &mut length,
                &mut index,
            )
        };
        Exported { number, index, length }
    }

    fn line(&self, code: &[u8], output: &mut [u8]) -> Written {
        text_call(ditgrux_line, code, output)
    }

    fn unline(&self, line: &[u8], output: &mut [u8]) -> Written {
        text_call(ditgrux_unline, line, output)
    }

    fn sha256(&self, data: &[u8], output: &mut [u8]) -> u32 {
        unsafe { ditgrux_sha256(data.as_ptr(), data.len(), output.as_mut_ptr(), output.len()) }
    }

    fn base64(&self, url: u32, data: &[u8], output: &mut [u8]) -> Written {
        let mut length = UNWRITTEN_LENGTH;
        let number =
            unsafe { ditgrux_base64(url, data.as_ptr(), data.len(), output.as_mut_ptr(), output.len(), &mut length) };
        Written { number, length }
    }

    fn unbase64(&self, url: u32, text: &[u8], output: &mut [u8]) -> Written {
        let mut length = UNWRITTEN_LENGTH;
        let number =
            unsafe { ditgrux_unbase64(url, text.as_ptr(), text.len(), output.as_mut_ptr(), output.len(), &mut length) };
        Written { number, length }
    }

    fn base32(&self, data: &[u8], output: &mut [u8]) -> Written {
        text_call(ditgrux_base32, data, output)
    }

    fn unbase32(&self, text: &[u8], output: &mut [u8]) -> Written {
        text_call(ditgrux_unbase32, text, output)
    }
}
