//! The static library against the vectors, where its interface reaches them.

mod vectors;

use peer::compare::Compare;
use peer::device::Library;
use peer::filling::fill_width;
use peer::random::Random;
use peer::sample;
use peer::settings::{Name, Settings};

#[test]
fn sha256() {
    vectors::sha256(&Library);
}

#[test]
fn base64() {
    vectors::base64(&Library);
}

#[test]
fn chain() {
    vectors::chain(&Library);
}

#[test]
fn counter() {
    vectors::counter(&Library);
}

#[test]
fn counter_bytes() {
    vectors::counter_bytes(&Library);
}

#[test]
fn counter_sum() {
    vectors::counter_sum(&Library);
}

#[test]
fn issue_limits() {
    vectors::issue_limits(&Library);
}

#[test]
fn amount() {
    vectors::amount(&Library);
}

#[test]
fn compact() {
    vectors::compact(&Library);
}

#[test]
fn code() {
    vectors::code(&Library);
}

#[test]
fn journals() {
    vectors::journals(&Library);
}

#[test]
fn journals_by_lists() {
    vectors::journals_by_lists(&Library);
}

#[test]
fn takeover() {
    vectors::takeover(&Library);
}

#[test]
fn takeover_pairs() {
    vectors::takeover_pairs(&Library);
}

#[test]
fn paper() {
    vectors::paper(&Library);
}

#[test]
fn version() {
    vectors::version(&Library);
}

#[test]
fn open() {
    vectors::open(&Library);
}

#[test]
fn one_key_for_two_registers() {
    vectors::one_key_for_two_registers(&Library);
}

#[test]
fn change() {
    vectors::change(&Library);
}

#[test]
fn changes_by_hand() {
    vectors::changes_by_hand(&Library);
}

#[test]
fn serials_of_a_state() {
    vectors::serials_of_a_state(&Library);
}

#[test]
fn counts_at_any_place() {
    vectors::counts_at_any_place(&Library);
}

#[test]
fn lists_by_hand() {
    vectors::lists_by_hand(&Library);
}

#[test]
fn lists_refused() {
    vectors::lists_refused(&Library);
}

#[test]
fn lists_with_the_start() {
    vectors::lists_with_the_start(&Library);
}

#[test]
fn lists_into_room() {
    vectors::lists_into_room(&Library);
}

#[test]
fn lists_cut_or_empty() {
    vectors::lists_cut_or_empty(&Library);
}

#[test]
fn long_list() {
    vectors::long_list(&Library);
}

#[test]
fn steps_accepted() {
    vectors::steps::steps_accepted(&Library);
}

#[test]
fn steps_of_the_vectors() {
    vectors::steps::steps_of_the_vectors(&Library);
}

#[test]
fn steps_refused() {
    vectors::steps::steps_refused(&Library);
}

#[test]
fn steps_under_the_state() {
    vectors::steps::steps_under_the_state(&Library);
}

#[test]
fn steps_by_the_count() {
    vectors::steps::steps_by_the_count(&Library);
}

#[test]
fn steps_read_no_more() {
    vectors::steps::steps_read_no_more(&Library);
}

#[test]
fn steps_from_bad_states() {
    vectors::steps::steps_from_bad_states(&Library);
}

#[test]
fn heads_checked() {
    vectors::steps::heads_checked(&Library);
}

#[test]
fn month_by_month() {
    vectors::steps::month_by_month(&Library);
}

#[test]
fn export() {
    vectors::exports::export(&Library);
}

#[test]
fn exports_by_hand() {
    vectors::exports::exports_by_hand(&Library);
}

#[test]
fn exports_at_the_limits() {
    vectors::exports::exports_at_the_limits(&Library);
}

#[test]
fn read_by_hand() {
    vectors::read_by_hand(&Library);
}

#[test]
fn receipts_read() {
    vectors::receipts_read(&Library);
}

#[test]
fn read_settings_refused() {
    vectors::read_settings_refused(&Library);
}

#[test]
fn read_fields_refused() {
    vectors::read_fields_refused(&Library);
}

#[test]
fn read_forms_refused() {
    vectors::read_forms_refused(&Library);
}

#[test]
fn read_registers_refused() {
    vectors::read_registers_refused(&Library);
}

#[test]
fn read_outputs_refused() {
    vectors::read_outputs_refused(&Library);
}

#[test]
fn base32() {
    vectors::base32(&Library);
}

#[test]
fn ocr_line() {
    vectors::ocr_line(&Library);
}

#[test]
fn published_pair() {
    vectors::published_pair(&Library);
}

#[test]
fn lines_by_hand() {
    vectors::lines_by_hand(&Library);
}

#[test]
fn lines_refused() {
    vectors::lines_refused(&Library);
}

#[test]
fn unlines_refused() {
    vectors::unlines_refused(&Library);
}

#[test]
fn longest_line_of_a_receipt() {
    vectors::longest_line_of_a_receipt(&Library);
}

#[test]
fn longest_line_of_a_code() {
    vectors::longest_line_of_a_code(&Library);
}

/// The library writes the journal of width 7 up to its upper end, and both sides take it over.
#[test]
fn width_7_to_its_end() {
    let random = Random::of(7, 0);
    let settings = Settings { width: 7, id: Name::of(b"7"), ..sample::settings(&random) };
    let end = (1, sample::width_end(7));
    let receipts = fill_width(&mut Compare::default(), &Library, &random, &settings, end);
    assert_eq!(receipts.unwrap_or_else(|difference| panic!("{:.1000}", difference.text)), 72_059);
}
