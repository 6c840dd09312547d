//! Our side: the functions of the crate `whole_history`, out of its static library.

use std::hint::black_box;

extern "C" {
    fn whole_history_text(
        records: *const u8,
        records_length: usize,
        message: *const u8,
        message_length: usize,
        renderer: u8,
        kept: bool,
        out: *mut u8,
        out_length: usize,
    ) -> usize;

    fn whole_history_shapes(
        records: *const u8,
        records_length: usize,
        kept: bool,
        out: *mut u8,
        out_length: usize,
    ) -> usize;

    fn whole_history_lines(
        records: *const u8,
        records_length: usize,
        renderer: u8,
        kept: bool,
        out: *mut u8,
        out_length: usize,
    ) -> usize;

    fn whole_history_lent_shapes(
        records: *const u8,
        records_length: usize,
        kept: bool,
        out: *mut u8,
        out_length: usize,
    ) -> usize;

    fn whole_history_previews(
        records: *const u8,
        records_length: usize,
        kept: bool,
        out: *mut u8,
        out_length: usize,
    ) -> usize;
}

/// Which of our row calls is made: the core, by value, the public call, on a lent shaper and a lent list of entries, or the preview, by value.
#[derive(Clone, Copy, PartialEq, Eq)]
pub enum Form {
    Core,
    Lent,
    Preview,
}

/// The text call on every record, and how many of them were drawn.
pub fn text(records: &[u8], message: &[u8], renderer: u8, kept: bool, out: &mut [u8]) -> usize {
    let (records, out) = (black_box(records), black_box(out));
    // SAFETY: a slice is passed as its pointer and its length, and the callee keeps neither.
    unsafe {
        whole_history_text(
            records.as_ptr(),
            records.len(),
            message.as_ptr(),
            message.len(),
            renderer,
            kept,
            out.as_mut_ptr(),
            out.len(),
        )
    }
}

/// The row call on every record, and how many of them were given a shape or a preview.
pub fn rows(form: Form, records: &[u8], kept: bool, out: &mut [u8]) -> usize {
    let (records, out) = (black_box(records), black_box(out));
    let call = match form {
        Form::Core => whole_history_shapes,
        Form::Lent => whole_history_lent_shapes,
        Form::Preview => whole_history_previews,
    };
    // SAFETY: as above.
    unsafe {
        call(
            records.as_ptr(),
            records.len(),
            kept,
            out.as_mut_ptr(),
            out.len(),
        )
    }
}

/// The row call on every record and the renderer call on its shape, and how many of them were drawn.
pub fn lines(records: &[u8], renderer: u8, kept: bool, out: &mut [u8]) -> usize {
    let (records, out) = (black_box(records), black_box(out));
    // SAFETY: as above.
    unsafe {
        whole_history_lines(
            records.as_ptr(),
            records.len(),
            renderer,
            kept,
            out.as_mut_ptr(),
            out.len(),
        )
    }
}
