//! The calls with many texts. The count of a text is its number of tokens; its pairs take two cells each.
use crate::error::{accepted, Error};
use crate::Mode;

extern "C" {
    fn fetlockice_cut_many_plain(
        texts: *const u32,
        texts_len: usize,
        text_ends: *const u32,
        text_count: usize,
        pool: *const u32,
        pool_len: usize,
        answers: *mut u32,
        answers_len: usize,
        out: *mut u32,
        out_len: usize,
        scratch: *mut u32,
        scratch_len: usize,
        count: &mut usize,
        detail: &mut usize,
    ) -> u32;
    fn fetlockice_cut_many_safe(
        texts: *const u32,
        texts_len: usize,
        text_ends: *const u32,
        text_count: usize,
        pool: *const u32,
        pool_len: usize,
        answers: *mut u32,
        answers_len: usize,
        out: *mut u32,
        out_len: usize,
        scratch: *mut u32,
        scratch_len: usize,
        count: &mut usize,
        detail: &mut usize,
    ) -> u32;
    fn fetlockice_cut_many_sheet(
        texts: *const u32,
        texts_len: usize,
        text_ends: *const u32,
        text_count: usize,
        pool: *const u32,
        pool_len: usize,
        answers: *mut u32,
        answers_len: usize,
        out: *mut u32,
        out_len: usize,
        scratch: *mut u32,
        scratch_len: usize,
        count: &mut usize,
        detail: &mut usize,
    ) -> u32;
    fn fetlockice_reasons_many_plain(
        texts: *const u32,
        texts_len: usize,
        text_ends: *const u32,
        text_count: usize,
        pool: *const u32,
        pool_len: usize,
        answers: *mut u32,
        answers_len: usize,
        pairs: *mut u32,
        pairs_len: usize,
        scratch: *mut u32,
        scratch_len: usize,
        count: &mut usize,
        detail: &mut usize,
    ) -> u32;
    fn fetlockice_reasons_many_safe(
        texts: *const u32,
        texts_len: usize,
        text_ends: *const u32,
        text_count: usize,
        pool: *const u32,
        pool_len: usize,
        answers: *mut u32,
        answers_len: usize,
        pairs: *mut u32,
        pairs_len: usize,
        scratch: *mut u32,
        scratch_len: usize,
        count: &mut usize,
        detail: &mut usize,
    ) -> u32;
    fn fetlockice_reasons_many_sheet(
        texts: *const u32,
        texts_len: usize,
        text_ends: *const u32,
        text_count: usize,
        pool: *const u32,
        pool_len: usize,
        answers: *mut u32,
        answers_len: usize,
        pairs: *mut u32,
        pairs_len: usize,
        scratch: *mut u32,
        scratch_len: usize,
        count: &mut usize,
        detail: &mut usize,
    ) -> u32;
    fn fetlockice_plant_cut_many_plain(
        texts: *const u32,
        texts_len: usize,
        text_ends: *const u32,
        text_count: usize,
        pool: *const u32,
        pool_len: usize,
        plant_b: bool,
        answers: *mut u32,
        answers_len: usize,
        out: *mut u32,
        out_len: usize,
        scratch: *mut u32,
        scratch_len: usize,
        count: &mut usize,
        detail: &mut usize,
    ) -> u32;
    fn fetlockice_plant_cut_many_safe(
        texts: *const u32,
        texts_len: usize,
        text_ends: *const u32,
        text_count: usize,
        pool: *const u32,
        pool_len: usize,
        plant_b: bool,
        answers: *mut u32,
        answers_len: usize,
        out: *mut u32,
        out_len: usize,
        scratch: *mut u32,
        scratch_len: usize,
        count: &mut usize,
        detail: &mut usize,
    ) -> u32;
    fn fetlockice_plant_cut_many_sheet(
        texts: *const u32,
        texts_len: usize,
        text_ends: *const u32,
        text_count: usize,
        pool: *const u32,
        pool_len: usize,
        plant_b: bool,
        answers: *mut u32,
        answers_len: usize,
        out: *mut u32,
        out_len: usize,
        scratch: *mut u32,
        scratch_len: usize,
        count: &mut usize,
        detail: &mut usize,
    ) -> u32;
    fn fetlockice_plant_reasons_many_plain(
        texts: *const u32,
        texts_len: usize,
        text_ends: *const u32,
        text_count: usize,
        pool: *const u32,
        pool_len: usize,
        plant_b: bool,
        answers: *mut u32,
        answers_len: usize,
        pairs: *mut u32,
        pairs_len: usize,
        scratch: *mut u32,
        scratch_len: usize,
        count: &mut usize,
        detail: &mut usize,
    ) -> u32;
    fn fetlockice_plant_reasons_many_safe(
        texts: *const u32,
        texts_len: usize,
        text_ends: *const u32,
        text_count: usize,
        pool: *const u32,
        pool_len: usize,
        plant_b: bool,
        answers: *mut u32,
        answers_len: usize,
        pairs: *mut u32,
        pairs_len: usize,
        scratch: *mut u32,
        scratch_len: usize,
        count: &mut usize,
        detail: &mut usize,
    ) -> u32;
    fn fetlockice_plant_reasons_many_sheet(
        texts: *const u32,
        texts_len: usize,
        text_ends: *const u32,
        text_count: usize,
        pool: *const u32,
        pool_len: usize,
        plant_b: bool,
        answers: *mut u32,
        answers_len: usize,
        pairs: *mut u32,
        pairs_len: usize,
        scratch: *mut u32,
        scratch_len: usize,
        count: &mut usize,
        detail: &mut usize,
    ) -> u32;
}

/// The rows that a call with many texts is lent, but for the pool: `out` is for ends, or for pairs.
pub struct Texts<'a> {
    pub texts: &'a [u32],
    pub text_ends: &'a [u32],
    pub answers: &'a mut [u32],
    pub out: &'a mut [u32],
    pub scratch: &'a mut [u32],
}

/// The number of texts.
pub fn cut_many(mode: Mode, pool: &[u32], rows: Texts) -> Result<usize, Error> {
    let call = match mode {
        Mode::Plain => fetlockice_cut_many_plain,
        Mode::Safe => fetlockice_cut_many_safe,
        Mode::Sheet => fetlockice_cut_many_sheet,
    };
    unsafe { many_by(call, pool, rows) }
}

/// The number of texts.
pub fn reasons_many(mode: Mode, pool: &[u32], rows: Texts) -> Result<usize, Error> {
    let call = match mode {
        Mode::Plain => fetlockice_reasons_many_plain,
        Mode::Safe => fetlockice_reasons_many_safe,
        Mode::Sheet => fetlockice_reasons_many_sheet,
    };
    unsafe { many_by(call, pool, rows) }
}

/// The number of texts.
pub fn plant_cut_many(mode: Mode, pool: &[u32], plant_b: bool, rows: Texts) -> Result<usize, Error> {
    let call = match mode {
        Mode::Plain => fetlockice_plant_cut_many_plain,
        Mode::Safe => fetlockice_plant_cut_many_safe,
        Mode::Sheet => fetlockice_plant_cut_many_sheet,
    };
    unsafe { plant_many_by(call, pool, plant_b, rows) }
}

/// The number of texts.
pub fn plant_reasons_many(mode: Mode, pool: &[u32], plant_b: bool, rows: Texts) -> Result<usize, Error> {
    let call = match mode {
        Mode::Plain => fetlockice_plant_reasons_many_plain,
        Mode::Safe => fetlockice_plant_reasons_many_safe,
        Mode::Sheet => fetlockice_plant_reasons_many_sheet,
    };
    unsafe { plant_many_by(call, pool, plant_b, rows) }
}

type ManyCall = unsafe extern "C" fn(
    *const u32,
    usize,
    *const u32,
    usize,
    *const u32,
    usize,
    *mut u32,
    usize,
    *mut u32,
    usize,
    *mut u32,
    usize,
    &mut usize,
    &mut usize,
) -> u32;

/// # Safety
///
/// The call is one of the calls with many texts of the header.
unsafe fn many_by(call: ManyCall, pool: &[u32], rows: Texts) -> Result<usize, Error> {
    let (mut count, mut detail) = (0, 0);
    let number = call(
        rows.texts.as_ptr(),
        rows.texts.len(),
        rows.text_ends.as_ptr(),
        rows.text_ends.len(),
        pool.as_ptr(),
        pool.len(),
        rows.answers.as_mut_ptr(),
        rows.answers.len(),
        rows.out.as_mut_ptr(),
        rows.out.len(),
        rows.scratch.as_mut_ptr(),
        rows.scratch.len(),
        &mut count,
        &mut detail,
    );
    accepted(number, detail, count)
}

type PlantManyCall = unsafe extern "C" fn(
    *const u32,
    usize,
    *const u32,
    usize,
    *const u32,
    usize,
    bool,
    *mut u32,
    usize,
    *mut u32,
    usize,
    *mut u32,
    usize,
    &mut usize,
    &mut usize,
) -> u32;

/// # Safety
///
/// The call is one of a plant's calls with many texts of the header.
unsafe fn plant_many_by(call: PlantManyCall, pool: &[u32], plant_b: bool, rows: Texts) -> Result<usize, Error> {
    let (mut count, mut detail) = (0, 0);
    let number = call(
        rows.texts.as_ptr(),
        rows.texts.len(),
        rows.text_ends.as_ptr(),
        rows.text_ends.len(),
        pool.as_ptr(),
        pool.len(),
        plant_b,
        rows.answers.as_mut_ptr(),
        rows.answers.len(),
        rows.out.as_mut_ptr(),
        rows.out.len(),
        rows.scratch.as_mut_ptr(),
        rows.scratch.len(),
        &mut count,
        &mut detail,
    );
    accepted(number, detail, count)
}
