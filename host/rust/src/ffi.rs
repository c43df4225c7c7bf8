//! The functions of ../include/fetlockice.h, and safe calls of them: a slice is a row of the length that it has, and Rust's
//! borrowing keeps the caller's duties.
use crate::error::{accepted, Error};
use crate::Mode;

pub mod many;

extern "C" {
    fn fetlockice_decode(
        bytes: *const u8,
        bytes_len: usize,
        out: *mut u32,
        out_len: usize,
        positions: *mut u32,
        positions_len: usize,
        count: &mut usize,
        detail: &mut usize,
    ) -> u32;
    fn fetlockice_end_in_bytes(
        positions: *const u32,
        positions_len: usize,
        n: usize,
        end: usize,
        found: &mut usize,
        at: &mut usize,
    ) -> u32;
    fn fetlockice_clusters(
        text: *const u32,
        text_len: usize,
        out: *mut u32,
        out_len: usize,
        count: &mut usize,
        detail: &mut usize,
    ) -> u32;
    fn fetlockice_winners(
        text: *const u32,
        text_len: usize,
        ends: *mut u32,
        ends_len: usize,
        winners: *mut u32,
        winners_len: usize,
        count: &mut usize,
        detail: &mut usize,
    ) -> u32;
    fn fetlockice_fresh(pool: *mut u32, pool_len: usize, count: &mut usize, detail: &mut usize) -> u32;
    fn fetlockice_add(
        pool: *mut u32,
        pool_len: usize,
        word: *const u32,
        word_len: usize,
        count: &mut usize,
        detail: &mut usize,
    ) -> u32;
    fn fetlockice_add_class(
        pool: *mut u32,
        pool_len: usize,
        word: *const u32,
        word_len: usize,
        word_class: u16,
        count: &mut usize,
        detail: &mut usize,
    ) -> u32;
    fn fetlockice_remove(
        pool: *mut u32,
        pool_len: usize,
        word: *const u32,
        word_len: usize,
        count: &mut usize,
        detail: &mut usize,
    ) -> u32;
    fn fetlockice_contains(
        pool: *const u32,
        pool_len: usize,
        word: *const u32,
        word_len: usize,
        count: &mut usize,
        detail: &mut usize,
    ) -> u32;
    fn fetlockice_contains_class(
        pool: *const u32,
        pool_len: usize,
        word: *const u32,
        word_len: usize,
        count: &mut usize,
        word_class: &mut usize,
        detail: &mut usize,
    ) -> u32;
    fn fetlockice_prefix_lengths(
        pool: *const u32,
        pool_len: usize,
        text: *const u32,
        text_len: usize,
        out: *mut u32,
        out_len: usize,
        count: &mut usize,
        detail: &mut usize,
    ) -> u32;
    fn fetlockice_word_count(pool: *const u32, pool_len: usize, count: &mut usize, detail: &mut usize) -> u32;
    fn fetlockice_read_image(
        pool: *mut u32,
        pool_len: usize,
        image: *const u8,
        image_len: usize,
        count: &mut usize,
        detail: &mut usize,
    ) -> u32;
    fn fetlockice_write_image(
        pool: *const u32,
        pool_len: usize,
        out: *mut u8,
        out_len: usize,
        count: &mut usize,
        detail: &mut usize,
    ) -> u32;
    fn fetlockice_cut_plain(
        text: *const u32,
        text_len: usize,
        pool: *const u32,
        pool_len: usize,
        out: *mut u32,
        out_len: usize,
        scratch: *mut u32,
        scratch_len: usize,
        count: &mut usize,
        edges: &mut usize,
        detail: &mut usize,
    ) -> u32;
    fn fetlockice_cut_safe(
        text: *const u32,
        text_len: usize,
        pool: *const u32,
        pool_len: usize,
        out: *mut u32,
        out_len: usize,
        scratch: *mut u32,
        scratch_len: usize,
        count: &mut usize,
        edges: &mut usize,
        detail: &mut usize,
    ) -> u32;
    fn fetlockice_cut_sheet(
        text: *const u32,
        text_len: usize,
        pool: *const u32,
        pool_len: usize,
        out: *mut u32,
        out_len: usize,
        scratch: *mut u32,
        scratch_len: usize,
        count: &mut usize,
        edges: &mut usize,
        detail: &mut usize,
    ) -> u32;
    fn fetlockice_reasons_plain(
        text: *const u32,
        text_len: usize,
        pool: *const u32,
        pool_len: usize,
        pairs: *mut u32,
        pairs_len: usize,
        scratch: *mut u32,
        scratch_len: usize,
        count: &mut usize,
        edges: &mut usize,
        detail: &mut usize,
    ) -> u32;
    fn fetlockice_reasons_safe(
        text: *const u32,
        text_len: usize,
        pool: *const u32,
        pool_len: usize,
        pairs: *mut u32,
        pairs_len: usize,
        scratch: *mut u32,
        scratch_len: usize,
        count: &mut usize,
        edges: &mut usize,
        detail: &mut usize,
    ) -> u32;
    fn fetlockice_reasons_sheet(
        text: *const u32,
        text_len: usize,
        pool: *const u32,
        pool_len: usize,
        pairs: *mut u32,
        pairs_len: usize,
        scratch: *mut u32,
        scratch_len: usize,
        count: &mut usize,
        edges: &mut usize,
        detail: &mut usize,
    ) -> u32;
    fn fetlockice_feed_plain(
        figures: &mut [u64; 16],
        text: *const u32,
        text_len: usize,
        pool: *const u32,
        pool_len: usize,
        pairs: *mut u32,
        pairs_len: usize,
        scratch: *mut u32,
        scratch_len: usize,
        count: &mut usize,
        edges: &mut usize,
        detail: &mut usize,
    ) -> u32;
    fn fetlockice_feed_safe(
        figures: &mut [u64; 16],
        text: *const u32,
        text_len: usize,
        pool: *const u32,
        pool_len: usize,
        pairs: *mut u32,
        pairs_len: usize,
        scratch: *mut u32,
        scratch_len: usize,
        count: &mut usize,
        edges: &mut usize,
        detail: &mut usize,
    ) -> u32;
    fn fetlockice_feed_sheet(
        figures: &mut [u64; 16],
        text: *const u32,
        text_len: usize,
        pool: *const u32,
        pool_len: usize,
        pairs: *mut u32,
        pairs_len: usize,
        scratch: *mut u32,
        scratch_len: usize,
        count: &mut usize,
        edges: &mut usize,
        detail: &mut usize,
    ) -> u32;
    fn fetlockice_feed_refused(figures: &mut [u64; 16], number: u32, detail: &mut usize) -> u32;
    fn fetlockice_join_figures(figures: &mut [u64; 16], more: &[u64; 16], detail: &mut usize) -> u32;
    fn fetlockice_check_claim(
        text: *const u32,
        text_len: usize,
        pool: *const u32,
        pool_len: usize,
        claim: *const u32,
        claim_len: usize,
        scratch: *mut u32,
        scratch_len: usize,
        right: &mut usize,
        token: &mut usize,
        detail: &mut usize,
    ) -> u32;
    fn fetlockice_break_map(
        n: usize,
        ends: *const u32,
        ends_len: usize,
        map: *mut u64,
        map_len: usize,
        count: &mut usize,
        detail: &mut usize,
    ) -> u32;
    fn fetlockice_breaks_up_to(
        n: usize,
        map: *const u64,
        map_len: usize,
        position: usize,
        count: &mut usize,
        detail: &mut usize,
    ) -> u32;
    fn fetlockice_next_break(
        n: usize,
        map: *const u64,
        map_len: usize,
        position: usize,
        found: &mut usize,
        at: &mut usize,
        detail: &mut usize,
    ) -> u32;
    fn fetlockice_plants_start(
        pool: *mut u32,
        pool_len: usize,
        limit_a: usize,
        limit_b: usize,
        count: &mut usize,
        detail: &mut usize,
    ) -> u32;
    fn fetlockice_plant_add(
        pool: *mut u32,
        pool_len: usize,
        plant_b: bool,
        word: *const u32,
        word_len: usize,
        word_class: u16,
        count: &mut usize,
        detail: &mut usize,
    ) -> u32;
    fn fetlockice_plant_remove(
        pool: *mut u32,
        pool_len: usize,
        plant_b: bool,
        word: *const u32,
        word_len: usize,
        count: &mut usize,
        detail: &mut usize,
    ) -> u32;
    fn fetlockice_plant_contains(
        pool: *const u32,
        pool_len: usize,
        plant_b: bool,
        word: *const u32,
        word_len: usize,
        count: &mut usize,
        word_class: &mut usize,
        detail: &mut usize,
    ) -> u32;
    fn fetlockice_plant_prefix_lengths(
        pool: *const u32,
        pool_len: usize,
        plant_b: bool,
        text: *const u32,
        text_len: usize,
        out: *mut u32,
        out_len: usize,
        count: &mut usize,
        detail: &mut usize,
    ) -> u32;
    fn fetlockice_plant_word_count(
        pool: *const u32,
        pool_len: usize,
        plant_b: bool,
        count: &mut usize,
        detail: &mut usize,
    ) -> u32;
    fn fetlockice_plant_cut_plain(
        text: *const u32,
        text_len: usize,
        pool: *const u32,
        pool_len: usize,
        plant_b: bool,
        out: *mut u32,
        out_len: usize,
        scratch: *mut u32,
        scratch_len: usize,
        count: &mut usize,
        edges: &mut usize,
        detail: &mut usize,
    ) -> u32;
    fn fetlockice_plant_cut_safe(
        text: *const u32,
        text_len: usize,
        pool: *const u32,
        pool_len: usize,
        plant_b: bool,
        out: *mut u32,
        out_len: usize,
        scratch: *mut u32,
        scratch_len: usize,
        count: &mut usize,
        edges: &mut usize,
        detail: &mut usize,
    ) -> u32;
    fn fetlockice_plant_cut_sheet(
        text: *const u32,
        text_len: usize,
        pool: *const u32,
        pool_len: usize,
        plant_b: bool,
        out: *mut u32,
        out_len: usize,
        scratch: *mut u32,
        scratch_len: usize,
        count: &mut usize,
        edges: &mut usize,
        detail: &mut usize,
    ) -> u32;
    fn fetlockice_plant_reasons_plain(
        text: *const u32,
        text_len: usize,
        pool: *const u32,
        pool_len: usize,
        plant_b: bool,
        pairs: *mut u32,
        pairs_len: usize,
        scratch: *mut u32,
        scratch_len: usize,
        count: &mut usize,
        edges: &mut usize,
        detail: &mut usize,
    ) -> u32;
    fn fetlockice_plant_reasons_safe(
        text: *const u32,
        text_len: usize,
        pool: *const u32,
        pool_len: usize,
        plant_b: bool,
        pairs: *mut u32,
        pairs_len: usize,
        scratch: *mut u32,
        scratch_len: usize,
        count: &mut usize,
        edges: &mut usize,
        detail: &mut usize,
    ) -> u32;
    fn fetlockice_plant_reasons_sheet(
        text: *const u32,
        text_len: usize,
        pool: *const u32,
        pool_len: usize,
        plant_b: bool,
        pairs: *mut u32,
        pairs_len: usize,
        scratch: *mut u32,
        scratch_len: usize,
        count: &mut usize,
        edges: &mut usize,
        detail: &mut usize,
    ) -> u32;
    fn fetlockice_plant_read_image(
        pool: *mut u32,
        pool_len: usize,
        plant_b: bool,
        image: *const u8,
        image_len: usize,
        count: &mut usize,
        detail: &mut usize,
    ) -> u32;
    fn fetlockice_plant_write_image(
        pool: *const u32,
        pool_len: usize,
        plant_b: bool,
        out: *mut u8,
        out_len: usize,
        count: &mut usize,
        detail: &mut usize,
    ) -> u32;
}

pub fn decode(bytes: &[u8], out: &mut [u32], positions: &mut [u32]) -> Result<usize, Error> {
    let (mut count, mut detail) = (0, 0);
    let number = unsafe {
        fetlockice_decode(
            bytes.as_ptr(),
            bytes.len(),
            out.as_mut_ptr(),
            out.len(),
            positions.as_mut_ptr(),
            positions.len(),
            &mut count,
            &mut detail,
        )
    };
    accepted(number, detail, count)
}

/// An end in bytes, of a text of n characters with that position row. The call is never refused.
pub fn end_in_bytes(positions: &[u32], n: usize, end: usize) -> Option<usize> {
    let (mut found, mut at) = (0, 0);
    unsafe { fetlockice_end_in_bytes(positions.as_ptr(), positions.len(), n, end, &mut found, &mut at) };
    (found == 1).then_some(at)
}

pub fn clusters(text: &[u32], out: &mut [u32]) -> Result<usize, Error> {
    let (mut count, mut detail) = (0, 0);
    let number =
        unsafe { fetlockice_clusters(text.as_ptr(), text.len(), out.as_mut_ptr(), out.len(), &mut count, &mut detail) };
    accepted(number, detail, count)
}

pub fn winners(text: &[u32], ends: &mut [u32], winners: &mut [u32]) -> Result<usize, Error> {
    let (mut count, mut detail) = (0, 0);
    let number = unsafe {
        fetlockice_winners(
            text.as_ptr(),
            text.len(),
            ends.as_mut_ptr(),
            ends.len(),
            winners.as_mut_ptr(),
            winners.len(),
            &mut count,
            &mut detail,
        )
    };
    accepted(number, detail, count)
}

pub fn fresh(pool: &mut [u32]) -> Result<usize, Error> {
    let (mut count, mut detail) = (0, 0);
    let number = unsafe { fetlockice_fresh(pool.as_mut_ptr(), pool.len(), &mut count, &mut detail) };
    accepted(number, detail, count)
}

pub fn add(pool: &mut [u32], word: &[u32]) -> Result<usize, Error> {
    let (mut count, mut detail) = (0, 0);
    let number =
        unsafe { fetlockice_add(pool.as_mut_ptr(), pool.len(), word.as_ptr(), word.len(), &mut count, &mut detail) };
    accepted(number, detail, count)
}

pub fn add_class(pool: &mut [u32], word: &[u32], class: u16) -> Result<usize, Error> {
    let (mut count, mut detail) = (0, 0);
    let number = unsafe {
        fetlockice_add_class(pool.as_mut_ptr(), pool.len(), word.as_ptr(), word.len(), class, &mut count, &mut detail)
    };
    accepted(number, detail, count)
}

pub fn remove(pool: &mut [u32], word: &[u32]) -> Result<usize, Error> {
    let (mut count, mut detail) = (0, 0);
    let number =
        unsafe { fetlockice_remove(pool.as_mut_ptr(), pool.len(), word.as_ptr(), word.len(), &mut count, &mut detail) };
    accepted(number, detail, count)
}

pub fn contains(pool: &[u32], word: &[u32]) -> Result<usize, Error> {
    let (mut count, mut detail) = (0, 0);
    let number =
        unsafe { fetlockice_contains(pool.as_ptr(), pool.len(), word.as_ptr(), word.len(), &mut count, &mut detail) };
    accepted(number, detail, count)
}

/// 1 if the word is held, else 0, and its class.
pub fn contains_class(pool: &[u32], word: &[u32]) -> Result<(usize, usize), Error> {
    let (mut count, mut class, mut detail) = (0, 0, 0);
    let number = unsafe {
        fetlockice_contains_class(
            pool.as_ptr(),
            pool.len(),
            word.as_ptr(),
            word.len(),
            &mut count,
            &mut class,
            &mut detail,
        )
    };
    accepted(number, detail, (count, class))
}

pub fn prefix_lengths(pool: &[u32], text: &[u32], out: &mut [u32]) -> Result<usize, Error> {
    let (mut count, mut detail) = (0, 0);
    let number = unsafe {
        fetlockice_prefix_lengths(
            pool.as_ptr(),
            pool.len(),
            text.as_ptr(),
            text.len(),
            out.as_mut_ptr(),
            out.len(),
            &mut count,
            &mut detail,
        )
    };
    accepted(number, detail, count)
}

pub fn word_count(pool: &[u32]) -> Result<usize, Error> {
    let (mut count, mut detail) = (0, 0);
    let number = unsafe { fetlockice_word_count(pool.as_ptr(), pool.len(), &mut count, &mut detail) };
    accepted(number, detail, count)
}

/// The number of words.
pub fn read_image(pool: &mut [u32], image: &[u8]) -> Result<usize, Error> {
    let (mut count, mut detail) = (0, 0);
    let number = unsafe {
        fetlockice_read_image(pool.as_mut_ptr(), pool.len(), image.as_ptr(), image.len(), &mut count, &mut detail)
    };
    accepted(number, detail, count)
}

/// The number of bytes.
pub fn write_image(pool: &[u32], out: &mut [u8]) -> Result<usize, Error> {
    let (mut count, mut detail) = (0, 0);
    let number = unsafe {
        fetlockice_write_image(pool.as_ptr(), pool.len(), out.as_mut_ptr(), out.len(), &mut count, &mut detail)
    };
    accepted(number, detail, count)
}

/// The number of ends, and of edges.
pub fn cut(
    mode: Mode,
    text: &[u32],
    pool: &[u32],
    out: &mut [u32],
    scratch: &mut [u32],
) -> Result<(usize, usize), Error> {
    let call = match mode {
        Mode::Plain => fetlockice_cut_plain,
        Mode::Safe => fetlockice_cut_safe,
        Mode::Sheet => fetlockice_cut_sheet,
    };
    unsafe { cut_by(call, text, pool, out, scratch) }
}

/// The number of pairs, and of edges.
pub fn reasons(
    mode: Mode,
    text: &[u32],
    pool: &[u32],
    pairs: &mut [u32],
    scratch: &mut [u32],
) -> Result<(usize, usize), Error> {
    let call = match mode {
        Mode::Plain => fetlockice_reasons_plain,
        Mode::Safe => fetlockice_reasons_safe,
        Mode::Sheet => fetlockice_reasons_sheet,
    };
    unsafe { cut_by(call, text, pool, pairs, scratch) }
}

type CutCall = unsafe extern "C" fn(
    *const u32,
    usize,
    *const u32,
    usize,
    *mut u32,
    usize,
    *mut u32,
    usize,
    &mut usize,
    &mut usize,
    &mut usize,
) -> u32;

/// # Safety
///
/// The call is one of the cuts of the header.
unsafe fn cut_by(
    call: CutCall,
    text: &[u32],
    pool: &[u32],
    out: &mut [u32],
    scratch: &mut [u32],
) -> Result<(usize, usize), Error> {
    let (mut count, mut edges, mut detail) = (0, 0, 0);
    let number = call(
        text.as_ptr(),
        text.len(),
        pool.as_ptr(),
        pool.len(),
        out.as_mut_ptr(),
        out.len(),
        scratch.as_mut_ptr(),
        scratch.len(),
        &mut count,
        &mut edges,
        &mut detail,
    );
    accepted(number, detail, (count, edges))
}

/// The rows of a text that is fed.
pub struct Fed<'r> {
    pub text: &'r [u32],
    pub pool: &'r [u32],
    pub pairs: &'r mut [u32],
    pub scratch: &'r mut [u32],
}

/// The number of pairs, and of edges.
pub fn feed(mode: Mode, figures: &mut [u64; 16], rows: Fed) -> Result<(usize, usize), Error> {
    let call = match mode {
        Mode::Plain => fetlockice_feed_plain,
        Mode::Safe => fetlockice_feed_safe,
        Mode::Sheet => fetlockice_feed_sheet,
    };
    let (mut count, mut edges, mut detail) = (0, 0, 0);
    let number = unsafe {
        call(
            figures,
            rows.text.as_ptr(),
            rows.text.len(),
            rows.pool.as_ptr(),
            rows.pool.len(),
            rows.pairs.as_mut_ptr(),
            rows.pairs.len(),
            rows.scratch.as_mut_ptr(),
            rows.scratch.len(),
            &mut count,
            &mut edges,
            &mut detail,
        )
    };
    accepted(number, detail, (count, edges))
}

pub fn feed_refused(figures: &mut [u64; 16], refused: u32) -> Result<(), Error> {
    let mut detail = 0;
    let number = unsafe { fetlockice_feed_refused(figures, refused, &mut detail) };
    accepted(number, detail, ())
}

pub fn join_figures(figures: &mut [u64; 16], more: &[u64; 16]) -> Result<(), Error> {
    let mut detail = 0;
    let number = unsafe { fetlockice_join_figures(figures, more, &mut detail) };
    accepted(number, detail, ())
}

/// Whether the claim is right, and the first token that is wrong.
pub fn check_claim(text: &[u32], pool: &[u32], claim: &[u32], scratch: &mut [u32]) -> Result<(bool, usize), Error> {
    let (mut right, mut token, mut detail) = (0, 0, 0);
    let number = unsafe {
        fetlockice_check_claim(
            text.as_ptr(),
            text.len(),
            pool.as_ptr(),
            pool.len(),
            claim.as_ptr(),
            claim.len(),
            scratch.as_mut_ptr(),
            scratch.len(),
            &mut right,
            &mut token,
            &mut detail,
        )
    };
    accepted(number, detail, (right == 1, token))
}

/// The cells that the map takes.
pub fn break_map(n: usize, ends: &[u32], map: &mut [u64]) -> Result<usize, Error> {
    let (mut count, mut detail) = (0, 0);
    let number = unsafe {
        fetlockice_break_map(n, ends.as_ptr(), ends.len(), map.as_mut_ptr(), map.len(), &mut count, &mut detail)
    };
    accepted(number, detail, count)
}

pub fn breaks_up_to(n: usize, map: &[u64], position: usize) -> Result<usize, Error> {
    let (mut count, mut detail) = (0, 0);
    let number = unsafe { fetlockice_breaks_up_to(n, map.as_ptr(), map.len(), position, &mut count, &mut detail) };
    accepted(number, detail, count)
}

pub fn next_break(n: usize, map: &[u64], position: usize) -> Result<Option<usize>, Error> {
    let (mut found, mut at, mut detail) = (0, 0, 0);
    let number =
        unsafe { fetlockice_next_break(n, map.as_ptr(), map.len(), position, &mut found, &mut at, &mut detail) };
    accepted(number, detail, (found == 1).then_some(at))
}

pub fn plants_start(pool: &mut [u32], limit_a: usize, limit_b: usize) -> Result<usize, Error> {
    let (mut count, mut detail) = (0, 0);
    let number =
        unsafe { fetlockice_plants_start(pool.as_mut_ptr(), pool.len(), limit_a, limit_b, &mut count, &mut detail) };
    accepted(number, detail, count)
}

pub fn plant_add(pool: &mut [u32], plant_b: bool, word: &[u32], class: u16) -> Result<usize, Error> {
    let (mut count, mut detail) = (0, 0);
    let number = unsafe {
        fetlockice_plant_add(
            pool.as_mut_ptr(),
            pool.len(),
            plant_b,
            word.as_ptr(),
            word.len(),
            class,
            &mut count,
            &mut detail,
        )
    };
    accepted(number, detail, count)
}

pub fn plant_remove(pool: &mut [u32], plant_b: bool, word: &[u32]) -> Result<usize, Error> {
    let (mut count, mut detail) = (0, 0);
    let number = unsafe {
        fetlockice_plant_remove(
            pool.as_mut_ptr(),
            pool.len(),
            plant_b,
            word.as_ptr(),
            word.len(),
            &mut count,
            &mut detail,
        )
    };
    accepted(number, detail, count)
}

/// 1 if the plant holds the word, else 0, and its class.
pub fn plant_contains(pool: &[u32], plant_b: bool, word: &[u32]) -> Result<(usize, usize), Error> {
    let (mut count, mut class, mut detail) = (0, 0, 0);
    let number = unsafe {
        fetlockice_plant_contains(
            pool.as_ptr(),
            pool.len(),
            plant_b,
            word.as_ptr(),
            word.len(),
            &mut count,
            &mut class,
            &mut detail,
        )
    };
    accepted(number, detail, (count, class))
}

pub fn plant_prefix_lengths(pool: &[u32], plant_b: bool, text: &[u32], out: &mut [u32]) -> Result<usize, Error> {
    let (mut count, mut detail) = (0, 0);
    let number = unsafe {
        fetlockice_plant_prefix_lengths(
            pool.as_ptr(),
            pool.len(),
            plant_b,
            text.as_ptr(),
            text.len(),
            out.as_mut_ptr(),
            out.len(),
            &mut count,
            &mut detail,
        )
    };
    accepted(number, detail, count)
}

pub fn plant_word_count(pool: &[u32], plant_b: bool) -> Result<usize, Error> {
    let (mut count, mut detail) = (0, 0);
    let number = unsafe { fetlockice_plant_word_count(pool.as_ptr(), pool.len(), plant_b, &mut count, &mut detail) };
    accepted(number, detail, count)
}

/// The number of words.
pub fn plant_read_image(pool: &mut [u32], plant_b: bool, image: &[u8]) -> Result<usize, Error> {
    let (mut count, mut detail) = (0, 0);
    let number = unsafe {
        fetlockice_plant_read_image(
            pool.as_mut_ptr(),
            pool.len(),
            plant_b,
            image.as_ptr(),
            image.len(),
            &mut count,
            &mut detail,
        )
    };
    accepted(number, detail, count)
}

/// The number of bytes.
pub fn plant_write_image(pool: &[u32], plant_b: bool, out: &mut [u8]) -> Result<usize, Error> {
    let (mut count, mut detail) = (0, 0);
    let number = unsafe {
        fetlockice_plant_write_image(
            pool.as_ptr(),
            pool.len(),
            plant_b,
            out.as_mut_ptr(),
            out.len(),
            &mut count,
            &mut detail,
        )
    };
    accepted(number, detail, count)
}

/// The number of ends, and of edges.
pub fn plant_cut(
    mode: Mode,
    text: &[u32],
    pool: &[u32],
    plant_b: bool,
    out: &mut [u32],
    scratch: &mut [u32],
) -> Result<(usize, usize), Error> {
    let call = match mode {
        Mode::Plain => fetlockice_plant_cut_plain,
        Mode::Safe => fetlockice_plant_cut_safe,
        Mode::Sheet => fetlockice_plant_cut_sheet,
    };
    unsafe { plant_cut_by(call, text, pool, plant_b, out, scratch) }
}

/// The number of pairs, and of edges.
pub fn plant_reasons(
    mode: Mode,
    text: &[u32],
    pool: &[u32],
    plant_b: bool,
    pairs: &mut [u32],
    scratch: &mut [u32],
) -> Result<(usize, usize), Error> {
    let call = match mode {
        Mode::Plain => fetlockice_plant_reasons_plain,
        Mode::Safe => fetlockice_plant_reasons_safe,
        Mode::Sheet => fetlockice_plant_reasons_sheet,
    };
    unsafe { plant_cut_by(call, text, pool, plant_b, pairs, scratch) }
}

type PlantCutCall = unsafe extern "C" fn(
    *const u32,
    usize,
    *const u32,
    usize,
    bool,
    *mut u32,
    usize,
    *mut u32,
    usize,
    &mut usize,
    &mut usize,
    &mut usize,
) -> u32;

/// # Safety
///
/// The call is one of a plant's cuts of the header.
unsafe fn plant_cut_by(
    call: PlantCutCall,
    text: &[u32],
    pool: &[u32],
    plant_b: bool,
    out: &mut [u32],
    scratch: &mut [u32],
) -> Result<(usize, usize), Error> {
    let (mut count, mut edges, mut detail) = (0, 0, 0);
    let number = call(
        text.as_ptr(),
        text.len(),
        pool.as_ptr(),
        pool.len(),
        plant_b,
        out.as_mut_ptr(),
        out.len(),
        scratch.as_mut_ptr(),
        scratch.len(),
        &mut count,
        &mut edges,
        &mut detail,
    );
    accepted(number, detail, (count, edges))
}
