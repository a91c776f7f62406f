//! The independent reader behind C functions. Each gives the refusal's number, 0 where it accepts.
use std::hint::black_box;
use std::slice::from_raw_parts;

fn number<T>(answer: Result<T, reference::Refusal>) -> u8 {
    match &answer {
        Ok(value) => {
            black_box(value);
            0
        }
        Err(refusal) => refusal.number,
    }
}

/// # Safety
/// `bytes` points to `len` bytes.
#[no_mangle]
pub unsafe extern "C" fn reference_open(bytes: *const u8, len: usize, edition: usize) -> u8 {
    number(reference::open(from_raw_parts(bytes, len), edition))
}

/// # Safety
/// `bytes` points to `len` bytes.
#[no_mangle]
pub unsafe extern "C" fn reference_table(bytes: *const u8, len: usize) -> u8 {
    number(reference::table(from_raw_parts(bytes, len)))
}

/// # Safety
/// `bytes` points to `len` bytes.
#[no_mangle]
pub unsafe extern "C" fn reference_string(bytes: *const u8, len: usize, edition: usize, i: usize) -> u8 {
    number(reference::open(from_raw_parts(bytes, len), edition).and_then(|opening| opening.string(i)))
}

/// # Safety
/// `bytes` points to `len` bytes; `part` is below 3.
#[no_mangle]
pub unsafe extern "C" fn reference_signature(bytes: *const u8, len: usize, edition: usize, part: u32) -> u8 {
    let part = reference::SignaturePart::ALL[part as usize];
    number(reference::signature_report(from_raw_parts(bytes, len), edition, part))
}

/// # Safety
/// `bytes` points to `len` bytes; `part` is below 3; `found`, where it isn't null, to what is 1 where an element differs.
#[no_mangle]
pub unsafe extern "C" fn reference_difference(
    bytes: *const u8,
    len: usize,
    edition: usize,
    part: u32,
    found: *mut usize,
) -> u8 {
    let part = reference::SignaturePart::ALL[part as usize];
    let first = reference::first_difference(from_raw_parts(bytes, len), edition, part);
    if !found.is_null() {
        *found = usize::from(matches!(first, Ok(Some(_))));
    }
    number(first)
}

/// # Safety
/// `bytes` points to `len` bytes.
#[no_mangle]
pub unsafe extern "C" fn reference_root(bytes: *const u8, len: usize, edition: usize) -> u8 {
    number(reference::root_report(from_raw_parts(bytes, len), edition))
}

/// # Safety
/// `sections` points to 6 pointers and `lengths` to the 6 lengths of what they point to; `out` to `out_len` bytes.
#[no_mangle]
pub unsafe extern "C" fn reference_write_psv0(
    edition: usize,
    sections: *const *const u8,
    lengths: *const usize,
    out: *mut u8,
    out_len: usize,
) -> u8 {
    let s = |k: usize| from_raw_parts(*sections.add(k), *lengths.add(k));
    let out = std::slice::from_raw_parts_mut(out, out_len);
    number(reference::write_psv0(edition, s(0), s(1), s(2), s(3), s(4), s(5), out))
}

/// # Safety
/// `names` points to 4 bytes a part, `sizes` to `parts` numbers, `data` to `data_len` bytes, `digest` to 16, `out` to `out_len`.
#[no_mangle]
pub unsafe extern "C" fn reference_assemble(
    names: *const u8,
    sizes: *const u32,
    parts: usize,
    data: *const u8,
    data_len: usize,
    digest: *const u8,
    out: *mut u8,
    out_len: usize,
) -> u8 {
    let out = std::slice::from_raw_parts_mut(out, out_len);
    number(reference::assemble(
        from_raw_parts(names, 4 * parts),
        from_raw_parts(sizes, parts),
        from_raw_parts(data, data_len),
        from_raw_parts(digest, 16),
        out,
    ))
}

/// # Safety
/// `bytes` points to `len` bytes.
#[no_mangle]
pub unsafe extern "C" fn reference_settings(bytes: *const u8, len: usize) -> u8 {
    number(reference::settings(from_raw_parts(bytes, len)))
}

/// # Safety
/// `bytes` points to `len` bytes.
#[no_mangle]
pub unsafe extern "C" fn reference_settings_value(bytes: *const u8, len: usize, key: u32, version: u32) -> u8 {
    number(reference::settings(from_raw_parts(bytes, len)).map(|settings| settings.value(key, version)))
}

/// # Safety
/// `rows` points to `rows_len` numbers, `out` to `out_len` bytes.
#[no_mangle]
pub unsafe extern "C" fn reference_write_settings(rows: *const u32, rows_len: usize, out: *mut u8, out_len: usize) -> u8 {
    let out = std::slice::from_raw_parts_mut(out, out_len);
    number(reference::write_settings(from_raw_parts(rows, rows_len), out))
}

/// Figures at an edition, which are kept to the end.
#[no_mangle]
pub extern "C" fn reference_figures_start(edition: usize) -> *mut reference::Figures {
    Box::into_raw(Box::new(reference::Figures::start(edition)))
}

/// # Safety
/// `figures` are those of `reference_figures_start`; `bytes` points to `len` bytes.
#[no_mangle]
pub unsafe extern "C" fn reference_figures_add(figures: *mut reference::Figures, bytes: *const u8, len: usize) -> u8 {
    match (*figures).add(from_raw_parts(bytes, len)) {
        reference::Added::Counted(verdict) => number(verdict),
        // Started again, so that every call but this one opens.
        reference::Added::Full => {
            *figures = reference::Figures::start((*figures).edition);
            0
        }
    }
}
