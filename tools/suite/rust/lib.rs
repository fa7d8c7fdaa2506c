//! Rust's crate regex, with or without its literal optimizations, as an engine of the suite.
use regex::bytes::{Regex, RegexBuilder, RegexSet, RegexSetBuilder};
use std::ffi::{c_char, c_int, c_void};
use std::{ptr, slice, str};

const SIZE_LIMIT: usize = 200 << 20;

#[repr(C)]
pub struct Work {
    patterns: usize,
    text: *const *const c_char,
    length: *const usize,
    unicode: c_int,
    set: c_int,
    groups: c_int,
}

#[repr(C)]
pub struct Total {
    count: u64,
    sum: u64,
}

#[repr(transparent)]
pub struct Name(*const c_char);

// SAFETY: it is never written.
unsafe impl Sync for Name {}

#[unsafe(no_mangle)]
pub static engine_name: Name = Name(if cfg!(feature = "literals") {
    c"rust".as_ptr()
} else {
    c"rust-nolit".as_ptr()
});

pub enum Engine {
    Regex(Regex),
    Set(RegexSet),
}

/// Returns the texts of a work.
///
/// # Safety
///
/// The pointers of the work are those of its texts, in UTF-8.
unsafe fn texts(work: &Work) -> Vec<&str> {
    let text = |i| unsafe {
        let start = *work.text.add(i) as *const u8;
        str::from_utf8(slice::from_raw_parts(start, *work.length.add(i))).expect("a pattern in UTF-8")
    };
    (0..work.patterns).map(text).collect()
}

fn build(texts: &[&str], unicode: bool, set: bool) -> Result<Engine, regex::Error> {
    if set {
        let mut builder = RegexSetBuilder::new(texts);
        return builder.unicode(unicode).size_limit(SIZE_LIMIT).build().map(Engine::Set);
    }
    let all: Vec<String> = texts.iter().map(|text| format!("(?:{text})")).collect();
    let mut builder = RegexBuilder::new(&all.join("|"));
    builder.unicode(unicode).size_limit(SIZE_LIMIT).build().map(Engine::Regex)
}

#[unsafe(no_mangle)]
pub unsafe extern "C" fn engine_new(work: &Work) -> *mut c_void {
    match build(&unsafe { texts(work) }, work.unicode != 0, work.set != 0) {
        Ok(engine) => Box::into_raw(Box::new(engine)).cast(),
        Err(_) => ptr::null_mut(),
    }
}

#[unsafe(no_mangle)]
pub unsafe extern "C" fn engine_free(engine: *mut c_void) {
    drop(unsafe { Box::from_raw(engine.cast::<Engine>()) });
}

#[unsafe(no_mangle)]
pub unsafe extern "C" fn engine_all(engine: &Engine, text: *const u8, length: usize, total: &mut Total) -> c_int {
    let Engine::Regex(regex) = engine else {
        return 1;
    };
    for found in regex.find_iter(unsafe { slice::from_raw_parts(text, length) }) {
        total.count += 1;
        total.sum += (found.end() - found.start()) as u64;
    }
    0
}

#[unsafe(no_mangle)]
pub unsafe extern "C" fn engine_groups(engine: &Engine, text: *const u8, length: usize, total: &mut Total) -> c_int {
    let Engine::Regex(regex) = engine else {
        return 1;
    };
    let text = unsafe { slice::from_raw_parts(text, length) };
    let mut groups = regex.capture_locations();
    let (mut at, mut last) = (0, None);
    while at <= length {
        let Some(found) = regex.captures_read_at(&mut groups, text, at) else {
            break;
        };
        if found.start() < found.end() || last != Some(found.end()) {
            for (start, end) in (0..groups.len()).filter_map(|group| groups.get(group)) {
                total.count += 1;
                total.sum += (end - start) as u64;
            }
        }
        last = Some(found.end());
        at = if found.start() == found.end() { found.end() + 1 } else { found.end() };
    }
    0
}

#[unsafe(no_mangle)]
pub unsafe extern "C" fn engine_is_match(engine: &Engine, text: *const u8, length: usize) -> c_int {
    let Engine::Regex(regex) = engine else {
        return -1;
    };
    regex.is_match(unsafe { slice::from_raw_parts(text, length) }).into()
}

#[unsafe(no_mangle)]
pub unsafe extern "C" fn engine_which(engine: &Engine, text: *const u8, length: usize, total: &mut Total) -> c_int {
    let Engine::Set(set) = engine else {
        return 1;
    };
    for pattern in &set.matches(unsafe { slice::from_raw_parts(text, length) }) {
        total.count += 1;
        total.sum += pattern as u64;
    }
    0
}
