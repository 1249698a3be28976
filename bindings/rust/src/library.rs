//! The functions of `tocmark.h`.

use crate::error::{Error, Fault, Place};
use std::mem::size_of;

/// `struct tocmark_place`.
#[repr(C)]
struct PlaceInC {
    size: u32,
    event: usize,
    first_line: usize,
    last_line: usize,
}

impl PlaceInC {
    fn unknown() -> PlaceInC {
        PlaceInC {
            size: size_of::<PlaceInC>() as u32,
            event: 0,
            first_line: 0,
            last_line: 0,
        }
    }
}

/// `struct tocmark_style`.
#[repr(C)]
pub struct Style {
    pub size: u32,
    pub bullet: u32,
    pub delimiter: u32,
    pub numbering: u32,
    pub emphasis: u32,
    pub strong: u32,
    pub fence: u32,
    pub fence_length: u32,
    pub hard_break: u32,
    pub rule: u32,
    pub table_width: u32,
    pub wrap: u32,
    pub list_indent: u32,
    pub tables: u32,
}

impl Default for Style {
    fn default() -> Style {
        Style {
            size: size_of::<Style>() as u32,
            bullet: 0,
            delimiter: 0,
            numbering: 0,
            emphasis: 0,
            strong: 0,
            fence: 0,
            fence_length: 0,
            hard_break: 0,
            rule: 0,
            table_width: 0,
            wrap: 0,
            list_indent: 0,
            tables: 0,
        }
    }
}

extern "C" {
    fn tocmark_format_also(
        text: *const u8,
        text_len: usize,
        flags: u32,
        also: *const u32,
        also_len: usize,
        style: *const Style,
        out: *mut u8,
        out_len: usize,
    ) -> isize;

    fn tocmark_compare(
        old_text: *const u8,
        old_len: usize,
        new_text: *const u8,
        new_len: usize,
        flags: u32,
        allowed: u32,
        out: *mut u8,
        out_len: usize,
    ) -> isize;

    fn tocmark_read_json(
        text: *const u8,
        text_len: usize,
        flags: u32,
        out: *mut u8,
        out_len: usize,
    ) -> isize;

    fn tocmark_definitions(
        text: *const u8,
        text_len: usize,
        flags: u32,
        out: *mut u8,
        out_len: usize,
    ) -> isize;

    fn tocmark_write_packed_at(
        packed: *const u8,
        packed_len: usize,
        source: *const u8,
        source_len: usize,
        flags: u32,
        options: *const u8,
        options_len: usize,
        place: *mut PlaceInC,
        out: *mut u8,
        out_len: usize,
    ) -> isize;

    fn tocmark_redefine(
        json: *const u8,
        json_len: usize,
        source: *const u8,
        source_len: usize,
        flags: u32,
        place: *mut PlaceInC,
        out: *mut u8,
        out_len: usize,
    ) -> isize;

    fn tocmark_write_checked_at(
        json: *const u8,
        json_len: usize,
        source: *const u8,
        source_len: usize,
        flags: u32,
        options: *const u8,
        options_len: usize,
        place: *mut PlaceInC,
        out: *mut u8,
        out_len: usize,
    ) -> isize;

    fn tocmark_rewrite(
        json: *const u8,
        json_len: usize,
        source: *const u8,
        source_len: usize,
        flags: u32,
        options: *const u8,
        options_len: usize,
        place: *mut PlaceInC,
        out: *mut u8,
        out_len: usize,
    ) -> isize;
}

/// The text of a call, which returns how many bytes it takes or a negative code. It is called again if the buffer is too small.
fn text_of(room: usize, mut call: impl FnMut(&mut [u8]) -> isize) -> Result<String, isize> {
    let mut out = vec![0; room];
    loop {
        let size = call(&mut out);
        let length = usize::try_from(size).map_err(|_| size)?;
        if length <= out.len() {
            out.truncate(length);
            return Ok(String::from_utf8(out).expect("the library writes UTF-8"));
        }
        out.resize(length, 0);
    }
}

/// The JSON of a text's events with their ranges.
pub fn read(text: &str, flags: u32) -> Result<String, isize> {
    text_of(12 * text.len() + 4096, |out| {
        // A slice's pointer is never null, and `out` overlaps nothing that is read.
        unsafe {
            tocmark_read_json(
                text.as_ptr(),
                text.len(),
                flags,
                out.as_mut_ptr(),
                out.len(),
            )
        }
    })
}

/// The JSON of a text's definitions of links.
pub fn definitions(text: &str, flags: u32) -> Result<String, isize> {
    text_of(2 * text.len() + 256, |out| {
        // A slice's pointer is never null, and `out` overlaps nothing that is read.
        unsafe {
            tocmark_definitions(
                text.as_ptr(),
                text.len(),
                flags,
                out.as_mut_ptr(),
                out.len(),
            )
        }
    })
}

/// The source with the definitions of links that a JSON text gives. An error has its code, the number of a definition, and a line
/// of the source or 0.
pub fn redefine(json: &str, source: &str, flags: u32) -> Result<String, (isize, usize, usize)> {
    let mut place = PlaceInC::unknown();
    text_of(2 * source.len() + 1024, |out| {
        // A slice's pointer is never null, `place` is this function's own, and `out` overlaps nothing that is read.
        unsafe {
            tocmark_redefine(
                json.as_ptr(),
                json.len(),
                source.as_ptr(),
                source.len(),
                flags,
                &mut place,
                out.as_mut_ptr(),
                out.len(),
            )
        }
    })
    .map_err(|code| (code, place.event, place.first_line))
}

/// The text in this style.
pub fn format(text: &str, flags: u32, also: &[u32], style: &Style) -> Result<String, isize> {
    text_of(2 * text.len() + 256, |out| {
        // A slice's pointer is never null, and `out` overlaps nothing that is read.
        unsafe {
            tocmark_format_also(
                text.as_ptr(),
                text.len(),
                flags,
                also.as_ptr(),
                also.len(),
                style,
                out.as_mut_ptr(),
                out.len(),
            )
        }
    })
}

/// The JSON of what two texts say differently.
pub fn compare(old: &str, new: &str, flags: u32, allowed: u32) -> Result<String, isize> {
    text_of(4096, |out| {
        // A slice's pointer is never null, and `out` overlaps nothing that is read.
        unsafe {
            tocmark_compare(
                old.as_ptr(),
                old.len(),
                new.as_ptr(),
                new.len(),
                flags,
                allowed,
                out.as_mut_ptr(),
                out.len(),
            )
        }
    })
}

/// A function of the library that makes a text of events as JSON over a source.
type TextMaker = unsafe extern "C" fn(
    *const u8,
    usize,
    *const u8,
    usize,
    u32,
    *const u8,
    usize,
    *mut PlaceInC,
    *mut u8,
    usize,
) -> isize;

/// What these functions get. The events are packed for `write`, and else JSON.
pub struct Given<'g> {
    pub events: &'g [u8],
    pub source: &'g str,
    pub flags: u32,
    pub options: &'g str,
}

impl Given<'_> {
    /// The Markdown of the events.
    pub fn write(&self) -> Result<String, Error> {
        let mut place = PlaceInC::unknown();
        text_of(2 * self.events.len() + 1024, |out| {
            // A slice's pointer is never null, `place` is this function's own, and `out` overlaps nothing that is read.
            unsafe {
                tocmark_write_packed_at(
                    self.events.as_ptr(),
                    self.events.len(),
                    self.source.as_ptr(),
                    self.source.len(),
                    self.flags,
                    self.options.as_ptr(),
                    self.options.len(),
                    &mut place,
                    out.as_mut_ptr(),
                    out.len(),
                )
            }
        })
        .map_err(Error::from_code)
    }

    /// The Markdown of the events alone, which parses to just these events.
    pub fn write_checked(&self) -> Result<String, Fault> {
        self.made_by(tocmark_write_checked_at, 2 * self.events.len() + 1024)
    }

    /// The source, rewritten to the events.
    pub fn rewrite(&self) -> Result<String, Fault> {
        self.made_by(tocmark_rewrite, self.source.len() + 4096)
    }

    fn made_by(&self, make: TextMaker, room: usize) -> Result<String, Fault> {
        let mut place = PlaceInC::unknown();
        text_of(room, |out| {
            // A slice's pointer is never null, `place` is this function's own, and `out` overlaps nothing that is read.
            unsafe {
                make(
                    self.events.as_ptr(),
                    self.events.len(),
                    self.source.as_ptr(),
                    self.source.len(),
                    self.flags,
                    self.options.as_ptr(),
                    self.options.len(),
                    &mut place,
                    out.as_mut_ptr(),
                    out.len(),
                )
            }
        })
        .map_err(|code| {
            let lines = (place.first_line > 0).then_some((place.first_line, place.last_line));
            let event = place.event;
            Fault::from_code(code, Place { event, lines })
        })
    }
}
