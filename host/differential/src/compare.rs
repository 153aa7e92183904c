//! Calls the C entry that reads on areas full of noise, and holds answer, place and every byte to the independent
//! reader; and the C entries of the viewer.

use differential::view::{Entry, Viewer};
use harness::lend::{Comparer, Expected, Lent, Names, UNTOUCHED};
use reader::cases::Answer;
use reader::{Fault, Form, STRINGS_BYTES, TABLE_BYTES};

#[link(name = "jehvrukam", kind = "static")]
extern "C" {
    fn jehvrukam_read(
        text: *const u8,
        text_len: usize,
        table: *mut u8,
        table_len: usize,
        strings: *mut u8,
        strings_len: usize,
        place: *mut u64,
    ) -> u32;
    fn jehvrukam_view(table: *const u8, table_len: usize, place: u64, kind: *mut u64, count: *mut u64) -> u32;
    fn jehvrukam_view_part(table: *const u8, table_len: usize, place: u64, nth: u64, part: *mut u64) -> u32;
    fn jehvrukam_view_integer(table: *const u8, table_len: usize, place: u64, value: *mut i64) -> u32;
    fn jehvrukam_view_string(table: *const u8, table_len: usize, place: u64, start: *mut u64, length: *mut u64) -> u32;
    fn jehvrukam_view_name(table: *const u8, table_len: usize, place: u64, start: *mut u64, length: *mut u64) -> u32;
}

/// Of the table and the strings area.
pub const STATED: [usize; 2] = [TABLE_BYTES, STRINGS_BYTES];
const NAMES: Names = Names { areas: &["table", "strings"], numbers: &["place"] };

/// The answer of the last call.
pub fn answer(comparer: &Comparer) -> Answer<'_> {
    Answer {
        refusal: comparer.refusal(),
        place: comparer.number(0),
        table: comparer.area(0),
        strings: comparer.area(1),
    }
}

/// Calls the entry; says what differs from the independent reader's judgement of the text, if anything does.
pub fn compare(comparer: &mut Comparer, text: &[u8], judged: &Result<Form, Fault>, lent: &Lent) -> Option<String> {
    let is_short = lent.short(&STATED).next().is_some();
    let (refusal, place, table, strings) = match judged {
        _ if is_short => (UNTOUCHED, 0, Vec::new(), &[][..]),
        Ok(form) => (0, 0, form.row_bytes(), &form.strings[..]),
        Err(fault) => (fault.why.refusal(), fault.place as u64, Vec::new(), &[][..]),
    };
    let expected = Expected { refusal, numbers: vec![place], fronts: vec![&table, strings] };
    comparer.compare(&[text], lent, &expected, &NAMES, &mut |texts, areas, numbers| {
        let [table, strings]: [&mut [u8]; 2] = areas.try_into().unwrap();
        let [place]: [&mut u64; 1] = numbers.try_into().unwrap();
        // SAFETY: the text and the areas have these lengths, and all lie apart.
        unsafe {
            jehvrukam_read(
                texts[0].as_ptr(),
                texts[0].len(),
                table.as_mut_ptr(),
                table.len(),
                strings.as_mut_ptr(),
                strings.len(),
                place,
            )
        }
    })
}

/// The viewer of the library.
pub struct Library;

impl Viewer for Library {
    fn read(&mut self, text: &[u8], table: &mut [u8], strings: &mut [u8]) -> u32 {
        let (table_len, strings_len) = (table.len(), strings.len());
        let (table, strings) = (table.as_mut_ptr(), strings.as_mut_ptr());
        // SAFETY: the text and the areas have these lengths, and all lie apart.
        unsafe { jehvrukam_read(text.as_ptr(), text.len(), table, table_len, strings, strings_len, &mut 0) }
    }

    fn ask(&mut self, entry: Entry, table: &[u8], place: u64, nth: u64, [first, second]: [&mut u64; 2]) -> u32 {
        let (table, length) = (table.as_ptr(), table.len());
        // SAFETY: the table has this length, and the numbers lie apart from it and from each other.
        unsafe {
            match entry {
                Entry::View => jehvrukam_view(table, length, place, first, second),
                Entry::Part => jehvrukam_view_part(table, length, place, nth, first),
                Entry::Integer => jehvrukam_view_integer(table, length, place, (first as *mut u64).cast()),
                Entry::String => jehvrukam_view_string(table, length, place, first, second),
                Entry::Name => jehvrukam_view_name(table, length, place, first, second),
            }
        }
    }
}
