//! What a row of a read text says.

use reader::Form;

/// A value of a read text, by its row.
#[derive(Clone, Copy)]
pub struct Row<'a> {
    form: &'a Form,
    pub number: usize,
}

pub enum Content<'a> {
    Null,
    Boolean(bool),
    Integer(i64),
    String(&'a [u8]),
    Array,
    Object,
}

impl<'a> Row<'a> {
    pub fn root(form: &'a Form) -> Row<'a> {
        Row { form, number: 0 }
    }

    fn fields(&self) -> [u32; 4] {
        self.form.rows[self.number]
    }

    fn bytes(&self, start: u32, length: u32) -> &'a [u8] {
        &self.form.strings[start as usize..][..length as usize]
    }

    pub fn content(&self) -> Content<'a> {
        let [kind, _, third, fourth] = self.fields();
        match kind % 256 {
            1 => Content::Null,
            2 => Content::Boolean(false),
            3 => Content::Boolean(true),
            4 => Content::Integer(i64::from(third) + (i64::from(fourth) << 32) - (1 << 53)),
            5 => Content::String(self.bytes(third, fourth)),
            6 => Content::Array,
            _ => Content::Object,
        }
    }

    pub fn is_container(&self) -> bool {
        matches!(self.content(), Content::Array | Content::Object)
    }

    /// Its name, if it is a member's content.
    pub fn name(&self) -> &'a [u8] {
        let [first, start, _, _] = self.fields();
        self.bytes(start, first / 256)
    }

    /// The items of an array, or the contents of an object's members; of a scalar, nothing.
    pub fn parts(&self) -> impl Iterator<Item = Row<'a>> {
        let [_, _, third, _] = self.fields();
        let count = if self.is_container() { third } else { 0 };
        let first = Row { form: self.form, number: self.number + 1 };
        std::iter::successors(Some(first), |part| Some(part.after())).take(count as usize)
    }

    /// The row after it and all that it holds.
    fn after(&self) -> Row<'a> {
        let [_, _, _, end] = self.fields();
        Row { form: self.form, number: if self.is_container() { end as usize } else { self.number + 1 } }
    }
}
