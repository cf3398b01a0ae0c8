//! Puts text into a page, between two marks.

/// The two lines between which a part of a page stands.
pub struct Marks(&'static str, &'static str);

/// The tables of times, and the one of the stack.
pub const TABLES: Marks = Marks("<!-- measured -->", "<!-- end of measured -->");
pub const STACK: Marks = Marks("<!-- stack -->", "<!-- end of stack -->");

impl Marks {
    /// The page with a text between the marks, if it has them.
    pub fn put(&self, page: &str, text: &str) -> Option<String> {
        let Marks(begin, end) = self;
        let (head, rest) = page.split_once(begin)?;
        let (_, tail) = rest.split_once(end)?;
        Some(format!("{head}{begin}\n{text}{end}{tail}"))
    }
}
