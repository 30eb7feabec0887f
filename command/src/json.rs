//! JSON objects, one a line.

/// An object that is being written.
pub struct Object(String);

impl Object {
    pub fn new() -> Object {
        Object("{".into())
    }

    /// Adds a number, `true` or `false`.
    pub fn plain(mut self, name: &str, value: impl ToString) -> Object {
        self.name(name);
        self.0 += &value.to_string();
        self
    }

    /// Adds a text.
    pub fn text(mut self, name: &str, value: &str) -> Object {
        self.name(name);
        quote(&mut self.0, value);
        self
    }

    fn name(&mut self, name: &str) {
        if self.0.len() > 1 {
            self.0.push(',');
        }
        quote(&mut self.0, name);
        self.0.push(':');
    }

    /// The whole object.
    pub fn end(self) -> String {
        self.0 + "}"
    }
}

fn quote(to: &mut String, text: &str) {
    to.push('"');
    for c in text.chars() {
        match c {
            '"' => to.push_str("\\\""),
            '\\' => to.push_str("\\\\"),
            c if c < ' ' || c == '\u{7f}' => to.push_str(&format!("\\u{:04x}", c as u32)),
            c => to.push(c),
        }
    }
    to.push('"');
}
