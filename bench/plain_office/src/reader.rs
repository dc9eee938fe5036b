//! Reads the JSON text of a nomination, straight into what is wanted of it.

pub struct Reader<'a> {
    rest: &'a [u8],
}

impl<'a> Reader<'a> {
    pub fn of(bytes: &'a [u8]) -> Self {
        Reader { rest: bytes }
    }

    /// The next byte behind white space.
    fn peek(&mut self) -> Option<u8> {
        let blank = |byte: &&u8| matches!(**byte, b' ' | b'\t' | b'\n' | b'\r');
        let blanks = self.rest.iter().take_while(blank).count();
        self.rest = &self.rest[blanks..];
        self.rest.first().copied()
    }

    fn take(&mut self, byte: u8) -> Option<()> {
        let is_next = self.peek()? == byte;
        self.rest = &self.rest[usize::from(is_next)..];
        is_next.then_some(())
    }

    pub fn is_at_end(&mut self) -> bool {
        self.peek().is_none()
    }

    /// A text without escapes.
    pub fn text(&mut self) -> Option<&'a str> {
        self.take(b'"')?;
        let length = self.rest.iter().position(|byte| *byte == b'"')?;
        let text = std::str::from_utf8(&self.rest[..length]).ok()?;
        self.rest = &self.rest[length + 1..];
        (!text.contains('\\')).then_some(text)
    }

    pub fn number(&mut self) -> Option<u64> {
        self.peek()?;
        let length = self.rest.iter().take_while(|byte| byte.is_ascii_digit()).count();
        let digits = std::str::from_utf8(&self.rest[..length]).ok()?;
        self.rest = &self.rest[length..];
        digits.parse().ok()
    }

    /// What stands between the brackets, one after the other behind commas.
    fn between(&mut self, open: u8, close: u8, mut one: impl FnMut(&mut Self) -> Option<()>) -> Option<()> {
        self.take(open)?;
        if self.take(close).is_some() {
            return Some(());
        }
        loop {
            one(self)?;
            if self.take(close).is_some() {
                return Some(());
            }
            self.take(b',')?;
        }
    }

    pub fn items<T>(&mut self, mut item: impl FnMut(&mut Self) -> Option<T>) -> Option<Vec<T>> {
        let mut items = Vec::new();
        self.between(b'[', b']', |reader| {
            items.push(item(reader)?);
            Some(())
        })?;
        Some(items)
    }

    /// Calls what reads the value of each field with its key.
    pub fn fields(&mut self, mut value: impl FnMut(&str, &mut Self) -> Option<()>) -> Option<()> {
        self.between(b'{', b'}', |reader| {
            let key = reader.text()?;
            reader.take(b':')?;
            value(key, reader)
        })
    }
}
