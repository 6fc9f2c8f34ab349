//! The lines of an import: `KEY,VALUE`, strictly.
//!
//! A line ends with LF or CRLF, the last one may end with the file. A field may stand in double quotes, and then holds
//! anything, a double quote being written twice; a field without them holds no quote, comma or line end. All bytes are
//! taken as they are. Empty lines are skipped, and so is a byte order mark at the start of the file.

use std::borrow::Cow;

/// One line's key and value.
#[derive(Debug, PartialEq, Eq)]
pub struct Record<'a> {
    /// The line on which it begins, counted from 1.
    pub line: usize,
    pub key: Cow<'a, [u8]>,
    pub value: Cow<'a, [u8]>,
}

/// A line that is not `KEY,VALUE`.
#[derive(Debug, PartialEq, Eq)]
pub struct Fault {
    pub line: usize,
    pub words: &'static str,
}

/// The records of a file, up to its first fault.
#[derive(Debug)]
pub struct Records<'a> {
    rest: &'a [u8],
    line: usize,
}

/// What stands behind a field.
#[derive(Debug, PartialEq, Eq)]
enum Behind {
    Comma,
    LineEnd,
}

impl<'a> Records<'a> {
    pub fn new(text: &'a [u8]) -> Records<'a> {
        Records { rest: text.strip_prefix(b"\xef\xbb\xbf").unwrap_or(text), line: 1 }
    }

    /// Skips the first line, a heading.
    pub fn skip_line(&mut self) {
        let end = self.rest.iter().position(|&byte| byte == b'\n').map_or(self.rest.len(), |at| at + 1);
        self.advance(end);
    }

    /// How many bytes are still to be read.
    pub fn left(&self) -> usize {
        self.rest.len()
    }

    fn record(&mut self) -> Result<Record<'a>, Fault> {
        let line = self.line;
        let fault = |words| Fault { line, words };
        let (key, behind) = self.field().map_err(fault)?;
        if behind == Behind::LineEnd {
            return Err(fault("it has one field, and a line is KEY,VALUE"));
        }
        let (value, behind) = self.field().map_err(fault)?;
        if behind == Behind::Comma {
            return Err(fault("it has more than two fields; a value with a comma stands in double quotes"));
        }
        Ok(Record { line, key, value })
    }

    /// Reads a field and what is behind it.
    fn field(&mut self) -> Result<(Cow<'a, [u8]>, Behind), &'static str> {
        let field = match self.rest.first() {
            Some(b'"') => self.quoted()?,
            _ => self.bare()?,
        };
        if self.rest.is_empty() || self.end_line() {
            return Ok((field, Behind::LineEnd));
        }
        if self.rest.first() != Some(&b',') {
            return Err("something stands behind a closing quote");
        }
        self.advance(1);
        Ok((field, Behind::Comma))
    }

    fn bare(&mut self) -> Result<Cow<'a, [u8]>, &'static str> {
        let end = self.rest.iter().position(|byte| b",\"\r\n".contains(byte)).unwrap_or(self.rest.len());
        let (field, behind) = self.rest.split_at(end);
        match behind {
            [b'"', ..] => Err("a double quote stands within a field that does not begin with one"),
            [b'\r', b'\n', ..] | [b',' | b'\n', ..] | [] => {
                self.advance(end);
                Ok(Cow::Borrowed(field))
            }
            _ => Err("a carriage return stands in it that does not end the line"),
        }
    }

    fn quoted(&mut self) -> Result<Cow<'a, [u8]>, &'static str> {
        let mut field = Vec::new();
        self.advance(1);
        loop {
            let Some(end) = self.rest.iter().position(|&byte| byte == b'"') else {
                return Err("a double quote is opened and never closed");
            };
            field.extend_from_slice(self.rest.get(..end).unwrap_or_default());
            self.advance(end + 1);
            if self.rest.first() != Some(&b'"') {
                return Ok(Cow::Owned(field));
            }
            field.push(b'"');
            self.advance(1);
        }
    }

    /// Reads a line end, if one is next.
    fn end_line(&mut self) -> bool {
        let length = match self.rest {
            [b'\n', ..] => 1,
            [b'\r', b'\n', ..] => 2,
            _ => return false,
        };
        self.advance(length);
        true
    }

    fn advance(&mut self, length: usize) {
        let (read, rest) = self.rest.split_at(length.min(self.rest.len()));
        self.line += read.iter().filter(|&&byte| byte == b'\n').count();
        self.rest = rest;
    }
}

impl<'a> Iterator for Records<'a> {
    type Item = Result<Record<'a>, Fault>;

    fn next(&mut self) -> Option<Self::Item> {
        while self.end_line() {}
        if self.rest.is_empty() {
            return None;
        }
        let record = self.record();
        if record.is_err() {
            self.rest = &[];
        }
        Some(record)
    }
}

#[cfg(test)]
mod tests {
    use super::*;

    /// All records as line, key and value, or the fault that ended them.
    fn read(text: &str) -> Result<Vec<(usize, String, String)>, Fault> {
        let text_of = |field: Cow<[u8]>| String::from_utf8_lossy(&field).into_owned();
        Records::new(text.as_bytes()).map(|r| r.map(|r| (r.line, text_of(r.key), text_of(r.value)))).collect()
    }

    fn line(number: usize, key: &str, value: &str) -> (usize, String, String) {
        (number, key.to_string(), value.to_string())
    }

    fn fault_line(text: &str) -> Option<usize> {
        read(text).err().map(|fault| fault.line)
    }

    #[test]
    fn lines_end_with_lf_or_crlf_or_the_file() {
        let two = Ok(vec![line(1, "a", "b"), line(2, "c", "d")]);
        assert_eq!(read("a,b\nc,d\n"), two);
        assert_eq!(read("a,b\r\nc,d"), two);
        assert_eq!(read("\u{feff}a,b\nc,d\r\n"), two);
        assert_eq!(read(""), Ok(vec![]));
    }

    #[test]
    fn empty_lines_are_skipped_and_counted() {
        assert_eq!(read("\n\r\na,b\n\nc,d\n\n"), Ok(vec![line(3, "a", "b"), line(5, "c", "d")]));
    }

    #[test]
    fn quotes_hold_anything() {
        assert_eq!(read("\"a\",\"b, \"\"c\"\"\"\n"), Ok(vec![line(1, "a", "b, \"c\"")]));
        assert_eq!(read("\"a\r\nb\",\nx,y"), Ok(vec![line(1, "a\r\nb", ""), line(3, "x", "y")]));
        assert_eq!(read("\"\",\"\""), Ok(vec![line(1, "", "")]));
    }

    #[test]
    fn spaces_and_zeros_belong_to_their_field() {
        assert_eq!(read(" 0042 , Luna "), Ok(vec![line(1, " 0042 ", " Luna ")]));
    }

    #[test]
    fn what_is_not_key_and_value_is_a_fault_of_its_line() {
        assert_eq!(fault_line("a,b\nc\n"), Some(2));
        assert_eq!(fault_line("a,b\nc,d,e\n"), Some(2));
        assert_eq!(fault_line("a,b\"c\n"), Some(1));
        assert_eq!(fault_line("a,\"b\"c\n"), Some(1));
        assert_eq!(fault_line("a,\"b\n\n\n"), Some(1));
        assert_eq!(fault_line("a,b\rc,d\n"), Some(1));
        assert_eq!(fault_line("a,b\r"), Some(1));
        assert_eq!(fault_line("a,b\n \n"), Some(2));
    }

    #[test]
    fn a_heading_is_skipped_with_its_line() {
        let mut records = Records::new(b"barcode;loan\nc,d\n");
        records.skip_line();
        let record = records.next().unwrap().unwrap();
        assert_eq!((record.line, &record.key[..], &record.value[..]), (2, &b"c"[..], &b"d"[..]));
        let mut heading_only = Records::new(b"barcode,loan");
        heading_only.skip_line();
        assert_eq!(heading_only.next(), None);
    }

    #[test]
    fn nothing_is_read_behind_a_fault() {
        let mut records = Records::new(b"a\nb,c\n");
        assert!(records.next().is_some_and(|record| record.is_err()));
        assert_eq!(records.next(), None);
    }
}
