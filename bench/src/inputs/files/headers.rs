//! The headers of a section, some of them with a slip.

use super::{Maker, ELEMENT_TYPES};

const BAD_TYPES: [&str; 6] = [
    "signed 64-bit real",
    "signed 24-bit integer",
    "signed  32-bit integer",
    "\"signed 32-bit integer",
    "\" signed 32-bit integer\"",
    "\"\"signed 32-bit integer\"\"",
];

/// The last one is good.
const BAD_CONTENTS: [&str; 9] = [
    "a; conversions",
    "a; conversions=",
    "a; conversions=x-CBF_PACKED",
    "a; conversions=x-CBF_BYTE_OFFSET; conversions=x-CBF_BYTE_OFFSET",
    "a; conversions==x-CBF_BYTE_OFFSET",
    "a; conversions=\" x-CBF_BYTE_OFFSET\"",
    "a; conversions=x-CBF_BYTE_OFFSET; b=\"",
    "\"a; conversions=x-CBF_BYTE_OFFSET",
    "\"a; conversions=x\"",
];

pub type Headers = Vec<(String, String)>;

/// Gives the header that value, whether it is there or not.
fn set(headers: &mut Headers, name: &str, value: &str) {
    headers.retain(|header| header.0 != name);
    headers.push((name.into(), value.into()));
}

impl Maker<'_> {
    /// With leading zeros now and then.
    fn number(&mut self, n: usize) -> String {
        let digits = if self.one_in(5) {
            1 + self.random.below(10)
        } else {
            1
        };
        format!("{n:0digits$}")
    }

    pub fn needed_headers(&mut self, base64: bool, size: usize, elements: usize) -> Headers {
        let encoding = if base64 { "BASE64" } else { "BINARY" };
        vec![
            ("Content-Transfer-Encoding".into(), encoding.into()),
            ("X-Binary-Size".into(), self.number(size)),
            ("X-Binary-Number-of-Elements".into(), self.number(elements)),
        ]
    }

    pub fn other_headers(
        &mut self,
        headers: &mut Headers,
        byte_offset: bool,
        element_type: usize,
        elements: usize,
    ) {
        let content = self.content_type(byte_offset);
        if byte_offset || self.one_in(2) {
            headers.push(("Content-Type".into(), content));
        }
        if element_type != 5 || self.one_in(2) {
            let value = self.perhaps_quoted(ELEMENT_TYPES[element_type - 1]);
            headers.push(("X-Binary-Element-Type".into(), value));
        }
        if self.one_in(2) {
            let value = self.perhaps_quoted("LITTLE_ENDIAN");
            headers.push(("X-Binary-Element-Byte-Order".into(), value));
        }
        if self.one_in(2) {
            let id = [1, 2, 77, 2_147_483_647][self.random.below(4)];
            headers.push(("X-Binary-ID".into(), self.number(id)));
        }
        if elements > 0 && self.one_in(2) {
            self.dimensions(headers, elements);
        }
        for _ in 0..self.random.below(3) {
            let (name, value) = [
                ("Content-MD5", "1B2M2Y8AsgTpgAmY7PhCfg=="),
                ("X-Binary-Size-Padding", "4095"),
                ("X-Binary-Size-", "x"),
                ("X-Binary-Siz", "\"7"),
                ("-", ""),
                ("X-Binary-Size-Fourth-Dimension", "0"),
                ("9", ": a header: with; colons ="),
            ][self.random.below(7)];
            headers.push((name.into(), value.into()));
        }
    }

    fn perhaps_quoted(&mut self, value: &str) -> String {
        match self.random.below(3) {
            0 => value.into(),
            _ => format!("\"{value}\""),
        }
    }

    fn content_type(&mut self, byte_offset: bool) -> String {
        let first = self.pick(&["application/octet-stream", "", "conversions=x", "a \"q;r\""]);
        let between = self.pick(&["; ", ";", " ;\t", "; ;", "; n=\"; conversions=x\";"]);
        let equals = self.pick(&["=", " = ", "=\t"]);
        let last = self.pick(&["", "", ";", "; charset=x", "; \"conversions\"=x; =x"]);
        let method = self.perhaps_quoted("x-CBF_BYTE_OFFSET");
        if byte_offset {
            format!("{first}{between}conversions{equals}{method}{last}")
        } else {
            format!("{first}{last}")
        }
    }

    fn dimensions(&mut self, headers: &mut Headers, elements: usize) {
        let divisor = |n: usize, wanted: usize| (1..=wanted).rev().find(|d| n % d == 0).unwrap();
        let fastest = divisor(elements, 1 + self.random.below(elements));
        let second = divisor(elements / fastest, 1 + self.random.below(20));
        let third = elements / fastest / second;
        let sizes = match self.random.below(3) {
            0 => vec![elements],
            1 => vec![fastest, elements / fastest],
            _ => vec![fastest, second, third],
        };
        for (which, size) in ["Fastest", "Second", "Third"].iter().zip(sizes) {
            let name = format!("X-Binary-Size-{which}-Dimension");
            headers.push((name, self.number(size)));
        }
    }

    /// Something wrong with the headers, mostly.
    pub fn slip(&mut self, headers: &mut Headers) {
        let at = self.random.below(headers.len());
        let (name, value) = headers[at].clone();
        match self.random.below(13) {
            0 => _ = headers.remove(at),
            1 => headers.push((name, value)),
            2 | 3 => self.slip_of_number(headers),
            4 => headers[at].1 = format!("\"{value}\""),
            5 => headers[at].1 = self.pick(&["", "\"", "x", "0", "9999999999"]).into(),
            6 => headers[at].1 = format!("{value} x"),
            7 => headers[at].0 = self.pick(&["", "X_Y", "X Y", "X-Binary-Size ", ";"]).into(),
            8 => set(headers, "X-Binary-Element-Byte-Order", "BIG_ENDIAN"),
            9 => set(headers, "X-Binary-Size-Second-Dimension", "1"),
            10 => set(headers, "X-Binary-Element-Type", self.pick(&BAD_TYPES)),
            11 => set(headers, "Content-Type", self.pick(&BAD_CONTENTS)),
            _ => {
                // Their product is 2^64.
                set(headers, "X-Binary-Size-Fastest-Dimension", "67108864");
                set(headers, "X-Binary-Size-Second-Dimension", "67108864");
                set(headers, "X-Binary-Size-Third-Dimension", "4096");
            }
        }
    }

    /// A number one up or down, at its limit or one above, or with a digit too many.
    fn slip_of_number(&mut self, headers: &mut Headers) {
        let at = self.random.below(headers.len());
        let (name, value) = &mut headers[at];
        let Ok(number) = value.parse::<usize>() else {
            return;
        };
        let limit: usize = match name.as_str() {
            "X-Binary-Size" => 1_073_741_824,
            "X-Binary-ID" => 2_147_483_647,
            _ => 67_108_864,
        };
        *value = match self.random.below(5) {
            0 => format!("{}", number + 1),
            1 => format!("{}", number.max(1) - 1),
            2 => format!("{limit}"),
            3 => format!("{}", limit + 1),
            _ => format!("{number:011}"),
        };
    }

    pub fn header(&mut self, name: &str, value: &str) {
        let mut line = self.any_case(name);
        let mut value = self.any_case(value);
        if !self.one_in(900) {
            line.push(':');
        }
        if self.one_in(10) {
            // The whole value on the next line.
            self.line(&line);
            line = "\t".into();
        }
        if self.one_in(10) {
            line += &self.blanks(4);
        } else {
            line.push(' ');
        }
        while let Some(blank) = self.break_at(line.len(), &value) {
            // A blank before the break stays in the value, where a word does not bear it.
            let more = if self.one_in(40) { " " } else { "" };
            self.line(&format!("{line}{}{more}", &value[..blank]));
            line = format!(" {}", self.blanks(6));
            value.drain(..=blank);
        }
        line += &value;
        if self.one_in(10) {
            line += &self.blanks(3);
        }
        self.line(&line);
        if self.one_in(30) {
            self.line(" ");
        }
    }

    /// A blank of the value to break the line at: where it would be too long, and by chance.
    fn break_at(&mut self, used: usize, value: &str) -> Option<usize> {
        if used + value.len() > 76 {
            value[..76 - used].rfind(' ')
        } else if self.one_in(4) {
            value.find(' ')
        } else {
            None
        }
    }
}
