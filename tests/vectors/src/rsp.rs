//! The form of NIST's response files: comments, sizes in brackets, cases of lines `name = value`, a blank line after
//! each case.

use reference::key::Shape;

pub struct File {
    text: String,
    cases: usize,
}

impl File {
    /// A file that opens with a comment of so many lines.
    pub fn new(comment: &[&str]) -> File {
        let mut text = String::new();
        for line in comment {
            text += &format!("# {line}\n");
        }
        text += "\n";
        File { text, cases: 0 }
    }

    /// The sizes of the cases that follow, and their degree.
    pub fn sizes(&mut self, shape: &Shape) {
        let sizes = [
            ("n", shape.n),
            ("m", shape.m),
            ("tau", shape.tau),
            ("t", shape.t),
            ("degree", shape.field.degree),
        ];
        for (name, size) in sizes {
            self.text += &format!("[{name} = {size}]\n");
        }
        self.text += "\n";
    }

    /// Opens a case: cases are numbered from 0.
    pub fn case(&mut self) {
        self.line("COUNT", &self.cases.to_string());
        self.cases += 1;
    }

    pub fn line(&mut self, name: &str, value: &str) {
        self.text += &format!("{name} = {value}\n");
    }

    /// Bytes in hexadecimal; of no bytes nothing stands after the sign.
    pub fn bytes(&mut self, name: &str, bytes: &[u8]) {
        self.text += &format!("{name} =");
        if !bytes.is_empty() {
            self.text += " ";
        }
        for byte in bytes {
            self.text += &format!("{byte:02x}");
        }
        self.text += "\n";
    }

    pub fn end_case(&mut self) {
        self.text += "\n";
    }

    pub fn text(self) -> String {
        self.text
    }
}
