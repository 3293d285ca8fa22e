//! Layouts to sheets, with the records between: damage is done to those.

use crate::layout::{Family, Layout};
use crate::sheet::{length, ELEMENT, FAMILY, HEADER};

/// A record as it stands in a sheet. Its length field may lie.
#[derive(Clone, Debug, PartialEq, Eq)]
pub struct Record {
    pub length: u16,
    pub kind: u16,
    pub body: Vec<u8>,
}

impl Record {
    fn new(kind: u16, numbers: &[u32], count: usize) -> Record {
        let mut body: Vec<u8> = numbers.iter().flat_map(|number| number.to_le_bytes()).collect();
        // Damage asks for counts up to 65,535; no layout of this program has more.
        body.extend(u16::try_from(count).expect("a count is a u16").to_le_bytes());
        Record { length: length(kind), kind, body }
    }

    /// The count that ends every body: of elements, top families or children.
    pub fn count(&self) -> u16 {
        let at = self.body.len() - 2;
        u16::from_le_bytes([self.body[at], self.body[at + 1]])
    }

    pub fn set_count(&mut self, count: u16) {
        let at = self.body.len() - 2;
        self.body[at..].copy_from_slice(&count.to_le_bytes());
    }

    /// The number at a place of the body counted in numbers: l, r, s, n of a family are 0, 1, 2, 3.
    pub fn number(&self, at: usize) -> u32 {
        let b = &self.body[4 * at..];
        u32::from_le_bytes([b[0], b[1], b[2], b[3]])
    }

    pub fn set_number(&mut self, at: usize, number: u32) {
        self.body[4 * at..4 * at + 4].copy_from_slice(&number.to_le_bytes());
    }
}

pub fn records(layout: &Layout) -> Vec<Record> {
    let mut out = vec![Record::new(HEADER, &[layout.displacement], layout.elements.len())];
    for families in &layout.elements {
        out.push(Record::new(ELEMENT, &[], families.len()));
        push_families(families, &mut out);
    }
    out
}

fn push_families(families: &[Family], out: &mut Vec<Record>) {
    for family in families {
        out.push(Record::new(FAMILY, &[family.l, family.r, family.s, family.n], family.children.len()));
        push_families(&family.children, out);
    }
}

pub fn bytes(records: &[Record]) -> Vec<u8> {
    let mut out = Vec::new();
    for record in records {
        out.extend(record.length.to_le_bytes());
        out.extend(record.kind.to_le_bytes());
        out.extend(&record.body);
    }
    out
}

/// The sheet of a layout.
pub fn sheet(layout: &Layout) -> Vec<u8> {
    bytes(&records(layout))
}
