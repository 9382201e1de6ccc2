//! Design sheets: a run of fields, each a tag of one byte, a length of two bytes and so many bytes, every number high byte first.

/// What a sheet says: its own W and N, the design's own number, and each page that is not all zeros with its words, pages rising.
#[derive(Clone, Debug, Default, PartialEq, Eq)]
pub struct Sheet {
    pub words: usize,
    pub pages: usize,
    pub number: u32,
    pub woven: Vec<(usize, Vec<u32>)>,
}

/// The tags: W and N first, then the unique number, then a field for each page, and the end.
pub const SIZES: u8 = 3;
pub const NUMBER: u8 = 1;
pub const PAGE: u8 = 2;
pub const END: u8 = 4;

/// A field's bytes; a length that two bytes cannot say is cut to them.
pub fn field(tag: u8, values: &[u8]) -> Vec<u8> {
    let mut bytes = vec![tag];
    bytes.extend((values.len() as u16).to_be_bytes());
    bytes.extend(values);
    bytes
}

/// The field of a page.
pub fn page_field(page: usize, words: &[u32]) -> Vec<u8> {
    let mut values = (page as u16).to_be_bytes().to_vec();
    values.extend(words.iter().flat_map(|word| word.to_be_bytes()));
    field(PAGE, &values)
}

/// The fields of a byte string, each as tag and values; none if the last one is cut short.
fn fields(mut bytes: &[u8]) -> Option<Vec<(u8, &[u8])>> {
    let mut fields = Vec::new();
    while !bytes.is_empty() {
        let (head, rest) = bytes.split_at_checked(3)?;
        let (values, rest) = rest.split_at_checked(number(&head[1..]) as usize)?;
        fields.push((head[0], values));
        bytes = rest;
    }
    Some(fields)
}

fn number(bytes: &[u8]) -> u32 {
    bytes.iter().fold(0, |sum, &byte| sum << 8 | u32::from(byte))
}

impl Sheet {
    /// The bytes that export writes.
    pub fn print(&self) -> Vec<u8> {
        let sizes = [self.words, self.pages].map(|size| (size as u16).to_be_bytes()).concat();
        let mut bytes = [field(SIZES, &sizes), field(NUMBER, &self.number.to_be_bytes())].concat();
        for (page, words) in &self.woven {
            bytes.extend(page_field(*page, words));
        }
        bytes.extend(field(END, &[]));
        bytes
    }

    /// What any byte string says; none if it is not of the form, judged by its own W and N.
    pub fn parse(bytes: &[u8]) -> Option<Sheet> {
        let fields = fields(bytes)?;
        let [(SIZES, sizes @ [_, _, _, _]), (NUMBER, unique @ [_, _, _, _]), pages @ .., (END, [])] = &fields[..] else {
            return None;
        };
        let [words, count] = [&sizes[..2], &sizes[2..]].map(|bytes| number(bytes) as usize);
        let mut sheet = Sheet { words, pages: count, number: number(unique), woven: Vec::new() };
        for &(tag, values) in pages {
            let page = sheet.page(tag, values)?;
            sheet.woven.push(page);
        }
        (sheet.number > 0).then_some(sheet)
    }

    /// The page that a field says, with its words: below N, above the page before it, not all zeros.
    fn page(&self, tag: u8, values: &[u8]) -> Option<(usize, Vec<u32>)> {
        if tag != PAGE || values.len() != 2 + 4 * self.words {
            return None;
        }
        let page = number(&values[..2]) as usize;
        let words: Vec<u32> = values[2..].chunks(4).map(number).collect();
        let rising = self.woven.last().is_none_or(|(last, _)| *last < page);
        (rising && page < self.pages && words.iter().any(|&word| word != 0)).then_some((page, words))
    }

    /// The words that it gives a page.
    pub fn text(&self, page: usize) -> Vec<u32> {
        let own = self.woven.iter().find(|(own, _)| *own == page);
        own.map_or(vec![0; self.words], |(_, words)| words.clone())
    }
}
