//! Random sheets for import: of the form, and wrong or other in each way that there is.

use super::random::Random;
use super::shadow::marked;
use crate::sheet::{field, page_field, Sheet, END, NUMBER, SIZES};
use crate::tables::Sizes;

/// A sheet whose words carry a design's number; three of five are of the form, for these sizes.
pub fn sheet(seed: u64, sizes: &Sizes, mark: u32) -> Vec<u8> {
    let mut random = Random::new(seed);
    // the sizes of a call that gets 1 can be anything
    let (words, pages) = (sizes.words.clamp(1, Sizes::MOST.words), sizes.pages.clamp(1, Sizes::MOST.pages));
    let sheet = of_form(&mut random, words, pages, mark);
    match random.below(5) {
        0..=2 => sheet.print(),
        3 => other_values(sheet, &mut random, mark).print(),
        _ => other_bytes(&sheet, &mut random),
    }
}

/// Of the form: no page, a few or all; a word is zero every other time, but not all of a page.
pub fn of_form(random: &mut Random, words: usize, pages: usize, mark: u32) -> Sheet {
    let most = if words * pages > 10_000 { 4 } else { pages };
    let (share, number) = (random.pick(&[0, 20, 60, 100]), random.pick(&[1, 7, 0x0102_0304, u32::MAX]));
    let mut sheet = Sheet { words, pages, number, woven: Vec::new() };
    for page in 0..pages {
        if sheet.woven.len() < most && random.percent(share) {
            sheet.woven.push((page, woven(random, words, mark)));
        }
    }
    sheet
}

/// Words that are not all zeros.
fn woven(random: &mut Random, words: usize, mark: u32) -> Vec<u32> {
    let mut own: Vec<u32> = (0..words).map(|_| marked(random.below(2) as u32 * random.next() as u32, mark)).collect();
    own[random.below(words)] = marked(random.up_to(0xFFFF) as u32, mark);
    own
}

/// A sheet that says something else: another W or N, of the form or not by it; number 0, a page of zeros, one past the last, pages that
/// do not rise.
fn other_values(mut sheet: Sheet, random: &mut Random, mark: u32) -> Sheet {
    let (words, pages) = (sheet.words, sheet.pages);
    let page = random.below(pages);
    match random.below(9) {
        0 => of_form(random, words + 1, pages, mark),
        1 => of_form(random, words, pages + 1, mark),
        2 => Sheet { words: random.pick(&[0, 1, 1025, 16_383, 16_384, 65_535]), woven: Vec::new(), ..sheet },
        3 => Sheet { pages: random.pick(&[0, pages.saturating_sub(1), 257, 65_535]), ..sheet },
        4 => Sheet { words: random.pick(&[words - 1, words + 1]), ..sheet },
        5 => Sheet { number: 0, ..sheet },
        6 => {
            sheet.woven.retain(|(own, _)| *own != page);
            sheet.woven.push((page, vec![0; words]));
            sheet.woven.sort();
            sheet
        }
        7 => {
            let past = pages + random.pick(&[0, 1, 256]);
            sheet.woven.push((past, woven(random, words, mark)));
            sheet
        }
        _ => {
            let at = random.below(sheet.woven.len() + 1);
            sheet.woven.insert(at, (page, woven(random, words, mark)));
            sheet
        }
    }
}

/// The fields of a sheet, each its bytes.
fn fields(sheet: &Sheet) -> Vec<Vec<u8>> {
    let sizes = [sheet.words, sheet.pages].map(|size| (size as u16).to_be_bytes()).concat();
    let mut fields = vec![field(SIZES, &sizes), field(NUMBER, &sheet.number.to_be_bytes())];
    fields.extend(sheet.woven.iter().map(|(page, words)| page_field(*page, words)));
    fields.push(field(END, &[]));
    fields
}

/// Bytes that no sheet has: one bit hurt, of a field's first five bytes, since the words carry marks; cut short, bytes after the end;
/// fields swapped, left out, doubled; any bytes at all.
fn other_bytes(sheet: &Sheet, random: &mut Random) -> Vec<u8> {
    let mut fields = fields(sheet);
    let (one, other) = (random.below(fields.len()), random.below(fields.len()));
    match random.below(9) {
        0 => return (0..random.below(40)).map(|_| random.next() as u8).collect(),
        1..=3 => {
            let at = random.below(fields[one].len().min(5));
            fields[one][at] ^= 1 << random.below(8);
        }
        4 => {
            let mut bytes = sheet.print();
            bytes.truncate(random.below(bytes.len()));
            return bytes;
        }
        5 => fields.push(random.pick(&[&[0][..], &[4, 0, 0], &[2, 0], &[4]]).to_vec()),
        6 => fields.swap(one, other),
        7 => drop(fields.remove(one)),
        _ => {
            let double = fields[one].clone();
            fields.insert(other, double);
        }
    }
    fields.concat()
}
