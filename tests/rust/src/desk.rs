//! The page desk: add, remove and protect one guest page, list the frames of all, find the first unbacked page, written
//! from requests 3/12 and 4/12 of document 02 and the terms of document 01 alone. Every set is made anew from the
//! tables, page by page, so that each sentence of the requests stands in one place.

use crate::model::{self, bit, word, FRAME};
use std::collections::BTreeSet;
use std::ops::RangeInclusive;

/// A call at the desk. Pages are counted from the start of the extent.
#[derive(Clone, Copy, PartialEq, Eq, Debug)]
pub enum Call {
    Add { page: u32, frame: u32 },
    Remove { page: u32 },
    Protect { page: u32 },
    List,
}

#[derive(Clone, Copy, PartialEq, Eq, PartialOrd, Ord, Debug)]
pub enum Answer {
    /// The number of the refusal.
    Refused(u8),
    /// Code 32.
    EntryFailed,
    /// Of list the number of valid pages, else 0.
    Done(u32),
}

/// The answer to the question for the first unbacked page.
#[derive(Clone, Copy, PartialEq, Eq, Debug)]
pub enum Unbacked {
    /// The number of the refusal.
    Refused(u8),
    /// Code 32.
    EntryFailed,
    Page(u32),
    /// "exactly when every page asked about is valid"
    None,
}

/// Which parts of refusal 14 hold.
#[derive(Clone, Copy, PartialEq, Eq, PartialOrd, Ord, Default, Debug)]
pub struct Conflict {
    pub entry_in_guest_frame: bool,
    pub second_page: bool,
    pub segment_entry: bool,
}

impl Conflict {
    pub fn any(self) -> bool {
        self.entry_in_guest_frame || self.second_page || self.segment_entry
    }
}

/// The answer and, where the refusals before 14 do not apply, what was found for 14. The latter is for the tally.
pub struct Outcome {
    pub answer: Answer,
    pub conflict: Conflict,
}

impl From<Answer> for Outcome {
    fn from(answer: Answer) -> Outcome {
        Outcome { answer, conflict: Conflict::default() }
    }
}

/// "FFFFFFFF hex where not valid"
pub const NOT_VALID: u32 = 0xFFFF_FFFF;

// ---------------------------------------------------------------------------------------------------------------
// The terms of document 01.

/// The host's tables, for the extent of one guest. The entry is good.
#[derive(Clone, Copy)]
pub struct Tables<'a> {
    pub record: &'a [u8],
    pub storage: &'a [u8],
    pub designation: u32,
}

impl Tables<'_> {
    pub fn pages(self) -> u32 {
        (model::extent_bytes(self.record) / FRAME as u64) as u32
    }

    /// Page p is host page origin times 16 plus p.
    pub fn host_page(self, page: u32) -> u32 {
        model::origin_bytes(self.record) / FRAME as u32 + page
    }

    /// "the host segments it touches"
    pub fn segments(self) -> RangeInclusive<u32> {
        self.host_page(0) >> 8..=self.host_page(self.pages() - 1) >> 8
    }

    /// The address of a segment entry in reach: the table's length and the storage allow it.
    pub fn segment_entry(self, segment: u32) -> Option<usize> {
        if segment >> 4 > self.designation & 0x7F {
            return None;
        }
        let at = (self.designation & 0x7FFF_F000) as usize + 4 * segment as usize;
        (at < self.storage.len()).then_some(at)
    }

    /// The address of a host page's entry in reach: also "a valid well-formed segment entry" and its length allow it.
    pub fn host_page_entry(self, host_page: u32) -> Option<usize> {
        let segment_entry = word(self.storage, self.segment_entry(host_page >> 8)?);
        if bit(segment_entry, 26) || bit(segment_entry, 0) {
            return None;
        }
        let index = host_page & 0xFF;
        if index >> 4 > segment_entry & 0xF {
            return None;
        }
        let at = (segment_entry & 0x7FFF_FFC0) as usize + 4 * index as usize;
        (at < self.storage.len()).then_some(at)
    }

    pub fn page_entry(self, page: u32) -> Option<usize> {
        self.host_page_entry(self.host_page(page))
    }

    /// "A page is valid when its entry is in reach and well formed, with bit 21 zero.": the frame number in the entry.
    pub fn frame_of(self, page: u32) -> Option<u32> {
        let entry = word(self.storage, self.page_entry(page)?);
        let well_formed = !bit(entry, 0) && !bit(entry, 20) && !bit(entry, 23);
        (well_formed && !bit(entry, 21)).then_some((entry & 0x7FFF_F000) >> 12)
    }

    pub fn is_valid(self, page: u32) -> bool {
        self.frame_of(page).is_some()
    }

    /// The segment entries in reach of the host segments that the extent touches, by address.
    fn segment_entries(self) -> BTreeSet<usize> {
        self.segments().filter_map(|segment| self.segment_entry(segment)).collect()
    }

    /// "The entries that describe the extent", by address.
    pub fn entries(self) -> BTreeSet<usize> {
        let pages = (0..self.pages()).filter_map(|page| self.page_entry(page));
        self.segment_entries().into_iter().chain(pages).collect()
    }

    /// "A guest frame is a frame in storage named by such an entry of a valid page."
    pub fn guest_frames(self) -> BTreeSet<usize> {
        let frames = (0..self.pages()).filter_map(|page| self.frame_of(page));
        frames.map(|frame| frame as usize).filter(|&frame| frame < self.storage.len() / FRAME).collect()
    }

    pub fn valid_pages(self) -> u32 {
        (0..self.pages()).filter(|&page| self.is_valid(page)).count() as u32
    }
}

// ---------------------------------------------------------------------------------------------------------------
// "14 (not for listing)"

/// "an entry describing the extent would lie in a guest frame", in the tables after the call
pub fn entry_in_guest_frame(after: Tables) -> bool {
    let frames = after.guest_frames();
    after.entries().iter().any(|at| frames.contains(&(at / FRAME)))
}

/// "the chosen entry serves a second page of the extent"
pub fn serves_second_page(before: Tables, page: u32, at: usize) -> bool {
    (0..before.pages()).any(|other| other != page && before.page_entry(other) == Some(at))
}

/// "or as a segment entry describing it"
pub fn serves_as_segment_entry(before: Tables, at: usize) -> bool {
    before.segment_entries().contains(&at)
}

/// Makes the change to the page's entry unless 14 refuses it.
fn change(record: &[u8], storage: &mut [u8], designation: u32, page: u32, entry: u32) -> Outcome {
    let before = Tables { record, storage, designation };
    let at = before.page_entry(page).expect("tested by refusal 10");
    let mut changed = storage.to_vec();
    model::set_word(&mut changed, at, entry);
    let conflict = Conflict {
        entry_in_guest_frame: entry_in_guest_frame(Tables { storage: &changed, ..before }),
        second_page: serves_second_page(before, page, at),
        segment_entry: serves_as_segment_entry(before, at),
    };
    if conflict.any() {
        return Outcome { answer: Answer::Refused(14), conflict };
    }
    storage.copy_from_slice(&changed);
    Outcome { answer: Answer::Done(0), conflict }
}

// ---------------------------------------------------------------------------------------------------------------
// The four calls of request 3/12: "in that order, after 1 to 4, 7 and an entry failure".

fn turned_away(record: &[u8], storage: &[u8], keys: &[u8]) -> Option<Answer> {
    let refusal = model::refuse_record(record)
        .or_else(|| model::refuse_storage(storage.len(), keys.len()))
        .or_else(|| model::refuse_reserved(record));
    if let Some(number) = refusal {
        return Some(Answer::Refused(number));
    }
    (!model::entry_is_good(record)).then_some(Answer::EntryFailed)
}

/// "10 page outside the extent or its entry out of reach", else the entry.
fn chosen_entry(tables: Tables, page: u32) -> Result<u32, Answer> {
    if page >= tables.pages() {
        return Err(Answer::Refused(10));
    }
    let at = tables.page_entry(page).ok_or(Answer::Refused(10))?;
    Ok(word(tables.storage, at))
}

/// "Adding writes the frame with all other bits zero". The number is of valid pages.
pub fn add_page(
    record: &[u8],
    storage: &mut [u8],
    keys: &[u8],
    designation: u32,
    page: u32,
    frame: u32,
    number: &mut u32,
) -> Outcome {
    if let Some(answer) = turned_away(record, storage, keys) {
        return answer.into();
    }
    let before = Tables { record, storage, designation };
    if let Err(answer) = chosen_entry(before, page) {
        return answer.into();
    }
    if before.is_valid(page) {
        return Answer::Refused(11).into();
    }
    if frame as usize >= storage.len() / FRAME {
        return Answer::Refused(13).into();
    }
    let outcome = change(record, storage, designation, page, frame << 12);
    if outcome.answer == Answer::Done(0) {
        *number = number.wrapping_add(1);
    }
    outcome
}

/// "removing sets bit 21 ... of a valid page"
pub fn remove_page(
    record: &[u8],
    storage: &mut [u8],
    keys: &[u8],
    designation: u32,
    page: u32,
    number: &mut u32,
) -> Outcome {
    let outcome = set_bits(record, storage, keys, designation, page, 0x400);
    if outcome.answer == Answer::Done(0) {
        *number = number.wrapping_sub(1);
    }
    outcome
}

/// "protecting bit 22 of a valid page"
pub fn protect_page(record: &[u8], storage: &mut [u8], keys: &[u8], designation: u32, page: u32) -> Outcome {
    set_bits(record, storage, keys, designation, page, 0x200)
}

/// Remove and protect, but for the number.
fn set_bits(record: &[u8], storage: &mut [u8], keys: &[u8], designation: u32, page: u32, bits: u32) -> Outcome {
    if let Some(answer) = turned_away(record, storage, keys) {
        return answer.into();
    }
    let before = Tables { record, storage, designation };
    let entry = match chosen_entry(before, page) {
        Ok(entry) => entry,
        Err(answer) => return answer.into(),
    };
    if !before.is_valid(page) {
        return Answer::Refused(12).into();
    }
    change(record, storage, designation, page, entry | bits)
}

/// "listing them in order, FFFFFFFF hex where not valid; words past the extent stay"
pub fn list_pages(record: &[u8], storage: &[u8], keys: &[u8], designation: u32, words: &mut [u32]) -> Answer {
    if let Some(answer) = turned_away(record, storage, keys) {
        return answer;
    }
    let tables = Tables { record, storage, designation };
    if words.len() < tables.pages() as usize {
        return Answer::Refused(15);
    }
    for page in 0..tables.pages() {
        words[page as usize] = tables.frame_of(page).unwrap_or(NOT_VALID);
    }
    Answer::Done(tables.valid_pages())
}

/// Any call. The number and the workspace are handed in with each, and left as the call leaves them.
pub fn call(
    record: &[u8],
    storage: &mut [u8],
    keys: &[u8],
    designation: u32,
    call: Call,
    number: &mut u32,
    words: &mut [u32],
) -> Outcome {
    match call {
        Call::Add { page, frame } => add_page(record, storage, keys, designation, page, frame, number),
        Call::Remove { page } => remove_page(record, storage, keys, designation, page, number),
        Call::Protect { page } => protect_page(record, storage, keys, designation, page),
        Call::List => list_pages(record, storage, keys, designation, words).into(),
    }
}

// ---------------------------------------------------------------------------------------------------------------
// The first unbacked page. "Nothing is changed."

/// "1 to 4, then 7, an entry failure, then 16 when A is above B or B is past the extent". A is from, B is to.
pub fn first_unbacked(record: &[u8], storage: &[u8], keys: &[u8], designation: u32, from: u32, to: u32) -> Unbacked {
    match turned_away(record, storage, keys) {
        Some(Answer::Refused(number)) => return Unbacked::Refused(number),
        Some(_) => return Unbacked::EntryFailed,
        None => {}
    }
    let tables = Tables { record, storage, designation };
    if from > to || to > tables.pages() {
        return Unbacked::Refused(16);
    }
    match survey(tables, from, to).first() {
        Some(&page) => Unbacked::Page(page),
        None => Unbacked::None,
    }
}

/// All pages "from A up to but not including B" that have "no valid host entry", in order.
pub fn survey(tables: Tables, from: u32, to: u32) -> Vec<u32> {
    (from..to).filter(|&page| !tables.is_valid(page)).collect()
}
