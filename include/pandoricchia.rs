//! Pandoricchia from Rust: encoding, checking, opening and correcting words of five CCSDS LDPC codes. What the codes, the
//! lengths and the numbers are stands in `pandoricchia.h`. Every call answers for every code number and every length; one
//! that returns any other number than `DONE` has written nothing, but for `list`, which writes its records with 5 to 8 too.
//! Nothing is kept between calls, so threads may call at once.
//!
//!     #[path = "include/pandoricchia.rs"]
//!     mod pandoricchia;
//!
//! and `rustc -L target/staticlib -l static=pandoricchia`. It compiles in the editions 2021 and 2024, with Rust 1.82 or newer.

/// The version of this module, and the same as a number: 65536 times the major number, 256 times the minor one, and the patch number.
/// The major number moves with the records and with what the calls take, and the shared library's soname moves with it.
pub const VERSION: &str = "0.10.0";
pub const VERSION_NUMBER: u32 = 0x00_0A_00;

/// Octets of a word and of its information, by code number; there is no code 0.
pub const WORD_OCTETS: [usize; 6] = [0, 16, 32, 64, 1022, 1020];
pub const INFORMATION_OCTETS: [usize; 6] = [0, 8, 16, 32, 895, 892];

pub const DONE: u8 = 0;
pub const CODE: u8 = 1;
pub const INPUT_LENGTH: u8 = 2;
pub const OUTPUT_LENGTH: u8 = 3;
pub const LAST_SIX: u8 = 4;
pub const STUCK: u8 = 5;
pub const LIMIT: u8 = 6;
pub const UNSENT: u8 = 7;
pub const PARITY: u8 = 8;
pub const BROKEN: u8 = 9;
pub const PLACES: u8 = 10;
pub const NO_START: u8 = 11;
pub const NO_TAIL: u8 = 12;
pub const NO_BCH_WORD: u8 = 13;
pub const LAST_TWO: u8 = 14;
pub const OTHER_PARITY: u8 = 15;
pub const SAMPLE: u8 = 16;
pub const NONE_NEAR: u8 = 17;
pub const REACH: u8 = 18;
pub const EDITION: u8 = 19;
pub const TOO_LONG: u8 = 20;
pub const BLOCK_CHECK: u8 = 21;
pub const BLOCK_NUMBER: u8 = 22;
pub const BLOCK_COUNT: u8 = 23;

#[repr(C)]
#[derive(Clone, Copy, Debug, PartialEq, Eq)]
pub struct Checked {
    pub number: u8,
    pub broken: u32,
    pub lowest: u32,
}

#[repr(C)]
#[derive(Clone, Copy, Debug, PartialEq, Eq)]
pub struct Answered {
    pub number: u8,
    pub yes: bool,
    pub evaluated: u32,
}

#[repr(C)]
#[derive(Clone, Copy, Debug, PartialEq, Eq)]
pub struct Opened {
    pub number: u8,
    pub lowest: u32,
    pub octets: usize,
}

#[repr(C)]
#[derive(Clone, Copy, Debug, PartialEq, Eq)]
pub struct Corrected {
    pub number: u8,
    pub flips: u32,
    pub first: u32,
    pub last: u32,
    pub unlike: u32,
    pub lowest: u32,
}

/// A flip of the run: its bit (of code 5 in the run's numbering), its excess, and the broken checks left after it.
#[repr(C)]
#[derive(Clone, Copy, Debug, Default, PartialEq, Eq)]
pub struct FlipRecord {
    pub bit: u32,
    pub excess: i8,
    pub left: u32,
}

#[repr(C)]
#[derive(Clone, Copy, Debug, PartialEq, Eq)]
pub struct Listed {
    pub number: u8,
    pub flips: u32,
    pub first: u32,
    pub last: u32,
    pub unlike: u32,
    pub lowest: u32,
    pub bit: u32,
    pub excess: i8,
}

#[repr(C)]
#[derive(Clone, Copy, Debug, PartialEq, Eq)]
pub struct Stepped {
    pub number: u8,
    pub quiet: bool,
    pub bit: u32,
    pub excess: i8,
}

#[repr(C)]
#[derive(Clone, Copy, Debug, PartialEq, Eq)]
pub struct Reached {
    pub number: u8,
    pub least: u32,
    pub bits: [u32; 3],
}

/// A reading of a unit: `kept.number` is its number.
#[repr(C)]
#[derive(Clone, Copy, Debug, PartialEq, Eq)]
pub struct Reading {
    pub kept: Corrected,
    pub code: u8,
    pub limit: u16,
    pub place: usize,
}

/// A taker between two parts of a stream.
#[repr(C)]
#[derive(Clone, Copy, Debug, PartialEq, Eq)]
pub struct Taker {
    pub place: usize,
    pub edition: u8,
    pub limit: u16,
    pub octets: [u8; 1020],
}

/// A taker for an edition, with its number.
#[repr(C)]
#[derive(Clone, Copy, Debug, PartialEq, Eq)]
pub struct Made {
    pub number: u8,
    pub taker: Taker,
}

#[repr(C)]
#[derive(Clone, Copy, Debug, PartialEq, Eq)]
pub struct Taken {
    pub next: Taker,
    pub taken: usize,
    pub complete: bool,
    pub corrected: Corrected,
    pub word: [u8; 1020],
}

#[repr(C)]
#[derive(Clone, Copy, Debug, PartialEq, Eq)]
pub struct Mended {
    pub number: u8,
    pub mended: u8,
}

#[repr(C)]
#[derive(Clone, Copy, Debug, PartialEq, Eq)]
pub struct Handed {
    pub corrected: Corrected,
    pub none: bool,
    pub next: Reading,
}

#[repr(C)]
#[derive(Clone, Copy, Debug, PartialEq, Eq)]
pub struct Imported {
    pub number: u8,
    pub block: u32,
}

unsafe extern "C" {
    fn pandoricchia_version() -> u32;
    fn pandoricchia_word_octets(code: u8) -> usize;
    fn pandoricchia_information_octets(code: u8) -> usize;
    fn pandoricchia_encode(code: u8, information: *const u8, information_len: usize, word: *mut u8, word_len: usize) -> u8;
    fn pandoricchia_check(code: u8, word: *const u8, word_len: usize) -> Checked;
    fn pandoricchia_quick(code: u8, word: *const u8, word_len: usize) -> Answered;
    fn pandoricchia_open(code: u8, word: *const u8, word_len: usize) -> Opened;
    fn pandoricchia_correct(code: u8, word: *const u8, word_len: usize, limit: u16, out: *mut u8, out_len: usize) -> Corrected;
    fn pandoricchia_correct_samples(code: u8, samples: *const f32, samples_len: usize, limit: u16, out: *mut u8, out_len: usize) -> Corrected;
    fn pandoricchia_list(code: u8, word: *const u8, word_len: usize, limit: u16, table: *mut FlipRecord, table_len: usize) -> Listed;
    fn pandoricchia_step(code: u8, word: *const u8, word_len: usize, out: *mut u8, out_len: usize) -> Stepped;
    fn pandoricchia_nearest(word: *const u8, word_len: usize, reach: u8, out: *mut u8, out_len: usize) -> Reached;
    fn pandoricchia_unit_octets(code: u8, information_len: usize) -> usize;
    fn pandoricchia_write_unit(code: u8, information: *const u8, information_len: usize, out: *mut u8, out_len: usize) -> u8;
    fn pandoricchia_reader(code: u8, unit: *const u8, unit_len: usize, limit: u16) -> Reading;
    fn pandoricchia_read(state: Reading, unit: *const u8, unit_len: usize, out: *mut u8, out_len: usize) -> Handed;
    fn pandoricchia_taker(limit: u16) -> Taker;
    fn pandoricchia_taker_for(edition: u8, limit: u16) -> Made;
    fn pandoricchia_take(state: Taker, part: *const u8, part_len: usize) -> Taken;
    fn pandoricchia_bch_encode(information: *const u8, information_len: usize, word: *mut u8, word_len: usize) -> u8;
    fn pandoricchia_bch_check(detect_only: bool, word: *const u8, word_len: usize, out: *mut u8, out_len: usize) -> Mended;
    fn pandoricchia_import_blocks(blocks: *const u8, blocks_len: usize, out: *mut u8, out_len: usize) -> Imported;
    fn pandoricchia_imported_octets(blocks: *const u8, blocks_len: usize) -> usize;
    fn pandoricchia_export_blocks(octets: *const u8, octets_len: usize, out: *mut u8, out_len: usize) -> u8;
    fn pandoricchia_exported_octets(octets_len: usize) -> usize;
}

// Why each call is safe: a slice's pointer and length name octets that are the caller's for as long as the call lasts, and
// an output, being lent mutably, overlaps no input.

/// What a number means, in a few words.
#[must_use]
pub fn text(number: u8) -> &'static str {
    match number {
        DONE => "done",
        CODE => "code not offered by this call",
        INPUT_LENGTH => "input length differs",
        OUTPUT_LENGTH => "output length differs",
        LAST_SIX => "one of the six last bits set",
        STUCK => "checks broken, no excess above 0",
        LIMIT => "limit reached",
        UNSENT => "an unsent bit became 1",
        PARITY => "quiet, parity not the encoder's",
        BROKEN => "a check is broken",
        PLACES => "more flips than the table has places",
        NO_START => "the whole start is not there",
        NO_TAIL => "what follows is not one or more whole codeblocks and the tail",
        NO_BCH_WORD => "no codeword differs in at most one bit; detect-only: the word is none",
        LAST_TWO => "one of the last two bits set",
        OTHER_PARITY => "parity not the encoder's",
        SAMPLE => "a sample is infinite or not a number",
        NONE_NEAR => "no codeword within the reach",
        REACH => "reach above 3",
        EDITION => "edition not known",
        TOO_LONG => "not whole blocks or more than 128; more than 64,512 octets",
        BLOCK_CHECK => "a block's frame check",
        BLOCK_NUMBER => "a block's number",
        BLOCK_COUNT => "a block's count or filling",
        _ => "no such number",
    }
}

/// The version of the library, as a number. One whose major number is not this module's has other records, or other calls.
#[must_use]
pub fn version() -> u32 {
    unsafe { pandoricchia_version() }
}

/// The octets of a word; 0 for a code that is not offered.
#[must_use]
pub fn word_octets(code: u8) -> usize {
    unsafe { pandoricchia_word_octets(code) }
}

/// The octets of a word's information; 0 for a code that is not offered.
#[must_use]
pub fn information_octets(code: u8) -> usize {
    unsafe { pandoricchia_information_octets(code) }
}

/// Information in, word out. Gives the number, 0 to 4.
#[must_use]
pub fn encode(code: u8, information: &[u8], word: &mut [u8]) -> u8 {
    unsafe { pandoricchia_encode(code, information.as_ptr(), information.len(), word.as_mut_ptr(), word.len()) }
}

/// Counts the broken checks, and gives the lowest.
#[must_use]
pub fn check(code: u8, word: &[u8]) -> Checked {
    unsafe { pandoricchia_check(code, word.as_ptr(), word.len()) }
}

/// Whether no check is broken: reads the checks in order, and stops at the first broken one.
#[must_use]
pub fn quick(code: u8, word: &[u8]) -> Answered {
    unsafe { pandoricchia_quick(code, word.as_ptr(), word.len()) }
}

/// Why a word was not opened: the number, 1, 2, 9, 14 or 15, and the lowest broken check, as check gives it.
#[derive(Clone, Copy, Debug, PartialEq, Eq)]
pub struct Unopened {
    pub number: u8,
    pub lowest: u32,
}

/// The information octets of a codeword, lent back as a part of it; or why there are none.
pub fn open(code: u8, word: &[u8]) -> Result<&[u8], Unopened> {
    let Opened { number, lowest, octets } = unsafe { pandoricchia_open(code, word.as_ptr(), word.len()) };
    if number == DONE { Ok(&word[..octets]) } else { Err(Unopened { number, lowest }) }
}

/// Flips the bit of greatest excess until no check is broken, or no bit has an excess above 0, or the limit is reached.
/// `unlike` counts the bits in which the word as received and the word at the end differ; `lowest` is the received word's.
#[must_use]
pub fn correct(code: u8, word: &[u8], limit: u16, out: &mut [u8]) -> Corrected {
    unsafe { pandoricchia_correct(code, word.as_ptr(), word.len(), limit, out.as_mut_ptr(), out.len()) }
}

/// Correct's run on the bits of the samples, a sample for each bit, which is 1 if it is below 0: of several bits of greatest
/// excess the one whose sample has the smallest magnitude is flipped, and of those the lowest. Codes 1 to 4. Samples are read by their
/// bit patterns: no mode of floating point changes an answer.
#[must_use]
pub fn correct_samples(code: u8, samples: &[f32], limit: u16, out: &mut [u8]) -> Corrected {
    unsafe { pandoricchia_correct_samples(code, samples.as_ptr(), samples.len(), limit, out.as_mut_ptr(), out.len()) }
}

/// Correct's run, with a record for each flip in the table; for number 5 the greatest excess and the lowest bit that has it.
#[must_use]
pub fn list(code: u8, word: &[u8], limit: u16, table: &mut [FlipRecord]) -> Listed {
    unsafe { pandoricchia_list(code, word.as_ptr(), word.len(), limit, table.as_mut_ptr(), table.len()) }
}

/// One flip of correct's run.
#[must_use]
pub fn step(code: u8, word: &[u8], out: &mut [u8]) -> Stepped {
    unsafe { pandoricchia_step(code, word.as_ptr(), word.len(), out.as_mut_ptr(), out.len()) }
}

/// Code 1 alone: the fewest flips, up to a reach of 0 to 3, that give a codeword, and the mended word.
#[must_use]
pub fn nearest(word: &[u8], reach: u8, out: &mut [u8]) -> Reached {
    unsafe { pandoricchia_nearest(word.as_ptr(), word.len(), reach, out.as_mut_ptr(), out.len()) }
}

/// How many octets the unit of so many octets of information has; 0 where there is no unit.
#[must_use]
pub fn unit_octets(code: u8, information_len: usize) -> usize {
    unsafe { pandoricchia_unit_octets(code, information_len) }
}

/// The unit of the information. Gives the number, 0 to 3.
#[must_use]
pub fn write_unit(code: u8, information: &[u8], out: &mut [u8]) -> u8 {
    unsafe { pandoricchia_write_unit(code, information.as_ptr(), information.len(), out.as_mut_ptr(), out.len()) }
}

/// A reader that stands on the lent unit and hands out one codeblock after another.
#[derive(Clone, Copy, Debug)]
pub struct Reader<'a> {
    unit: &'a [u8],
    state: Reading,
}

/// A reader over a unit; or the number, 1, 11 or 12.
pub fn reader(code: u8, unit: &[u8], limit: u16) -> Result<Reader<'_>, u8> {
    let state = unsafe { pandoricchia_reader(code, unit.as_ptr(), unit.len(), limit) };
    if state.kept.number == DONE { Ok(Reader { unit, state }) } else { Err(state.kept.number) }
}

impl Reader<'_> {
    /// The information octets of the next codeblock, with correct's numbers; or none.
    #[must_use]
    pub fn read(&mut self, out: &mut [u8]) -> Handed {
        let handed = unsafe { pandoricchia_read(self.state, self.unit.as_ptr(), self.unit.len(), out.as_mut_ptr(), out.len()) };
        self.state = handed.next;
        handed
    }
}

/// A taker at the start of a telemetry stream, that corrects under the limit.
#[must_use]
pub fn taker(limit: u16) -> Taker {
    unsafe { pandoricchia_taker(limit) }
}

/// The same for an edition, 0 to 5. Any other has number 19, and a taker for the old sequence.
#[must_use]
pub fn taker_for(edition: u8, limit: u16) -> Made {
    unsafe { pandoricchia_taker_for(edition, limit) }
}

impl Taker {
    /// Goes on with a part of the stream until a word is complete or the part is used up; the rest is to be brought again.
    #[must_use]
    pub fn take(self, part: &[u8]) -> Taken {
        unsafe { pandoricchia_take(self, part.as_ptr(), part.len()) }
    }
}

/// BCH (63,56): information in, word out. Gives the number, 0, 2 or 3.
#[must_use]
pub fn bch_encode(information: &[u8], word: &mut [u8]) -> u8 {
    unsafe { pandoricchia_bch_encode(information.as_ptr(), information.len(), word.as_mut_ptr(), word.len()) }
}

/// BCH (63,56): the word out, with a single wrong bit mended unless errors are to be detected only.
#[must_use]
pub fn bch_check(detect_only: bool, word: &[u8], out: &mut [u8]) -> Mended {
    unsafe { pandoricchia_bch_check(detect_only, word.as_ptr(), word.len(), out.as_mut_ptr(), out.len()) }
}

/// The octets of a recording from blocks of the lab's disk.
#[must_use]
pub fn import_blocks(blocks: &[u8], out: &mut [u8]) -> Imported {
    unsafe { pandoricchia_import_blocks(blocks.as_ptr(), blocks.len(), out.as_mut_ptr(), out.len()) }
}

/// The room that import needs; 0 where the blocks are refused.
#[must_use]
pub fn imported_octets(blocks: &[u8]) -> usize {
    unsafe { pandoricchia_imported_octets(blocks.as_ptr(), blocks.len()) }
}

/// The blocks of a recording. Gives the number, 0, 3 or 20.
#[must_use]
pub fn export_blocks(octets: &[u8], out: &mut [u8]) -> u8 {
    unsafe { pandoricchia_export_blocks(octets.as_ptr(), octets.len(), out.as_mut_ptr(), out.len()) }
}

/// The room that export needs for so many octets; 0 where they are refused.
#[must_use]
pub fn exported_octets(octets_len: usize) -> usize {
    unsafe { pandoricchia_exported_octets(octets_len) }
}
