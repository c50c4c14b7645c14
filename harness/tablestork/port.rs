//! The port's C entry points, and safe calls over byte slices with the same arguments and results. Ids are little-endian.
//!
//! This is the one place that names the entry points. They come from the static library that the link line names; in a build
//! with `--cfg stand_in` the reference model stands in for it (stand_in.rs).

#[cfg(stand_in)]
extern crate stand_in as _;

extern "C" {
    fn tablestork_start(
        table: *mut u8,
        table_len: usize,
        arena: *mut u8,
        arena_len: usize,
        terms: *mut u32,
        used: *mut u32,
    ) -> u32;
    fn tablestork_put(
        table: *mut u8,
        table_len: usize,
        arena: *mut u8,
        arena_len: usize,
        terms: *mut u32,
        used: *mut u32,
        kind: u32,
        bytes: *const u8,
        bytes_len: usize,
        id: *mut u32,
    ) -> u32;
    fn tablestork_lookup(
        table: *const u8,
        table_len: usize,
        arena: *const u8,
        arena_len: usize,
        terms: u32,
        used: u32,
        id: u32,
        kind: *mut u32,
        begin: *mut u64,
        len: *mut u64,
    ) -> u32;
    fn tablestork_run(
        table: *mut u8,
        table_len: usize,
        arena: *mut u8,
        arena_len: usize,
        terms: *mut u32,
        used: *mut u32,
        load: *const u8,
        load_len: usize,
        store: *mut u8,
        store_len: usize,
        findings: *mut u8,
        findings_len: usize,
        work: *mut u8,
        work_len: usize,
        triples: *mut u32,
        counts: *mut [u32; 5],
    ) -> u32;
    fn tablestork_open(
        table: *mut u8,
        table_len: usize,
        arena: *mut u8,
        arena_len: usize,
        terms: *mut u32,
        used: *mut u32,
        load: *const u8,
        load_len: usize,
        store: *mut u8,
        store_len: usize,
        findings: *mut u8,
        findings_len: usize,
        work: *mut u8,
        work_len: usize,
        triples: *mut u32,
        done: *mut u32,
        counts: *mut [u32; 5],
    ) -> u32;
    fn tablestork_pass(
        table: *mut u8,
        table_len: usize,
        arena: *mut u8,
        arena_len: usize,
        terms: *mut u32,
        used: *mut u32,
        load: *const u8,
        load_len: usize,
        store: *mut u8,
        store_len: usize,
        findings: *mut u8,
        findings_len: usize,
        work: *mut u8,
        work_len: usize,
        triples: *mut u32,
        done: *mut u32,
        counts: *mut [u32; 5],
    ) -> u32;
    fn tablestork_read(
        table: *mut u8,
        table_len: usize,
        arena: *mut u8,
        arena_len: usize,
        terms: *mut u32,
        used: *mut u32,
        file: *const u8,
        file_len: usize,
        load: *mut u8,
        load_len: usize,
        triples: *mut u32,
    ) -> u32;
    fn tablestork_write(
        table: *const u8,
        table_len: usize,
        arena: *const u8,
        arena_len: usize,
        terms: u32,
        used: u32,
        store: *const u8,
        store_len: usize,
        triples: u32,
        page: *mut u8,
        page_len: usize,
        length: *mut u64,
        left: *mut u32,
    ) -> u32;
}

/// A number that no call gives back, to see that each result is written.
const UNWRITTEN: u32 = 0xdead_beef;

/// Refusal.
pub fn start(table: &mut [u8], arena: &mut [u8], terms: &mut u32, used: &mut u32) -> u32 {
    // Each pointer comes from a reference that lives through the call, with its own length.
    unsafe { tablestork_start(table.as_mut_ptr(), table.len(), arena.as_mut_ptr(), arena.len(), terms, used) }
}

/// Refusal and id.
pub fn put(table: &mut [u8], arena: &mut [u8], terms: &mut u32, used: &mut u32, kind: u32, bytes: &[u8]) -> (u32, u32) {
    let mut id = UNWRITTEN;
    let refusal = unsafe {
        tablestork_put(
            table.as_mut_ptr(),
            table.len(),
            arena.as_mut_ptr(),
            arena.len(),
            terms,
            used,
            kind,
            bytes.as_ptr(),
            bytes.len(),
            &mut id,
        )
    };
    (refusal, id)
}

/// Refusal, kind, and the place and length of the term's bytes in the arena.
pub fn lookup(table: &[u8], arena: &[u8], terms: u32, used: u32, id: u32) -> (u32, u32, u64, u64) {
    let (mut kind, mut begin, mut len) = (UNWRITTEN, u64::from(UNWRITTEN), u64::from(UNWRITTEN));
    let refusal = unsafe {
        tablestork_lookup(
            table.as_ptr(),
            table.len(),
            arena.as_ptr(),
            arena.len(),
            terms,
            used,
            id,
            &mut kind,
            &mut begin,
            &mut len,
        )
    };
    (refusal, kind, begin, len)
}

/// What a run, an opening call or a pass is lent.
pub struct Lent<'a> {
    pub table: &'a mut [u8],
    pub arena: &'a mut [u8],
    pub terms: &'a mut u32,
    pub used: &'a mut u32,
    pub load: &'a [u8],
    pub store: &'a mut [u8],
    pub findings: &'a mut [u8],
    pub work: &'a mut [u8],
}

/// Refusal, triple count, and the count of each check.
pub fn run(lent: Lent) -> (u32, u32, [u32; 5]) {
    let (mut triples, mut counts) = (UNWRITTEN, [UNWRITTEN; 5]);
    let refusal = unsafe {
        tablestork_run(
            lent.table.as_mut_ptr(),
            lent.table.len(),
            lent.arena.as_mut_ptr(),
            lent.arena.len(),
            lent.terms,
            lent.used,
            lent.load.as_ptr(),
            lent.load.len(),
            lent.store.as_mut_ptr(),
            lent.store.len(),
            lent.findings.as_mut_ptr(),
            lent.findings.len(),
            lent.work.as_mut_ptr(),
            lent.work.len(),
            &mut triples,
            &mut counts,
        )
    };
    (refusal, triples, counts)
}

/// `tablestork_open` or `tablestork_pass`.
type InTurns = unsafe extern "C" fn(
    *mut u8,
    usize,
    *mut u8,
    usize,
    *mut u32,
    *mut u32,
    *const u8,
    usize,
    *mut u8,
    usize,
    *mut u8,
    usize,
    *mut u8,
    usize,
    *mut u32,
    *mut u32,
    *mut [u32; 5],
) -> u32;

/// Refusal, triple count, 1 where the run is done and else 0, and the count of each check.
pub type Turn = (u32, u32, u32, [u32; 5]);

/// An opening call.
pub fn open(lent: Lent) -> Turn {
    turn(tablestork_open, lent)
}

/// A pass.
pub fn pass(lent: Lent) -> Turn {
    turn(tablestork_pass, lent)
}

fn turn(call: InTurns, lent: Lent) -> Turn {
    let (mut triples, mut done, mut counts) = (UNWRITTEN, UNWRITTEN, [UNWRITTEN; 5]);
    let refusal = unsafe {
        call(
            lent.table.as_mut_ptr(),
            lent.table.len(),
            lent.arena.as_mut_ptr(),
            lent.arena.len(),
            lent.terms,
            lent.used,
            lent.load.as_ptr(),
            lent.load.len(),
            lent.store.as_mut_ptr(),
            lent.store.len(),
            lent.findings.as_mut_ptr(),
            lent.findings.len(),
            lent.work.as_mut_ptr(),
            lent.work.len(),
            &mut triples,
            &mut done,
            &mut counts,
        )
    };
    (refusal, triples, done, counts)
}

/// What a read is lent.
pub struct LentToRead<'a> {
    pub table: &'a mut [u8],
    pub arena: &'a mut [u8],
    pub terms: &'a mut u32,
    pub used: &'a mut u32,
    pub file: &'a [u8],
    pub load: &'a mut [u8],
}

/// Refusal, and the count of the triples read.
pub fn read(lent: LentToRead) -> (u32, u32) {
    let mut triples = UNWRITTEN;
    let refusal = unsafe {
        tablestork_read(
            lent.table.as_mut_ptr(),
            lent.table.len(),
            lent.arena.as_mut_ptr(),
            lent.arena.len(),
            lent.terms,
            lent.used,
            lent.file.as_ptr(),
            lent.file.len(),
            lent.load.as_mut_ptr(),
            lent.load.len(),
            &mut triples,
        )
    };
    (refusal, triples)
}

/// What a write is lent: it writes the page alone.
pub struct LentToWrite<'a> {
    pub table: &'a [u8],
    pub arena: &'a [u8],
    pub terms: u32,
    pub used: u32,
    pub store: &'a [u8],
    pub triples: u32,
    pub page: &'a mut [u8],
}

/// Refusal, the length of the text, and the number of triples left out.
pub fn write(lent: LentToWrite) -> (u32, u64, u32) {
    let (mut length, mut left) = (u64::from(UNWRITTEN), UNWRITTEN);
    let refusal = unsafe {
        tablestork_write(
            lent.table.as_ptr(),
            lent.table.len(),
            lent.arena.as_ptr(),
            lent.arena.len(),
            lent.terms,
            lent.used,
            lent.store.as_ptr(),
            lent.store.len(),
            lent.triples,
            lent.page.as_mut_ptr(),
            lent.page.len(),
            &mut length,
            &mut left,
        )
    };
    (refusal, length, left)
}
