//! The functions of the archive, declared once for all that is written in Rust, with all the unsafe
//! code that calls them.
//!
//! The declarations are those of `include/succoryvise.h`: a slice crosses as a pointer and a length.
//! What a caller owes is said there, and slices have it: a slice is never null and has as many bytes
//! as it is long; one that may be written overlaps no other; and while it is lent, nobody else reads
//! or writes it. The functions keep no pointer after they return. The names in the archive end in the
//! version, so that an archive of another version does not link.

#![deny(missing_docs)]

/// The version of the interface that is declared here.
pub const VERSION: u32 = 2;

/// The least lengths of the work areas, in the order of `docs/WORK-AREAS.md`: nodes, pairs, index,
/// graph, sets, room, flags, classes. A function borrows the first ones.
pub const AREAS: [usize; 8] = [512, 64_968, 8_192, 34_000, 59_520, 30_752, 37_000, 8_192];

/// How many areas the book reader borrows.
pub const READER_AREAS: usize = 1;

/// How many areas the checker borrows, and what shows why.
pub const CHECKER_AREAS: usize = 6;

/// How many areas the maker borrows: all.
pub const MAKER_AREAS: usize = AREAS.len();

/// What a function of the archive answers.
#[repr(C)]
#[derive(Clone, Copy, Debug, Default, PartialEq, Eq)]
pub struct Answer {
    /// 0, or the number of the refusal.
    pub number: u32,
    /// The letter of a 14, or 0.
    pub letter: u8,
    /// The place of the refusal, or 0.
    pub place: usize,
    /// The first value where the number is 0, else 0.
    pub first: usize,
    /// The second value, or 0.
    pub second: usize,
    /// The third value, or 0.
    pub third: usize,
}

extern "C" {
    fn succoryvise_version() -> u32;

    #[link_name = "succoryvise_read_book_v2"]
    fn succoryvise_read_book(
        marks: usize,
        text: *const u8,
        text_length: usize,
        nodes: *mut u8,
        nodes_length: usize,
    ) -> Answer;

    #[link_name = "succoryvise_make_v2"]
    fn succoryvise_make(
        tower: *const u8,
        tower_length: usize,
        text: *const u8,
        text_length: usize,
        out: *mut u8,
        out_length: usize,
        nodes: *mut u8,
        nodes_length: usize,
        pairs: *mut u8,
        pairs_length: usize,
        index: *mut u8,
        index_length: usize,
        graph: *mut u8,
        graph_length: usize,
        sets: *mut u8,
        sets_length: usize,
        room: *mut u8,
        room_length: usize,
        flags: *mut u8,
        flags_length: usize,
        classes: *mut u8,
        classes_length: usize,
    ) -> Answer;

    #[link_name = "succoryvise_check_v2"]
    fn succoryvise_check(
        tower: *const u8,
        tower_length: usize,
        text: *const u8,
        text_length: usize,
        table: *const u8,
        table_length: usize,
        nodes: *mut u8,
        nodes_length: usize,
        pairs: *mut u8,
        pairs_length: usize,
        index: *mut u8,
        index_length: usize,
        graph: *mut u8,
        graph_length: usize,
        sets: *mut u8,
        sets_length: usize,
        room: *mut u8,
        room_length: usize,
    ) -> Answer;

    #[link_name = "succoryvise_follow_v2"]
    fn succoryvise_follow(
        table: *const u8,
        table_length: usize,
        row: usize,
        action: usize,
    ) -> Answer;

    #[link_name = "succoryvise_read_log_v2"]
    fn succoryvise_read_log(
        tower: *const u8,
        tower_length: usize,
        table: *const u8,
        table_length: usize,
        log: *const u8,
        log_length: usize,
    ) -> Answer;

    #[link_name = "succoryvise_why_v2"]
    fn succoryvise_why(
        tower: *const u8,
        tower_length: usize,
        text: *const u8,
        text_length: usize,
        table: *const u8,
        table_length: usize,
        list: *mut u8,
        list_length: usize,
        nodes: *mut u8,
        nodes_length: usize,
        pairs: *mut u8,
        pairs_length: usize,
        index: *mut u8,
        index_length: usize,
        graph: *mut u8,
        graph_length: usize,
        sets: *mut u8,
        sets_length: usize,
        room: *mut u8,
        room_length: usize,
    ) -> Answer;
}

/// The version of the archive.
pub fn version() -> u32 {
    // SAFETY: it takes nothing and answers a number.
    unsafe { succoryvise_version() }
}

/// The book reader.
pub fn read_book(marks: usize, text: &[u8], areas: [&mut [u8]; READER_AREAS]) -> Answer {
    let [nodes] = areas;
    // SAFETY: each pointer and its length are of one slice, and `nodes` is exclusive.
    unsafe {
        succoryvise_read_book(
            marks,
            text.as_ptr(),
            text.len(),
            nodes.as_mut_ptr(),
            nodes.len(),
        )
    }
}

/// The maker.
pub fn make(tower: &[u8], text: &[u8], out: &mut [u8], areas: [&mut [u8]; MAKER_AREAS]) -> Answer {
    let [nodes, pairs, index, graph, sets, room, flags, classes] = areas;
    // SAFETY: each pointer and its length are of one slice; `out` and the areas are exclusive, so
    // they overlap neither each other nor tower and text.
    unsafe {
        succoryvise_make(
            tower.as_ptr(),
            tower.len(),
            text.as_ptr(),
            text.len(),
            out.as_mut_ptr(),
            out.len(),
            nodes.as_mut_ptr(),
            nodes.len(),
            pairs.as_mut_ptr(),
            pairs.len(),
            index.as_mut_ptr(),
            index.len(),
            graph.as_mut_ptr(),
            graph.len(),
            sets.as_mut_ptr(),
            sets.len(),
            room.as_mut_ptr(),
            room.len(),
            flags.as_mut_ptr(),
            flags.len(),
            classes.as_mut_ptr(),
            classes.len(),
        )
    }
}

/// The checker.
pub fn check(tower: &[u8], text: &[u8], table: &[u8], areas: [&mut [u8]; CHECKER_AREAS]) -> Answer {
    let [nodes, pairs, index, graph, sets, room] = areas;
    // SAFETY: each pointer and its length are of one slice; the areas are exclusive, so they overlap
    // neither each other nor tower, text and table.
    unsafe {
        succoryvise_check(
            tower.as_ptr(),
            tower.len(),
            text.as_ptr(),
            text.len(),
            table.as_ptr(),
            table.len(),
            nodes.as_mut_ptr(),
            nodes.len(),
            pairs.as_mut_ptr(),
            pairs.len(),
            index.as_mut_ptr(),
            index.len(),
            graph.as_mut_ptr(),
            graph.len(),
            sets.as_mut_ptr(),
            sets.len(),
            room.as_mut_ptr(),
            room.len(),
        )
    }
}

/// The follower.
pub fn follow(table: &[u8], row: usize, action: usize) -> Answer {
    // SAFETY: pointer and length are of one slice, which is only read.
    unsafe { succoryvise_follow(table.as_ptr(), table.len(), row, action) }
}

/// The log reader. Its first value is 0 and the second the final row, or the first is 1 and the second
/// the first line that does not fit.
pub fn read_log(tower: &[u8], table: &[u8], log: &[u8]) -> Answer {
    // SAFETY: each pointer and its length are of one slice, which is only read.
    unsafe {
        succoryvise_read_log(
            tower.as_ptr(),
            tower.len(),
            table.as_ptr(),
            table.len(),
            log.as_ptr(),
            log.len(),
        )
    }
}

/// The checker, which for a 14 e shows a run that is broken.
pub fn why(
    tower: &[u8],
    text: &[u8],
    table: &[u8],
    list: &mut [u8],
    areas: [&mut [u8]; CHECKER_AREAS],
) -> Answer {
    let [nodes, pairs, index, graph, sets, room] = areas;
    // SAFETY: each pointer and its length are of one slice; `list` and the areas are exclusive, so
    // they overlap neither each other nor tower, text and table.
    unsafe {
        succoryvise_why(
            tower.as_ptr(),
            tower.len(),
            text.as_ptr(),
            text.len(),
            table.as_ptr(),
            table.len(),
            list.as_mut_ptr(),
            list.len(),
            nodes.as_mut_ptr(),
            nodes.len(),
            pairs.as_mut_ptr(),
            pairs.len(),
            index.as_mut_ptr(),
            index.len(),
            graph.as_mut_ptr(),
            graph.len(),
            sets.as_mut_ptr(),
            sets.len(),
            room.as_mut_ptr(),
            room.len(),
        )
    }
}
