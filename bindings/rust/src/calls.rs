//! The exported functions, as `crates/exports/src/lib.rt` has them. A slice passes as a pointer and a length, a lent number as a
//! pointer. Nothing checks these lines against that file: they are kept in its order and with its names.

extern "C" {
    pub fn digit_table_read(
        list: *const u8,
        list_length: usize,
        place: *mut usize,
        p: *mut u32,
        values: *mut usize,
        cells: *mut usize,
        rows: *mut usize,
    ) -> u32;

    pub fn digit_table_check(
        list: *const u8,
        list_length: usize,
        table: *const u32,
        table_length: usize,
        place: *mut usize,
    ) -> u32;

    pub fn digit_table_make(
        list: *const u8,
        list_length: usize,
        inputs: *const i64,
        inputs_length: usize,
        table: *mut u32,
        table_length: usize,
        place: *mut usize,
    ) -> u32;

    pub fn digit_table_desk_call(
        heard: *mut u64,
        accepted: *mut u64,
        refused: *mut u64,
        list: *const u8,
        list_length: usize,
        table: *const u32,
        table_length: usize,
        place: *mut usize,
    ) -> u32;

    pub fn digit_table_show(
        list: *const u8,
        list_length: usize,
        table: *const u32,
        table_length: usize,
        line: usize,
        first: *mut usize,
    ) -> usize;

    pub fn digit_table_respond(
        input: *const u8,
        input_length: usize,
        output: *mut u8,
        output_length: usize,
    ) -> usize;

    pub fn digit_table_write(
        words: *const u8,
        words_length: usize,
        counts: *const usize,
        counts_length: usize,
        numbers: *const i64,
        numbers_length: usize,
        buffer: *mut u8,
        buffer_length: usize,
        place: *mut usize,
    ) -> u32;
}
