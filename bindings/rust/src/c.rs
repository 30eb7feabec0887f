//! The functions of the library, their version and the lengths of a record as its header has them (include/kollafrin.h). Declared here alone: the drivers under
//! bench take this file over by its path.

/// KOLLAFRIN_VERSION: what `kollafrin_version` says of a library that these declarations fit.
pub const VERSION: u32 = 3;

/// KOLLAFRIN_RECORD: how many words an instruction record has.
pub const RECORD: usize = 10;

/// KOLLAFRIN_OLD_RECORD: how many it has in an old book.
pub const OLD_RECORD: usize = 8;

extern "C" {
    pub fn kollafrin_version() -> u32;
    pub fn kollafrin_builtin(out: *mut u8, out_length: usize) -> usize;
    pub fn kollafrin_load(
        module: *const u8,
        module_length: usize,
        grammar: *const u8,
        grammar_length: usize,
        instructions: *mut u32,
        instructions_length: usize,
        log: *mut u8,
        log_length: usize,
        strings: *mut u8,
        strings_length: usize,
        types: *mut u32,
        types_length: usize,
        answer: *mut [u32; 16],
    ) -> u32;
    pub fn kollafrin_load_builtin(
        module: *const u8,
        module_length: usize,
        instructions: *mut u32,
        instructions_length: usize,
        log: *mut u8,
        log_length: usize,
        strings: *mut u8,
        strings_length: usize,
        types: *mut u32,
        types_length: usize,
        answer: *mut [u32; 16],
    ) -> u32;
    pub fn kollafrin_write_parse_order(
        header: *const [u32; 5],
        instructions: *const u32,
        instructions_length: usize,
        log: *const u8,
        log_length: usize,
        strings: *const u8,
        strings_length: usize,
        instruction_count: usize,
        log_count: usize,
        string_count: usize,
        out: *mut u8,
        out_length: usize,
        answer: *mut [u32; 4],
    ) -> u32;
    pub fn kollafrin_write_module_order(
        header: *const [u32; 5],
        instructions: *const u32,
        instructions_length: usize,
        log: *const u8,
        log_length: usize,
        strings: *const u8,
        strings_length: usize,
        instruction_count: usize,
        log_count: usize,
        string_count: usize,
        out: *mut u8,
        out_length: usize,
        answer: *mut [u32; 4],
    ) -> u32;
    pub fn kollafrin_disassemble(
        header: *const [u32; 5],
        instructions: *const u32,
        instructions_length: usize,
        log: *const u8,
        log_length: usize,
        strings: *const u8,
        strings_length: usize,
        instruction_count: usize,
        log_count: usize,
        string_count: usize,
        out: *mut u8,
        out_length: usize,
        answer: *mut [u32; 4],
    ) -> u32;
    pub fn kollafrin_standing(
        instructions: *const u32,
        instructions_length: usize,
        log: *const u8,
        log_length: usize,
        strings: *const u8,
        strings_length: usize,
        instruction_count: usize,
        log_count: usize,
        string_count: usize,
        answer: *mut [u32; 4],
    ) -> u32;
    pub fn kollafrin_new_book(
        records: *const u32,
        records_length: usize,
        log: *const u8,
        log_length: usize,
        strings: *const u8,
        strings_length: usize,
        instruction_count: usize,
        log_count: usize,
        string_count: usize,
        out: *mut u32,
        out_length: usize,
        answer: *mut [u32; 4],
    ) -> u32;
    pub fn kollafrin_old_book(
        records: *const u32,
        records_length: usize,
        log: *const u8,
        log_length: usize,
        strings: *const u8,
        strings_length: usize,
        instruction_count: usize,
        log_count: usize,
        string_count: usize,
        out: *mut u32,
        out_length: usize,
        answer: *mut [u32; 4],
    ) -> u32;
    pub fn kollafrin_join(
        first: *const u8,
        first_length: usize,
        second: *const u8,
        second_length: usize,
        out: *mut u8,
        out_length: usize,
        answer: *mut [u32; 4],
    ) -> u32;
}
