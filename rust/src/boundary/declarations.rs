//! The functions of the static library. crates/exports/kitlubas.h says what each answers and leaves; the tests of the
//! crate `kitlubas` hold these declarations against that header and against the heads in crates/exports/src.

extern "C" {
    pub fn kitlubas_number(at: usize, buf: *mut u8, buf_len: usize, n: u64) -> usize;
    pub fn kitlubas_signed(at: usize, buf: *mut u8, buf_len: usize, width: u32, n: u64) -> usize;
    pub fn kitlubas_line(
        at: usize,
        buf: *mut u8,
        buf_len: usize,
        indent: usize,
        line: *const u8,
        line_len: usize,
    ) -> usize;
    pub fn kitlubas_blank_line(at: usize, buf: *mut u8, buf_len: usize) -> usize;
    pub fn kitlubas_no_lines(at: usize, buf: *mut u8, buf_len: usize) -> usize;
    pub fn kitlubas_snake(at: usize, buf: *mut u8, buf_len: usize, name: *const u8, name_len: usize) -> usize;
    pub fn kitlubas_default_name(at: usize, buf: *mut u8, buf_len: usize, name: *const u8, name_len: usize) -> usize;
    pub fn kitlubas_module_name(at: usize, buf: *mut u8, buf_len: usize, name: *const u8, name_len: usize) -> usize;
    pub fn kitlubas_admit(s: *const u8, s_len: usize, line: *mut usize, column: *mut usize) -> u64;
    pub fn kitlubas_answer(
        s: *const u8,
        s_len: usize,
        id: u64,
        place: u64,
        request: u64,
        leaf: u64,
        level: usize,
        fill: *mut usize,
        line: *mut usize,
        column: *mut usize,
        buf: *mut u8,
        buf_len: usize,
    ) -> u64;
    pub fn kitlubas_index_size(size: usize) -> usize;
    pub fn kitlubas_index(
        s: *const u8,
        s_len: usize,
        index: *mut u64,
        index_len: usize,
        line: *mut usize,
        column: *mut usize,
    ) -> u64;
    pub fn kitlubas_answer_in(
        s: *const u8,
        s_len: usize,
        index: *const u64,
        index_len: usize,
        id: u64,
        place: u64,
        request: u64,
        leaf: u64,
        level: usize,
        fill: *mut usize,
        line: *mut usize,
        column: *mut usize,
        buf: *mut u8,
        buf_len: usize,
    ) -> u64;
    pub fn kitlubas_node(
        s: *const u8,
        s_len: usize,
        index: *const u64,
        index_len: usize,
        number: usize,
        id: *mut u64,
        at: *mut usize,
        size: *mut usize,
        first: *mut usize,
    ) -> u64;
    pub fn kitlubas_field(
        s: *const u8,
        s_len: usize,
        from: usize,
        field: *mut u64,
        field_len: usize,
        kind: *mut u64,
        at: *mut usize,
        size: *mut usize,
        next: *mut usize,
    ) -> u64;
    pub fn kitlubas_text(
        s: *const u8,
        s_len: usize,
        index: *const u64,
        index_len: usize,
        node: usize,
        field: *const u64,
        field_len: usize,
        request: u64,
        leaf: u64,
        level: usize,
        size: *mut usize,
        buf: *mut u8,
        buf_len: usize,
    ) -> u64;
    pub fn kitlubas_verdict(
        s: *const u8,
        s_len: usize,
        index: *const u64,
        index_len: usize,
        node: usize,
        field: *const u64,
        field_len: usize,
        verdict: *mut u64,
    ) -> u64;
    pub fn kitlubas_pad(s: *const u8, s_len: usize, fill: *mut usize, buf: *mut u8, buf_len: usize) -> u64;
}
