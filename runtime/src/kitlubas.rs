// The static library's functions for records, wrapped. crates/record_exports/kitlubas_record.h says what each answers; the tests
// of rust/ hold these declarations against it.
mod raw {
    extern "C" {
        pub fn kitlubas_get_bool(section: *const u8, section_len: usize, offset: u32) -> bool;
        pub fn kitlubas_get_bool_mask(section: *const u8, section_len: usize, offset: u32, mask: bool) -> bool;
        pub fn kitlubas_set_bool(section: *mut u8, section_len: usize, offset: u32, value: bool) -> bool;
        pub fn kitlubas_set_bool_mask(
            section: *mut u8,
            section_len: usize,
            offset: u32,
            value: bool,
            mask: bool,
        ) -> bool;
        pub fn kitlubas_get_data(
            section: *const u8,
            section_len: usize,
            width: u32,
            offset: u32,
            value: *mut u64,
        ) -> bool;
        pub fn kitlubas_get_data_mask(
            section: *const u8,
            section_len: usize,
            width: u32,
            offset: u32,
            mask: u64,
            value: *mut u64,
        ) -> bool;
        pub fn kitlubas_set_data(section: *mut u8, section_len: usize, width: u32, offset: u32, value: u64) -> bool;
        pub fn kitlubas_set_data_mask(
            section: *mut u8,
            section_len: usize,
            width: u32,
            offset: u32,
            value: u64,
            mask: u64,
        ) -> bool;
        pub fn kitlubas_tag_is(section: *const u8, section_len: usize, offset: u32, member: u16) -> bool;
        pub fn kitlubas_is_pointer_null(pointers: *const u8, pointers_len: usize, offset: u32) -> bool;
        pub fn kitlubas_clear(pointers: *mut u8, pointers_len: usize, offset: u32) -> bool;
    }
}

pub fn get_bool(section: &[u8], offset: u32, mask: Option<bool>) -> bool {
    unsafe {
        match mask {
            None => raw::kitlubas_get_bool(section.as_ptr(), section.len(), offset),
            Some(m) => raw::kitlubas_get_bool_mask(section.as_ptr(), section.len(), offset, m),
        }
    }
}

pub fn set_bool(section: &mut [u8], offset: u32, value: bool, mask: Option<bool>) -> bool {
    unsafe {
        match mask {
            None => raw::kitlubas_set_bool(section.as_mut_ptr(), section.len(), offset, value),
            Some(m) => raw::kitlubas_set_bool_mask(section.as_mut_ptr(), section.len(), offset, value, m),
        }
    }
}

// None where a number has no such width.
pub fn get_data(section: &[u8], width: u32, offset: u32, mask: Option<u64>) -> Option<u64> {
    let mut value = 0;
    let is_width = unsafe {
        match mask {
            None => raw::kitlubas_get_data(section.as_ptr(), section.len(), width, offset, &mut value),
            Some(m) => raw::kitlubas_get_data_mask(section.as_ptr(), section.len(), width, offset, m, &mut value),
        }
    };
    if is_width {
        Some(value)
    } else {
        None
    }
}

pub fn set_data(section: &mut [u8], width: u32, offset: u32, value: u64, mask: Option<u64>) -> bool {
    unsafe {
        match mask {
            None => raw::kitlubas_set_data(section.as_mut_ptr(), section.len(), width, offset, value),
            Some(m) => raw::kitlubas_set_data_mask(section.as_mut_ptr(), section.len(), width, offset, value, m),
        }
    }
}

pub fn tag_is(section: &[u8], offset: u32, member: u16) -> bool {
    unsafe { raw::kitlubas_tag_is(section.as_ptr(), section.len(), offset, member) }
}

pub fn is_pointer_null(pointers: &[u8], offset: u32) -> bool {
    unsafe { raw::kitlubas_is_pointer_null(pointers.as_ptr(), pointers.len(), offset) }
}

pub fn clear(pointers: &mut [u8], offset: u32) -> bool {
    unsafe { raw::kitlubas_clear(pointers.as_mut_ptr(), pointers.len(), offset) }
}
