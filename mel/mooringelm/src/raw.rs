//! The functions for C as include/mooringelm.h declares them.

#[repr(C)]
#[derive(Clone, Copy, Debug, PartialEq, Eq)]
pub struct Answer {
    pub refusal: u32,
    pub place: u32,
    pub item: u32,
    pub length: u32,
}

#[repr(C)]
#[derive(Clone, Copy, Debug, PartialEq, Eq)]
pub struct OctetsAnswer {
    pub refusal: u32,
    pub place: u32,
    pub item: u32,
    pub length: u32,
    pub start: u64,
}

#[repr(C)]
#[derive(Clone, Copy, Debug, PartialEq, Eq)]
pub struct SectionAnswer {
    pub refusal: u32,
    pub place: u32,
    pub item: u32,
    pub boundary: u32,
    pub span_end: u32,
    pub position: u32,
    pub size: u32,
    pub elements: u32,
    pub id: u32,
    pub fastest: u32,
    pub second: u32,
    pub third: u32,
    pub name_start: u32,
    pub name_length: u32,
    pub compression: u8,
    pub element_type: u8,
    pub encoding: u8,
}

extern "C" {
    pub fn mel_count(file: *const u8, file_len: usize) -> Answer;
    pub fn mel_section(file: *const u8, file_len: usize, section: usize) -> SectionAnswer;
    pub fn mel_octets(file: *const u8, file_len: usize, section: usize) -> OctetsAnswer;
    pub fn mel_unpack(
        file: *const u8,
        file_len: usize,
        section: usize,
        pixels: *mut i64,
        room: usize,
    ) -> Answer;
    pub fn mel_listing(file: *const u8, file_len: usize, out: *mut u8, room: usize) -> Answer;
    pub fn mel_catalogue(file: *const u8, file_len: usize, out: *mut u8, room: usize) -> Answer;
    pub fn mel_replace(
        file: *const u8,
        file_len: usize,
        section: usize,
        frame: *const i64,
        frame_len: usize,
        out: *mut u8,
        room: usize,
    ) -> Answer;
    pub fn mel_pack(
        element_type: u8,
        pixels: *const i64,
        count: usize,
        out: *mut u8,
        room: usize,
    ) -> Answer;
    pub fn mel_unpack_octets(
        element_type: u8,
        compression: u8,
        octets: *const u8,
        octets_len: usize,
        count: usize,
        pixels: *mut i64,
        room: usize,
    ) -> Answer;
}
