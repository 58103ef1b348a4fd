//! include/atlas.h, in its order.

extern "C" {
    pub fn atlas_check(file: *const u8, file_length: usize) -> u32;
    pub fn atlas_refused_at(file: *const u8, file_length: usize) -> usize;
    pub fn atlas_count(file: *const u8, file_length: usize, count: *mut usize) -> u32;
    pub fn atlas_sheet(
        file: *const u8,
        file_length: usize,
        sheet: *mut u8,
        room: usize,
        sheet_length: *mut usize,
    ) -> u32;
    pub fn atlas_place(
        file: *const u8,
        file_length: usize,
        index: usize,
        id: *mut u32,
        latitude: *mut i32,
        longitude: *mut i32,
        x: *mut i32,
        y: *mut i32,
        name: *mut u8,
    ) -> u32;
    pub fn atlas_nearest(
        file: *const u8,
        file_length: usize,
        x: i64,
        y: i64,
        reach: i64,
        index: *mut usize,
    ) -> u32;
    pub fn atlas_places_in_reach(
        file: *const u8,
        file_length: usize,
        x: i64,
        y: i64,
        reach: i64,
        indexes: *mut usize,
        indexes_length: usize,
        count: *mut usize,
    ) -> u32;
    pub fn atlas_usual_reach() -> i64;
    pub fn atlas_forward(
        sheet: *const u8,
        sheet_length: usize,
        latitude: i64,
        longitude: i64,
        x: *mut i64,
        y: *mut i64,
    ) -> u32;
    pub fn atlas_forward_each(
        sheet: *const u8,
        sheet_length: usize,
        positions: *const i64,
        positions_length: usize,
        answers: *mut i64,
        answers_length: usize,
    ) -> u32;
    pub fn atlas_inverse(
        sheet: *const u8,
        sheet_length: usize,
        x: i64,
        y: i64,
        latitude: *mut i64,
        longitude: *mut i64,
    ) -> u32;
    pub fn atlas_inverse_each(
        sheet: *const u8,
        sheet_length: usize,
        points: *const i64,
        points_length: usize,
        answers: *mut i64,
        answers_length: usize,
    ) -> u32;
}
