//! The functions of include/bayer.h.

use crate::Shape;
use std::ffi::c_char;

#[repr(C)]
pub struct Returned {
    pub number: usize,
    pub place: usize,
}

#[repr(C)]
pub struct ReadReturned {
    pub number: usize,
    pub place: usize,
    pub width: usize,
    pub height: usize,
    pub phase: usize,
}

extern "C" {
    pub fn bayer_read(
        file: *const u8,
        file_length: usize,
        samples: *mut u16,
        samples_length: usize,
    ) -> ReadReturned;

    pub fn bayer_write(
        shape: Shape,
        mosaic: *const u16,
        mosaic_length: usize,
        file: *mut u8,
        file_length: usize,
    ) -> Returned;

    pub fn bayer_develop(
        shape: Shape,
        black: usize,
        mosaic: *const u16,
        mosaic_length: usize,
        red: *mut i32,
        red_length: usize,
        green: *mut i32,
        green_length: usize,
        blue: *mut i32,
        blue_length: usize,
        map: *mut u8,
        map_length: usize,
        work: *mut i32,
        work_length: usize,
    ) -> Returned;

    pub fn bayer_clamp(
        plane: *const i32,
        plane_length: usize,
        clamped: *mut i32,
        clamped_length: usize,
    ) -> Returned;

    pub fn bayer_curve(
        plane: *const i32,
        plane_length: usize,
        curved: *mut i32,
        curved_length: usize,
    ) -> Returned;

    pub fn bayer_text(number: usize) -> *const c_char;

    pub fn bayer_decision_text(code: usize) -> *const c_char;

    pub fn bayer_version() -> *const c_char;
}
