//! GEOS' `GEOSRemoveRepeatedPoints`, of version 3.11 on, through its C interface: it drops a point where its distance from the last kept
//! one is at most a tolerance, both axes together, and keeps the last.

use std::ffi::{c_int, c_uint};
use std::hint::black_box;
use std::ptr::NonNull;

use formats::same_numbers;

use super::LIMIT;
use crate::timing::medians;

/// The time for a ring, whose mended numbers GEOS has to give. It is taken apart from the others', whose caches it would leave cold by what
/// it allocates.
pub fn time(numbers: &[f64], mended: &[f64]) -> Option<f64> {
    let ring = Ring::new(numbers);
    assert!(same_numbers(mended, &ring.without_repeats()), "{} numbers", numbers.len());
    Some(medians(&mut [&mut || ring.remove_repeats()])[0])
}

/// What GEOS' own pointers point to.
#[repr(C)]
struct Context {
    _private: [u8; 0],
}
#[repr(C)]
struct Sequence {
    _private: [u8; 0],
}
#[repr(C)]
struct Geometry {
    _private: [u8; 0],
}

#[link(name = "geos_c")]
extern "C" {
    fn GEOS_init_r() -> Option<NonNull<Context>>;
    fn GEOS_finish_r(context: NonNull<Context>);
    fn GEOSCoordSeq_copyFromBuffer_r(
        context: NonNull<Context>,
        numbers: *const f64,
        coordinates: c_uint,
        has_z: c_int,
        has_m: c_int,
    ) -> Option<NonNull<Sequence>>;
    fn GEOSCoordSeq_copyToBuffer_r(
        context: NonNull<Context>,
        sequence: NonNull<Sequence>,
        numbers: *mut f64,
        has_z: c_int,
        has_m: c_int,
    ) -> c_int;
    fn GEOSGeom_createLinearRing_r(context: NonNull<Context>, sequence: NonNull<Sequence>)
        -> Option<NonNull<Geometry>>;
    fn GEOSGeom_getCoordSeq_r(context: NonNull<Context>, geometry: NonNull<Geometry>) -> Option<NonNull<Sequence>>;
    fn GEOSGeomGetNumPoints_r(context: NonNull<Context>, geometry: NonNull<Geometry>) -> c_int;
    fn GEOSRemoveRepeatedPoints_r(
        context: NonNull<Context>,
        geometry: NonNull<Geometry>,
        tolerance: f64,
    ) -> Option<NonNull<Geometry>>;
    fn GEOSGeom_destroy_r(context: NonNull<Context>, geometry: NonNull<Geometry>);
}

/// A ring as GEOS holds it.
struct Ring {
    context: NonNull<Context>,
    geometry: NonNull<Geometry>,
}

impl Ring {
    fn new(numbers: &[f64]) -> Ring {
        let coordinates = (numbers.len() / 2) as c_uint;
        // SAFETY: the buffer has two numbers for each coordinate, and the geometry takes the sequence over.
        unsafe {
            let context = GEOS_init_r().expect("GEOS begins");
            let sequence = GEOSCoordSeq_copyFromBuffer_r(context, numbers.as_ptr(), coordinates, 0, 0);
            let geometry = GEOSGeom_createLinearRing_r(context, sequence.expect("GEOS takes the numbers"));
            Ring { context, geometry: geometry.expect("GEOS takes the ring") }
        }
    }

    /// What is measured: a geometry is made, and destroyed again.
    fn remove_repeats(&self) {
        let removed = black_box(self.removed());
        // SAFETY: it was made by the same context, and nobody has it any more.
        unsafe { GEOSGeom_destroy_r(self.context, removed) }
    }

    fn without_repeats(&self) -> Vec<f64> {
        let removed = self.removed();
        // SAFETY: the sequence is the geometry's own, and there is room for two numbers for each of its points.
        unsafe {
            let mut numbers = vec![0.0; 2 * GEOSGeomGetNumPoints_r(self.context, removed) as usize];
            let sequence = GEOSGeom_getCoordSeq_r(self.context, removed).expect("a ring has coordinates");
            assert_eq!(GEOSCoordSeq_copyToBuffer_r(self.context, sequence, numbers.as_mut_ptr(), 0, 0), 1);
            GEOSGeom_destroy_r(self.context, removed);
            numbers
        }
    }

    fn removed(&self) -> NonNull<Geometry> {
        // SAFETY: both are this ring's own.
        unsafe { GEOSRemoveRepeatedPoints_r(self.context, self.geometry, LIMIT) }.expect("GEOS removes repeated points")
    }
}

impl Drop for Ring {
    fn drop(&mut self) {
        // SAFETY: both are this ring's own, and it ends here.
        unsafe {
            GEOSGeom_destroy_r(self.context, self.geometry);
            GEOS_finish_r(self.context);
        }
    }
}
