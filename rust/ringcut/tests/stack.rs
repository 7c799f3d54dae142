//! The stack that a call takes: a thread's stack is painted before the call, and looked at after it. What a call sets aside and
//! doesn't write is not seen.

use std::f64::consts::TAU;
use std::ffi::{c_int, c_void};
use std::hint::black_box;
use std::mem::MaybeUninit;
use std::ptr;

use ringcut::{
    cut_frame, cut_polygon, cut_ring, mend, room_for_ring, Answer, Bounds, Flags, PolygonBuffers, Refusal, RingBuffers,
    MOST_FRAME_OUTPUT,
};

const KIB: usize = 1024;
/// What a frame that is cut takes at most (docs/DECISIONS.md), and what every frame takes at least that is not refused.
const CUT: usize = 71_400;
const ACCEPTED: usize = 66 * KIB;
/// What every word of a stack holds that no call has written.
const PAINT: u64 = 0xa5c3_96f0_5a3c_690f;
/// How many words a stack has.
const WORDS: usize = 32 * KIB;
const BOUNDS: Bounds = Bounds { west: 0., south: 0., east: 10., north: 10. };

/// C's `pthread_attr_t`, with room to spare.
#[repr(C, align(16))]
struct Attributes([u8; 128]);

extern "C" {
    fn pthread_attr_init(attributes: *mut Attributes) -> c_int;
    fn pthread_attr_setstack(attributes: *mut Attributes, lowest: *mut c_void, bytes: usize) -> c_int;
    fn pthread_attr_destroy(attributes: *mut Attributes) -> c_int;
    fn pthread_create(
        thread: *mut usize,
        attributes: *const Attributes,
        start: extern "C" fn(*mut c_void) -> *mut c_void,
        argument: *mut c_void,
    ) -> c_int;
    fn pthread_join(thread: usize, result: *mut *mut c_void) -> c_int;
}

/// What a thread does.
struct Job<F> {
    call: F,
    /// An address in the stack frame that makes the call.
    caller: usize,
}

extern "C" fn run<F: FnMut()>(job: *mut c_void) -> *mut c_void {
    // SAFETY: `stack_of` lends its job until the thread has ended, and doesn't look at it before.
    let job = unsafe { &mut *job.cast::<Job<F>>() };
    let here = 0_u8;
    job.caller = ptr::from_ref(black_box(&here)) as usize;
    (job.call)();
    ptr::null_mut()
}

/// How many bytes below the stack frame that makes the call the lowest word lies that was written.
fn stack_of<F: FnMut()>(call: F) -> usize {
    let mut stack = vec![PAINT; WORDS];
    let mut job = Job { call, caller: 0 };
    let (mut attributes, mut thread) = (MaybeUninit::uninit(), 0);
    let attributes = attributes.as_mut_ptr();
    // SAFETY: what is lent to the thread is used here again only when it has ended.
    unsafe {
        assert_eq!(pthread_attr_init(attributes), 0);
        assert_eq!(pthread_attr_setstack(attributes, stack.as_mut_ptr().cast(), 8 * WORDS), 0);
        assert_eq!(pthread_create(&mut thread, attributes, run::<F>, ptr::from_mut(&mut job).cast()), 0);
        assert_eq!(pthread_join(thread, ptr::null_mut()), 0);
        assert_eq!(pthread_attr_destroy(attributes), 0);
    }
    let lowest = stack.iter().find(|word| **word != PAINT).unwrap();
    job.caller - ptr::from_ref(lowest) as usize
}

/// A closed ring of `n` coordinates, on the circle around `x`, 5 with radius 3.
fn circle(n: usize, x: f64) -> Vec<f64> {
    let turn = |at: usize| TAU * (at % (n - 1)) as f64 / (n - 1) as f64;
    (0..n).flat_map(|at| [x + 3. * turn(at).cos(), 5. + 3. * turn(at).sin()]).collect()
}

/// A polygon's frame on `BOUNDS`, with buffer 0.
fn frame(flags: u8, ring: &[f64]) -> Vec<u8> {
    let Bounds { west, south, east, north } = BOUNDS;
    let mut bytes = vec![3, flags];
    bytes.extend([west, south, east, north, 0.].into_iter().flat_map(f64::to_le_bytes));
    bytes.extend([1, 0, 1, 0]);
    bytes.extend((ring.len() as u16 / 2).to_le_bytes());
    bytes.extend(ring.iter().flat_map(|number| number.to_le_bytes()));
    bytes
}

/// The stack of a frame call, and the answer's first byte or the refusal.
fn stack_of_frame(frame: &[u8]) -> (usize, Result<u8, Refusal>) {
    let mut out = vec![0; MOST_FRAME_OUTPUT];
    let mut answered = Ok(0);
    let stack = stack_of(|| answered = cut_frame(frame, &mut out));
    (stack, answered.map(|_| out[0]))
}

/// With flags 0 an overlay is wanted, with flags 3 it is cut, by other calls of a few bytes more or less; each count of coordinates has
/// working arrays of another size.
#[test]
fn every_frame_that_is_cut_takes_the_same() {
    for flags in [0, 3] {
        let (first, _) = stack_of_frame(&frame(flags, &circle(5, 9.)));
        assert!((ACCEPTED..=CUT).contains(&first), "{first} bytes");
        for n in [5, 20, 60, 317] {
            assert_eq!(stack_of_frame(&frame(flags, &circle(n, 9.))), (first, Ok(3)), "{n} coordinates, flags {flags}");
        }
    }
}

/// The compiler makes one stack frame for the four sizes, before the answer is looked for. Where that is found at once, the lowest
/// part of the stack frame is not written, and so not seen.
#[test]
fn every_other_frame_that_is_accepted_takes_nearly_as_much() {
    for n in [5, 20, 60, 317] {
        for flags in [0, 3] {
            for (frame, answer) in [(frame(flags, &circle(n, 5.)), Ok(2)), (frame(flags, &circle(n, 20.)), Ok(0))] {
                let (stack, answered) = stack_of_frame(&frame);
                assert_eq!(answered, answer, "{n} coordinates, flags {flags}");
                assert!((ACCEPTED..70 * KIB).contains(&stack), "{answer:?} of {n} coordinates: {stack} bytes");
            }
        }
    }
}

/// What answers an accepted frame is a function of its own, which a refusal does not reach.
#[test]
fn a_frame_that_is_refused_takes_hardly_any() {
    for n in [5, 20, 60, 317] {
        for flags in [0, 3] {
            let accepted = frame(flags, &circle(n, 5.));
            let of_another_kind = [&[7], &accepted[1..]].concat();
            for (frame, refusal) in
                [(of_another_kind.as_slice(), Refusal::Kind), (&accepted[..accepted.len() - 1], Refusal::Truncated)]
            {
                let (stack, answered) = stack_of_frame(frame);
                assert_eq!(answered, Err(refusal), "{n} coordinates, flags {flags}");
                assert!(stack < KIB, "{refusal:?} of {n} coordinates: {stack} bytes");
            }
        }
    }
    for size in [0, 43, 5_121] {
        let (stack, answered) = stack_of_frame(&vec![3; size]);
        assert_eq!(answered, Err(Refusal::Size));
        assert!(stack < KIB, "{stack} bytes for a frame of {size}");
    }
}

#[test]
fn the_other_calls_take_under_4_kib() {
    let flags = Flags { assume_simple: true, skip_boundary_fallback: true };
    for n in [5, 317, 5_000] {
        let (ring, room) = (circle(n, 9.), room_for_ring(n));
        let (mut scratch, mut out) = (vec![0.; 2 * room], vec![0.; 2 * room]);
        let (mut origin_scratch, mut out_origins) = (vec![0; room], vec![0; room]);
        let (mut order, mut out_lengths) = (vec![0; room], [0]);

        let mut coordinates = Ok(0);
        let of_ring = stack_of(|| {
            let lent = RingBuffers {
                scratch: &mut scratch,
                origin_scratch: &mut origin_scratch,
                out: &mut out,
                out_origins: &mut out_origins,
            };
            coordinates = cut_ring(&ring, BOUNDS, lent);
        });
        assert!(coordinates.unwrap() > 0 && of_ring < 4 * KIB, "{of_ring} bytes for {n} coordinates");

        let mut answer = Ok(Answer::Nothing);
        let of_polygon = stack_of(|| {
            let lent = PolygonBuffers {
                scratch: &mut scratch,
                origin_scratch: &mut origin_scratch,
                order: &mut order,
                out: &mut out,
                out_lengths: &mut out_lengths,
                out_origins: &mut out_origins,
            };
            answer = cut_polygon(flags, BOUNDS, 0., &ring, &[n as u32], lent);
        });
        assert_eq!(answer, Ok(Answer::Cut { rings: 1 }));
        assert!(of_polygon < 4 * KIB, "{of_polygon} bytes for {n} coordinates");

        let mut kept = Ok(0);
        let of_mend = stack_of(|| kept = mend(&ring, &mut out));
        assert_eq!(kept, Ok(n));
        assert!(of_mend < 4 * KIB, "{of_mend} bytes for {n} coordinates");
    }
}
