//! Single passes of the port's ring cutter against the Rust, the share that every test run takes: random passes, and the rings
//! whose verdicts were worked out by hand, with the output exact, one short and longer.

use compare::passes::{worked_call, WORKED};
use formats::passes::{Edge, PassAfter, PassCall, MOST_VERTICES};
use port::passes::{self, UNCOUNTED};
use port::probe::{self, PassBuffers};

#[test]
fn passes_agree() {
    passes::compare(1, 10_000).assert_agreed(11 * 10_000);
}

#[test]
fn worked_rings_have_their_counts() {
    for (name, ring, verdicts) in WORKED {
        for edge in Edge::ALL {
            for spare in [0, 1, 7] {
                let mut call = worked_call(ring, edge, spare);
                let checked = passes::check(&call);
                assert!(checked.is_ok(), "{name}: {checked:?}");
                assert_eq!(count(&mut call), verdicts, "{name}, {edge:?}");
            }
        }
    }
}

/// The count of verdicts alone, asked straight of the port.
fn count(PassCall { ring, origins, edge, bounds, out, out_origins }: &mut PassCall) -> usize {
    let mut verdicts = [UNCOUNTED];
    let lent = PassBuffers { out, out_origins, verdicts: &mut verdicts };
    probe::clip_ring_against_edge(ring, origins, *edge as u8, bounds, lent);
    verdicts[0]
}

#[test]
fn outputs_are_left_as_they_were_where_a_slice_is_one_short() {
    let shorten: [fn(&mut PassCall); 3] = [
        |call| call.out.truncate(call.out.len() - 1),
        |call| call.out_origins.truncate(call.out_origins.len() - 1),
        |call| call.origins.truncate(call.origins.len() - 1),
    ];
    for (name, ring, _) in WORKED.iter().filter(|(_, ring, _)| !ring.is_empty()) {
        for edge in Edge::ALL {
            for shorten in shorten {
                let mut call = worked_call(ring, edge, 0);
                shorten(&mut call);
                assert_eq!(passes::check(&call), Ok("no room"), "{name}, {edge:?}");
                assert_eq!(count(&mut call), UNCOUNTED, "{name}, {edge:?}");
            }
        }
    }
}

/// As many vertices as it takes, with the room that they ask for, and one more.
#[test]
fn vertices_up_to_the_limit_are_taken() {
    for edge in [Edge::Left, Edge::Top] {
        let call = worked_call(&vec![(5.0, 15.0); MOST_VERTICES], edge, 0);
        assert_eq!(passes::check(&call), Ok(if edge == Edge::Left { "some in" } else { "all out" }));
        let call = worked_call(&vec![(5.0, 15.0); MOST_VERTICES + 1], edge, 0);
        let expected = call.after(None);
        assert_eq!(passes::check_against(&call, &expected), Ok(()));
    }
}

/// An answer, a count, a number or an origin of the output and one behind it that are not the port's are each noticed.
#[test]
fn differences_are_noticed() {
    let call = worked_call(WORKED[6].1, Edge::Right, 1);
    let right = call.after(oracle::pass(&call).as_ref());
    assert_eq!(passes::check_against(&call, &right), Ok(()));
    let wrong = |change: &dyn Fn(&mut PassAfter)| {
        let mut expected = right.clone();
        change(&mut expected);
        passes::check_against(&call, &expected).unwrap_err()
    };
    assert!(wrong(&|after| after.answer += 1).ends_with("answer, value 0: 4 and 5"));
    assert!(wrong(&|after| after.verdicts = Some(5)).ends_with("verdicts [4] and Some(5)"));
    assert!(wrong(&|after| after.verdicts = None).ends_with("verdicts [4] and None"));
    for place in 0..right.out.len() {
        let difference = wrong(&|after| after.out[place] += 1.0);
        assert!(difference.contains(&format!("output, value {place}: ")), "{difference}");
    }
    for place in 0..right.out_origins.len() {
        let difference = wrong(&|after| after.out_origins[place] ^= 1);
        assert!(difference.contains(&format!("origins, value {place}: ")), "{difference}");
    }
}
