//! The frame reader: the port's refusals and the room it asks for, against the frames that `formats` reads.

use compare::campaign::{self, Campaign, Checked};
use compare::frames::{kinds, refusal_label};
use compare::hex;
use formats::frame::Frame;
use generator::Specimen;

use crate::probe;

/// `count` frames of each kind.
pub fn compare(seed: u64, count: u64) -> Campaign {
    campaign::run("port frame reader", seed, count, &kinds(), |kind, index| check(&generator::frame(kind, seed, index)))
}

/// One frame with the room lent for its answer. A frame that is refused asks for no room.
pub fn check(Specimen { frame, room }: &Specimen) -> Checked {
    let read = Frame::decode(frame);
    let asked = read.as_ref().map_or(0, Frame::room);
    let refusal = match read {
        Err(refusal) => refusal,
        Ok(_) if *room < asked => 22,
        Ok(_) => 0,
    };
    let (port_refusal, port_asked) = (probe::check_call(frame, *room), probe::frame_room(frame));
    if (port_refusal, port_asked) != (refusal, asked) {
        return Err(format!(
            "room {room}, frame {}: refusal {port_refusal} and {refusal}, room {port_asked} and {asked}",
            hex(frame)
        ));
    }
    Ok(if refusal == 0 { "read" } else { refusal_label(refusal) })
}
