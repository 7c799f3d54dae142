//! Every refusal's number and message.

use std::error::Error;

use ringcut::Refusal;

#[test]
fn numbers_and_messages() {
    let table = [
        (Refusal::Size, 11, "the frame has under 44 or over 5,120 bytes"),
        (Refusal::Kind, 12, "the frame's kind is neither 3 (polygon) nor 6 (multipolygon)"),
        (Refusal::Flags, 13, "the frame's flags are over 3"),
        (Refusal::PartCount, 14, "the frame has over 256 parts, or is a polygon's and has not one part"),
        (Refusal::Truncated, 15, "the frame ends before a count or a coordinate is whole"),
        (Refusal::RingCount, 16, "a part of the frame has no ring or over 64"),
        (Refusal::CoordinateCount, 17, "a ring of the frame has over 4,096 coordinates"),
        (Refusal::Trailing, 18, "bytes follow the frame's last part"),
        (Refusal::Lengths, 19, "there is no ring or over 64, or the numbers lent are not two for each coordinate"),
        (Refusal::Coordinates, 20, "there are over 65,532 coordinates"),
        (Refusal::Scratch, 21, "a scratch slice or the order slice is too short"),
        (Refusal::Output, 22, "an output or the slice for the lengths of cut rings is too short"),
        (Refusal::Short, 26, "fewer than 4 coordinates remain"),
    ];
    for (refusal, number, message) in table {
        assert_eq!(refusal.number(), number);
        let error: &dyn Error = &refusal;
        assert_eq!(error.to_string(), format!("refusal {number}: {message}"));
    }
}
