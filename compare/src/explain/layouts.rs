//! The layouts, part by part: of a message, by its figure in 004, and of a
//! start and an arrival, by 01.
//!
//! 01: "A field is judged as soon as its integer or byte is read". So each
//! refusal stands right after the part that decides it.

use super::walk::{Walk, NAMESPACE, PREFIX};
use crate::answer::{BODY, FORBIDDEN, UNKNOWN};
use crate::fields::{is_forbidden_asked_order, is_forbidden_given_order, refuse};
use crate::message::{is_known, MOST_BODY_BYTES};
use crate::subscribe::{has_end, has_start, is_forbidden_filter};
use crate::track::{is_forbidden_largest, is_forbidden_status};

/// What a layout answers: nothing, or the number of a refusal.
type Walking = Result<(), u8>;

/// A start. 01: "part (one byte: 0 subscriber, 1 publisher), then the
/// maximum".
pub fn start(walk: &mut Walk<'_>) -> Walking {
    walk.byte("Part")?;
    walk.number("Maximum Subscribe ID")?;
    Ok(())
}

/// An arrival. 01: "alias, group, object as integers".
pub fn arrival(walk: &mut Walk<'_>) -> Walking {
    walk.numbers(&["Track Alias", "Group ID", "Object ID"])
}

/// A message. 01: "Type, known or not; Length, at most 16,383; whole body
/// present; fields left to right, the first fault deciding; no byte left
/// over." The limit is 65,000 since 02's K8.
pub fn message(walk: &mut Walk<'_>) -> Walking {
    let kind = walk.kind()?;
    if !is_known(kind) {
        return Err(UNKNOWN);
    }
    let length = walk.number("Length")?;
    if length > MOST_BODY_BYTES {
        return Err(BODY);
    }
    walk.enter_body(length)?;
    body(kind, walk)?;
    walk.end_body()
}

/// The body of a message of a known type, in the order of 004's sections 8.2
/// to 8.26.
fn body(kind: u64, walk: &mut Walk<'_>) -> Walking {
    match kind {
        0x40 => client_setup(walk),
        0x41 => server_setup(walk),
        0x10 => goaway(walk),
        0x15 => just_id("Subscribe ID", walk),
        0x1A => just_id("Maximum Subscribe ID", walk),
        0x3 => subscribe(walk),
        0x4 => subscribe_ok(walk),
        0x5 => subscribe_error(walk),
        0x2 => subscribe_update(walk),
        0xA => just_id("Subscribe ID", walk),
        0xB => subscribe_done(walk),
        0x16 => fetch(walk),
        0x18 => fetch_ok(walk),
        0x19 => fetch_error(walk),
        0x17 => just_id("Subscribe ID", walk),
        0xD => walk.track(),
        0xE => track_status(walk),
        _ => announcement(kind, walk),
    }
}

/// CLIENT_SETUP (004, figure 3).
fn client_setup(walk: &mut Walk<'_>) -> Walking {
    walk.versions()?;
    walk.parameters()
}

/// SERVER_SETUP (004, figure 3).
fn server_setup(walk: &mut Walk<'_>) -> Walking {
    walk.number("Selected Version")?;
    walk.parameters()
}

/// GOAWAY (004, figure 4).
fn goaway(walk: &mut Walk<'_>) -> Walking {
    walk.counted("New Session URI Length", "New Session URI")
}

/// MAX_SUBSCRIBE_ID, SUBSCRIBES_BLOCKED, UNSUBSCRIBE and FETCH_CANCEL (004,
/// figures 5, 6, 11 and 16).
fn just_id(label: &'static str, walk: &mut Walk<'_>) -> Walking {
    walk.number(label)?;
    Ok(())
}

/// SUBSCRIBE (004, figure 7).
fn subscribe(walk: &mut Walk<'_>) -> Walking {
    walk.numbers(&["Subscribe ID", "Track Alias"])?;
    walk.track()?;
    walk.byte("Subscriber Priority")?;
    let order = walk.byte("Group Order")?;
    refuse(is_forbidden_asked_order(order))?;
    let filter = walk.number("Filter Type")?;
    refuse(is_forbidden_filter(filter))?;
    if has_start(filter) {
        let start_group = walk.number("StartGroup")?;
        walk.number("StartObject")?;
        if has_end(filter) {
            let end_group = walk.number("EndGroup")?;
            // 01: "end group below start group in SUBSCRIBE".
            refuse(end_group < start_group)?;
        }
    }
    walk.parameters()
}

/// SUBSCRIBE_OK (004, figure 8).
fn subscribe_ok(walk: &mut Walk<'_>) -> Walking {
    walk.numbers(&["Subscribe ID", "Expires"])?;
    let order = walk.byte("Group Order")?;
    refuse(is_forbidden_given_order(order))?;
    let content_exists = walk.byte("ContentExists")?;
    // 01: "content exists above 1".
    refuse(content_exists > 1)?;
    if content_exists == 1 {
        walk.numbers(&["Largest Group ID", "Largest Object ID"])?;
    }
    walk.parameters()
}

/// SUBSCRIBE_ERROR (004, figure 9).
fn subscribe_error(walk: &mut Walk<'_>) -> Walking {
    walk.numbers(&["Subscribe ID", "Error Code"])?;
    walk.reason()?;
    walk.number("Track Alias")?;
    Ok(())
}

/// SUBSCRIBE_UPDATE (004, figure 10).
fn subscribe_update(walk: &mut Walk<'_>) -> Walking {
    walk.numbers(&["Subscribe ID", "StartGroup", "StartObject", "EndGroup"])?;
    walk.byte("Subscriber Priority")?;
    walk.parameters()
}

/// SUBSCRIBE_DONE (004, figure 12).
fn subscribe_done(walk: &mut Walk<'_>) -> Walking {
    walk.numbers(&["Subscribe ID", "Status Code", "Stream Count"])?;
    walk.reason()
}

/// FETCH (004, figure 13). The second Subscribe ID there is that of the
/// subscription which is joined.
fn fetch(walk: &mut Walk<'_>) -> Walking {
    walk.number("Subscribe ID")?;
    walk.byte("Subscriber Priority")?;
    let order = walk.byte("Group Order")?;
    refuse(is_forbidden_asked_order(order))?;
    match walk.number("Fetch Type")? {
        1 => {
            walk.track()?;
            walk.numbers(&["StartGroup", "StartObject", "EndGroup", "EndObject"])?;
        }
        2 | 3 => walk.numbers(&["Joining Subscribe ID", "Joining Start"])?,
        // 01: "a fetch type 004 doesn't list".
        _ => return Err(FORBIDDEN),
    }
    walk.parameters()
}

/// FETCH_OK (004, figure 14).
fn fetch_ok(walk: &mut Walk<'_>) -> Walking {
    walk.number("Subscribe ID")?;
    let order = walk.byte("Group Order")?;
    refuse(is_forbidden_given_order(order))?;
    walk.byte("End Of Track")?;
    walk.numbers(&["Largest Group ID", "Largest Object ID"])?;
    walk.parameters()
}

/// FETCH_ERROR (004, figure 15).
fn fetch_error(walk: &mut Walk<'_>) -> Walking {
    walk.numbers(&["Subscribe ID", "Error Code"])?;
    walk.reason()
}

/// TRACK_STATUS (004, figure 18). That of TRACK_STATUS_REQUEST (figure 17) is
/// a track and nothing else.
fn track_status(walk: &mut Walk<'_>) -> Walking {
    walk.track()?;
    let status = walk.number("Status Code")?;
    refuse(is_forbidden_status(status))?;
    for label in ["Largest Group ID", "Largest Object ID"] {
        let number = walk.number(label)?;
        refuse(is_forbidden_largest(status, number))?;
    }
    Ok(())
}

/// The nine messages about announcements (004, figures 19 to 27): a namespace,
/// or for the last four a prefix, and at times more.
fn announcement(kind: u64, walk: &mut Walk<'_>) -> Walking {
    let tuple = if kind < 0x11 { &NAMESPACE } else { &PREFIX };
    walk.namespace(tuple)?;
    match kind {
        // ANNOUNCE and SUBSCRIBE_ANNOUNCES.
        0x6 | 0x11 => walk.parameters(),
        // ANNOUNCE_ERROR, ANNOUNCE_CANCEL and SUBSCRIBE_ANNOUNCES_ERROR. In
        // figure 23 the second "Reason Phrase Length" is the phrase.
        0x8 | 0xC | 0x13 => {
            walk.number("Error Code")?;
            walk.reason()
        }
        // ANNOUNCE_OK, UNANNOUNCE, SUBSCRIBE_ANNOUNCES_OK and
        // UNSUBSCRIBE_ANNOUNCES.
        _ => Ok(()),
    }
}
