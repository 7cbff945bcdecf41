//! Tracks of generated subscriptions.

use super::make::Make;

/// Namespace fields and name. The first six are different tracks, although their
/// bytes, one after the other, are the same.
const SHARED: [(&[&str], &str); 8] = [
    (&["ab"], ""),
    (&["a"], "b"),
    (&["a", "b"], ""),
    (&[""], "ab"),
    (&["", "ab"], ""),
    (&["a", ""], "b"),
    (&["m"], "ce"),
    (&["m"], "cf"),
];

/// Writes the track that a subscription of this ID asks for: its own, or, where
/// tracks may come again, one in four times one of a few.
pub fn track(make: &mut Make, id: u64, out: &mut Vec<u8>) {
    if make.shared && make.random.one_in(4) {
        let at = make.random.below(SHARED.len() as u64) as usize;
        let (namespace, name) = SHARED[at];
        return put(make, namespace, name, out);
    }
    put(make, &["m"], &id.to_string(), out);
}

fn put(make: &mut Make, namespace: &[&str], name: &str, out: &mut Vec<u8>) {
    make.integer(out, namespace.len() as u64);
    for part in namespace.iter().chain([&name]) {
        make.integer(out, part.len() as u64);
        out.extend(part.as_bytes());
    }
}
