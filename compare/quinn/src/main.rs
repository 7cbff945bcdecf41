//! Integers of the proved code against quinn-proto itself, with the same calls
//! as `speed` makes.

#[path = "../../src/bin/speed/clock.rs"]
mod clock;
#[path = "../../src/bin/speed/integer.rs"]
mod integer;
#[path = "../../src/bin/ours/mod.rs"]
mod ours;
mod quinn;

fn main() {
    clock::heading();
    integer::measure();
}
