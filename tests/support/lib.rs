// What the test programs that link the static library share: its calls, and a seeded generator.
// Nothing here knows what the calls should answer.

pub mod calls;
pub mod random;
