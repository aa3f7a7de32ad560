//! The numbers of document 01 for the original's messages.

/// How the message of each refusal begins, by 01's table.
const BEGINNINGS: [(&str, u32); 19] = [
    ("Invalid syntax", 10),
    ("Invalid token", 11),
    ("Invalid symbol", 12),
    ("Functionality not yet implemented", 13),
    ("invalid identifier", 14),
    ("Assertion requires an action", 15),
    ("Expected , after assert", 16),
    ("Expected identifier after func", 17),
    ("If statement without body", 18),
    ("Expected => ", 23),
    ("Expected =", 20),
    ("Expected : after key", 21),
    ("Lambdas with zero parameters", 22),
    ("Hash-literal is not terminated", 24),
    ("Array literal not terminated", 25),
    ("thread expression requires a callable prefix", 26),
    ("try without catch", 27),
    ("Expected ; after break", 28),
    ("Expected ; after continue", 29),
];

/// Stands for a message that 01 doesn't list; no answer has this number.
const UNLISTED: u32 = u32::MAX;

/// The number for a message.
pub fn number(message: &str) -> u32 {
    if message.starts_with("const ") && message.ends_with("without any value") {
        return 19;
    }
    let found = BEGINNINGS.iter().find(|(beginning, _)| message.starts_with(beginning));
    found.map_or(UNLISTED, |(_, number)| *number)
}
