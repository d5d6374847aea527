//! The rules that a verdict can name, in words.

/// Each rule with its words, lowest number first: constraints 1 to 12, minimum times 21 and 22, hour orders 23.
/// No verdict names 7 or 12, and 8 is named only where a list breaks off the start-up that its day opens in. 21 alone
/// may be broken above T.
pub const RULES: [(u32, &str); 15] = [
    (1, "lower limit of the output, with the start-up trajectory"),
    (2, "lower limit of the output, with the shut-down trajectory"),
    (3, "upper limit of the output, with the start-up trajectory"),
    (4, "upper limit of the output, with the shut-down trajectory"),
    (5, "ramp-up limit RU"),
    (6, "ramp-down limit RD"),
    (7, "starts and stops against the hours on-line"),
    (8, "on-line through a start-up"),
    (9, "on-line through a shut-down"),
    (10, "a start-up and a shut-down meet in the hour at minimum output or not at all"),
    (11, "minimum output where a start-up and a shut-down meet, by PU"),
    (12, "minimum output where a start-up and a shut-down meet, by PD"),
    (21, "minimum up time"),
    (22, "minimum down time"),
    (23, "hour order"),
];

/// The words of a rule; none for a number that is no rule.
pub fn rule_text(rule: u32) -> Option<&'static str> {
    RULES.iter().find(|(number, _)| *number == rule).map(|(_, text)| *text)
}
