//! The refusals in words.

pub fn words(number: i32) -> &'static str {
    match number {
        1 => "too long: a sheet has at most 60000 bytes, a plan at most 8704",
        2 => "not of the form",
        3 => "more than 512 nodes",
        4 => "nested more than 32 deep",
        5 => "a letter of the wrong kind for its place",
        6 => "magnitude: an amount or a payment could pass 9000000000000 pence",
        7 => "not known in time: a payment or a test would need an index value of a later month",
        8 => "settings: more than eight, one outside 0 to 600, or an open setting that is used and not set",
        9 => "the table breaks a rule",
        10 => "length: the plan runs beyond the table's last month",
        11 => "reads: an index is read outside the table's months, or its label is not in the table",
        12 => "the pair: a party is outside 1 to 9",
        13 => "no room for the answer",
        14 => "an amount or a value out of range",
        _ => "a refusal that this tool does not know",
    }
}
