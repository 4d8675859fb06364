//! The words that the player prints.

/// The word for an answer with this number to a step of this code.
#[must_use]
pub fn word(code: u32, number: u32) -> &'static str {
    match number {
        0 => match code {
            0 => "PUT",
            1 => "GOT",
            2 => "WHOLE",
            16..=31 => "CLAIMED",
            32..=47 => "TOOK",
            48..=63 => "DONE",
            64..=79 => "SEEN",
            _ => "no word",
        },
        1 => "UNFIT",
        2 => "DAMAGED",
        3 => "BADSTEP",
        4 => "NODESK",
        5 => "NOBLOCK",
        6 => "STAGE",
        7 => "OWNED",
        8 => "NOTHING",
        9 => "LOST",
        10 => "NOTLABEL",
        11 => "RANGE",
        12 => "WORN",
        13 => "FULL",
        14 => "BUSY",
        15 => "EMPTY",
        _ => "no word",
    }
}
