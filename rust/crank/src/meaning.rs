//! Refusals in words.

/// The call that refused; some numbers mean something else in another call.
#[derive(Clone, Copy, Debug, PartialEq, Eq)]
pub enum Call {
    Forward,
    Back,
    Samples,
    Load,
    Save,
    Check,
    Make,
}

const NOT_AT_START: &str =
    "pc is not at start, there are nodes or a wait already, or the lent words are too few";
const APART: &str = "the branches of a qif do not meet: a fiq names another register, its coin is \
                     lost, or something else differs";

/// What a refusal means, as a part of a sentence.
pub fn meaning(refusal: u32, call: Call) -> &'static str {
    match (refusal, call) {
        (0, _) => "not refused",
        (1, _) => "the file is shorter than the trailer of an image or longer than 65536 bytes",
        (2, _) => "the last four bytes are not those of an image",
        (3, _) => "M is not 1 to 8192, K not 1 to M, or N over 511",
        (4, _) => "back is not 4M + 36N and the bytes of the trailer",
        (5, _) => "the file is shorter than the image that it should hold",
        (6, _) => "the lent memory or table is too short",
        (7, _) => "a code word is no instruction",
        (8, _) => "a link of a node is not paired",
        (9, _) => "the output is too short",
        (10, _) => "the sizes K, M, N are out of range or the lent words too few",
        (11, Call::Back) => "no code word stands where a word would be undone",
        (11, _) => "pc is not at a code word",
        (12, Call::Back) => "pc is at start",
        (12, Call::Make) => "a branch reaches finish",
        (12, _) => "pc is at finish",
        (13, Call::Back) => "the word to be undone is no instruction",
        (13, _) => "the word at pc is no instruction",
        (14, _) => "a wait is left, but not at a qif or above the w of the node",
        (15, _) => "the address is not in K to M-1 (ld, ldr) or not below M (fetr)",
        (16, _) => "the coin is not 0 or 1",
        (17, Call::Check) => "the node is not 1 to N",
        (17, Call::Make) => "a fiq stands in no branch",
        (17, _) => "a node is not 1 to N, or a link of the table does not return",
        (18, Call::Back) => "the word to be undone is finish",
        (18, _) => "the next word would be start",
        (19, _) => "the sample is two steps from the one before",
        (20, _) => "the sample is above 3",
        (21, Call::Back) => "the position is the smallest",
        (21, _) => "the position is the largest",
        (22, _) => NOT_AT_START,
        (23, _) => "over 511 nodes, 8 nested qifs or the limit of cycles would be needed",
        (24, _) => APART,
        _ => "unknown",
    }
}
