// Stand-in for src/detail/common_err_strings.rs. The names are those that the original files use; the words are ours.
pub const ERR_SLICE_TOO_SHORT: &str = "Slice too short";
pub const ERR_INCORRECT_UMP_MESSAGE_TYPE: &str = "Incorrect ump message type";
