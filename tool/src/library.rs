//! What the command uses of the proved library; no other module names the binding.

pub use tarnoklej::{
    datum_step, read, read_fields_into, shift_row, shifts_at, write_frame, write_heights, Component, FrameStream,
    Geocentric, Header, Position, Refusal, MOST_FIELDS, MOST_FRAMED, NODES,
};
