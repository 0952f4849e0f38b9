//! The writer: a model, loaded or edited, to blocks in a lent buffer.

use super::load::{file_of, load};
use super::types::Model;

/// The file of a model, if the model is valid: if some file loads to it. What does not fit its bytes or the 43 blocks
/// makes a file that does not load, or one that loads to another model.
pub fn file_if_valid(model: &Model) -> Option<Vec<u8>> {
    let file = file_of(model);
    (load(&file).as_ref() == Ok(model)).then_some(file)
}

/// Writes the file of a model to the front of the room and gives its length; else 8, then 6, and no byte of the room
/// changes. What the room has behind the file stays as it is.
pub fn write(model: &Model, room: &mut [u8]) -> Result<usize, u8> {
    let file = file_if_valid(model).ok_or(8)?;
    let place = room.get_mut(..file.len()).ok_or(6)?;
    place.copy_from_slice(&file);
    Ok(file.len())
}
