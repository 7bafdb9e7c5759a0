//! The script of documents 01 and 02, played.

use crate::arena::GameState;
use crate::arena::errors::ScriptError;
use crate::library;
use crate::sys;
use crate::words::Words;

/// The boundary asks for so many bytes for each line.
const LINE: usize = 72;

/// What a script prints.
pub fn play(script: &[u8]) -> Vec<u8> {
    library::check();
    let lines = script.iter().filter(|&&byte| byte == b'\n').count() + 1;
    let mut out = vec![0; LINE * lines];
    // SAFETY: both are there, are this long and do not overlap.
    let written =
        unsafe { sys::peatcloak_play(script.as_ptr(), script.len(), out.as_mut_ptr(), out.len()) };
    out.truncate(written);
    out
}

/// The table that stands at a script's end, with its key. A line that is refused is passed over, as in `play`. `BadLine`
/// where no table stands at the end, `ScriptTooLong` above 65,536 bytes.
pub fn play_table(script: &[u8]) -> Result<GameState, ScriptError> {
    library::check();
    let mut words = Words::ZEROS;
    let (floats, numbers) = (&mut words.floats, &mut words.numbers);
    // SAFETY: all are there, are this long and do not overlap.
    let refused = unsafe {
        sys::peatcloak_play_table(
            floats.as_mut_ptr(),
            floats.len(),
            numbers.as_mut_ptr(),
            numbers.len(),
            script.as_ptr(),
            script.len(),
        )
    };
    if refused == 0 { Ok(GameState { words }) } else { Err(ScriptError::of(refused)) }
}
