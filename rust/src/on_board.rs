//! How a C function on a board is called.

/// Calls a C function on a board: its sides and what is asked besides; the picture and what is asked
/// of it; the lists lent; the out-words. A list goes as its pointer and its count.
macro_rules! on_board {
    ($function:ident: $board:ident $(, $besides:expr)*; $picture:ident $(, $of_it:expr)*;
        $buffers:ident $(, $lent:expr)* $(; $($out:expr),*)?) => {{
        // SAFETY: each pointer stands with its own slice's length; exclusive slices never overlap,
        // and the out-words are locals of the caller.
        let answer = unsafe {
            $crate::raw::$function(
                $board.width,
                $board.height,
                $($besides,)*
                $picture.as_ptr(),
                $picture.len(),
                $($of_it,)*
                $buffers.distances.as_mut_ptr(),
                $buffers.distances.len(),
                $buffers.sites.as_mut_ptr(),
                $buffers.sites.len(),
                $buffers.scratch.as_mut_ptr(),
                $buffers.scratch.len(),
                $($lent.as_mut_ptr(), $lent.len(),)*
                $($($out),*)?
            )
        };
        $crate::Refusal::of(answer)
    }};
}

pub(crate) use on_board;
