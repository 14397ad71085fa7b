//! How the crate calls an export: an image and the numbers of its geometry stand in one order, here and nowhere else.

/// The call of an export: of each disk its image, by the pointer that the call wants, and its geometry; then what else it takes.
macro_rules! call {
    ($export:ident, $pointer:ident, [$(($image:ident, $g:ident)),+], $($rest:expr),* $(,)?) => {
        $crate::sys::$export(
            $(
                $image.$pointer(),
                $image.len(),
                $g.blocks,
                $g.units,
                $g.start,
                $g.open_code,
                $g.system_disk,
                $g.granule_sectors,
            )+
            $($rest),*
        )
    };
}

pub(crate) use call;
