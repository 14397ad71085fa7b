//! The exported interface as a trait, made of the table in `sys`, so that the same tests run on the model and on the library.
//! Whoever implements it sets every outgoing number, also under a refusal: `fault_slot` last, the slot of the disk's fault
//! (02 §2) where one was told, else 256; before it, in calls by name, the `place` of the first bad byte (02 §7) under 3, else
//! 11.

use crate::calls::{Birth, Number};
use crate::geometry::Geometry;

/// Goes through the rows of the table, or through those of one call's arguments, and hands to the macro `$make`, for each
/// call, its two names and its arguments six times over:
///
/// - `p`: as the trait's methods take them
/// - `n`: their names, and `m`: the same without that of `fault`
/// - `c`: as C takes them
/// - `w`: those that the call may change, as they stand
/// - `r`: as the recorder writes them down
/// - `f`: the image whose fault the last of them tells, its geometry, and where it is told; nothing where it tells none
macro_rules! spread {
    ($make:ident $($call:ident = $export:ident($($arguments:tt)*);)*) => {
        $(spread! { @ [$make $call $export] p[] n[] m[] c[] w[] r[] f[] $($arguments)*, })*
    };
    (@ [$make:ident $call:ident $export:ident] $($made:tt)*) => {
        spread! { # [$make $call $export] $($made)* }
    };
    (# [$make:ident $call:ident $export:ident] p $p:tt n $n:tt m $m:tt c $c:tt w $w:tt r $r:tt f $f:tt) => {
        $make! { $call $export p $p n $n m $m c $c w $w r $r f $f }
    };
    (# $to:tt p[$($p:tt)*] n[$($n:tt)*] m[$($m:tt)*] c[$($c:tt)*] w[$($w:tt)*] r[$($r:tt)*] f[$($f:tt)*]
     disk $x:ident $g:ident, $($rest:tt)*) => {
        spread! { # $to p[$($p)* $x: &[u8], $g: &Geometry,] n[$($n)* $x, $g,] m[$($m)* $x, $g,]
            c[$($c)* $x.as_ptr(), $x.len(), $g.blocks, $g.units, $g.start, $g.open_code, $g.system_disk, $g.granule_sectors,]
            w[$($w)*] r[$($r)* Kept(stringify!($x), $x), Stated($g),] f[$x $g] $($rest)* }
    };
    (# $to:tt p[$($p:tt)*] n[$($n:tt)*] m[$($m:tt)*] c[$($c:tt)*] w[$($w:tt)*] r[$($r:tt)*] f[$($f:tt)*]
     changed $x:ident $g:ident, $($rest:tt)*) => {
        spread! { # $to p[$($p)* $x: &mut [u8], $g: &Geometry,] n[$($n)* $x, $g,] m[$($m)* $x, $g,]
            c[$($c)* $x.as_mut_ptr(), $x.len(), $g.blocks, $g.units, $g.start, $g.open_code, $g.system_disk, $g.granule_sectors,]
            w[$($w)* $x.to_vec(),] r[$($r)* Left(stringify!($x), $x), Stated($g),] f[$x $g] $($rest)* }
    };
    (# $to:tt p[$($p:tt)*] n[$($n:tt)*] m[$($m:tt)*] c[$($c:tt)*] w[$($w:tt)*] r[$($r:tt)*] f[$($f:tt)*]
     birth $x:ident, $($rest:tt)*) => {
        spread! { # $to p[$($p)* $x: &Birth,] n[$($n)* $x,] m[$($m)* $x,]
            c[$($c)* $x.day, $x.month, $x.year, $x.length, $x.main_code, $x.worker_code, $x.checking,]
            w[$($w)*] r[$($r)* Born($x),] f[$($f)*] $($rest)* }
    };
    (# $to:tt p[$($p:tt)*] n[$($n:tt)*] m[$($m:tt)*] c[$($c:tt)*] w[$($w:tt)*] r[$($r:tt)*] f[$($f:tt)*]
     bytes $x:ident, $($rest:tt)*) => {
        spread! { # $to p[$($p)* $x: &[u8],] n[$($n)* $x,] m[$($m)* $x,] c[$($c)* $x.as_ptr(), $x.len(),]
            w[$($w)*] r[$($r)* Kept(stringify!($x), $x),] f[$($f)*] $($rest)* }
    };
    (# $to:tt p[$($p:tt)*] n[$($n:tt)*] m[$($m:tt)*] c[$($c:tt)*] w[$($w:tt)*] r[$($r:tt)*] f[$($f:tt)*]
     room $x:ident, $($rest:tt)*) => {
        spread! { # $to p[$($p)* $x: &mut [u8],] n[$($n)* $x,] m[$($m)* $x,] c[$($c)* $x.as_mut_ptr(), $x.len(),]
            w[$($w)* $x.to_vec(),] r[$($r)* Left(stringify!($x), $x),] f[$($f)*] $($rest)* }
    };
    (# $to:tt p[$($p:tt)*] n[$($n:tt)*] m[$($m:tt)*] c[$($c:tt)*] w[$($w:tt)*] r[$($r:tt)*] f[$($f:tt)*]
     number $x:ident, $($rest:tt)*) => {
        spread! { # $to p[$($p)* $x: usize,] n[$($n)* $x,] m[$($m)* $x,] c[$($c)* $x,]
            w[$($w)*] r[$($r)* Given($x as u64),] f[$($f)*] $($rest)* }
    };
    (# $to:tt p[$($p:tt)*] n[$($n:tt)*] m[$($m:tt)*] c[$($c:tt)*] w[$($w:tt)*] r[$($r:tt)*] f[$($f:tt)*]
     flag $x:ident, $($rest:tt)*) => {
        spread! { # $to p[$($p)* $x: bool,] n[$($n)* $x,] m[$($m)* $x,] c[$($c)* $x,]
            w[$($w)*] r[$($r)* Given($x.into()),] f[$($f)*] $($rest)* }
    };
    (# $to:tt p[$($p:tt)*] n[$($n:tt)*] m[$($m:tt)*] c[$($c:tt)*] w[$($w:tt)*] r[$($r:tt)*] f[$($f:tt)*]
     code $x:ident, $($rest:tt)*) => {
        spread! { # $to p[$($p)* $x: u16,] n[$($n)* $x,] m[$($m)* $x,] c[$($c)* $x,]
            w[$($w)*] r[$($r)* Given($x.into()),] f[$($f)*] $($rest)* }
    };
    (# $to:tt p[$($p:tt)*] n[$($n:tt)*] m[$($m:tt)*] c[$($c:tt)*] w[$($w:tt)*] r[$($r:tt)*] f[$($f:tt)*]
     out $x:ident, $($rest:tt)*) => {
        spread! { # $to p[$($p)* $x: &mut usize,] n[$($n)* $x,] m[$($m)* $x,] c[$($c)* $x,]
            w[$($w)*] r[$($r)* Outgoing(*$x),] f[$($f)*] $($rest)* }
    };
    (# $to:tt p[$($p:tt)*] n[$($n:tt)*] m[$($m:tt)*] c[$($c:tt)*] w[$($w:tt)*] r[$($r:tt)*] f[$image:ident $g:ident]
     fault $x:ident,) => {
        spread! { # $to p[$($p)* $x: &mut usize,] n[$($n)* $x,] m[$($m)*] c[$($c)* $x,]
            w[$($w)*] r[$($r)* Outgoing(*$x),] f[$image $g $x] }
    };
}

macro_rules! method {
    ($call:ident $export:ident p[$($p:tt)*] $($rest:tt)*) => { fn $call(&self, $($p)*) -> Number; };
}
macro_rules! methods {
    ($($rows:tt)*) => {
        #[allow(clippy::too_many_arguments)]
        pub trait Library {
            fn title(&self) -> &'static str;
            spread! { method $($rows)* }
        }
    };
}
exports!(methods);
