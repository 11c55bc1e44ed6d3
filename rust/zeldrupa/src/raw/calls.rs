//! The C calls: a slice is lent as its pointer, then its length in elements.

/// Declares each C function and a safe function over it, which lends its slices and arrays and gives
/// the answer. Each parameter adds to three lists: what the safe function takes, what C takes, and
/// what is passed.
macro_rules! interface {
    ($($(#[$doc:meta])* $name:ident = $symbol:ident($($parameters:tt)*);)*) => {
        $(interface! { @next [$(#[$doc])* $name $symbol] [] [] [] $($parameters)*, })*
    };
    (@next $of:tt $safe:tt $c:tt $pass:tt $lent:ident: &[$element:ty], $($rest:tt)*) => {
        interface! { @add $of $safe $c $pass
            [$lent: &[$element]] [*const $element, usize] [$lent.as_ptr(), $lent.len()] $($rest)*
        }
    };
    (@next $of:tt $safe:tt $c:tt $pass:tt $lent:ident: &mut [$element:ty], $($rest:tt)*) => {
        interface! { @add $of $safe $c $pass
            [$lent: &mut [$element]] [*mut $element, usize] [$lent.as_mut_ptr(), $lent.len()] $($rest)*
        }
    };
    (@next $of:tt $safe:tt $c:tt $pass:tt $lent:ident: &mut $whole:ty, $($rest:tt)*) => {
        interface! { @add $of $safe $c $pass [$lent: &mut $whole] [*mut $whole] [$lent] $($rest)* }
    };
    (@next $of:tt $safe:tt $c:tt $pass:tt $given:ident: $number:ty, $($rest:tt)*) => {
        interface! { @add $of $safe $c $pass [$given: $number] [$number] [$given] $($rest)* }
    };
    (@add $of:tt [$($safe:tt)*] [$($c:tt)*] [$($pass:tt)*]
        [$($more_safe:tt)*] [$($more_c:tt)*] [$($more_pass:tt)*] $($rest:tt)*
    ) => {
        interface! { @next $of
            [$($safe)* $($more_safe)*,] [$($c)* $($more_c)*,] [$($pass)* $($more_pass)*,] $($rest)*
        }
    };
    (@next [$(#[$doc:meta])* $name:ident $symbol:ident]
        [$($safe:tt)*] [$($c:ty,)*] [$($pass:expr,)*]
    ) => {
        $(#[$doc])*
        #[inline]
        pub fn $name($($safe)*) -> Answer {
            extern "C" {
                fn $symbol($(_: $c,)* _: *mut u64) -> u8;
            }
            // SAFETY: each pointer and length is that of a live slice, and the mutable ones do not overlap.
            answer(|place| unsafe { $symbol($($pass,)* place) })
        }
    };
}
