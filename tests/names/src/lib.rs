//! The archive's C names and what each takes, as include/zebrankai.h declares them: once for the unrelated coder, which calls them, and for the
//! stand-in, which has them. Every name answers one word, but that of the trial file, which gives a state. In C a slice is a pointer and the number
//! of its elements, and sizes are four numbers.

/// Every name that answers one word, handed to the macro `$each` of whoever uses this crate. It gets the plain coder's function that stands in for
/// it, the name and four lists: the parameters in C, the same in Rust, the arguments in C by those in Rust, and the arguments in Rust by those in C.
/// `Sizes` is the user's own type.
#[macro_export]
macro_rules! archive {
    ($each:ident) => {
        $crate::names!($each board {
            share as zbk_share(sizes: Sizes, points: &[u8], node: usize, file: &[u8], out: &mut [u8],);
            file as zbk_file(
                sizes: Sizes, points: &[u8], length: usize, boards: &[usize], shares: &[u8], out: &mut [u8],
            );
            helper_packet as zbk_helper_packet(
                sizes: Sizes, points: &[u8], length: usize, helper: usize, receiver: usize, share: &[u8], out: &mut [u8],
            );
            exchange_packet as zbk_exchange_packet(
                sizes: Sizes, points: &[u8], length: usize, board: usize, helpers: &[usize], packets: &[u8],
                receiver: usize, out: &mut [u8],
            );
            finished_share as zbk_finished_share(
                sizes: Sizes, points: &[u8], length: usize, board: usize, helpers: &[usize], packets: &[u8],
                partners: &[usize], partner_packets: &[u8], out: &mut [u8],
            );
            share_text as zbk_share_text(
                sizes: Sizes, points: &[u8], length: usize, node: usize, share: &[u8], out: &mut [u8],
            );
        });
        $crate::names!($each text {
            read_text as zbk_read_text(text: &[u8], head: &mut [u64], points: &mut [u8], out: &mut [u8],);
            gather as zbk_gather(text: &[u8], out: &mut [u8],);
        });
        $crate::names!($each prefix {
            prefix as zbk_text_prefix(text: &[u8],);
        });
        $crate::names!($each store {
            set_up as zbk_set_up(
                record: &mut [u64], repair: &mut [u64], sizes: Sizes, points: &[u8], capacity: usize,
            );
            write as zbk_write(record: &mut [u64], repair: &mut [u64], area: &mut [u8], file: &[u8],);
            lose as zbk_lose(record: &mut [u64], repair: &mut [u64], board: usize,);
            repair as zbk_repair(
                record: &mut [u64], repair: &mut [u64], area: &mut [u8],
                fresh: &[usize], helpers: &[usize], stand_ins: &[usize],
            );
            read as zbk_read(
                record: &mut [u64], repair: &mut [u64], area: &[u8], boards: &[usize], out: &mut [u8],
            );
            edit as zbk_edit(
                record: &mut [u64], repair: &mut [u64], area: &mut [u8],
                offset: usize, bytes: &[u8], boards: &[usize],
            );
        });
        $crate::names!($each careful {
            read as zbk_read_careful(
                record: &mut [u64], repair: &mut [u64], area: &[u8], boards: &[usize], out: &mut [u8],
            );
        });
        $crate::names!($each moves {
            move_board as zbk_move(
                record: &mut [u64], repair: &mut [u64], area: &mut [u8],
                board: usize, point: u8, helpers: &[usize], partners: &[usize],
            );
        });
        $crate::names!($each steps {
            start as zbk_start(
                record: &mut [u64], repair: &mut [u64], area: &[u8],
                fresh: &[usize], helpers: &[usize], stand_ins: &[usize],
            );
            step as zbk_step(
                record: &mut [u64], repair: &mut [u64], area: &mut [u8], packets: &mut [u8], allowance: usize,
            );
        });
    };
}

/// The name that gives a state of 32 bits and refuses nothing, handed on in the same form.
#[macro_export]
macro_rules! state {
    ($each:ident) => {
        $crate::names!($each generator {
            fill as zbk_trial_file(seed: u32, out: &mut [u8],) -> u32;
        });
    };
}

/// The names whose functions stand in one module of the plain coder.
#[macro_export]
macro_rules! names {
    ($each:ident $module:ident { $($plain:ident as $name:ident($($parameters:tt)*) $(-> u32)?;)* }) => {
        $($crate::name!($each ($module::$plain) $name () () () (), $($parameters)*);)*
    };
}

/// One name; behind it the four lists so far and the parameters that are left.
#[macro_export]
macro_rules! name {
    ($each:ident $plain:tt $name:ident $c:tt $rust:tt $to_c:tt $from_c:tt,) => {
        $each!($plain $name $c $rust $to_c $from_c);
    };
    ($each:ident $plain:tt $name:ident ($($c:tt)*) ($($rust:tt)*) ($($to_c:tt)*) ($($from_c:tt)*), $p:ident: usize, $($rest:tt)*) => {
        $crate::name!($each $plain $name
            ($($c)* $p: usize,) ($($rust)* $p: usize,) ($($to_c)* $p,) ($($from_c)* $p,), $($rest)*);
    };
    ($each:ident $plain:tt $name:ident ($($c:tt)*) ($($rust:tt)*) ($($to_c:tt)*) ($($from_c:tt)*), $p:ident: u8, $($rest:tt)*) => {
        $crate::name!($each $plain $name
            ($($c)* $p: u8,) ($($rust)* $p: u8,) ($($to_c)* $p,) ($($from_c)* $p,), $($rest)*);
    };
    ($each:ident $plain:tt $name:ident ($($c:tt)*) ($($rust:tt)*) ($($to_c:tt)*) ($($from_c:tt)*), $p:ident: u32, $($rest:tt)*) => {
        $crate::name!($each $plain $name
            ($($c)* $p: u32,) ($($rust)* $p: u32,) ($($to_c)* $p,) ($($from_c)* $p,), $($rest)*);
    };
    ($each:ident $plain:tt $name:ident ($($c:tt)*) ($($rust:tt)*) ($($to_c:tt)*) ($($from_c:tt)*), $p:ident: Sizes, $($rest:tt)*) => {
        $crate::name!($each $plain $name
            ($($c)* n: usize, k: usize, d: usize, r: usize,) ($($rust)* $p: Sizes,)
            ($($to_c)* $p.n, $p.k, $p.d, $p.r,) ($($from_c)* Sizes { n, k, d, r },), $($rest)*);
    };
    ($each:ident $plain:tt $name:ident ($($c:tt)*) ($($rust:tt)*) ($($to_c:tt)*) ($($from_c:tt)*), $p:ident: &[$t:ty], $($rest:tt)*) => {
        $crate::name!($each $plain $name
            ($($c)* $p: *const $t, count: usize,) ($($rust)* $p: &[$t],)
            ($($to_c)* $p.as_ptr(), $p.len(),) ($($from_c)* ::std::slice::from_raw_parts($p, count),), $($rest)*);
    };
    ($each:ident $plain:tt $name:ident ($($c:tt)*) ($($rust:tt)*) ($($to_c:tt)*) ($($from_c:tt)*), $p:ident: &mut [$t:ty], $($rest:tt)*) => {
        $crate::name!($each $plain $name
            ($($c)* $p: *mut $t, count: usize,) ($($rust)* $p: &mut [$t],)
            ($($to_c)* $p.as_mut_ptr(), $p.len(),) ($($from_c)* ::std::slice::from_raw_parts_mut($p, count),), $($rest)*);
    };
}
