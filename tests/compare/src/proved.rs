//! The functions of include/wichteab.h, and those of crates/inspection. A byte string passes as a pointer and then its length; every
//! function returns one 64-bit number.

/// The live floor as a C caller holds it: `wichteab_floor`.
#[repr(C)]
#[derive(Clone, Copy, PartialEq, Eq, Debug)]
pub struct Floor {
    pub racks: [u8; 64],
    pub steps: u32,
    pub positions: u32,
}

mod symbols {
    use super::Floor;

    extern "C" {
        pub fn wichteab_order_check(order: *const u8, order_length: usize) -> u64;
        pub fn wichteab_floor_check(order: *const u8, order_length: usize) -> u64;
        pub fn wichteab_one_vacancy(order: *const u8, order_length: usize) -> u64;
        pub fn wichteab_plan_check(
            order: *const u8,
            order_length: usize,
            plan: *const u8,
            plan_length: usize,
        ) -> u64;
        pub fn wichteab_plan_make(
            order: *const u8,
            order_length: usize,
            buffer: *mut u8,
            buffer_length: usize,
        ) -> u64;
        pub fn wichteab_plan_shorten(
            order: *const u8,
            order_length: usize,
            plan: *const u8,
            plan_length: usize,
            buffer: *mut u8,
            buffer_length: usize,
        ) -> u64;
        pub fn wichteab_plan_convert(
            order: *const u8,
            order_length: usize,
            plan: *const u8,
            plan_length: usize,
            buffer: *mut u8,
            buffer_length: usize,
        ) -> u64;
        pub fn wichteab_dearest_carry(
            order: *const u8,
            order_length: usize,
            buffer: *mut u8,
            buffer_length: usize,
        ) -> u64;
        pub fn wichteab_timetable_check(
            order: *const u8,
            order_length: usize,
            timetable: *const u8,
            timetable_length: usize,
        ) -> u64;
        pub fn wichteab_timetable_make(
            order: *const u8,
            order_length: usize,
            plan: *const u8,
            plan_length: usize,
            buffer: *mut u8,
            buffer_length: usize,
        ) -> u64;
        pub fn wichteab_order_expand(
            short_order: *const u8,
            short_order_length: usize,
            buffer: *mut u8,
            buffer_length: usize,
        ) -> u64;
        pub fn wichteab_floor_open(
            floor: *mut Floor,
            role: u32,
            order: *const u8,
            order_length: usize,
            timetable: *const u8,
            timetable_length: usize,
        ) -> u64;
        pub fn wichteab_floor_read(
            floor: *const Floor,
            role: u32,
            order: *const u8,
            order_length: usize,
            timetable: *const u8,
            timetable_length: usize,
            racks: *mut [u8; 64],
        ) -> u64;
        pub fn wichteab_floor_run(
            floor: *mut Floor,
            role: u32,
            order: *const u8,
            order_length: usize,
            timetable: *const u8,
            timetable_length: usize,
        ) -> u64;
        pub fn wichteab_floor_take_back(
            floor: *mut Floor,
            role: u32,
            order: *const u8,
            order_length: usize,
            timetable: *const u8,
            timetable_length: usize,
        ) -> u64;
        pub fn wichteab_season_report(bytes: *const u8, length: usize, report: *mut u64) -> u64;
        pub fn wichteab_order_length(bytes: *const u8, length: usize) -> u64;
        pub fn wichteab_timetable_length(bytes: *const u8, length: usize) -> u64;
        pub fn wichteab_inspect_breakdown(
            order: *const u8,
            order_length: usize,
            buffer: *mut u8,
            buffer_length: usize,
        ) -> u64;
        pub fn wichteab_inspect_clear(
            order: *const u8,
            order_length: usize,
            held: u64,
            position: u64,
            buffer: *mut u8,
            buffer_length: usize,
        ) -> u64;
        pub fn wichteab_inspect_method(
            order: *const u8,
            order_length: usize,
            buffer: *mut u8,
            buffer_length: usize,
            value: u64,
        ) -> u64;
        pub fn wichteab_inspect_step(
            timetable: *const u8,
            timetable_length: usize,
            number: u64,
            index: u64,
        ) -> u64;
        pub fn wichteab_inspect_delivery(
            order: *const u8,
            order_length: usize,
            plan: *mut u8,
            plan_length: usize,
            timetable: *mut u8,
            timetable_length: usize,
            call: u64,
            value: u64,
        ) -> u64;
        pub fn wichteab_timetable_step(timetable: *const u8, timetable_length: usize, number: u64) -> u64;
    }
}

// Safety, for every call below: pointer and length come from one slice, which lives until the call
// returns; a `&mut` slice overlaps no other; the functions ask nothing else of their caller.

pub fn order_check(order: &[u8]) -> u64 {
    unsafe { symbols::wichteab_order_check(order.as_ptr(), order.len()) }
}

pub fn floor_check(order: &[u8]) -> u64 {
    unsafe { symbols::wichteab_floor_check(order.as_ptr(), order.len()) }
}

pub fn plan_check(order: &[u8], plan: &[u8]) -> u64 {
    unsafe { symbols::wichteab_plan_check(order.as_ptr(), order.len(), plan.as_ptr(), plan.len()) }
}

pub fn plan_make(order: &[u8], buffer: &mut [u8]) -> u64 {
    unsafe { symbols::wichteab_plan_make(order.as_ptr(), order.len(), buffer.as_mut_ptr(), buffer.len()) }
}

pub fn plan_shorten(order: &[u8], plan: &[u8], buffer: &mut [u8]) -> u64 {
    unsafe {
        symbols::wichteab_plan_shorten(
            order.as_ptr(),
            order.len(),
            plan.as_ptr(),
            plan.len(),
            buffer.as_mut_ptr(),
            buffer.len(),
        )
    }
}

pub fn plan_convert(order: &[u8], plan: &[u8], buffer: &mut [u8]) -> u64 {
    unsafe {
        symbols::wichteab_plan_convert(
            order.as_ptr(),
            order.len(),
            plan.as_ptr(),
            plan.len(),
            buffer.as_mut_ptr(),
            buffer.len(),
        )
    }
}

pub fn dearest_carry(order: &[u8], buffer: &mut [u8]) -> u64 {
    unsafe { symbols::wichteab_dearest_carry(order.as_ptr(), order.len(), buffer.as_mut_ptr(), buffer.len()) }
}

pub fn timetable_check(order: &[u8], timetable: &[u8]) -> u64 {
    unsafe {
        symbols::wichteab_timetable_check(order.as_ptr(), order.len(), timetable.as_ptr(), timetable.len())
    }
}

pub fn timetable_make(order: &[u8], plan: &[u8], buffer: &mut [u8]) -> u64 {
    unsafe {
        symbols::wichteab_timetable_make(
            order.as_ptr(),
            order.len(),
            plan.as_ptr(),
            plan.len(),
            buffer.as_mut_ptr(),
            buffer.len(),
        )
    }
}

pub fn timetable_step(timetable: &[u8], number: u64) -> u64 {
    unsafe { symbols::wichteab_timetable_step(timetable.as_ptr(), timetable.len(), number) }
}

pub fn one_vacancy(order: &[u8]) -> u64 {
    unsafe { symbols::wichteab_one_vacancy(order.as_ptr(), order.len()) }
}

pub fn order_expand(short_order: &[u8], buffer: &mut [u8]) -> u64 {
    unsafe {
        symbols::wichteab_order_expand(
            short_order.as_ptr(),
            short_order.len(),
            buffer.as_mut_ptr(),
            buffer.len(),
        )
    }
}

pub fn floor_open(floor: &mut Floor, role: u32, order: &[u8], timetable: &[u8]) -> u64 {
    unsafe {
        symbols::wichteab_floor_open(
            floor,
            role,
            order.as_ptr(),
            order.len(),
            timetable.as_ptr(),
            timetable.len(),
        )
    }
}

pub fn floor_read(floor: &Floor, role: u32, order: &[u8], timetable: &[u8], racks: &mut [u8; 64]) -> u64 {
    unsafe {
        symbols::wichteab_floor_read(
            floor,
            role,
            order.as_ptr(),
            order.len(),
            timetable.as_ptr(),
            timetable.len(),
            racks,
        )
    }
}

pub fn floor_run(floor: &mut Floor, role: u32, order: &[u8], timetable: &[u8]) -> u64 {
    unsafe {
        symbols::wichteab_floor_run(
            floor,
            role,
            order.as_ptr(),
            order.len(),
            timetable.as_ptr(),
            timetable.len(),
        )
    }
}

pub fn floor_take_back(floor: &mut Floor, role: u32, order: &[u8], timetable: &[u8]) -> u64 {
    unsafe {
        symbols::wichteab_floor_take_back(
            floor,
            role,
            order.as_ptr(),
            order.len(),
            timetable.as_ptr(),
            timetable.len(),
        )
    }
}

pub fn season_report(bytes: &[u8], report: &mut [u64; 5]) -> u64 {
    unsafe { symbols::wichteab_season_report(bytes.as_ptr(), bytes.len(), report.as_mut_ptr()) }
}

pub fn order_length(bytes: &[u8]) -> u64 {
    unsafe { symbols::wichteab_order_length(bytes.as_ptr(), bytes.len()) }
}

pub fn timetable_length(bytes: &[u8]) -> u64 {
    unsafe { symbols::wichteab_timetable_length(bytes.as_ptr(), bytes.len()) }
}

pub fn inspect_breakdown(order: &[u8], buffer: &mut [u8]) -> u64 {
    unsafe {
        symbols::wichteab_inspect_breakdown(order.as_ptr(), order.len(), buffer.as_mut_ptr(), buffer.len())
    }
}

/// 0 for "no way", else one more than the moves; the buffer then has the rack at each position.
pub fn inspect_clear(order: &[u8], held: u64, position: u64, buffer: &mut [u8]) -> u64 {
    unsafe {
        symbols::wichteab_inspect_clear(
            order.as_ptr(),
            order.len(),
            held,
            position,
            buffer.as_mut_ptr(),
            buffer.len(),
        )
    }
}

/// The plan of the proved method alone, without the search beside it: one value of the planner's answer, its number
/// (0 accepted), or its count of moves or its place.
pub fn inspect_method(order: &[u8], buffer: &mut [u8], value: u64) -> u64 {
    unsafe {
        symbols::wichteab_inspect_method(
            order.as_ptr(),
            order.len(),
            buffer.as_mut_ptr(),
            buffer.len(),
            value,
        )
    }
}

pub fn inspect_step(timetable: &[u8], number: u64, index: u64) -> u64 {
    unsafe { symbols::wichteab_inspect_step(timetable.as_ptr(), timetable.len(), number, index) }
}

/// One value of one of the three calls that deliver an order: of the planner's, the maker's or the
/// checker's its number (0 accepted, 255 not reached), its first count or its place, or its second count.
pub fn inspect_delivery(order: &[u8], plan: &mut [u8], timetable: &mut [u8], call: u64, value: u64) -> u64 {
    unsafe {
        symbols::wichteab_inspect_delivery(
            order.as_ptr(),
            order.len(),
            plan.as_mut_ptr(),
            plan.len(),
            timetable.as_mut_ptr(),
            timetable.len(),
            call,
            value,
        )
    }
}
