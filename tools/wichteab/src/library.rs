//! The functions of include/wichteab.h that the tool calls. A byte string passes as a pointer and then its length;
//! every function returns one 64-bit number: an answer, which is taken apart here, or a length.

mod symbols {
    extern "C" {
        pub fn wichteab_order_check(order: *const u8, order_length: usize) -> u64;
        pub fn wichteab_floor_check(order: *const u8, order_length: usize) -> u64;
        pub fn wichteab_one_vacancy(order: *const u8, order_length: usize) -> u64;
        pub fn wichteab_order_expand(
            short_order: *const u8,
            short_order_length: usize,
            buffer: *mut u8,
            buffer_length: usize,
        ) -> u64;
        pub fn wichteab_plan_make(
            order: *const u8,
            order_length: usize,
            buffer: *mut u8,
            buffer_length: usize,
        ) -> u64;
        pub fn wichteab_dearest_carry(
            order: *const u8,
            order_length: usize,
            buffer: *mut u8,
            buffer_length: usize,
        ) -> u64;
        pub fn wichteab_plan_check(
            order: *const u8,
            order_length: usize,
            plan: *const u8,
            plan_length: usize,
        ) -> u64;
        pub fn wichteab_timetable_check(
            order: *const u8,
            order_length: usize,
            timetable: *const u8,
            timetable_length: usize,
        ) -> u64;
        pub fn wichteab_plan_shorten(
            order: *const u8,
            order_length: usize,
            plan: *const u8,
            plan_length: usize,
            buffer: *mut u8,
            buffer_length: usize,
        ) -> u64;
        pub fn wichteab_plan_convert(
            order: *const u8,
            order_length: usize,
            plan: *const u8,
            plan_length: usize,
            buffer: *mut u8,
            buffer_length: usize,
        ) -> u64;
        pub fn wichteab_timetable_make(
            order: *const u8,
            order_length: usize,
            plan: *const u8,
            plan_length: usize,
            buffer: *mut u8,
            buffer_length: usize,
        ) -> u64;
        pub fn wichteab_timetable_step(timetable: *const u8, timetable_length: usize, number: u64) -> u64;
        pub fn wichteab_season_report(bytes: *const u8, length: usize, report: *mut u64) -> u64;
        pub fn wichteab_order_length(bytes: *const u8, length: usize) -> u64;
        pub fn wichteab_timetable_length(bytes: *const u8, length: usize) -> u64;
    }
}

/// Why the library refused: the number and its place, 0 where the number names none.
#[derive(Clone, Copy, PartialEq, Eq, Debug)]
pub struct Refusal {
    pub number: u8,
    pub place: u32,
}

/// Accepted, with what the bits above the number say, or refused.
pub type Answer<Counts = u64> = Result<Counts, Refusal>;

fn taken_apart(answer: u64) -> Answer {
    match (answer & 0xFF) as u8 {
        0 => Ok(answer >> 8),
        number => Err(Refusal { number, place: (answer >> 8) as u32 }),
    }
}

// Safety, for every call below: pointer and length come from one slice, which lives until the call
// returns; a `&mut` slice overlaps no other; the functions ask nothing else of their caller.

pub fn order_check(order: &[u8]) -> Answer<()> {
    taken_apart(unsafe { symbols::wichteab_order_check(order.as_ptr(), order.len()) }).map(|_| ())
}

pub fn floor_check(order: &[u8]) -> Answer<()> {
    taken_apart(unsafe { symbols::wichteab_floor_check(order.as_ptr(), order.len()) }).map(|_| ())
}

/// Accepted: whether it is impossible; otherwise it was not judged.
pub fn one_vacancy(order: &[u8]) -> Answer<bool> {
    taken_apart(unsafe { symbols::wichteab_one_vacancy(order.as_ptr(), order.len()) }).map(|more| more == 1)
}

/// Accepted: the length of the full order.
pub fn order_expand(short: &[u8], buffer: &mut [u8]) -> Answer {
    taken_apart(unsafe {
        symbols::wichteab_order_expand(short.as_ptr(), short.len(), buffer.as_mut_ptr(), buffer.len())
    })
}

/// Accepted: the plan's moves.
pub fn plan_make(order: &[u8], buffer: &mut [u8]) -> Answer {
    taken_apart(unsafe {
        symbols::wichteab_plan_make(order.as_ptr(), order.len(), buffer.as_mut_ptr(), buffer.len())
    })
}

/// Accepted: the start in 8 bits, the goal in 8, and above them the moves.
pub fn dearest_carry(order: &[u8], buffer: &mut [u8]) -> Answer {
    taken_apart(unsafe {
        symbols::wichteab_dearest_carry(order.as_ptr(), order.len(), buffer.as_mut_ptr(), buffer.len())
    })
}

/// Accepted: the plan's moves.
pub fn plan_check(order: &[u8], plan: &[u8]) -> Answer {
    taken_apart(unsafe {
        symbols::wichteab_plan_check(order.as_ptr(), order.len(), plan.as_ptr(), plan.len())
    })
}

/// Accepted: the steps and the moves.
pub fn timetable_check(order: &[u8], timetable: &[u8]) -> Answer<(u64, u64)> {
    taken_apart(unsafe {
        symbols::wichteab_timetable_check(order.as_ptr(), order.len(), timetable.as_ptr(), timetable.len())
    })
    .map(|more| (more & 0x3F_FFFF, more >> 22))
}

/// Accepted: the moves that are left.
pub fn plan_shorten(order: &[u8], plan: &[u8], buffer: &mut [u8]) -> Answer {
    taken_apart(unsafe {
        symbols::wichteab_plan_shorten(
            order.as_ptr(),
            order.len(),
            plan.as_ptr(),
            plan.len(),
            buffer.as_mut_ptr(),
            buffer.len(),
        )
    })
}

/// Accepted: the plan's moves.
pub fn plan_convert(order: &[u8], plan: &[u8], buffer: &mut [u8]) -> Answer {
    taken_apart(unsafe {
        symbols::wichteab_plan_convert(
            order.as_ptr(),
            order.len(),
            plan.as_ptr(),
            plan.len(),
            buffer.as_mut_ptr(),
            buffer.len(),
        )
    })
}

/// Accepted: the timetable's steps.
pub fn timetable_make(order: &[u8], plan: &[u8], buffer: &mut [u8]) -> Answer {
    taken_apart(unsafe {
        symbols::wichteab_timetable_make(
            order.as_ptr(),
            order.len(),
            plan.as_ptr(),
            plan.len(),
            buffer.as_mut_ptr(),
            buffer.len(),
        )
    })
}

/// Accepted: the step's first byte, as an offset in the timetable, and its length.
pub fn timetable_step(timetable: &[u8], number: u64) -> Answer<(usize, usize)> {
    taken_apart(unsafe { symbols::wichteab_timetable_step(timetable.as_ptr(), timetable.len(), number) })
        .map(|more| ((more >> 16) as usize, (more & 0xFFFF) as usize))
}

/// Accepted: the pairs accepted, the pairs refused, the steps, the moves and the parallelism.
pub fn season_report(season: &[u8]) -> Answer<[u64; 5]> {
    let mut report = [0; 5];
    taken_apart(unsafe {
        symbols::wichteab_season_report(season.as_ptr(), season.len(), report.as_mut_ptr())
    })
    .map(|_| report)
}

/// Where the order ends that the bytes begin with; none where they end before it does.
pub fn order_length(bytes: &[u8]) -> Option<usize> {
    length(unsafe { symbols::wichteab_order_length(bytes.as_ptr(), bytes.len()) })
}

/// Where the timetable ends that the bytes begin with; none where they end before it does.
pub fn timetable_length(bytes: &[u8]) -> Option<usize> {
    length(unsafe { symbols::wichteab_timetable_length(bytes.as_ptr(), bytes.len()) })
}

fn length(number: u64) -> Option<usize> {
    (number != 0).then_some(number as usize)
}
