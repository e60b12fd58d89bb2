//! A sentence for each number, for where no record shows more.

pub fn sentence(number: u8) -> &'static str {
    match number {
        10..=14 | 50..=52 => of_order(number),
        20..=29 => of_floor(number),
        30..=38 => of_plan(number),
        40..=47 => of_timetable(number),
        60 => "the role has no right to this call, or the live floor is not open",
        61 => "no step is left to run, or the next one is not legal where the racks now stand",
        62 => "there is no step to take back, or the last one cannot be taken back where the racks now stand",
        _ => "refused, for a reason that this tool does not know",
    }
}

fn of_order(number: u8) -> &'static str {
    match number {
        10 => "the order was cut short, or other bytes follow it",
        11 => "the order has no position, or more than 64",
        12 => "a spare or pad bit of the order is set",
        13 => "an edge names a position off the floor, is not lower first, or does not come after the one before it",
        14 => "a start or goal is off the floor, or two racks share one",
        50 => "the short order was cut short, other bytes follow it, or a spare or pad bit of it is set",
        51 => "the model is not sold",
        _ => "the buffer for the order is too short",
    }
}

fn of_floor(number: u8) -> &'static str {
    match number {
        20 => "too few positions are vacant",
        21 => "the floor does not stay connected when some one position is taken away",
        22 => "the floor is a ring; this number is no longer given",
        23 => "the plan buffer is too short",
        24 => "the racks stand in another order round the ring at the goal",
        26 => "a position has five or more edges",
        27 => "the floor is not connected",
        28 => "the plan buffer is too short for the dearest carry",
        29 => "not just one position is vacant",
        _ => "refused, for a reason that this tool does not know",
    }
}

fn of_plan(number: u8) -> &'static str {
    match number {
        30 => "the plan was cut short, or other bytes follow it",
        31 => "the spare bits of the plan are those of no edition, or a pad bit of it is set",
        32 => "the move names a position off the floor, or no edge joins its two",
        33 => "a rack is not at its goal after the plan",
        34 => "the move leaves a position where no rack stands",
        35 => "the move enters a position where a rack stands",
        36 => "the move names another rack than the one that stands there",
        37 => "the buffer for the shortened plan is too short",
        _ => "the buffer for the converted plan is too short",
    }
}

fn of_timetable(number: u8) -> &'static str {
    match number {
        40 => "the timetable was cut short, or other bytes follow it",
        41 => "a spare or pad bit of the timetable is set",
        42 => "the step is not legal",
        43 => "a rack is not at its goal after the timetable",
        44 => "the timetable buffer is too short",
        45 => "the timetable has no such step",
        46 => "the season's bytes end inside this pair",
        _ => "bytes follow it, and a season has no more pairs",
    }
}
