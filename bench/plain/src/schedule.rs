//! Two orders for a race: docs/schedules.md.

use crate::{mode_of, spelled_locations, Accesses, Action, Cause, Page, MOST_PAIRS};
use std::io::{self, Write};

pub struct Orders { page: Page, accesses: Accesses, race: usize, pair: (u32, u32) }

pub fn find(page: Page, accesses: Accesses, race: usize) -> Result<Orders, Cause> {
    if accesses.pairs > MOST_PAIRS {
        return Err("too-many-pairs");
    }
    let &pair = accesses.races(&page.clocks)?.get(race - 1).ok_or("no-race")?;
    Ok(Orders { page, accesses, race, pair })
}

pub fn write(orders: &Orders, out: &mut impl Write) -> io::Result<()> {
    let accesses = &orders.accesses;
    let [x, y] = [orders.pair.0, orders.pair.1].map(|number| &accesses.kept[number as usize]);
    write!(out, "schedules 1\nrace {} {} {} {}{} ", orders.race, x.line, y.line, mode_of(x), mode_of(y))?;
    write!(out, "{} {} ", x.action, y.action)?;
    out.write_all(spelled_locations(accesses)[x.location as usize])?;
    out.write_all(b"\n")?;
    write_order("first", orders, [x.action, y.action], [x.action, y.action], out)?;
    write_order("second", orders, [x.action, y.action], [y.action, x.action], out)?;
    writeln!(out, "end")
}

/// What leads to one of the two, the two, and the others.
fn write_order(word: &str, orders: &Orders, race: [Action; 2], two: [Action; 2], out: &mut impl Write) -> io::Result<()> {
    let clocks = &orders.page.clocks;
    let (before, after): (Vec<Action>, Vec<Action>) = (0..orders.page.event.len() as Action)
        .filter(|action| !race.contains(action))
        .partition(|&action| race.iter().any(|&one| clocks.joins(action, one)));
    for action in before.into_iter().chain(two).chain(after) {
        writeln!(out, "{word} {action}")?;
    }
    Ok(())
}
