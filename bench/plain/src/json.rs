//! The report as one line of JSON: docs/report.md, "JSON".

use crate::{mode_of, spelled_locations, Cause, Judged};
use std::io::{self, Write};

pub fn write_refusal(line: usize, cause: Cause, out: &mut impl Write) -> io::Result<()> {
    writeln!(out, "{{\"refused\":{{\"cause\":\"{cause}\",\"line\":{line}}}}}")
}

pub fn write_report(judged: &Judged, out: &mut impl Write) -> io::Result<()> {
    let (page, accesses) = (&judged.page, &judged.accesses);
    write!(out, "{{\"accesses\":{},\"actions\":{},", accesses.kept.len(), page.event.len())?;
    write!(out, "\"chains\":{},\"groups\":[", page.clocks.lengths.len())?;
    for (group, (first, size)) in judged.groups.iter().enumerate() {
        write!(out, "{}{{\"race\":{},\"size\":{size}}}", comma(group), first + 1)?;
    }
    write!(out, "],\"links\":{},\"pairs\":{},\"races\":[", page.clocks.links, accesses.pairs)?;
    let spelled = spelled_locations(accesses);
    for (race, (&(first, second), group)) in judged.races.iter().zip(&judged.named).enumerate() {
        let (x, y) = (&accesses.kept[first as usize], &accesses.kept[second as usize]);
        write!(out, "{}{{\"actions\":[{},{}],\"group\":{},", comma(race), x.action, y.action, group + 1)?;
        write!(out, "\"lines\":[{},{}],\"location\":\"", x.line, y.line)?;
        write_escaped(spelled[x.location as usize], out)?;
        write!(out, "\",\"modes\":\"{}{}\"}}", mode_of(x), mode_of(y))?;
    }
    writeln!(out, "],\"version\":1}}")
}

fn comma(place: usize) -> &'static str {
    if place == 0 { "" } else { "," }
}

/// A location is of printable ASCII bytes, so these two bytes alone are escaped.
fn write_escaped(text: &[u8], out: &mut impl Write) -> io::Result<()> {
    for &byte in text {
        if matches!(byte, b'"' | b'\\') {
            out.write_all(b"\\")?;
        }
        out.write_all(&[byte])?;
    }
    Ok(())
}
