// The table of cheapest ways in plain Rust: Dijkstra from every point over std's binary heap.
use std::cmp::Reverse;
use std::collections::BinaryHeap;
use std::error::Error;
use std::io::{self, BufWriter, Read, Write};

struct Hall {
    // For each point its legs: where they lead and what they cost.
    legs: Vec<Vec<(usize, u32)>>,
}

fn parse(sheet: &str) -> Result<Hall, Box<dyn Error>> {
    let mut hall = Hall { legs: Vec::new() };
    let mut laid = 0;
    for line in sheet.lines() {
        let mut words = line.split(' ');
        let mark = words.next().ok_or("no mark")?;
        let mut field = || -> Result<u32, Box<dyn Error>> { Ok(words.next().ok_or("no field")?.parse()?) };
        match mark {
            "ST" => {
                let points = field()? as usize;
                let _bound = field()?;
                hall.legs = vec![Vec::new(); points];
            }
            "LG" => {
                let (from, to, cost) = (field()? as usize, field()? as usize, field()?);
                if from >= hall.legs.len() || to >= hall.legs.len() {
                    return Err("no such point".into());
                }
                hall.legs[from].push((to, cost));
                laid += 1;
            }
            "EN" => {
                if field()? != laid {
                    return Err("wrong count".into());
                }
            }
            _ => return Err("unknown mark".into()),
        }
    }
    Ok(hall)
}

// The least value of a walk from a point to every point.
fn values_from(hall: &Hall, from: usize) -> Vec<Option<u32>> {
    let mut best: Vec<Option<u32>> = vec![None; hall.legs.len()];
    let mut heap = BinaryHeap::new();
    best[from] = Some(0);
    heap.push(Reverse((0u32, from)));
    while let Some(Reverse((value, at))) = heap.pop() {
        if best[at].is_some_and(|known| known < value) {
            continue;
        }
        for &(to, cost) in &hall.legs[at] {
            let offer = value + cost;
            if best[to].is_none_or(|known| offer < known) {
                best[to] = Some(offer);
                heap.push(Reverse((offer, to)));
            }
        }
    }
    best
}

fn main() -> Result<(), Box<dyn Error>> {
    let mut sheet = String::new();
    io::stdin().lock().read_to_string(&mut sheet)?;
    let hall = parse(&sheet)?;
    let mut out = BufWriter::new(io::stdout().lock());
    let points = hall.legs.len();
    let mut found = 0;
    writeln!(out, "TB {points}")?;
    for from in 0..points {
        for (to, value) in values_from(&hall, from).into_iter().enumerate() {
            match value {
                Some(value) => {
                    writeln!(out, "PR {from} {to} {value}")?;
                    found += 1;
                }
                None => writeln!(out, "NO {from} {to}")?,
            }
        }
    }
    writeln!(out, "EN {found}")?;
    out.flush()?;
    Ok(())
}
