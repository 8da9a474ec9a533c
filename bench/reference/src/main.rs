//! Writes catalogues of flat Delaney-Dress symbols, to compare with: see README.md.

mod degrees;
mod table;

use degrees::{members_of, Symbol};
use std::io::{self, BufWriter, Write};
use table::{Search, Shares, Starts, Table};

/// What is asked for. 0 sets no limit on tiles or vertices.
pub struct Request {
    pub chambers: usize,
    pub tiles: usize,
    pub vertices: usize,
    pub least_face: usize,
    pub least_degree: usize,
    pub minimal: bool,
}

fn read_words() -> Option<Request> {
    let mut request = Request { chambers: 0, tiles: 0, vertices: 0, least_face: 3, least_degree: 3, minimal: false };
    let mut words = std::env::args().skip(1);
    if words.next()? != "catalogue" {
        return None;
    }
    request.chambers = words.next()?.parse().ok().filter(|it| (1..=table::MOST).contains(it))?;
    while let Some(word) = words.next() {
        let field = match word.as_str() {
            "--tiles" => &mut request.tiles,
            "--vertices" => &mut request.vertices,
            "--least-face" => &mut request.least_face,
            "--least-degree" => &mut request.least_degree,
            "--minimal" => {
                request.minimal = true;
                continue;
            }
            _ => return None,
        };
        *field = words.next()?.parse().ok().filter(|it| (1..=table::MOST).contains(it))?;
    }
    Some(request)
}

/// Appends a list of numbers, one for each chamber that is not `known` by the time that it comes.
fn put_list(line: &mut Vec<u8>, size: usize, mut number: impl FnMut(usize) -> Option<usize>) {
    let mut is_first = true;
    for it in (1..=size).filter_map(&mut number) {
        if !is_first {
            line.push(b' ');
        }
        is_first = false;
        write!(line, "{it}").unwrap();
    }
}

fn put_line(line: &mut Vec<u8>, number: u64, symbol: &Symbol) {
    let (table, size) = (symbol.table, symbol.table.size);
    write!(line, "<1.{number}:{size}:").unwrap();
    for i in 0..3 {
        put_list(line, size, |d| Some(table.image(i, d)).filter(|&image| image >= d));
        line.push(if i == 2 { b':' } else { b',' });
    }
    for (i, list, end) in [(0, &symbol.m01, b','), (1, &symbol.m12, b'>')] {
        let mut seen = 0u64;
        let cells = table.cells(i, i + 1);
        put_list(line, size, |d| {
            let is_new = seen >> d & 1 == 0;
            seen |= cells.iter().find(|it| it.0 >> d & 1 == 1).map_or(0, |it| it.0);
            is_new.then_some(list[d] as usize)
        });
        line.push(end);
    }
    line.push(b'\n');
}

fn main() -> io::Result<()> {
    let Some(request) = read_words() else {
        eprintln!("reference: words not accepted");
        std::process::exit(2);
    };
    let mut out = BufWriter::with_capacity(1 << 16, io::stdout().lock());
    let (mut number, mut line, mut result) = (0, Vec::new(), Ok(()));
    for size in 1..=request.chambers {
        let found = |table: &Table, ties: &[usize]| {
            members_of(table, ties, &request, |symbol| {
                number += 1;
                line.clear();
                put_line(&mut line, number, symbol);
                if result.is_ok() {
                    result = out.write_all(&line);
                }
            });
        };
        let (faces, vertices) = (Shares::new(request.least_face), Shares::new(request.least_degree));
        let most = [u64::MAX / 4; 2];
        Search { table: Table::new(size), request: &request, faces, vertices, found }.run(0, 1, &Starts::new(size), most);
    }
    result?;
    out.flush()
}
