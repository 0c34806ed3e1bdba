//! Single edits of a table.

use crate::generate::octets::code;
use crate::tables::Tables;
use oracle::PARAM_SLOTS;

pub type Span = [usize; 2];

/// Puts octets behind the text: their span.
pub fn append(tables: &mut Tables, octets: &[u8]) -> Span {
    let start = tables.text.len();
    tables.text.extend(octets);
    [start, tables.text.len()]
}

pub fn set_target(tables: &mut Tables, link: usize, [start, end]: Span) {
    tables.links[4 * link] = start;
    tables.links[4 * link + 1] = end;
}

fn record(tables: &mut Tables, param: usize) -> &mut [usize] {
    &mut tables.params[PARAM_SLOTS * param..][..PARAM_SLOTS]
}

/// Sets a parameter's name; the code follows, if the name stands in the text, and where there is no
/// value, the value's places do.
pub fn set_name(tables: &mut Tables, param: usize, [start, end]: Span) {
    let code = tables.text.get(start..end).map_or(0, code);
    let record = record(tables, param);
    record[0] = start;
    record[1] = end;
    if record[4] == 0 {
        record[2] = end;
        record[3] = end;
    }
    record[5] = code;
}

pub fn set_code(tables: &mut Tables, param: usize, code: usize) {
    record(tables, param)[5] = code;
}

pub fn set_form(tables: &mut Tables, param: usize, form: usize) {
    record(tables, param)[4] = form;
}

pub fn name_end(tables: &Tables, param: usize) -> usize {
    tables.params[PARAM_SLOTS * param + 1]
}

pub fn set_value(tables: &mut Tables, param: usize, [start, end]: Span, form: usize) {
    let record = record(tables, param);
    record[2] = start;
    record[3] = end;
    record[4] = form;
}

/// Takes the parameter's value away.
pub fn set_no_value(tables: &mut Tables, param: usize) {
    let end = name_end(tables, param);
    set_value(tables, param, [end; 2], 0);
}

/// Puts a good parameter record before that one; links aren't told.
pub fn insert_param(tables: &mut Tables, param: usize) {
    let [start, end] = append(tables, b"zz");
    let at = PARAM_SLOTS * param;
    tables.params.splice(at..at, [start, end, end, end, 0, 0]);
    tables.param_count += 1;
}
