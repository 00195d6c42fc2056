// The same tree and the same text, written by Rust's standard library: strings pushed byte run by byte run.
use std::io::Write;
use std::time::Instant;

enum Val { Real(i64), Time(i64), Str(String), None }

struct Obj { kind: &'static str, name: Option<String>, val: Val, unit: Option<String>, children: Vec<Obj> }

fn escaped(text: &str, out: &mut Vec<u8>) {
    for &b in text.as_bytes() {
        match b {
            b'&' => out.extend_from_slice(b"&amp;"),
            b'<' => out.extend_from_slice(b"&lt;"),
            b'"' => out.extend_from_slice(b"&quot;"),
            b'\t' => out.extend_from_slice(b"&#9;"),
            b'\n' => out.extend_from_slice(b"&#10;"),
            b'\r' => out.extend_from_slice(b"&#13;"),
            _ => out.push(b),
        }
    }
}

fn civil(days: i64) -> (i64, i64, i64) {
    let z = days + 719_468;
    let era = z.div_euclid(146_097);
    let doe = z.rem_euclid(146_097);
    let yoe = (doe - doe / 1_460 + doe / 36_524 - doe / 146_096) / 365;
    let doy = doe - (365 * yoe + yoe / 4 - yoe / 100);
    let mp = (5 * doy + 2) / 153;
    let m = if mp < 10 { mp + 3 } else { mp - 9 };
    (yoe + era * 400 + (m <= 2) as i64, m, doy - (153 * mp + 2) / 5 + 1)
}

fn write_obj(o: &Obj, out: &mut Vec<u8>) {
    out.push(b'<');
    out.extend_from_slice(o.kind.as_bytes());
    if let Some(name) = &o.name { out.extend_from_slice(b" name=\""); escaped(name, out); out.push(b'"'); }
    match &o.val {
        Val::Real(c) => {
            let (mut c, mut s) = (*c, 2);
            while s > 0 && c % 10 == 0 { c /= 10; s -= 1; }
            let p = 10i64.pow(s as u32);
            if s == 0 { write!(out, " val=\"{c}\"").unwrap() } else { write!(out, " val=\"{}.{:0w$}\"", c / p, c % p, w = s).unwrap() }
        }
        Val::Time(t) => {
            let l = t + 3_600;
            let (y, m, d) = civil(l.div_euclid(86_400));
            let r = l.rem_euclid(86_400);
            write!(out, " val=\"{y:04}-{m:02}-{d:02}T{:02}:{:02}:{:02}+01:00\"", r / 3_600, r / 60 % 60, r % 60).unwrap()
        }
        Val::Str(t) => { out.extend_from_slice(b" val=\""); escaped(t, out); out.push(b'"'); }
        Val::None => {}
    }
    if let Some(unit) = &o.unit { out.extend_from_slice(b" unit=\""); escaped(unit, out); out.push(b'"'); }
    if o.children.is_empty() { out.extend_from_slice(b"/>"); return; }
    out.push(b'>');
    for child in &o.children { write_obj(child, out); }
    out.extend_from_slice(b"</");
    out.extend_from_slice(o.kind.as_bytes());
    out.push(b'>');
}

fn main() {
    let point = |n: u64| {
        let s = (n % 1_000_000_000) as i64;
        let (kind, val) = match n % 3 { 0 => ("real", Val::Real(s)), 1 => ("abstime", Val::Time(s)), _ => ("str", Val::Str("supply & return, zone <1>".to_string())) };
        Obj { kind, name: Some(format!("p{n}")), val, unit: Some("obix:units/fahrenheit".to_string()), children: Vec::new() }
    };
    let lists = (0..3_000u64).map(|k| Obj { kind: "list", name: None, val: Val::None, unit: None, children: (0..100).map(|i| point(k * 100 + i)).collect() }).collect();
    let root = Obj { kind: "obj", name: None, val: Val::None, unit: None, children: lists };
    let mut out = Vec::new();
    let mut best = u128::MAX;
    for _ in 0..10 {
        out.clear();
        let start = Instant::now();
        write_obj(&root, &mut out);
        best = best.min(start.elapsed().as_nanos());
    }
    println!("{} {best}", out.len());
}
