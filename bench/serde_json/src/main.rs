//! Reads a multipart body with the boundary `-` from standard input, and prints the milliseconds that serde_json takes
//! to parse its texts as values: the best of three. Each value is dropped before the next text is parsed.

use serde_json::Value;
use std::error::Error;
use std::io::{stdin, Read};
use std::time::{Duration, Instant};

/// What stands behind the headers of each part. The piece behind the end mark has no empty line, so it gives none.
fn texts(body: &str) -> Vec<&str> {
    let parts = body.strip_prefix("---").unwrap_or(body).split("\r\n---");
    parts
        .filter_map(|part| part.split_once("\r\n\r\n"))
        .map(|(_, text)| text)
        .collect()
}

/// The time to parse all texts, each of which is an object.
fn time(texts: &[&str]) -> Result<Duration, Box<dyn Error>> {
    let start = Instant::now();
    for text in texts {
        let value: Value = serde_json::from_slice(text.as_bytes())?;
        if !value.is_object() {
            return Err("a text is no object".into());
        }
    }
    Ok(start.elapsed())
}

fn main() -> Result<(), Box<dyn Error>> {
    let mut body = String::new();
    stdin().read_to_string(&mut body)?;
    let texts = texts(&body);
    if texts.is_empty() {
        return Err("the body has no part".into());
    }
    let mut best = Duration::MAX;
    for _ in 0..3 {
        best = best.min(time(&texts)?);
    }
    println!("{:.3}", best.as_secs_f64() * 1e3);
    Ok(())
}
