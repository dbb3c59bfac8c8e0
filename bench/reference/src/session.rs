//! Sessions as csa's: requests as lines of JSON, each answered by one line: profiles alone. A point has no journey.

use std::fmt::Write as _;
use std::io::{self, BufRead, Write};

use crate::image::Image;
use crate::scan::{Query, direct_walk, profile};

const LAST_TIME: u32 = 1_999_999_999;

struct Refusal(u32, &'static str);

const BAD_JSON: Refusal = Refusal(111, "BadJson");
const BAD_REQUEST: Refusal = Refusal(112, "BadRequest");

/// Answers all lines of a session.
pub fn serve(image: &Image, input: impl BufRead, mut output: impl Write) -> io::Result<()> {
    for line in input.split(b'\n') {
        let mut reply =
            reply_to(image, &line?).unwrap_or_else(|Refusal(number, name)| format!(r#"{{"error":{number},"name":"{name}"}}"#));
        reply.push('\n');
        output.write_all(reply.as_bytes())?;
        output.flush()?;
    }
    Ok(())
}

fn reply_to(image: &Image, line: &[u8]) -> Result<String, Refusal> {
    let members = members_of(line).ok_or(BAD_JSON)?;
    let text = |key: &str| members.iter().find(|(name, _)| name == key).map(|(_, value)| value.as_str()).ok_or(BAD_REQUEST);
    match text("do")? {
        "profile" => {
            let clock = |key| text(key).and_then(|it| seconds_of(it).ok_or(BAD_REQUEST));
            let [from, until, by] = [clock("after")?, clock("until")?, clock("by")?];
            let answer = match text("criterion")? {
                "arrival" => answer::<1>,
                "arrival+trips" => answer::<2>,
                "arrival+trips+walk" => answer::<3>,
                _ => return Err(BAD_REQUEST),
            };
            let stop = |key| text(key).and_then(|name| image.find(name.as_bytes()).ok_or(Refusal(31, "UnknownStop")));
            let query = Query { source: stop("from")?, target: stop("to")?, from, until, by };
            check(&query)?;
            Ok(answer(image, &query))
        }
        _ => Err(BAD_REQUEST),
    }
}

fn check(query: &Query) -> Result<(), Refusal> {
    if query.source == query.target {
        return Err(Refusal(32, "SameStop"));
    }
    if query.from > query.until || query.from > query.by || query.until.max(query.by) > LAST_TIME {
        return Err(Refusal(33, "BadWindow"));
    }
    Ok(())
}

fn answer<const PARTS: usize>(image: &Image, query: &Query) -> String {
    let points = profile::<PARTS>(image, query);
    let mut reply = String::from(r#"{"ok":"profile","points":["#);
    for (place, (departure, value)) in points.into_iter().enumerate() {
        let comma = if place == 0 { "" } else { "," };
        let (arrives, departs) = (clock_of(value.time()), clock_of(departure));
        let _ = write!(reply, r#"{comma}{{"arr":"{arrives}","dep":"{departs}""#);
        for (name, number) in value.further() {
            let _ = write!(reply, r#","{name}":{number}"#);
        }
        reply.push('}');
    }
    let walk = direct_walk(image, query).map_or("null".to_owned(), |seconds| seconds.to_string());
    let _ = write!(reply, r#"],"version":1,"walk":{walk}}}"#);
    reply
}

fn clock_of(seconds: u32) -> String {
    format!("{:02}:{:02}:{:02}", seconds / 3600, seconds / 60 % 60, seconds % 60)
}

/// Hours of one to six digits, minutes and seconds of two.
fn seconds_of(clock: &str) -> Option<u32> {
    let number = |text: &str, lengths: std::ops::RangeInclusive<usize>| {
        let plain = lengths.contains(&text.len()) && text.bytes().all(|byte| byte.is_ascii_digit());
        if plain { text.parse::<u64>().ok() } else { None }
    };
    let mut parts = clock.split(':');
    let hours = number(parts.next()?, 1..=6)?;
    let [minutes, seconds] = [number(parts.next()?, 2..=2)?, number(parts.next()?, 2..=2)?];
    if parts.next().is_some() || minutes > 59 || seconds > 59 {
        return None;
    }
    u32::try_from(hours * 3600 + minutes * 60 + seconds).ok()
}

/// The members of an object whose values are all texts, with no escapes but `\"` and `\\`; `None` of any other line.
fn members_of(line: &[u8]) -> Option<Vec<(String, String)>> {
    let mut rest = std::str::from_utf8(line).ok()?.trim().strip_prefix('{')?.strip_suffix('}')?.trim();
    let mut members = Vec::new();
    while !rest.is_empty() {
        let (name, after) = text_of(rest)?;
        let (value, after) = text_of(after.trim_start().strip_prefix(':')?.trim_start())?;
        members.push((name, value));
        let after = after.trim_start();
        rest = if after.is_empty() { after } else { after.strip_prefix(',')?.trim_start() };
    }
    Some(members)
}

/// The text in quotes at the beginning, and what is behind it.
fn text_of(rest: &str) -> Option<(String, &str)> {
    let rest = rest.strip_prefix('"')?;
    let mut text = String::new();
    let mut letters = rest.char_indices();
    while let Some((place, letter)) = letters.next() {
        match letter {
            '"' => return Some((text, &rest[place + 1..])),
            '\\' => text.push(letters.next().map(|(_, it)| it).filter(|it| matches!(it, '"' | '\\'))?),
            _ => text.push(letter),
        }
    }
    None
}
