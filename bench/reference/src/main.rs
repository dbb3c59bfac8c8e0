//! A program of csa's job in plain Rust, to measure csa against. **It has no proofs and no contracts**, is tested by comparing its
//! points with csa's alone, doesn't verify an image beyond its length, knows no journeys and no loads, and is none of csa's parts.
//!
//!     reference IMAGE PORT       listens on 127.0.0.1, prints `listening PORT`, and answers each session by a thread of its own
//!
//! It is the plain scan: one function for all criteria, indices that are checked, no hints for the processor, and nothing known of a
//! criterion but that riding and walking never make a value better.

mod fronts;
mod image;
mod scan;
mod session;
mod values;

use std::error::Error;
use std::io::BufReader;
use std::net::{TcpListener, TcpStream};
use std::process::ExitCode;
use std::sync::Arc;

use image::Image;

fn listen(image: Image, port: u16) -> Result<(), Box<dyn Error>> {
    let listener = TcpListener::bind(("127.0.0.1", port))?;
    println!("listening {}", listener.local_addr()?.port());
    let image = Arc::new(image);
    for stream in listener.incoming() {
        let (stream, image) = (stream?, Arc::clone(&image));
        std::thread::spawn(move || serve_stream(&image, &stream));
    }
    Ok(())
}

fn serve_stream(image: &Image, stream: &TcpStream) {
    let ended = stream.set_nodelay(true).and_then(|()| session::serve(image, BufReader::new(stream), stream));
    if let Err(error) = ended {
        eprintln!("reference: a session ended: {error}");
    }
}

fn run() -> Result<(), Box<dyn Error>> {
    let words: Vec<String> = std::env::args().skip(1).collect();
    let [path, port] = &words[..] else {
        return Err("usage: reference IMAGE PORT".into());
    };
    listen(Image::read(&std::fs::read(path)?).ok_or("this is no image")?, port.parse()?)
}

fn main() -> ExitCode {
    match run() {
        Ok(()) => ExitCode::SUCCESS,
        Err(error) => {
            eprintln!("reference: {error}");
            ExitCode::FAILURE
        }
    }
}
