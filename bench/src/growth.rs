//! How the library's time grows with the number of records and with the size.

use crate::{clock, inputs, ours};
use std::hint::black_box;

pub fn print() {
    println!("# the least time of many batches, in nanoseconds");
    let mut table = vec![0; 2 * inputs::MOST_NAMES];
    let mut answers = ours::Answers::default();
    for names in [0, 1, 10, 100, 500, 1000, 2000] {
        let message = inputs::request(names);
        let time = clock::least(|| {
            black_box(ours::read_request(black_box(&message), &mut table, &mut answers));
        });
        let each = time / (names + 3) as f64;
        println!("growth request names {names} bytes {} ns {time:.0} a record {each:.1}", message.len());
    }
    let (mut line, mut buffer) = ([0; 9], vec![0; inputs::request(inputs::MOST_NAMES).len()]);
    for names in [0, 1, 10, 150, 500, 1000, 2000] {
        let message = inputs::request(names);
        let time = clock::least(|| {
            let message = black_box(&message);
            black_box(ours::feed_request(message, 1, &mut line, &mut buffer, &mut table, &mut answers));
        });
        let each = time / message.len() as f64;
        println!("growth pieces of one byte names {names} bytes {} ns {time:.0} a byte {each:.2}", message.len());
    }
    let text = inputs::ascii();
    for size in [64, 1024, 8192, 65535] {
        let time = clock::least(|| {
            black_box(ours::is_utf8(black_box(&text[..size])));
        });
        println!("growth utf8 bytes {size} ns {time:.0} a kilobyte {:.1}", time * 1024.0 / size as f64);
    }
    let mut written = [0];
    for size in [16u16, 256, 4096, 65535] {
        let message = inputs::cookie_record(size);
        let mut out = vec![0; message.len()];
        let time = clock::least(|| {
            black_box(ours::copy_record(black_box(&message), black_box(&mut out), &mut answers, &mut written));
        });
        println!("growth record bytes {size} ns {time:.0} a kilobyte {:.1}", time * 1024.0 / f64::from(size));
    }
}
