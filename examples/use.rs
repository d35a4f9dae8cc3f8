// Encodes eight octets, spoils a bit of the word, corrects it and opens it.
//
//     make lib
//     rustc -o target/use examples/use.rs -L target/staticlib -l static=pandoricchia && target/use
#[path = "../include/pandoricchia.rs"]
#[allow(dead_code)]
mod pandoricchia;

const CODE: u8 = 1;
const LIMIT: u16 = 10;

fn print_octets(name: &str, octets: &[u8]) {
    let printed: Vec<String> = octets.iter().map(|octet| format!(" {octet:02X}")).collect();
    println!("{name:<12}{}", printed.concat());
}

// A call that is refused ends the program with its number.
fn demand_done(call: &str, number: u8) {
    if number != pandoricchia::DONE {
        println!("{call} is refused with number {number}: {}", pandoricchia::text(number));
        std::process::exit(1);
    }
}

fn main() {
    // A library of another major number has other records, and must not be called.
    assert_eq!(pandoricchia::version() >> 16, pandoricchia::VERSION_NUMBER >> 16);

    let information = b"TURN OFF";
    let mut word = [0; pandoricchia::WORD_OCTETS[CODE as usize]];
    let mut out = word;

    print_octets("information", information);
    demand_done("encode", pandoricchia::encode(CODE, information, &mut word));
    print_octets("word", &word);

    // Bit 21 is wrong. Bit 0 is the most significant bit of octet 0.
    word[21 / 8] ^= 0x80 >> (21 % 8);
    print_octets("received", &word);

    let checked = pandoricchia::check(CODE, &word);
    demand_done("check", checked.number);
    println!("check: {} checks are broken, the lowest is {}", checked.broken, checked.lowest);

    // Where only that is asked: yes or no, and how far it looked.
    let answered = pandoricchia::quick(CODE, &word);
    demand_done("quick", answered.number);
    println!("quick: {}, {} checks evaluated", if answered.yes { "yes" } else { "no" }, answered.evaluated);

    // A word with a broken check does not open.
    match pandoricchia::open(CODE, &word) {
        Ok(part) => println!("open: done, {} octets", part.len()),
        Err(why) => println!("open: {}, the lowest is {}", pandoricchia::text(why.number), why.lowest),
    }

    let stepped = pandoricchia::step(CODE, &word, &mut out);
    demand_done("step", stepped.number);
    println!("step: would flip bit {}, of excess {}", stepped.bit, stepped.excess);

    let corrected = pandoricchia::correct(CODE, &word, LIMIT, &mut out);
    demand_done("correct", corrected.number);
    print!("correct: {} flips, broken checks {} before and {} after", corrected.flips, corrected.first, corrected.last);
    println!(", {} bits unlike", corrected.unlike);
    print_octets("corrected", &out);

    // The run's flips, one by one.
    let mut table = [pandoricchia::FlipRecord::default(); LIMIT as usize];
    let listed = pandoricchia::list(CODE, &word, LIMIT, &mut table);
    demand_done("list", listed.number);
    for record in &table[..listed.flips as usize] {
        println!("list: bit {}, of excess {}, leaves {}", record.bit, record.excess, record.left);
    }

    // The same by plain search: which codeword of code 1 is nearest.
    let reached = pandoricchia::nearest(&word, 3, &mut out);
    demand_done("nearest", reached.number);
    println!("nearest: {} flips, the first of bit {}", reached.least, reached.bits[0]);

    match pandoricchia::open(CODE, &out) {
        Ok(part) => print_octets("opened", part),
        Err(why) => demand_done("open", why.number),
    }
}
