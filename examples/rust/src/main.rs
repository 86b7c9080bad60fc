//! sealsheet FIELD CIPHER KEY GRAVE DRAW TEXT FILE: seals a text, and writes the sheet's record to a file.
//!
//! FIELD is m61 or b63, CIPHER is noekeon or chaskey, KEY is 32 hexadecimal digits, its first byte first. An office takes
//! its draws from a seal book, which never hands out one twice; this example seals under the draw that it is given.
//! Status 0: the record is written. 1: refused. 2: wrong use, or the file cannot be written.

use std::fs;
use std::process::ExitCode;

use hemmuzhan::{seal, Cipher, Field, Key, Refusal, Sheet};

const USAGE: &str =
    "usage: sealsheet m61|b63 noekeon|chaskey KEY GRAVE DRAW TEXT FILE, where KEY is 32 hexadecimal digits";

struct Order {
    field: Field,
    cipher: Cipher,
    key: Key,
    grave: u8,
    draw: u64,
    text: String,
    file: String,
}

fn key(word: &str) -> Option<Key> {
    let digits = word.len() == 32 && word.bytes().all(|byte| byte.is_ascii_hexdigit());
    let number = u128::from_str_radix(word, 16).ok().filter(|_| digits)?;
    Some(Key::from_bytes(number.to_be_bytes()))
}

fn order(words: &[String]) -> Result<Order, &'static str> {
    let [field, cipher, key_word, grave, draw, text, file] = words else {
        return Err("seven words are needed");
    };
    Ok(Order {
        field: match field.as_str() {
            "m61" => Field::M61,
            "b63" => Field::B63,
            _ => return Err("the field is m61 or b63"),
        },
        cipher: match cipher.as_str() {
            "noekeon" => Cipher::Noekeon,
            "chaskey" => Cipher::Chaskey,
            _ => return Err("the cipher is noekeon or chaskey"),
        },
        key: key(key_word).ok_or("the key is not 32 hexadecimal digits")?,
        grave: grave.parse().map_err(|_| "the grave is not a number from 0 to 255")?,
        draw: draw.parse().map_err(|_| "the draw is not a number of 64 bits")?,
        text: text.clone(),
        file: file.clone(),
    })
}

/// The record of the sealed sheet, and its seal.
fn record(order: &Order) -> Result<(Vec<u8>, u64), Refusal> {
    let text = order.text.as_bytes();
    let seal = seal(order.field, order.cipher, order.key, order.draw, text)?;
    let sheet = Sheet { grave: order.grave, draw: order.draw, seal, text };
    let mut record = vec![0; sheet.record_length()];
    sheet.write(&mut record)?;
    Ok((record, seal))
}

fn main() -> ExitCode {
    let words: Vec<String> = std::env::args().skip(1).collect();
    let order = match order(&words) {
        Ok(order) => order,
        Err(why) => {
            eprintln!("sealsheet: {why}\n{USAGE}");
            return ExitCode::from(2);
        }
    };
    let (record, seal) = match record(&order) {
        Ok(sealed) => sealed,
        Err(refusal) => {
            println!("{refusal}");
            return ExitCode::from(1);
        }
    };
    if let Err(error) = fs::write(&order.file, &record) {
        eprintln!("sealsheet: cannot write {}: {error}", order.file);
        return ExitCode::from(2);
    }
    println!("seal {seal:016x}, record of {} bytes", record.len());
    ExitCode::SUCCESS
}
