//! The other side of try-reals. A line of its input is an operator, two patterns, and what plc said: a stop or a REAL as
//! it prints it (a truth is 1.0 or 0.0). It computes the same in f32, and prints each line that says otherwise.

use std::io::BufRead;

/// What plc keeps of a result: it is finite, and there is one zero.
fn value(result: f32) -> Result<f32, &'static str> {
    if result.is_finite() {
        Ok(result + 0.0)
    } else {
        Err("overflow")
    }
}

fn truth(holds: bool) -> Result<f32, &'static str> {
    Ok(holds as u8 as f32)
}

fn computed(operator: &str, a: f32, b: f32) -> Result<f32, &'static str> {
    match operator {
        "ADD" => value(a + b),
        "SUB" => value(a - b),
        "MUL" => value(a * b),
        "DIV" if b == 0.0 => Err("zerodivisor"),
        "DIV" => value(a / b),
        "SQRT" => value(a.sqrt()),
        "ABS" => value(a.abs()),
        "MIN" => value(a.min(b)),
        "MAX" => value(a.max(b)),
        "GT" => truth(a > b),
        "GE" => truth(a >= b),
        "EQ" => truth(a == b),
        "NE" => truth(a != b),
        "LE" => truth(a <= b),
        "LT" => truth(a < b),
        _ => panic!("operator {operator}"),
    }
}

/// Whether two results are the same one, bit for bit.
fn agree(a: Result<f32, &str>, b: Result<f32, &str>) -> bool {
    match (a, b) {
        (Ok(a), Ok(b)) => a.to_bits() == b.to_bits(),
        (Err(a), Err(b)) => a == b,
        _ => false,
    }
}

fn main() {
    for line in std::io::stdin().lock().lines() {
        let line = line.unwrap();
        let words: Vec<&str> = line.split(' ').collect();
        let real = |pattern: &str| f32::from_bits(pattern.parse().unwrap());
        let right = computed(words[0], real(words[1]), real(words[2]));
        let said = match words[3].strip_prefix("REAL#") {
            Some(number) => Ok(number.parse().unwrap()),
            None => Err(words[3]),
        };
        if !agree(right, said) {
            println!("{line}: f32 gives {right:?}");
        }
    }
}
