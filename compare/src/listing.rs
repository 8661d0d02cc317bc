//! The listing of a run file.
use crate::register::Register;
use crate::runfile;
use crate::stores::Store;
use std::fmt::Write;

/// The whole listing.
pub fn list(file: &[u8]) -> String {
    let mut text = String::new();
    let header = match runfile::header(file) {
        Ok(header) => header,
        Err((number, byte)) => {
            let _ = writeln!(text, "fault {number} byte {byte}");
            return text;
        }
    };
    let mut register = load(file, &header);
    let mut place = 16 + 4 * header.objects;
    for step in 0..header.steps {
        match runfile::step(file, place) {
            Ok((call, next)) => {
                place = next;
                line(&mut text, step, register.call(call));
            }
            Err((number, byte)) => {
                let _ = writeln!(text, "fault {number} byte {byte} step {step}");
                break;
            }
        }
    }
    text
}

fn load(file: &[u8], header: &runfile::Header) -> Register {
    let stores = (0..header.machines)
        .map(|machine| {
            let mut store = Store::for_machine(machine, header.objects);
            for object in 0..header.objects {
                store.write(object as u8, runfile::opening_value(file, object));
            }
            store
        })
        .collect();
    Register::open(stores, header.objects)
}

fn line(text: &mut String, step: u32, answer: Result<Vec<u32>, u8>) {
    let _ = match answer {
        Ok(values) => {
            let _ = write!(text, "{step} 0");
            for value in values {
                let _ = write!(text, " {value}");
            }
            writeln!(text)
        }
        Err(number) => writeln!(text, "{step} {number}"),
    };
}
