//! The reader on the cases of `vectors/`.

use reader::cases::{self, Answer};
use reader::{judge, read};

#[test]
fn cases_of_reading() {
    let mut seen = 0;
    for case in cases::all().iter().filter(|case| case.entry == "read") {
        let (mut table, mut strings, mut place) = (vec![0xa5; case.table], vec![0xa5; case.strings], 0xa5);
        let refusal = read(&case.texts[0].1, &mut table, &mut strings, &mut place);
        let kept = |area: &[u8], byte| area.iter().all(|&b| b == byte);
        match refusal {
            0 => {}
            1 => assert!(kept(&table, 0xa5) && kept(&strings, 0xa5) && place == 0xa5, "{}", case.id),
            _ => assert!(kept(&table, 0) && kept(&strings, 0), "{}", case.id),
        }
        if let Err(fault) = case.check(&Answer { refusal, place, table: &table, strings: &strings }) {
            panic!("{}: {}", case.id, fault);
        }
        seen += 1;
    }
    assert!(seen >= 280, "only {} cases of reading in vectors/", seen);
}

#[test]
fn texts_of_the_other_entries() {
    let (mut read, mut refused) = (0, 0);
    for case in cases::all() {
        for (name, text) in &case.texts {
            let verdict = match judge(text) {
                Ok(_) => (0, 0),
                Err(fault) => (fault.why.refusal(), fault.place as u64),
            };
            match case.verdict(name) {
                Some(expected) => assert_eq!(verdict, expected, "{}: {}", case.id, name),
                None => continue,
            }
            *(if verdict.0 == 0 { &mut read } else { &mut refused }) += 1;
        }
    }
    assert!(read > 3000 && refused > 230, "only {} read and {} refused", read, refused);
}
