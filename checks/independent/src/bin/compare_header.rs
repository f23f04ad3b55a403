//! Compares the library's header code with the independent version. Arguments: the command that runs the header driver.
#![deny(dead_code)] // a round that is in no list
use independent::chance::Chance;
use independent::driver::{Call, Driver, DONE, HEADER_UNREADABLE};
use independent::header::{encode, Code};
use independent::rounds::{run, Round};

fn encodings(driver: &mut Driver) {
    let messages: Vec<u32> = (0..65536).collect();
    let mut answer = driver.call(Call::kind(b'E').words(&messages), 4 * messages.len());
    for message in 0..=u16::MAX {
        assert_eq!(answer.word(), encode(message), "codeword of {message:04x}");
    }
    driver.count("every message encoded", 65536);
}

fn readings(driver: &mut Driver, chance: &mut Chance, name: &str, words: &[u32]) {
    let code = Code::new();
    for part in words.chunks(50_000) {
        let lent = (chance.word() as u16 as u32, chance.word() as u32);
        let call = Call::kind(b'R').octet(driver.mode()).word(lent.0).word(lent.1).words(part);
        let mut answer = driver.call(call, 16 * part.len());
        for &word in part {
            let got = (answer.word(), answer.word(), answer.word(), answer.word());
            let want = match code.read(word) {
                Some((message, flips)) => (DONE, 1, message as u32, flips),
                None => (HEADER_UNREADABLE, 1, lent.0, lent.1),
            };
            assert_eq!(got, want, "reading of {word:08x}");
        }
    }
    driver.count(name, words.len());
}

fn flips_of(count: usize) -> Vec<u32> {
    (0..32u32).fold(vec![(0u32, 0usize)], |list, bit| {
        let more: Vec<_> = list.iter().filter(|p| p.1 < count).map(|p| (p.0 | 1 << bit, p.1 + 1)).collect();
        [list, more].concat()
    }).into_iter().filter(|p| p.1 == count).map(|p| p.0).collect()
}

fn flipped(driver: &mut Driver, chance: &mut Chance, count: usize, codewords: usize) {
    let flips = flips_of(count);
    let messages = (0..codewords).map(|k| if codewords == 65536 { k as u16 } else { chance.word() as u16 });
    let words: Vec<u32> = messages.flat_map(|m| flips.iter().map(move |f| encode(m) ^ f)).collect();
    readings(driver, chance, &format!("every {count} flipped places of {codewords} codewords"), &words);
}

fn every_codeword(driver: &mut Driver, chance: &mut Chance) {
    let words: Vec<u32> = (0..8u32 << 16).map(|k| encode(k as u16) ^ 1 << chance.below(32) ^ 1 << chance.below(32)).collect();
    readings(driver, chance, "eight times two flipped places of every codeword", &words);
}

fn random_words(driver: &mut Driver, chance: &mut Chance) {
    let words: Vec<u32> = (0..200_000).map(|_| chance.word() as u32).collect();
    readings(driver, chance, "random words", &words);
}

fn main() {
    let rounds: &[Round<(Driver, Chance)>] = &[
        ("encodings", |(driver, _)| encodings(driver)),
        ("no_flips", |(driver, chance)| flipped(driver, chance, 0, 65536)),
        ("one_flip", |(driver, chance)| flipped(driver, chance, 1, 2000)),
        ("two_flips", |(driver, chance)| flipped(driver, chance, 2, 200)),
        ("three_flips", |(driver, chance)| flipped(driver, chance, 3, 20)),
        ("four_flips", |(driver, chance)| flipped(driver, chance, 4, 1)),
        ("every_codeword", |(driver, chance)| every_codeword(driver, chance)),
        ("random_words", |(driver, chance)| random_words(driver, chance)),
    ];
    run(|driver, chance| (driver, chance), rounds, 100_000);
}
