//! Request #105, worked by hand: in one note 11 comes before 10, and 10 before 12, when it is read and when it is
//! written. Notes still answer in file order, and 3 and 9 before all three.

#[path = "common/tried_notes.rs"]
mod tried_notes;

use reference::check::{HOST_WORDS, check};
use reference::draft::{Draft, correct_count};
use reference::examples::{P, P_RESTED, P_SHIFTED};
use reference::note_order::{
    ENOUGH_WORDS, OF_FILES, OF_PHRASES, file_was_10, phrase_was_10, tried_notes,
};
use reference::reading::{Refusal, read};
use reference::report::report;
use reference::writing::{EditedNote, EditedPhrase, write};
use tried_notes::demand_exactly;

/// Room for every file.
const ENOUGH: usize = 4_096;

/// P in one version, where its two notes begin, and a key that finds no bell: 62, which is only written, from version 2 on
/// with the three semitones that the shift takes away.
struct Example {
    file: &'static [u8],
    notes_at: [u64; 2],
    no_bell: u32,
}

const EXAMPLES: [Example; 3] = [
    Example {
        file: &P,
        notes_at: [22, 36],
        no_bell: 62,
    },
    Example {
        file: &P_SHIFTED,
        notes_at: [23, 37],
        no_bell: 65,
    },
    Example {
        file: &P_RESTED,
        notes_at: [27, 41],
        no_bell: 65,
    },
];

/// ra above rb, rb above 3600000, d above 3600000.
const WRONG_TIMES: [[u32; 3]; 3] = [[6, 5, 7], [0, 3_600_001, 7], [0, 5, 3_600_001]];

impl Example {
    fn phrase(&self) -> EditedPhrase {
        EditedPhrase::from(&read(self.file).unwrap())
    }

    /// Makes a note of it break these rules, 11 by these times, and 12 by listing itself.
    fn break_note(&self, note: &mut EditedNote, number: u32, rules: &[u64], times: [u32; 3]) {
        for rule in rules {
            match rule {
                10 => note.key = self.no_bell,
                11 => [note.ra, note.rb, note.due] = times,
                _ => (note.wait_count, note.waits[0]) = (1, number),
            }
        }
    }

    /// The phrase with both notes broken.
    fn broken(&self, first: &[u64], last: &[u64], times: [u32; 3]) -> EditedPhrase {
        let mut phrase = self.phrase();
        self.break_note(&mut phrase.notes[0], 0, first, times);
        self.break_note(&mut phrase.notes[1], 1, last, times);
        phrase
    }
}

/// The writer refuses the phrase so, whatever the room, and the reader its file.
#[track_caller]
fn assert_refused(phrase: &EditedPhrase, number: u64, place: u64) {
    let refusal = Refusal { number, place };
    assert_eq!(write(phrase, ENOUGH), Err(refusal));
    assert_eq!(write(phrase, 0), Err(refusal), "16 comes last");
    let draft = Draft::of(phrase).expect("every field fits its bytes");
    assert_eq!(read(&draft.bytes()), Err(refusal));
}

#[test]
fn the_first_of_11_10_and_12_answers() {
    let first_of: [(&[u64], u64); 7] = [
        (&[10], 10),
        (&[11], 11),
        (&[12], 12),
        (&[10, 11], 11),
        (&[11, 12], 11),
        (&[10, 12], 10),
        (&[10, 11, 12], 11),
    ];
    for example in EXAMPLES {
        let [first_at, last_at] = example.notes_at;
        for times in WRONG_TIMES {
            for (rules, number) in first_of {
                assert_refused(&example.broken(rules, &[], times), number, first_at);
                assert_refused(&example.broken(&[], rules, times), number, last_at);
            }
        }
    }
}

/// By their bytes, and through the check and the report.
#[test]
fn p_with_a_key_and_times_wrong_is_11() {
    type Bytes = [(usize, u8); 2];
    let examples: [(&[u8], Bytes, u64); 10] = [
        // A key that is only written, with ra 6 above rb 5; d 50331655; ra 1 above rb 0; rb 16777216.
        (&P, [(23, 0x3E), (27, 0x06)], 22),
        (&P, [(23, 0x3E), (32, 0x03)], 22),
        (&P, [(37, 0x3E), (41, 0x01)], 36),
        (&P, [(37, 0x3E), (42, 0x01)], 36),
        // The same with keys that find their bells only without the shift.
        (&P_SHIFTED, [(24, 0x3C), (28, 0x06)], 23),
        (&P_SHIFTED, [(24, 0x3C), (33, 0x03)], 23),
        (&P_SHIFTED, [(38, 0x4A), (42, 0x01)], 37),
        (&P_SHIFTED, [(38, 0x4A), (43, 0x01)], 37),
        (&P_RESTED, [(28, 0x3C), (32, 0x06)], 27),
        (&P_RESTED, [(42, 0x4A), (47, 0x01)], 41),
    ];
    for (example, [key, time], place) in examples {
        let with = |bytes: &[(usize, u8)]| {
            let mut file = example.to_vec();
            bytes.iter().for_each(|&(at, byte)| file[at] = byte);
            file
        };
        for (file, number) in [
            (with(&[key]), 10),
            (with(&[time]), 11),
            (with(&[key, time]), 11),
        ] {
            assert_eq!(check(&file, HOST_WORDS).host_number(), number << 32 | place);
            let mut buffer = [0; 17];
            assert_eq!(report(&file, HOST_WORDS, &mut buffer).1, 17);
            assert_eq!(buffer, format!("refused {number} at {place}\n").as_bytes());
        }
    }
}

#[test]
fn an_earlier_note_answers_before_a_later_one() {
    for example in EXAMPLES {
        let [first_at, _] = example.notes_at;
        for times in WRONG_TIMES {
            for last in [&[11][..], &[10, 11], &[10, 11, 12]] {
                assert_refused(&example.broken(&[12], last, times), 12, first_at);
                assert_refused(&example.broken(&[10], last, times), 10, first_at);
                assert_refused(&example.broken(&[10, 12], last, times), 10, first_at);
            }
            assert_refused(&example.broken(&[11], &[12], times), 11, first_at);
            assert_refused(&example.broken(&[11], &[10], times), 11, first_at);
        }
    }
}

/// Files with wrong times in the first or in the last note, its key right or of no bell; and the place of that note.
fn files_with_wrong_times(example: &Example) -> Vec<(Vec<u8>, usize)> {
    let mut all = Vec::new();
    let [first_at, last_at] = example.notes_at.map(|place| place as usize);
    for times in WRONG_TIMES {
        for rules in [&[11][..], &[10, 11]] {
            let bytes = |phrase| Draft::of(&phrase).unwrap().bytes();
            all.push((bytes(example.broken(rules, &[], times)), first_at));
            all.push((bytes(example.broken(&[], rules, times)), last_at));
        }
    }
    all
}

#[test]
fn a_note_cut_short_is_3_although_its_times_are_wrong() {
    for example in EXAMPLES {
        for (file, note_at) in files_with_wrong_times(&example) {
            // From a note whose length byte is missing to one without its last byte.
            for left in 0..14 {
                let mut cut = file[..note_at + left].to_vec();
                correct_count(&mut cut, 0);
                let place = note_at as u64;
                assert_eq!(read(&cut), Err(Refusal { number: 3, place }), "{left}");
            }
        }
    }
}

#[test]
fn a_note_of_wrong_length_is_9_although_its_times_are_wrong() {
    for example in EXAMPLES {
        for (mut file, note_at) in files_with_wrong_times(&example) {
            let place = note_at as u64;
            for length in [0, 12, 18, 255] {
                file[note_at] = length;
                assert_eq!(read(&file), Err(Refusal { number: 9, place }), "{length}");
            }
        }
        for (number, place) in example.notes_at.into_iter().enumerate() {
            for count in [5, 242, 255, 256, u32::MAX] {
                let rules = [10, 11];
                let mut phrase = example.broken(&rules, &rules, WRONG_TIMES[0]);
                phrase.notes[..number].copy_from_slice(&example.phrase().notes[..number]);
                phrase.notes[number].wait_count = count;
                assert_eq!(write(&phrase, ENOUGH), Err(Refusal { number: 9, place }));
            }
        }
    }
}

#[test]
fn every_tried_note_has_the_answer_that_is_due() {
    let (mut written, mut are_read) = ([0; 13], [0; 13]);
    let (mut phrases_changed, mut files_changed) = (0, 0);
    for tried in tried_notes() {
        let (phrase, due) = (tried.phrase(), tried.refusal());
        let number = due.map_or(0, |refusal| refusal.number) as usize;
        assert_eq!(write(&phrase, ENOUGH).err(), due, "{tried:?}");
        written[number] += 1;
        phrases_changed += u64::from(phrase_was_10(&phrase));
        if let Some(file) = tried.file() {
            assert_eq!(read(&file).err(), due, "{tried:?}");
            let answer = due.map_or(0, Refusal::host_number);
            assert_eq!(
                check(&file, ENOUGH_WORDS).host_number(),
                answer,
                "{tried:?}"
            );
            assert_eq!(file_was_10(&file), phrase_was_10(&phrase), "{tried:?}");
            are_read[number] += 1;
            files_changed += u64::from(file_was_10(&file));
        }
    }
    demand_exactly("phrases with tried notes", &written, OF_PHRASES).unwrap();
    demand_exactly("files with tried notes", &are_read, OF_FILES).unwrap();
    // In each of 4 notes in 3 versions a wrong key and wrong times, with any list: 8 x 8 x 9, and of files 4 x 8 x 6.
    assert_eq!((phrases_changed, files_changed), (12 * 576, 12 * 192));
}
