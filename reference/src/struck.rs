//! Phrases for the table of bells in the report (request #108), with their texts, worked by hand.

use crate::draft::{Draft, DraftBell, DraftNote};

/// A phrase whose strokes go one by one, each from its call on, and its text.
pub struct StruckExample {
    pub name: &'static str,
    pub draft: Draft,
    /// The bells of its strokes.
    pub struck: Vec<usize>,
    pub text: &'static str,
}

/// Stroke 1 is called so long after stroke 0, and so on.
pub const APART: u32 = 100;

/// A bell: N, T, ca and cb.
type StruckBell = (u8, i8, u16, u16);

impl StruckExample {
    /// One driver and version 1; each stroke ends before the next is called.
    fn new(
        name: &'static str,
        bells: &[StruckBell],
        struck: &[usize],
        text: &'static str,
    ) -> StruckExample {
        let note = |(call, &bell): (u32, &usize)| {
            let (written, transposition, ..) = bells[bell];
            let key = written.wrapping_add_signed(transposition);
            DraftNote::new(key, APART * call, APART * call, 3_600_000, vec![])
        };
        let notes = (0..).zip(struck).map(note).collect();
        let bells = bells
            .iter()
            .map(|&(written, transposition, ca, cb)| DraftBell {
                written,
                transposition,
                ca,
                cb,
                rest: None,
                rank: 0,
            });
        StruckExample {
            name,
            draft: Draft::new(1, bells.collect(), notes),
            struck: struck.to_vec(),
            text,
        }
    }

    /// Its draft otherwise, but with the same text.
    fn with(mut self, name: &'static str, change: impl FnOnce(Draft) -> Draft) -> StruckExample {
        self.name = name;
        self.draft = change(self.draft);
        self
    }
}

pub fn struck_examples() -> Vec<StruckExample> {
    vec![
        falling(),
        falling().with("rests are in no hold", |draft| draft.rested(|| 70)),
        written_higher(),
        one_written_key(),
        two_digits(),
        many_strokes(),
        StruckExample::new(
            "bells without any stroke",
            &[(60, 0, 1, 2), (62, 0, 3, 4), (64, 0, 5, 6)],
            &[],
            "accepted strokes 0 states 1 hold 0\n",
        ),
    ]
}

/// Bells 4, 3 and 1 in this order, with strokes of others between those of bell 3; the first bell, one between, and the last
/// have none. By their keys bell 4 would be first and bell 3 last.
fn falling() -> StruckExample {
    StruckExample::new(
        "bells in falling order, and others not at all",
        &[
            (72, 0, 1, 1),
            (50, 0, 5, 9),
            (36, 0, 2, 3),
            (69, 0, 20, 22),
            (43, 0, 7, 7),
            (90, 0, 4, 8),
        ],
        &[4, 3, 1, 3, 3, 1, 3],
        "\
stroke 0 key G2 bell 4 ends 7..7 response 7..7 due 3600000
stroke 1 key A4 bell 3 ends 120..122 response 20..22 due 3600000
stroke 2 key D3 bell 1 ends 205..209 response 5..9 due 3600000
stroke 3 key A4 bell 3 ends 320..322 response 20..22 due 3600000
stroke 4 key A4 bell 3 ends 420..422 response 20..22 due 3600000
stroke 5 key D3 bell 1 ends 505..509 response 5..9 due 3600000
stroke 6 key A4 bell 3 ends 620..622 response 20..22 due 3600000
bell 1 strokes 2 hold 18
bell 3 strokes 4 hold 88
bell 4 strokes 1 hold 7
accepted strokes 7 states 8 hold 113
",
    )
}

/// Notes 63, 66, 63, 63 and 69 strike the bells that sound for 60, 63 and 66: as written, the first would strike bell 0, the
/// second bell 2 and the last none.
fn written_higher() -> StruckExample {
    let as_heard = StruckExample::new(
        "",
        &[(63, 0, 1, 2), (60, 0, 3, 4), (60, 6, 5, 6)],
        &[1, 0, 1, 1, 2],
        "\
stroke 0 key C4 bell 1 ends 3..4 response 3..4 due 3600000
stroke 1 key D#4 bell 0 ends 101..102 response 1..2 due 3600000
stroke 2 key C4 bell 1 ends 203..204 response 3..4 due 3600000
stroke 3 key C4 bell 1 ends 303..304 response 3..4 due 3600000
stroke 4 key F#4 bell 2 ends 405..406 response 5..6 due 3600000
bell 0 strokes 1 hold 2
bell 1 strokes 3 hold 12
bell 2 strokes 1 hold 6
accepted strokes 5 states 6 hold 20
",
    );
    as_heard.with("a shift of -3", |draft| {
        draft.shifted(-3).expect("these keys can be written")
    })
}

/// Three bells that are written alike. Notes of one key strike the same one, and none strikes the one that sounds as it is
/// written.
fn one_written_key() -> StruckExample {
    StruckExample::new(
        "one written key on three bells",
        &[(60, -12, 1, 5), (60, 0, 2, 6), (60, 12, 3, 7)],
        &[2, 0, 2, 0, 2],
        "\
stroke 0 key C5 bell 2 ends 3..7 response 3..7 due 3600000
stroke 1 key C3 bell 0 ends 101..105 response 1..5 due 3600000
stroke 2 key C5 bell 2 ends 203..207 response 3..7 due 3600000
stroke 3 key C3 bell 0 ends 301..305 response 1..5 due 3600000
stroke 4 key C5 bell 2 ends 403..407 response 3..7 due 3600000
bell 0 strokes 2 hold 10
bell 2 strokes 3 hold 21
accepted strokes 5 states 6 hold 31
",
    )
}

/// As words, 10 and 11 would come before 2 and 9.
fn two_digits() -> StruckExample {
    let bells: Vec<StruckBell> = (0..12)
        .map(|bell| (71 - bell, 0, u16::from(bell) + 1, u16::from(bell) + 2))
        .collect();
    StruckExample::new(
        "bell numbers of two digits",
        &bells,
        &[10, 2, 11, 9, 10],
        "\
stroke 0 key C#4 bell 10 ends 11..12 response 11..12 due 3600000
stroke 1 key A4 bell 2 ends 103..104 response 3..4 due 3600000
stroke 2 key C4 bell 11 ends 212..213 response 12..13 due 3600000
stroke 3 key D4 bell 9 ends 310..311 response 10..11 due 3600000
stroke 4 key C#4 bell 10 ends 411..412 response 11..12 due 3600000
bell 2 strokes 1 hold 4
bell 9 strokes 1 hold 11
bell 10 strokes 2 hold 24
bell 11 strokes 1 hold 13
accepted strokes 5 states 6 hold 52
",
    )
}

fn many_strokes() -> StruckExample {
    StruckExample::new(
        "ten strokes of one bell, and one of another before the last",
        &[(59, 0, 3, 3), (60, 0, 9, 11)],
        &[1, 1, 1, 1, 1, 1, 1, 1, 1, 0, 1],
        "\
stroke 0 key C4 bell 1 ends 9..11 response 9..11 due 3600000
stroke 1 key C4 bell 1 ends 109..111 response 9..11 due 3600000
stroke 2 key C4 bell 1 ends 209..211 response 9..11 due 3600000
stroke 3 key C4 bell 1 ends 309..311 response 9..11 due 3600000
stroke 4 key C4 bell 1 ends 409..411 response 9..11 due 3600000
stroke 5 key C4 bell 1 ends 509..511 response 9..11 due 3600000
stroke 6 key C4 bell 1 ends 609..611 response 9..11 due 3600000
stroke 7 key C4 bell 1 ends 709..711 response 9..11 due 3600000
stroke 8 key C4 bell 1 ends 809..811 response 9..11 due 3600000
stroke 9 key B3 bell 0 ends 903..903 response 3..3 due 3600000
stroke 10 key C4 bell 1 ends 1009..1011 response 9..11 due 3600000
bell 0 strokes 1 hold 3
bell 1 strokes 10 hold 110
accepted strokes 11 states 12 hold 113
",
    )
}

/// A phrase of 64 strokes whose text is as long as it can be but for the number of states, which the chains make.
///
/// Each stroke has a bell of its own, of two digits; 45 of them sound for all keys whose names have two letters. Stroke 0, on
/// one driver, is called at 1000000 at the earliest, and the others wait for it: their ends and responses have seven digits
/// each. So have those of stroke 0, but for its best response, which is its shortest hold. The others stand in so many chains,
/// which may go in any order.
pub fn longest_text(chains: u8) -> Draft {
    const SILENT: u8 = 10;
    let (sharp, plain): (Vec<u8>, Vec<u8>) =
        (12..=119).partition(|key| [1, 3, 6, 8, 10].contains(&(key % 12)));
    let (silent, plain) = plain.split_at(SILENT.into());
    let struck: Vec<u8> = sharp.iter().chain(plain).copied().take(64).collect();
    let bells = silent.iter().chain(&struck).map(|&written| DraftBell {
        written,
        transposition: 0,
        ca: 1_000,
        cb: 5_000,
        rest: None,
        rank: 0,
    });
    let notes = (0..).zip(&struck).map(|(number, &key)| {
        let (ra, waits) = match number {
            0 => (1_000_000, vec![]),
            _ => (0, vec![u8::saturating_sub(number, chains)]),
        };
        DraftNote::new(key, ra, 3_000_000, 3_600_000, waits)
    });
    Draft::new(1, bells.collect(), notes.collect())
}
