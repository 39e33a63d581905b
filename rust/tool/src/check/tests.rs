use super::*;
use crate::input::Input;
use sheet::samples::empty;
use sheet::writer;

fn given() -> Given {
    Given::bytes(Input {
        name: "some.bytes".into(),
        bytes: writer::write(&empty()),
    })
}

fn message(library: Option<Refusal>, read: Result<Read, reader::Refusal>) -> String {
    let failure = agreed(&given(), library, read).unwrap_err();
    assert_eq!(failure.status(), 1);
    failure.message().to_string()
}

fn accepted() -> Result<Read, reader::Refusal> {
    reader::read(&given().bytes)
}

/// The sheet with its last byte gone.
fn short() -> Result<Read, reader::Refusal> {
    let bytes = given().bytes;
    reader::read(&bytes[..bytes.len() - 1])
}

#[test]
fn both_accept() {
    assert_eq!(agreed(&given(), None, accepted()), Ok(empty()));
}

#[test]
fn both_refuse_with_one_number() {
    let message = message(Some(Refusal::SheetEndsInside), short());
    let rule = Refusal::SheetEndsInside.to_string();
    let due = format!(
        "some.bytes: {rule}\n  at: section conjuncts, field count, byte 114 of the sheet\n  \
         expected: the whole count, before the sheet ends"
    );
    assert_eq!(message, due);
}

#[test]
fn a_disagreement_is_told() {
    let cases = [
        (None, short(), "accepts it", "refuses it with 2"),
        (
            Some(Refusal::BadScalar),
            short(),
            "refuses it with 5",
            "refuses it with 2",
        ),
        (
            Some(Refusal::BadScalar),
            accepted(),
            "refuses it with 5",
            "accepts it",
        ),
    ];
    for (library, read, library_does, reader_does) in cases {
        let message = message(library, read);
        assert!(message.contains("THE LIBRARY AND THE READER DISAGREE"));
        let both = format!("The proved library {library_does}, the reader in Rust {reader_does}.");
        assert!(message.contains(&both), "{message}");
    }
}
