use super::*;
use crate::samples;

fn padded(start: &[u8]) -> [u8; 19] {
    let mut out = [0; 19];
    out[..start.len()].copy_from_slice(start);
    out
}

#[test]
fn scalars_have_their_bytes() {
    let of = |scalar| scalar_bytes(Some(&scalar));
    assert_eq!(scalar_bytes(None), padded(&[255]));
    assert_eq!(of(Scalar::Null), padded(&[]));
    assert_eq!(of(Scalar::Boolean(true)), padded(&[1, 1]));
    assert_eq!(of(Scalar::Int32(-2)), padded(&[2, 254, 255, 255, 255]));
    assert_eq!(of(Scalar::Int64(258)), padded(&[3, 2, 1]));
    let one = padded(&[4, 0, 0, 0, 0, 0, 0, 0xf0, 0x3f]);
    assert_eq!(of(Scalar::Float64(1.0)), one);
    let minus_zero = padded(&[4, 0, 0, 0, 0, 0, 0, 0, 0x80]);
    assert_eq!(of(Scalar::Float64(-0.0)), minus_zero);
    let decimal = Scalar::Decimal128 {
        precision: 38,
        scale: 22,
        value: -1,
    };
    let mut minus_one = [255; 19];
    minus_one[..3].copy_from_slice(&[5, 38, 22]);
    assert_eq!(of(decimal), minus_one);
    assert_eq!(of(Scalar::Date32(1)), padded(&[6, 1]));
    let long = Scalar::IntervalMonthDayNano {
        months: 1,
        days: 2,
        nanoseconds: 3,
    };
    assert_eq!(of(long), padded(&[8, 1, 0, 0, 0, 2, 0, 0, 0, 3]));
    let short = Scalar::IntervalDayTime {
        days: 1,
        milliseconds: 2,
    };
    assert_eq!(of(short), padded(&[9, 1, 0, 0, 0, 2]));
}

#[test]
fn estimates_have_their_bytes() {
    let one = 1f64.to_le_bytes();
    let two = 2f64.to_le_bytes();
    let none = [0; 8];
    let mut estimate = samples::from_catalog(1.0);
    assert_eq!(
        estimate_bytes(&estimate)[..],
        [&[1, 0][..], &one, &none, &none].concat()
    );
    estimate.upper = Some(2.0);
    assert_eq!(
        estimate_bytes(&estimate)[..],
        [&[1, 2][..], &one, &none, &two].concat()
    );
    estimate.lower = Some(0.0);
    assert_eq!(
        estimate_bytes(&estimate)[..],
        [&[1, 3][..], &one, &none, &two].concat()
    );
}

#[test]
fn an_empty_sheet_is_its_rows_settings_and_counts() {
    let row = |value: f64| [&[1, 0][..], &value.to_le_bytes(), &[0; 16]].concat();
    let mut bytes = vec![2, 0];
    bytes.extend(row(100.0));
    bytes.extend(row(50.0));
    bytes.extend([5, 0]);
    bytes.extend(
        [0.1, 0.25, 0.33, 1000.0, 100.0]
            .map(f64::to_le_bytes)
            .concat(),
    );
    bytes.extend([0; 20]);
    assert_eq!(write(&samples::empty()), bytes);
}

#[test]
fn records_have_the_sizes_of_their_fields() {
    let sheet = samples::full();
    let fields = fields(&sheet);
    let size = |section, record, item| -> usize {
        let here = |field: &&Field| {
            (field.section, field.record, field.item) == (section, Some(record), item)
        };
        fields.iter().filter(here).map(|field| field.size).sum()
    };
    assert_eq!(size(Section::Rows, 1, None), 26);
    assert_eq!(size(Section::Settings, 4, None), 8);
    assert_eq!(size(Section::Sketches, 1, None), 10);
    assert_eq!(size(Section::Sketches, 1, Some(3)), 35);
    assert_eq!(size(Section::Tables, 0, None), 10);
    assert_eq!(size(Section::Keys, 0, None), 9);
    assert_eq!(size(Section::LeftColumns, 0, None), 98);
    assert_eq!(size(Section::RightColumns, 0, None), 98);
    assert_eq!(size(Section::LeftClasses, 1, None), 28);
    assert_eq!(size(Section::LeftClasses, 1, Some(2)), 2);
    assert_eq!(size(Section::Expressions, 0, None), 25);
    assert_eq!(size(Section::Operands, 0, None), 2);
    assert_eq!(size(Section::Conjuncts, 0, None), 2);
}

#[test]
fn fields_lie_side_by_side_over_all_bytes() {
    for sheet in [samples::empty(), samples::full(), samples::largest()] {
        let mut end = 0;
        for field in fields(&sheet) {
            assert_eq!(field.at, end);
            assert!(field.size > 0);
            end += field.size;
        }
        assert_eq!(end, write(&sheet).len());
    }
}

#[test]
fn no_two_fields_have_the_same_place_and_name() {
    let fields = fields(&samples::full());
    for (number, field) in fields.iter().enumerate() {
        let same = |other: &Field| {
            (other.section, other.record, other.item, other.name)
                == (field.section, field.record, field.item, field.name)
        };
        assert_eq!(fields.iter().position(same), Some(number));
    }
}
