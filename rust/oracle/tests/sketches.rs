//! A sketch without items is there all the same.

use oracle::analysis::answers;
use sheet::samples::an_empty_sketch;

#[test]
fn a_sketch_without_items() {
    let mut sheet = an_empty_sketch();
    assert_eq!(answers(&sheet).predicates[2].value, 0.1);
    sheet.columns[0][0].sketch = None;
    assert_eq!(answers(&sheet).predicates[2].value, 0.075);
}
