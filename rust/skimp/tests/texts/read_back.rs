//! Read-back.

mod damaged_orders;
mod damaged_texts;
mod exhaustive;
mod limits;
mod random_sheets;
mod rooms;

use skimp_reference::agree::Compared;
use skimp_reference::sheet::Sheet;
use skimp_reference::translate::{translate, Translation};

/// Holds a sheet's translation to being read back to its text.
fn check_sheet(compared: &mut Compared, name: &str, sheet: &Sheet) -> Translation {
    let translation = translate(sheet).expect("within the limits");
    let object = translation.text().into_bytes();
    let outcome = compared.check(name, &object);
    assert_eq!(outcome, Ok(()), "{name}: {}", sheet.text());
    // by the archive alone, without the reference's reading back
    let mut buffer = vec![0; skimp::SHEET_MOST];
    let text = skimp::read_back(&object, &mut buffer);
    assert_eq!(text, Ok(sheet.text().as_bytes()), "{name}");
    translation
}
