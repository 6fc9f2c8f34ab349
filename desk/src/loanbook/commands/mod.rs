//! The commands, a file each.

mod check;
mod find;
mod import;
mod lend;
mod list;
mod new;
mod show;

use crate::arguments::Form;

/// All commands, in the order of the help.
pub const ALL: [&Form; 7] =
    [&new::FORM, &lend::FORM, &find::FORM, &list::FORM, &import::FORM, &check::FORM, &show::FORM];

/// The command of this name.
pub fn named(name: &[u8]) -> Option<&'static Form> {
    ALL.into_iter().find(|form| form.name.as_bytes() == name)
}
