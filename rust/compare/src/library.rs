//! The library's calls, with outputs that are always long enough.

use dilbreth::{calls, Refused};
use reference::Terms;

use crate::make::Series;

/// The answer to an allocating call with a list whose numbers are in the form of this number: 0 or the number of the
/// refusal, T, the further number and the amounts, each 7 before.
pub fn allocate(terms: Terms, form: u32, list: &Series) -> (u32, u32, u32, Vec<u32>) {
    let Terms { method, exercised, draw, increment } = terms;
    let Series { codes, accounts, numbers, .. } = list;
    let (mut total, mut further, mut amounts) = (7, 7, vec![7; numbers.len()]);
    let (out, t, f) = (&mut amounts, &mut total, &mut further);
    let number = calls::allocate(method, exercised, draw, increment, form, codes, accounts, numbers, out, t, f);
    (number, total, further, amounts)
}

/// What is read of a text.
#[derive(Debug, PartialEq)]
pub struct Read {
    pub terms: dilbreth::Terms,
    pub codes: Vec<u32>,
    pub accounts: Vec<u32>,
    pub numbers: Vec<u32>,
}

pub fn read(text: &[u8]) -> Result<Read, Refused> {
    let [mut codes, mut accounts, mut numbers] = [(); 3].map(|_| vec![0; 1_024]);
    let terms = dilbreth::read(text, &mut codes, &mut accounts, &mut numbers)?;
    for list in [&mut codes, &mut accounts, &mut numbers] {
        list.truncate(terms.positions);
    }
    Ok(Read { terms, codes, accounts, numbers })
}

pub fn write(read: &Read) -> Vec<u8> {
    let Read { terms, codes, accounts, numbers } = read;
    let dilbreth::Terms { method, exercised, draw, increment, form, .. } = *terms;
    let mut text = vec![0; 32_768];
    let length = dilbreth::write(method, exercised, draw, increment, form, codes, accounts, numbers, &mut text);
    text.truncate(length.expect("a text"));
    text
}

pub fn change(text: &[u8]) -> Result<Vec<u8>, Refused> {
    let mut output = vec![0; reference::MOST_CHANGED];
    let length = dilbreth::change(text, &mut output)?;
    output.truncate(length);
    Ok(output)
}

pub fn respond(text: &[u8]) -> String {
    let mut output = vec![0; reference::MOST_PRINTED];
    let length = dilbreth::respond(text, &mut output).expect("room enough");
    output.truncate(length);
    String::from_utf8(output).expect("ASCII")
}
