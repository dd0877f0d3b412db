//! Löwenheim's formula on handed polynomials, as a test sees it.

use reference::cases::ones;
use reference::{lowenheim_handed, Refusal};

/// The answers to handed polynomials that are accepted under a fact. Others are refused by 21, and no
/// byte is changed. The total of monomials is that of the answers.
pub fn accepted_under(
    u: u64,
    g: u64,
    fact: &[u8],
    condition: &[u8],
    handed: &[u8],
) -> Option<Vec<u8>> {
    let mut answers = vec![7; u as usize * condition.len()];
    match lowenheim_handed(u, g, fact, condition, handed, &mut answers) {
        Ok(monomials) => {
            assert_eq!(monomials, ones(&answers));
            Some(answers)
        }
        Err(refusal) => {
            assert_eq!(refusal, Refusal(21));
            assert!(answers.iter().all(|&byte| byte == 7));
            None
        }
    }
}
