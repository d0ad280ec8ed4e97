//! What makes a run of many queries fail though none of them was wrong.

/// In words, where more than one query in a hundred took too long.
pub fn too_long(too_long: u64, asked: u64) -> Option<String> {
    let many = too_long * 100 > asked;
    many.then(|| format!("{too_long} of {asked} queries too long, more than one in a hundred"))
}

#[cfg(test)]
mod tests {
    use super::too_long;

    #[test]
    fn one_in_a_hundred_may_be_too_long() {
        assert_eq!(too_long(0, 0), None);
        assert_eq!(too_long(5, 500), None);
        let said = "6 of 500 queries too long, more than one in a hundred";
        assert_eq!(too_long(6, 500).as_deref(), Some(said));
    }
}
