//! How much room a cut may need.

/// Document 01's half-growth: one pass makes at most this many coordinates of n.
pub fn most_passed(n: usize) -> usize {
    n + n / 2
}

/// Document 01's B: four passes and two closings make at most this many coordinates of n.
pub fn most_cut(n: usize) -> usize {
    if n == 0 {
        return 0;
    }
    (0..4).fold(n, |n, _| most_passed(n)) + 2
}

#[cfg(test)]
mod tests {
    use super::most_cut;

    #[test]
    fn agrees_with_the_two_figures_of_document_01() {
        assert_eq!([0, 4].map(most_cut), [0, 21]);
    }

    #[test]
    fn agrees_with_figures_worked_by_hand() {
        assert_eq!([1, 2, 3, 5].map(most_cut), [3, 11, 15, 24]);
        assert_eq!(most_cut(318), 1_610);
        assert_eq!(most_cut(65_532), 331_757);
    }
}
