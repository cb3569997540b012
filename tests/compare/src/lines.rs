//! The lines that `price` printed for the stages of a plan (S10.3).

/// The stages that have a line. Their numbers ascend strictly, so that none has two.
pub fn stages(text: &str) -> Result<Vec<usize>, String> {
    let mut stages: Vec<usize> = Vec::new();
    for line in text.lines().skip(1) {
        let digits = line.strip_prefix("stage ").and_then(|rest| rest.split(' ').next());
        let number = digits.and_then(|digits| digits.parse().ok());
        let stage = number.ok_or(format!("price printed {line:?}, which is no stage's line"))?;
        if let Some(before) = stages.last().filter(|&&before| before >= stage) {
            return Err(format!("price printed the line of stage {stage} behind that of stage {before}"));
        }
        stages.push(stage);
    }
    Ok(stages)
}

#[cfg(test)]
mod tests {
    use super::stages;

    #[test]
    fn one_line_each() {
        let text = "settled 41 4 5\nstage 0 check 0 value 41 by 2\nstage 1 end value 5\nstage 2 end value 7\n";
        assert_eq!(stages(text), Ok(vec![0, 1, 2]));
        assert_eq!(stages("over 1000000000 6 15\n"), Ok(vec![]));
    }

    #[test]
    fn two_lines_of_a_stage() {
        assert!(stages("settled 160 3 3\nstage 0 check 0 value 160 by 1\nstage 1 end value 30\nstage 1 end value 30\n").is_err());
        assert!(stages("settled 41 4 5\nstage 0 check 0 value 41 by 2\nstage 2 end value 7\nstage 1 end value 5\n").is_err());
    }

    #[test]
    fn lines_of_no_stage() {
        assert!(stages("settled 70 1 1\n\nstage 0 end value 70\n").is_err());
        assert!(stages("settled 70 1 1\nstage x end value 70\n").is_err());
    }
}
