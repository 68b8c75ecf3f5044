"""What a person runs: verdicts in words, samples, timing."""
