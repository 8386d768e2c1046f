"""Wrong bodies: edits that turn what a function does, which the prover has to refuse."""
