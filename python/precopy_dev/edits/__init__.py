"""Wrong bodies, which the prover has to refuse."""
