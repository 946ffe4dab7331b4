"""Wrong bodies of functions, which the prover must refuse for what they mean."""
