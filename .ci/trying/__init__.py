"""The parts of .ci/edits, which tries the edits that the prover has to refuse. Only `libraries` and `checks` run the toolchain."""
