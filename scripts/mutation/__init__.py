"""The modules of scripts/mutants: it tries the mutants of each crate, many in one check."""
