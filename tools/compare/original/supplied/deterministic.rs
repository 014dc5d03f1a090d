//! Supplied: the deterministic parser is not compared.
