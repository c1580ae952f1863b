"""Tests of how mutations are read, put into copies, tried and judged, without the prover."""
