"""The mutations of crates/*/wrong-bodies: how they are read, put into copies of a crate, checked there and judged.

Lowest first: source.py cuts a source into functions; edits.py reads mutations; copies.py writes a copy of a crate that has some of
them; checks.py runs the prover; paths.py says which goals a change reaches; verdicts.py reads what the prover says; rounds.py
shares mutations out and tries them; results.py tells what became of them, and keeps it.
"""
