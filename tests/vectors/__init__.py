"""The cases of crates/vectors, decision_vectors, store_vectors, state_vectors and run_vectors, a module for each subject, and where each
wanted answer comes from."""
