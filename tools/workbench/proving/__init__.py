"""Properties of networks, proved or refuted by z3: the encoding of a network, and the searches over it."""
