"""Cases that hold compiled networks to what `run` tells of them."""
