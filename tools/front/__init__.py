"""The front end: files of a subset of Haskell with arrow notation, read, typed, and made networks of the core."""
