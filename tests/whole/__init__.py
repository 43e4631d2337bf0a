"""What tests/haskell tries files of Haskell with."""
