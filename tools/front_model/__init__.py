"""A slow interpreter of files of Haskell: it takes the syntax tree at its word, and knows nothing of graphs and the core, and of
types only where `maxBound` and its like stand."""
