{-# LANGUAGE Arrows #-}
-- | Each number plus one, one sample late.
module Increment where

import Yampa.Whole

increment :: SF Int Int
increment = proc n -> iPre 0 -< n + 1
