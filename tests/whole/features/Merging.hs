{-# LANGUAGE Arrows #-}
-- | Events merged from both sides, truth chosen by truth, numbers by their signs.
module Merging where

import Yampa.Whole

merging :: SF (Bool, Int, Event Int, Event Int) (Event Int, Event Int, Event Int, [Bool], Int)
merging = proc (b, x, e, f) -> do
  let g = x > 2
      c1 = if b then g else False
      c2 = if b then True else g
      c3 = if b then False else g
      c4 = if g then b else True
  n <- accumHoldBy max 0 -< e `rMerge` f
  returnA -< (rMerge e f, lMerge e f, mergeBy (-) e f, [c1, c2, c3, c4, e == f, x /= n], signum x * abs (x - n) - subtract x (-n))
