{-# LANGUAGE Arrows #-}
-- | Switches in switches, at once and delayed, and events that bring networks.
module Switching where

import Yampa.Whole

fade :: Int -> SF Int (Int, Event Int)
fade k = proc x -> do
  t <- time -< ()
  e <- after 5 k -< ()
  returnA -< (k * t + x, e)
switching :: SF (Int, Event Int) [Int]
switching = proc (x, e) -> do
  a <- drSwitch (iPre 0) -< (x, fmap (\v -> arr (+ v) >>> iPre v) e)
  b <- rSwitch identity -< (x, fmap (\v -> hold v <<< arr (\y -> if y > a' v then Event y else NoEvent)) e)
  c <- switch (fade 1) (\k -> dSwitch (fade (k + 2)) (\j -> constant (j * k) &&& time >>^ uncurry (+))) -< x + b
  d <- rSwitch (constant 0) -< (c, e `tag` loopPre x' (arr (\(i, s) -> (s, s + i))))
  f <- rSwitch time -< (d, gate e (even_ b) `tag` (time >>> arr negate))
  es <- repeatedly 4 3 &&& now 2 >>> arr (uncurry lMerge) -< ()
  returnA -< [a, b, c, d, f, event 0 id es]
  where even_ v = v > 0
        a' v = 2 * v
        x' = 4
