{-# LANGUAGE Arrows #-}
-- | More members side by side than a graph takes in.
module Wide where

import Yampa.Whole

one :: Int -> SF (Int, Event Int) (Int, Bool)
one k = proc (x, e) -> do
  n <- accumHoldBy (+) k -< e
  rec let s = s' + (if x > k then 1 else n)
      s' <- iPre k -< s
  returnA -< (s, s > 10 * k)
wide :: SF (Int, Event Int) ([(Int, Bool)], Int, [Int])
wide = proc i -> do
  vs <- parB [one k | k <- [0 .. 20]] -< i
  ws <- rSwitch (parB [constant k | k <- [1 .. 14]]) -< (i, fmap (\v -> parB [integral <<< arr (\(x, _) -> x * k + v) | k <- [1 .. 14]]) (snd i))
  returnA -< (vs, sum [if b then n else 1 | (n, b) <- vs] + length ws, ws)
