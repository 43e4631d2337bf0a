{-# LANGUAGE Arrows #-}
-- | A lift for eight floors. The input is an event with the floor, from 0 to 7, that somebody calls it to; a sample is a second. It goes up
-- as long as a call is above it, else down; at a floor with a call it stands for one sample with its door open, and the call is done. The
-- output is the floor, and whether the door is open.
module Lift where

import Yampa.Whole

lift :: SF (Event Int) (Int, Bool)
lift = proc call -> do
  rec let (level, calls) = was
          called k = nth calls k False || event False (== k) call
          up = or [called k && level < k | k <- [1 .. 7]]
          down = or [called k && k < level | k <- [0 .. 6]]
          here = or [called k && level == k | k <- [0 .. 7]]
          next | here = level
               | up = level + 1
               | down = level - 1
               | otherwise = level
      was <- iPre (0, []) -< (next, [called k && level /= k | k <- [0 .. 7]])
  returnA -< (next, here)
