{-# LANGUAGE Arrows #-}
-- | Frozen networks in frozen networks, collections in switches, and parameters of all of them at once.
module Nested where

import Yampa.Whole

ticks :: Int -> SF a (Event Int)
ticks n = repeatedly n n

-- | The outer one runs on, inside of what froze another.
twice :: SF Int Int
twice = kSwitch integral (arr fst >>> ticks 5) $ \outer a ->
  kSwitch (outer >>> arr (+ a)) (ticks 4) $ \inner b ->
    switch (time >>> arr (+ (100 * b)) &&& ticks 3) $ \c ->
      (outer &&& inner) >>> arr (\(o, i) -> 1000 * c + 10 * o - i)

-- | Two members of which each is resumed by its place, under a parameter of a switch.
members :: SF (Int, Event Int) [Int]
members = switch (constant [0] &&& arr snd) $ \k ->
  pSwitchB [arr fst >>> integral, arr ((+ k) . fst), time] (arr (\((_, e), xs) -> filterE (< nth xs 0 0 + nth xs 1 0) e)) $ \olds n ->
    dSwitch (parB [nth olds 2 (constant 0), nth olds 0 (constant 1) >>> arr (+ n)] &&& (arr fst >>> ticks 6)) $ \m ->
      parB [constant m, nth olds 1 (constant 2), constant (k - n)]

nested :: SF (Int, Event Int) (Int, [Int], Int)
nested = proc (x, e) -> do
  a <- twice -< x
  b <- members -< (x, e)
  let low = x - a
  c <- rSwitch (constant 7) -< (x, fmap (\v -> kSwitch (iPre (v + low)) (ticks 3) (\old w -> old >>> arr (\y -> y + w * v - low))) e)
  returnA -< (a, b, c)
