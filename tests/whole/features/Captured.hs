{-# LANGUAGE Arrows #-}
-- | Templates that use what the proc has at the event, also in templates inside.
module Captured where

import Yampa.Whole

add3 :: Int -> Int -> Int -> Int
add3 a b c = a + 10 * b + 100 * c
-- templates that use what the proc has at the event, also in templates inside
captured :: SF (Int, Event Int, Event Int) (Int, Int)
captured = proc (x, e, g) -> do
  a <- integral -< x
  b <- rSwitch (iPre 0) -< (x, fmap (\v -> iPre (v + a) >>> arr (add3 v x) >>> arr (subtract a)) e)
  c <- rSwitch (constant 1) -< ((x, g), fmap (\v -> inner v (a * v)) e)
  returnA -< (b, c)
inner :: Int -> Int -> SF (Int, Event Int) Int
inner v w = proc (x, g) -> do
  n <- accumHoldBy (+) v -< g
  r <- rSwitch (iPre w) -< (x, fmap (\u -> time >>> arr (\t -> add3 t n (u + w) + v)) g)
  s <- switch (arr (\(y, h) -> (y + v, h))) (\u -> arr fst >>> iPre (u - w)) -< (r, g)
  returnA -< r - s
