{-# LANGUAGE Arrows #-}
-- | Five sensors of one level, each with its filter. The input is what they read. Of each sensor the median of three readings is taken, and
-- four of these are summed; it is faulty where it reads outside of 0 to 1000, jumps by over 200, or hasn't moved for 30. The output is the
-- level, the median of all five, of which a faulty one counts as the level before, with each one's sum, and which are faulty.
module Sensors where

import Yampa.Whole

data Faults = Faults { wild, jumps, stuck :: Bool }
data Channel = Channel { level, total :: Int, faults :: Faults }
data Bank = Bank { reading :: Int, sums :: [Int], faulty :: [Bool] }

-- | The one between the two others.
middle :: Int -> Int -> Int -> Int
middle a b c = max (min a b) (min (max a b) c)

middleOfFive :: Int -> Int -> Int -> Int -> Int -> Int
middleOfFive a b c d e = middle e (max (min a b) (min c d)) (min (max a b) (max c d))

median, summed :: SF Int Int
median = proc v -> do
  v1 <- iPre 0 -< v
  v2 <- iPre 0 -< v1
  returnA -< middle v v1 v2
summed = proc v -> do
  v1 <- iPre 0 -< v
  v2 <- iPre 0 -< v1
  v3 <- iPre 0 -< v2
  returnA -< v + v1 + v2 + v3

-- | At its first reading a sensor hasn't jumped.
jumped :: SF Int Bool
jumped = False --> proc v -> do
  was <- iPre 0 -< v
  returnA -< abs (v - was) > 200

stands :: SF Int Bool
stands = proc v -> do
  was <- iPre (-1) -< v
  t <- rSwitch time -< ((), gate (Event ()) (v /= was) `tag` time)
  returnA -< t > 29

channel :: SF Int Channel
channel = proc v -> do
  m <- median -< v
  s <- summed -< m
  j <- jumped -< v
  still <- stands -< v
  returnA -< Channel { level = m, total = s, faults = Faults { wild = v < 0 || v > 1000, jumps = j, stuck = still } }

isFaulty :: Channel -> Bool
isFaulty c = wild f || jumps f || stuck f
  where f = faults c

sensors :: SF [Int] Bank
sensors = proc vs -> do
  cs <- parB [arr (\vs -> nth vs k 0) >>> channel | k <- [0 .. 4]] -< vs
  rec let [a, b, c, d, e] = [if isFaulty one then before else level one | one <- cs]
          now_ = middleOfFive a b c d e
      before <- iPre 0 -< now_
  returnA -< Bank { reading = now_, sums = map total cs, faulty = map isFaulty cs }
