{-# LANGUAGE Arrows #-}
-- | A quadrature encoder with an index, a speed estimate and a phase locked loop that follows it.
module Encoder where

import Yampa.Whole

data Lines = Lines { chanA, chanB, index :: Bool }
data Sense = Still | Forward | Backward | Missed deriving (Eq, Ord, Enum, Bounded)

data Loop = Loop { angle, rate, trim :: Int }

quadrant :: Lines -> Int
quadrant l = case (chanA l, chanB l) of
  (False, False) -> 0
  (True, False) -> 1
  (True, True) -> 2
  (False, True) -> 3

infixl 6 `around`
around :: Int -> Int -> Int
around n d = let m = n + d in if m > 3 then m - 4 else if m < 0 then m + 4 else m

sense :: Int -> Int -> Sense
sense was is
  | is == was = Still
  | is == was `around` 1 = Forward
  | is == was `around` (-1) = Backward
  | otherwise = Missed

decoder :: SF Lines (Int, Event ())
decoder = proc l -> do
  let q = quadrant l
  before <- iPre 0 -< q
  let how = sense before q
      d = case how of { Forward -> 1; Backward -> -1; _ -> 0 }
  lost <- edge -< how == Missed
  zero <- edge -< index l
  rec let position = if isEvent zero then 0 else last_ + d
      last_ <- iPre 0 -< position
  returnA -< (position, lost)

-- | A window of the last eight positions, and how far it went in that time.
speed :: SF (Int, Time) (Int, Int)
speed = proc (p, t) -> do
  rec let window = (p, t) : init old
      old <- iPre (replicate 8 (0, 0)) -< window
  let (p0, t0) = last window
  returnA -< (p - p0, t - t0)

follow :: Int -> Int -> SF Int Loop
follow kp ki = proc p -> do
  rec let err = 256 * p - angle was
          sum_ = trim was + ki * err
          now_ = Loop { angle = angle was + rate was, rate = kp * err + sum_, trim = sum_ }
      was <- iPre (Loop 0 0 0) -< now_
  returnA -< now_

encoder :: SF Lines (Int, Int, Int, Bool)
encoder = proc l -> do
  (p, lost) <- decoder -< l
  t <- time -< ()
  (dp, dt) <- speed -< (p, t)
  loop <- follow 1 1 -< p
  losses <- accumHold 0 -< lost `tag` (+ 1)
  stopped <- switchable -< (dp == 0 && dt > 0, lost)
  returnA -< (p, dp * 100 - dt * losses, angle loop, stopped)
  where
    switchable = switch (arr (\(s, e) -> (s, e))) (\() -> proc (s, e) -> do
      quiet <- repeatedly 9 False -< ()
      kept <- hold True -< quiet `lMerge` (e `tag` s)
      returnA -< kept && s)
