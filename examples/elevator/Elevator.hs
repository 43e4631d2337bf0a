{-# LANGUAGE Arrows #-}
-- | The floor at which a lift is, where samples come at least every 3 seconds. It begins at floor 0. A call, an event with a floor, sends
-- it there, one floor in 3 seconds. A call on the way counts at once: the lift goes on from the floor that it passed last.
module Elevator where

import Yampa.Whole

nearer :: Int -> Int -> Int
nearer here wish
  | here < wish = here + 1
  | wish < here = here - 1
  | otherwise = here

ride :: Int -> Int -> SF () Int
ride wish from = repeatedly 3 wish >>> accumHoldBy nearer from

elevator :: SF (Event Int) Int
elevator = proc call -> do
  rec here <- rSwitch (constant 0) -< ((), fmap (\wish -> ride wish was) call)
      was <- iPre 0 -< here
  returnA -< here

-- | Calls come from floors 0 to 9.
calls :: Assume (Event Int)
calls = arr (event True (\wish -> wish >= 0 && wish < 10))

floors, steps :: Guarantee (Event Int) Int
floors = arr (\(_, here) -> here >= 0 && here < 10)
steps = proc (_, here) -> do
  was <- iPre 0 -< here
  returnA -< abs (here - was) < 2
