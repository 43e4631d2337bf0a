{-# LANGUAGE Arrows #-}
-- | A game for two: a ball goes to and fro on a court of 13 by 9, and each player moves a bat up and down at one of its ends. The input is
-- how each player moves, -1, 0 or 1. Where a bat isn't there the other player has a point, and the ball comes anew from the middle, towards
-- the one who lost it. The output is how far across the ball is, both bats, and both players' points.
module Court where

import Yampa.Whole

data Spot = Spot { across, along :: Int }
data Ball = Ball { place, speed :: Spot }

height, width, middle :: Int
height = 9
width = 13
middle = 4

bat :: SF Int Int
bat = proc move -> do
  rec let now_ = max 0 (min (height - 1) (was + move))
      was <- iPre middle -< now_
  returnA -< now_

served :: Int -> Ball
served towards = Ball (Spot 6 middle) (Spot towards 1)

-- | The ball's next place, and who has a point: 1 the left one, 2 the right one.
next :: (Int, Int) -> Ball -> (Event Int, Ball)
next (left, right) ball
  | atLeft && not metLeft = (Event 2, served (-1))
  | atRight && not metRight = (Event 1, served 1)
  | otherwise = (NoEvent, Ball (Spot (x + dx) (y + dy)) (Spot dx dy))
  where
    Ball (Spot x y) (Spot vx vy) = ball
    atLeft = x + vx < 1
    atRight = x + vx > width - 2
    atSide = y + vy < 0 || y + vy > height - 1
    metLeft = left == y
    metRight = right == y
    dx = if atLeft && metLeft || atRight && metRight then negate vx else vx
    dy = if atSide then negate vy else vy

points :: Int -> SF (Event Int) Int
points who = arr (filterE (== who)) >>> accumHoldBy (\n _ -> n + 1) 0

court :: SF (Int, Int) ((Int, (Int, Int)), (Int, Int))
court = proc (a, b) -> do
  left <- bat -< a
  right <- bat -< b
  rec let (point, ball) = next (left, right) was
      was <- iPre (served 1) -< ball
  scores <- points 1 &&& points 2 -< point
  returnA -< ((across (place was), (left, right)), scores)
