{-# LANGUAGE Arrows #-}
-- | Pong. The court is 320 wide and 200 high, a step is a frame. A bat is 40 high, and goes 4 a frame. A rally begins with the ball in
-- the middle, where it rests for 20 frames, and then flies to the side that lost the rally before. Each bat makes it quicker and
-- steeper. Who has three points has won, and `start` begins a new match at any time.
module Pong where

import Yampa.Whole

data Stick = Up | Rest | Down deriving (Eq)
data Side = West | East deriving (Eq)
data Keys = Keys { westStick, eastStick :: Stick, start :: Event () }

data Ball = Ball { ballX, ballY :: Int }
-- | What a ball meets: of a bat how far from its middle.
data Meets = Wall | Bat Int

data Score = Score { westPoints, eastPoints :: Int } deriving (Eq)
data Phase = Playing | Won Side deriving (Eq)
data Screen = Screen { ball :: Ball, westBat, eastBat :: Int, score :: Score, phase :: Phase }

width, height, batHeight, batSpeed :: Int
width = 320
height = 200
batHeight = 40
batSpeed = 4

clampTo :: (Int, Int) -> Int -> Int
clampTo (low, high) = max low . min high

other :: Side -> Side
other West = East
other East = West

-- | The upper end of a bat.
bat :: SF Stick Int
bat = proc stick -> do
  rec let y = clampTo (0, height - batHeight) (was + case stick of { Up -> -batSpeed; Rest -> 0; Down -> batSpeed })
      was <- iPre 80 -< y
  returnA -< y

-- | A ball that flies to a side, between two bats: where it is, and whom it has passed.
flying :: Side -> SF (Int, Int) (Ball, Event Side)
flying to = proc (west, east) -> do
  rec x <- integral >>^ (+ 160) -< vx
      y <- integral >>^ (+ 100) -< vy
      let meets batY = y > batY - 4 && y < batY + batHeight + 4
          offset batY = y - (batY + 20)
      onWest <- edge -< x < 12 && meets west
      onEast <- edge -< x > width - 12 && meets east
      onWall <- edge -< y < 4 || y > height - 4
      let hit = lMerge (onWest `tag` offset west) (onEast `tag` offset east)
      vx <- iPre v0 <<< accumHoldBy (\v _ -> if v > 0 then -v - 1 else 1 - v) v0 -< hit
      vy <- iPre 1 <<< accumHoldBy turned 1 -< lMerge (onWall `tag` Wall) (fmap Bat hit)
  gone <- edge -< x < -8 || x > width + 8
  returnA -< (Ball x y, gone `tag` (if x < 0 then West else East))
  where
    v0 = if to == West then -4 else 4
    turned v Wall = -v
    turned v (Bat off)
      | off < -8 = v - 2
      | off > 8 = v + 2
      | otherwise = v

-- | A rally from its serve on.
rally :: Side -> SF (Int, Int) (Ball, Event Side)
rally to = switch (constant (Ball 160 100, NoEvent) &&& after 20 ()) (\_ -> flying to)

award :: Score -> Side -> Score
award s West = s { eastPoints = eastPoints s + 1 }
award s East = s { westPoints = westPoints s + 1 }

winner :: Score -> Maybe Side
winner s
  | westPoints s == 3 = Just West
  | eastPoints s == 3 = Just East
  | otherwise = Nothing

-- | A match up to three points: what is seen, and whether it is won.
match :: SF Keys (Screen, Event Screen)
match = proc keys -> do
  west <- bat -< westStick keys
  east <- bat -< eastStick keys
  rec ~(b, missed) <- rSwitch (rally East) -< ((west, east), fmap rally lost)
      lost <- iPre NoEvent -< missed
  points <- accumHoldBy award (Score 0 0) -< missed
  let screen = Screen { ball = b, westBat = west, eastBat = east, score = points, phase = maybe Playing Won (winner points) }
  returnA -< (screen, gate (Event screen) (phase screen /= Playing))

game :: SF Keys Screen
game = switch match constant

pong :: SF Keys Screen
pong = proc keys -> rSwitch game -< (keys, start keys `tag` game)

-- What holds of it.

batsInside :: Guarantee Keys Screen
batsInside = arr (\(_, s) -> all (\y -> y >= 0 && y <= height - batHeight) [westBat s, eastBat s])

pointsCount :: Guarantee Keys Screen
pointsCount = arr (\(_, s) -> westPoints (score s) <= 3 && eastPoints (score s) <= 3)
