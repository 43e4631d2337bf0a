{-# LANGUAGE Arrows #-}
-- | A boiler's controller. It reads two sensors, of the room and of the boiler's water, and outputs the burner's power in percent and
-- whether the lamp is lit. The room is kept between 19 and 21 degrees: the burner goes on below 19, off from 21 on, and between them stays
-- as it is. Over 95 degrees of water it is off for good, and the lamp blinks: a second lit, a second dark. The room's sensor counts tenths
-- of a degree and 2 degrees too many; that of the water counts half degrees. What is to hold of it stands at the end.
module Boiler where

import Yampa.Whole

data Sensors = Sensors { room, water :: Int }
data Acts = Acts { power :: Int, lamp :: Bool }

-- | Both in tenths of a degree.
measured :: Sensors -> (Int, Int)
measured s = (room s - 20, 5 * water s)

burner :: SF Int Int
burner = proc warmth -> do
  rec let burns = warmth < 190 || was && warmth < 210
      was <- iPre False -< burns
  returnA -< if burns then 100 else 0

heating :: SF (Int, Int) (Acts, Event ())
heating = proc (warmth, hot) -> do
  p <- burner -< warmth
  returnA -< (Acts { power = p, lamp = False }, gate (Event ()) (hot > 950))

blinking :: SF a Acts
blinking = repeatedly 1 () >>> accumHoldBy (\lit _ -> not lit) True >>> arr (Acts 0)

boiler :: SF Sensors Acts
boiler = measured ^>> switch heating (const blinking)

-- | Sensors read from -50 to 150 degrees: else a product wraps, and a water of 2^63 - 1 is a cold one.
sane :: Assume Sensors
sane = arr (\s -> room s > -500 && room s < 1520 && water s > -100 && water s < 300)

apart, powers, off, warm :: Guarantee Sensors Acts
apart = arr (\(_, a) -> not (power a > 0 && lamp a))
powers = arr (\(_, a) -> power a == 0 || power a == 100)
off = proc (s, a) -> do
  rec let everHot = water s > 190 || was
      was <- iPre False -< everHot
  returnA -< not (power a > 0 && everHot)
warm = arr (\(s, a) -> room s < 230 || power a <= 0)
