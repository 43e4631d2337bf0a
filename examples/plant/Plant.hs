{-# LANGUAGE Arrows #-}
-- | A plant with three control loops: the level of a vessel is kept by a valve, its temperature by a heater and its pressure by a pump. The
-- input is the three measures, level and temperature in tenths, pressure in hundredths. The output is the valve and the heater in percent,
-- whether the pump runs, and an alarm, an event with the number of the measure that is out of bounds.
module Plant where

import Yampa.Whole

data Measures = Measures { level, temperature, pressure :: Int }

percent :: Int -> Int
percent = max 0 . min 100

-- | A proportional and integral controller: so many percent a unit of the error, and so many units of its sum for a percent.
controller :: Int -> Int -> (Int -> Int) -> SF Int Int
controller wanted gain slow = proc is -> do
  let off = wanted - is
  total <- integral -< off
  returnA -< percent (off * gain + slow total)

-- | A tenth, made by counting: a sum is compared with steps of ten units.
tenth :: Int -> Int -> Int -> Int -> Int -> Int
tenth a b c d x = sum [if x > bound then part else 0 | (bound, part) <- [(a, 5), (b, 10), (c, 20), (d, 40)]]

-- | On below the first bound, off above the second, and between them as before.
twoPoint :: Int -> Int -> SF Int Bool
twoPoint low high = proc is -> do
  rec let on = is < low || was && is < high
      was <- iPre False -< on
  returnA -< on

-- | An event where a measure leaves its bounds.
outside :: Int -> Int -> Int -> SF Int (Event Int)
outside low high number = arr (\is -> is < low || is > high) >>> edgeTag number

plant :: SF Measures ((Int, Int), (Bool, Event Int))
plant = proc m -> do
  valve <- controller 500 1 (tenth 50 100 200 400) -< level m
  heater <- controller 800 2 (tenth 20 40 80 160) -< temperature m
  pump <- twoPoint 95 110 -< pressure m
  e1 <- outside 100 900 1 -< level m
  e2 <- outside 400 950 2 -< temperature m
  e3 <- outside 80 150 3 -< pressure m
  returnA -< ((valve, heater), (pump, e1 `lMerge` e2 `lMerge` e3))
