{-# LANGUAGE Arrows #-}
-- | A cruise control. A sample has the speed in tenths of a km/h, and what is pushed. It outputs the mode, the speed that is wanted, in
-- hundredths, and the throttle in thousandths. It keeps the mode, the wanted speed, and the integral part of a PI controller, which
-- rests where the throttle is at its bounds. Set counts from 30 km/h on.
module Cruise where

import Yampa.Whole

data Push = Nowhere | Set | Cancel | Plus | Minus | Brake deriving (Eq)
data Mode = Off | On | Held deriving (Eq)

data Car = Car { speed :: Int, push :: Push }
data Kept = Kept { phase :: Mode, aim :: Int, total :: Int }
data Acts = Acts { mode :: Mode, wish :: Int, throttle :: Int }

within :: Int -> Int -> Int -> Int
within low high = max low . min high

fast :: Car -> Bool
fast car = speed car >= 300

nextMode :: Car -> Mode -> Mode
nextMode car before = case push car of
  Set | fast car -> On
  Cancel -> Off
  Brake | before == On -> Held
  _ -> before

nextWish :: Car -> Kept -> Int
nextWish car k = case push car of
  Set | fast car -> 10 * speed car
  Plus -> within 3000 20000 (aim k + 100)
  Minus -> within 3000 20000 (aim k - 100)
  _ -> aim k

cruise :: SF Car Acts
cruise = proc car -> do
  rec let k = was { phase = nextMode car (phase was), aim = nextWish car was }
          off = aim k - 10 * speed car
          raw = 2 * off + total k
          full = 5000 < raw && 0 < off || raw < 0 && off < 0
          summed = if full then total k else total k + off
      was <- iPre (Kept Off 3000 0) -< k { total = if phase k == On then summed else 0 }
  returnA -< Acts (phase k) (aim k) (if phase k == On then within 0 5000 raw else 0)

modes :: Guarantee Car Acts
modes = arr (\(_, a) -> mode a == Off || mode a == On || mode a == Held)

wished :: Guarantee Car Acts
wished = arr (\(_, a) -> wish a >= 3000)

throttled :: Guarantee Car Acts
throttled = arr (\(_, a) -> mode a /= On || throttle a >= 0 && throttle a <= 5000)
