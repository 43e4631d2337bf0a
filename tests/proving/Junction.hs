{-# LANGUAGE Arrows #-}
-- | A junction with a button for those who walk. A sample says whether it is pushed; a step is a second. Cars have green for at least
-- 15 seconds. Where somebody asks they get yellow for 3 and red; 2 later those who walk get green for 10, and 2 behind that the cars
-- again.
module Junction where

import Yampa.Whole

data Light = Red | Green | Yellow deriving (Eq)
data Lights = Lights { cars :: Light, walk :: Bool } deriving (Eq)

data Phase = Drive | Ends | Clears | Walk | Empties deriving (Eq)

-- | The phase, since when, and whether somebody asks.
data Kept = Kept { phase :: Phase, since :: Time, asked :: Bool }

next :: Bool -> Time -> Kept -> Kept
next pushed clock k = case phase k of
  Drive -> if wanted && lasted 15 then goes Ends True else stays wanted
  Ends -> if lasted 3 then goes Clears True else stays True
  Clears -> if lasted 2 then goes Walk False else stays True
  Walk -> if lasted 10 then goes Empties pushed else stays False
  Empties -> if lasted 2 then goes Drive wanted else stays wanted
  where
    lasted d = not (clock - since k < d)
    wanted = asked k || pushed
    stays wish = k { asked = wish }
    goes to wish = Kept to clock wish

lights :: Kept -> Lights
lights k = Lights light (phase k == Walk)
  where light = if phase k == Drive then Green else if phase k == Ends then Yellow else Red

junction :: SF Bool Lights
junction = proc pushed -> do
  clock <- time -< ()
  rec let k = next pushed clock was
      was <- iPre (Kept Drive 0 False) -< k
  returnA -< lights k

-- | A sample comes at least each 5 seconds.
often :: Assume Bool
often = proc _ -> do
  clock <- time -< ()
  before <- iPre 0 -< clock
  returnA -< clock - before < 6

-- | Whether somebody who asks waits, while nobody walks, and for how long.
waiting :: SF (Bool, Lights) (Bool, Time)
waiting = proc (pushed, l) -> do
  clock <- time -< ()
  rec let waits = not (walk l) && (before || pushed)
          began = if before then start else clock
      (before, start) <- iPre (False, 0) -< (waits, began)
  returnA -< (waits, clock - began)

asking :: SF (Bool, Lights) Bool
asking = proc (pushed, l) -> do
  rec let asks = not (walk l) && (before || pushed)
      before <- iPre False -< asks
  returnA -< asks

-- | Whether the cars have green, and for how long.
going :: SF Lights (Bool, Time)
going = proc l -> do
  clock <- time -< ()
  rec let goes = cars l == Green
          began = if before then start else clock
      (before, start) <- iPre (False, 0) -< (goes, began)
  returnA -< (goes, clock - began)

safe :: Guarantee Bool Lights
safe = arr (\(_, l) -> not (walk l && cars l /= Red))

red :: Guarantee Bool Lights
red = proc (_, l) -> do
  before <- iPre (Lights Red False) -< l
  returnA -< not (walk l && cars before /= Red)

-- | Where somebody waits, 15 seconds of green are enough.
fair :: Guarantee Bool Lights
fair = proc (pushed, l) -> do
  asks <- asking -< (pushed, l)
  (goes, lasts) <- going -< l
  returnA -< not (asks && goes && lasts > 14)

soon :: Guarantee Bool Lights
soon = waiting >>> arr (\(waits, lasts) -> not waits || lasts < 60)
