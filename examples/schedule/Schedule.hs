{-# LANGUAGE Arrows #-}
-- | A thermostat with a schedule. A step is a minute, at most a day; the first sample is Monday's midnight. Warmth is in tenths of a
-- degree. Each day is cut into parts, and each part has its comfort; who turns the knob gets that warmth until the next part begins.
-- A boost heats for half an hour, and while nobody is at home only frost counts. The burner, once it is on or off, stays so for 5
-- minutes.
module Schedule where

import Yampa.Whole

data Day = Monday | Tuesday | Wednesday | Thursday | Friday | Saturday | Sunday deriving (Eq, Ord, Enum)
data Comfort = Frost | Night | Day | Cosy deriving (Eq, Ord)
data Why = Planned Comfort | Turned Int | Boosted deriving (Eq)

data Room = Room { warmth :: Int, knob :: Event Int, boost :: Event (), away :: Bool }
data Panel = Panel { day :: Day, minute :: Time, why :: Why, wanted :: Int, burner :: Bool }

-- | When each part of a day begins.
workday, weekend :: [(Time, Comfort)]
workday = [(0, Night), (6 * 60 + 30, Cosy), (8 * 60, Frost), (17 * 60, Day), (19 * 60, Cosy), (22 * 60 + 30, Night)]
weekend = [(0, Night), (8 * 60, Day), (18 * 60, Cosy), (23 * 60, Night)]

-- | The comfort of a time: that of the last part that has begun.
planned :: Day -> Time -> Comfort
planned d m
  | d >= Saturday = latest weekend
  | otherwise = latest workday
  where
    latest = foldl begun Night
    begun before (from, comfort) = if m >= from then comfort else before

degrees :: Comfort -> Int
degrees comfort = case comfort of
  Frost -> 80
  Night -> 170
  Day -> 200
  Cosy -> 215

tomorrow :: Day -> Day
tomorrow d = case d of
  Monday -> Tuesday
  Tuesday -> Wednesday
  Wednesday -> Thursday
  Thursday -> Friday
  Friday -> Saturday
  Saturday -> Sunday
  Sunday -> Monday

calendar :: SF a (Day, Time)
calendar = proc _ -> do
  now_ <- time -< ()
  midnight <- repeatedly (24 * 60) () -< ()
  today <- accumHoldBy (\d _ -> tomorrow d) Monday -< midnight
  days <- accumHoldBy (\n _ -> n + 1) 0 -< midnight
  returnA -< (today, now_ - days * 24 * 60)

-- | An event where a value isn't what it was before.
changes :: Eq a => a -> SF a (Event ())
changes start = proc x -> do
  before <- iPre start -< x
  returnA -< gate (Event ()) (x /= before)

-- | Whether an event was less than so long ago.
within :: Time -> SF (Event a) Bool
within t = proc e -> rSwitch (constant False) -< ((), e `tag` lasting)
  where lasting = switch (constant True &&& after t ()) (\_ -> constant False)

-- | What is wanted of the room, and why.
wish :: SF (Room, Comfort) Why
wish = proc (room, comfort) -> do
  next <- changes Night -< comfort
  turned <- hold Nothing -< lMerge (next `tag` Nothing) (Just <$> knob room)
  boosted <- within 30 -< boost room
  returnA -< choice (away room) boosted turned comfort
  where
    choice gone boosted turned comfort
      | gone = Planned Frost
      | boosted = Boosted
      | Just t <- turned = Turned (max 50 (min 300 t))
      | otherwise = Planned comfort

-- | On below what is wanted and off above, each for 5 minutes.
burning :: SF (Int, Int) Bool
burning = proc (aim, is) -> do
  now_ <- time -< ()
  rec let asks | is < aim - 2 = True
               | is > aim + 2 = False
               | otherwise = was
          flips = asks /= was && now_ - since >= 5
          on = was /= flips
      was <- iPre False -< on
      since <- iPre (-5) -< if flips then now_ else since
  returnA -< on

schedule :: SF Room Panel
schedule = proc room -> do
  (d, m) <- calendar -< ()
  reason <- wish -< (room, planned d m)
  let aim = case reason of
        Planned comfort -> degrees comfort
        Turned t -> t
        Boosted -> 230
  on <- burning -< (aim, warmth room)
  returnA -< Panel { day = d, minute = m, why = reason, wanted = aim, burner = on }
