{-# LANGUAGE Arrows #-}
-- | A counter hall with one queue and two clerks. A customer who comes takes a ticket and says how long it will take; whoever is free
-- calls the next one. The queue has room for six, who comes then goes away. A step is a minute. Where the door is shut nobody comes
-- in, and those inside are still served.
module Queue where

import Yampa.Whole

data Customer = Customer { ticket :: Int, needs, came :: Time } deriving (Eq)
data Door = Door { comes :: Event Time, open :: Bool }
data Clerk = Free | Serving { whom :: Int, left :: Time } deriving (Eq)
data Hall = Hall { clerks :: (Clerk, Clerk), waiting :: [Int], longest :: Time, served, refused :: Int }

-- | The places of the line, the first at the front; behind the last customer all are empty.
type Line = [Maybe Customer]

places :: [Int]
places = [0 .. 5]

at_ :: Line -> Int -> Maybe Customer
at_ line k = nth line k Nothing

inLine :: Line -> Int
inLine line = sum [maybe 0 (const 1) (at_ line k) | k <- places]

-- | A line with one more, if there is room; and whether there was none.
joins :: Event Customer -> Line -> (Line, Bool)
joins NoEvent line = (line, False)
joins (Event c) line
  | n < length places = ([if k == n then Just c else at_ line k | k <- places], False)
  | otherwise = (line, True)
  where n = inLine line

-- | Who is called from a line, if a clerk is free, and the line behind.
calls :: Clerk -> Line -> (Event Customer, Line)
calls Free line | Just c <- at_ line 0 = (Event c, [at_ line (k + 1) | k <- places])
calls _ line = (NoEvent, line)

-- | A clerk serves who is called; then the clerk is free.
clerk :: SF (Event Customer) Clerk
clerk = proc called -> rSwitch (constant Free) -< ((), fmap serving called)

serving :: Customer -> SF a Clerk
serving c = switch running (\_ -> constant Free)
  where
    running = proc _ -> do
      t <- time -< ()
      done <- edge -< t >= needs c
      returnA -< (Serving { whom = ticket c, left = needs c - t }, done)

count :: SF (Event a) Int
count = accumHoldBy (\n _ -> n + 1) 0

queue :: SF Door Hall
queue = proc door -> do
  clock <- time -< ()
  let entering = gate (comes door) (open door)
  number <- count -< entering
  let new = fmap (\n -> Customer { ticket = number, needs = max 1 n, came = clock }) entering
  rec let (joined, full) = joins new before
          (toOne, rest) = calls one joined
          (toTwo, behind) = calls two rest
      before <- iPre (map (const Nothing) places) -< behind
      now1 <- clerk -< toOne
      now2 <- clerk -< toTwo
      one <- iPre Free -< now1
      two <- iPre Free -< now2
  turnedAway <- count -< gate (Event ()) full
  first1 <- count -< toOne
  first2 <- count -< toTwo
  let waits = case at_ behind 0 of { Just c -> clock - came c; Nothing -> 0 }
  returnA -< Hall { clerks = (now1, now2), waiting = [maybe 0 ticket (at_ behind k) | k <- places], longest = waits
                  , served = first1 + first2, refused = turnedAway }
