{-# LANGUAGE Arrows #-}
-- | Two lifts of a house with eight floors, from 0. Who calls one from a floor says where to go, up or down; a cabin's buttons name
-- floors. The lift that would be there first gets the call. A lift takes two ticks from floor to floor, and its door is open for
-- three where it stops. It goes on in its direction while somebody wants to, and then turns.
module Lifts where

import Yampa.Whole

data Way = Upwards | Downwards deriving (Eq)
data Call = Call { floor_ :: Int, way :: Way } deriving (Eq)
data House = House { called :: Event Call, pressedA, pressedB :: Event Int }

data Motion = Standing | Moving Way | Boarding deriving (Eq)
data Lift = Lift { level :: Int, motion :: Motion, stops :: [Bool] }
data Lifts = Lifts { liftA, liftB :: Lift, sentTo :: Event Cabin }
data Cabin = A | B deriving (Eq)

floors :: [Int]
floors = [0 .. 7]

-- | Whether a lift has to stop at a floor.
wanted :: [Bool] -> Int -> Bool
wanted ss k = nth ss k False

above, below :: [Bool] -> Int -> Bool
above ss here = or [wanted ss k | k <- floors, k > here]
below ss here = any (\k -> k < here && wanted ss k) floors

-- | What a lift does next that is at a floor, and went that way.
next :: [Bool] -> Int -> Way -> Motion
next ss here dir
  | wanted ss here = Boarding
  | dir == Upwards, above ss here = Moving Upwards
  | below ss here = Moving Downwards
  | above ss here = Moving Upwards
  | otherwise = Standing

-- | What a lift keeps: where it is, what it does and for how long still, and where it went last.
data Car = Car { here :: Int, does :: Motion, ticks :: Int, went :: Way }

-- | A tick of a lift with these stops.
tick :: [Bool] -> Car -> Car
tick ss car
  | ticks car > 1 = car { ticks = ticks car - 1 }
  | otherwise = begun arrived
  where
    arrived = case does car of
      Moving Upwards -> car { here = here car + 1 }
      Moving Downwards -> car { here = here car - 1 }
      _ -> car
    begun c = case next ss (here c) (went c) of
      Moving w -> c { does = Moving w, ticks = 2, went = w }
      Boarding -> c { does = Boarding, ticks = 3 }
      Standing -> c { does = Standing, ticks = 1 }

-- | A lift that gets the floors at which it has to stop.
lift :: Int -> SF (Event Int, Event Int) Lift
lift start = proc (fromHall, fromCabin) -> do
  rec let asked = [wanted before k || fromHall == Event k || fromCabin == Event k | k <- floors]
          car = tick asked was
          left = [wanted asked k && not (does car == Boarding && here car == k) | k <- floors]
      before <- iPre (map (const False) floors) -< left
      was <- iPre Car { here = start, does = Standing, ticks = 1, went = Upwards } -< car
  returnA -< Lift { level = here car, motion = does car, stops = left }

-- | How long a lift takes to a call, roughly: floors, and twice the house where it goes the other way first.
cost :: Lift -> Call -> Int
cost l (Call k w) = case motion l of
  Standing -> distance
  Boarding -> distance + 1
  Moving m
    | m == w, m == Upwards, k > level l -> distance
    | m == w, m == Downwards, k < level l -> distance
    | otherwise -> distance + 16
  where distance = abs (level l - k)

lifts :: SF House Lifts
lifts = proc house -> do
  rec let choice = fmap (\c -> if cost wasA c <= cost wasB c then A else B) (called house)
          to cabin = gate (fmap floor_ (called house)) (choice == Event cabin)
      a <- lift 0 -< (to A, pressedA house)
      b <- lift 7 -< (to B, pressedB house)
      wasA <- iPre (resting 0) -< a
      wasB <- iPre (resting 7) -< b
  returnA -< Lifts { liftA = a, liftB = b, sentTo = choice }
  where resting k = Lift k Standing [False | _ <- floors]

-- What holds of it.

inside :: Guarantee House Lifts
inside = arr (\(_, l) -> and [level c >= 0 && level c <= 7 | c <- [liftA l, liftB l]])

-- | A lift goes by one floor at most, and with its door open by none.
steady :: Guarantee House Lifts
steady = proc (_, l) -> do
  before <- iPre (Lift 0 Standing []) -< liftA l
  let moved = abs (level (liftA l) - level before)
  returnA -< moved == 0 || moved == 1 && motion before /= Boarding
