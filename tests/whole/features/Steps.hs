{-# LANGUAGE Arrows, LambdaCase #-}
-- | Names in their order: the next, the one before, all of them; and functions of lists that stop where something no longer holds.
module Steps where

import Data.Functor (($>))
import Data.Maybe (catMaybes, mapMaybe)
import Yampa.Whole

data Hue = Red | Green | Blue | Grey deriving (Eq, Ord, Enum, Bounded)

next, before :: Hue -> Hue
next h = if h == maxBound then minBound else succ h
before h
  | h > minBound = pred h
  | otherwise = maxBound

newtype Weight = Weight { grams :: Int } deriving (Eq)

weight :: Hue -> Weight
weight = \case
  Red -> Weight 3
  h | h > Green -> Weight 5
  _ -> Weight 7

named :: Int -> Hue
named n
  | n >= 0, n <= fromEnum (maxBound :: Hue) = toEnum n
  | otherwise = Grey

steps :: SF (Int, Hue, Event Int) (Hue, Hue, (Hue, Bool), [Hue], (Int, Int, Int), Event (Maybe Weight))
steps = proc (x, h, e) -> do
  rec let now_ = if x > 2 then next was else before was
      was <- iPre minBound -< now_
  let low = takeWhile (< x) [1, 2, 3] ++ dropWhile (< x) [2, 3]
      (few, more) = splitAt 2 [x, 10, 20]
      found = maybe 0 id (lookup x [(1, 11), (2, 22), (3, 33)])
      there = mapMaybe (\k -> if k > x then Just (k * x) else Nothing) [1 .. 3] ++ catMaybes [Just x, if x > 1 then Nothing else Just 5]
  returnA -< (now_, named x, (toEnum (fromEnum h), [False ..] !! 1), [Green ..] ++ [Grey, Blue ..] ++ [Red .. Green], (sum low + length few, sum more + found, sum there + 2 ^ 3 + succ x), fmap (fmap weight) (e $> (named <$> lookup x [(1, 2), (4, 1)])))
