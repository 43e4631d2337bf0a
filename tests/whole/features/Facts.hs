{-# LANGUAGE Arrows #-}
-- | The same functions of the same values, where something is known of them and where it isn't.
module Facts where

import Yampa.Whole

data Hue = Red | Green | Blue deriving (Eq, Ord)
data Shape_ = Dot | Line Int | Box { wide :: Int, tint :: Hue } deriving (Eq)

code :: Hue -> Int
code Red = 1
code Green = 20
code Blue = 300

area :: Shape_ -> Int
area s = case s of
  Dot -> 1
  Line n -> n
  Box w h -> w * code h

carried :: Event Int -> Int
carried (Event n) | n > 3 = n
                  | otherwise = 3
carried NoEvent = -1

facts :: SF (Hue, Shape_, Event Int) (Int, Int, Int, Int, [Int])
facts = proc (h, s, e) -> do
  let first = case h of { Red -> code h; _ -> 0 }
      second = if isEvent e then carried e else 7
      third = case s of { Line _ -> area s; Box { tint = Green } -> 5 * area s; _ -> 0 }
      fourth = case (h, e) of
        (Green, Event n) | n == 1 -> code h + carried e
                         | n > 1, Red <- h -> 1000
        (Green, NoEvent) -> code h - carried e
        (_, Event 2) -> carried e + code h
        _ -> carried e
  returnA -< (first + code h, second + carried e, third + area s, fourth + code h, [code h, area s, carried e])
