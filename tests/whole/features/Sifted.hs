{-# LANGUAGE Arrows #-}
module Sifted where
import Yampa.Whole

data Foe = Foe { place, power :: Int } deriving (Eq, Ord)

foe :: Int -> SF Int Foe
foe k = proc x -> do
  n <- integral -< x
  returnA -< Foe (k + n) (n * k)

total :: SF [Int] Int
total = arr sum

evens :: [Int] -> [Int]
evens xs = [x + 1 | x <- xs, x > 2]

sifted :: SF (Int, Event Int, Event Bool, [Event Int]) ([Foe], [Foe], [Int], Int, [(Int, Int)], [Foe], Int)
sifted = proc (x, e, b, es) -> do
  a <- rpSwitchB [] -< (x, fmap (\v members -> members ++ [foe v]) e)
  c <- rpSwitchB [foe 1] -< (x, fmap (\v members -> at [1, 0] members ++ map foe [v, x, 3]) e)
  d <- rpSwitchB [foe 2, foe 3] -< (x, fmap (\v members -> members) e)
  s <- parB [arr (+ k) | k <- [1 .. 4]] >>> total -< x
  let known = [nth es k NoEvent | k <- [0 .. 3]]
      there = [v | Event v <- known, v > x]
      pairs = [(i, j) | i <- [1 .. 3], j <- [x, x + 1], i /= 2, j > i]
      n = length (filter (> 1) there) + sum (map (* 2) there) + foldl (\p q -> 2 * p - q) 1 there
  m <- rSwitch (constant 0) -< (x, fmap (\t -> if t then arr (* 2) >>> iPre 1 else time) b `seq` tagBoth b)
  returnA -< (a, c, evens [x, s, 3] ++ there, n, pairs, d, m + maximum (s : there ++ [x]))
  where tagBoth b = fmap (\t -> arr (+ (if t then 1 else 2)) >>> iPre 1) b
