{-# LANGUAGE Arrows, BangPatterns #-}
-- | Lists that are fed back, of a length that stays.
module Kept where

import Yampa.Whole

data Plant = Plant { tanks :: [Int], opened :: [(Bool, Int)], turn :: Int }

scan :: (b -> a -> b) -> b -> SF a b
scan f start = proc a -> do
  rec let next = f before a
      before <- iPre start -< next
  returnA -< next

-- | The mean of four, and the greatest of three of those.
smooth :: SF Int (Int, Int)
smooth = proc x -> do
  recent <- scan (\old v -> take 4 (v : old)) (replicate 4 0) -< x
  rec let sums = tail was ++ [sum recent]
      was <- iPre [1, 2, 3] -< if x > 3 then sums else was
  returnA -< (sum recent, maximum sums)

plant :: SF (Int, Event Int) Plant
plant = proc (x, e) -> do
  rec let filled = [t + if open then x else -1 | (t, (open, _)) <- zip (tanks was) (opened was)]
          next = Plant { tanks = filled, opened = map (\(open, n) -> (if n > 2 then not open else open, n + 1)) (opened was), turn = (turn was) + 1 }
      was <- iPre (Plant [0, 5] [(True, 0), (False, 1)] 0) -< next
  returnA -< next

kept :: SF (Int, Event Int) (Int, Int, Int, [Int], Int)
kept = proc (x, e) -> do
  (mean, most) <- smooth -< x
  p <- plant -< (x, e)
  last2 <- accumHoldBy (\old v -> v : init old) [0, 0] -< e
  held <- hold [7, 7] -< fmap (\v -> [v, v + 1]) e
  [a, b] <- iPre [3, 4] -< [x, mean]
  d <- delay 3 [1, 2] -< [x, a]
  s <- switch (arr (\n -> ([n, n], if n > 3 then Event n else NoEvent))) (\w -> arr (\n -> [n, w])) -< x
  rec (!u, v) <- iPre (0, 1) -< (v, u + v + x)
  rec let grown = if length rest > 3 then [] else [1, 2] ++ [nth rest 0 x]
      rest <- iPre [] -< grown
  returnA -< (mean + sum (map snd (opened p)), most + sum last2, sum (zipWith (*) held d) + sum (map (+ 1) s) + a * b + u, tanks p, length grown)
