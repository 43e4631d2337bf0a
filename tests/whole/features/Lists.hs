{-# LANGUAGE Arrows #-}
-- | Lists of a known length, folded from both sides, sifted, compared, and of names and pairs.
module Lists where

import Yampa.Whole

data Rank = Low | Middle | High deriving (Eq, Ord, Enum)

rank :: Int -> Rank
rank n | n < 0 = Low
       | n < 10 = Middle
       | otherwise = High

lists :: SF (Int, Int, Event Int) ([Int], [Bool], [Rank], Event Int)
lists = proc (x, y, e) -> do
  let xs = [x, y, x - y, 3]
      ys = map (subtract x) xs ++ replicate 2 y
      folds = [foldr (-) 0 xs, foldl (-) 0 xs, foldr1 (-) ys, foldl1 (-) ys, foldr (\a b -> if a > b then a else b - 1) 7 ys]
      sifted = [ sum [k * a | (k, a) <- zip [1 ..4] xs, a > 0], length [() | a <- ys, a < y], product [a | a <- take 3 xs, a /= 0]
               , foldr (\a b -> a - 2 * b) 1 [a | a <- xs, a > x], foldl (\a b -> a - 2 * b) 1 (filter (> y) ys) ]
      looked = [nth xs x 9, nth ys (y - 1) (-9), maximum xs, minimum ys, sum (drop 2 ys), head (reverse xs), last ys]
      truths = [ any (> 5) xs, all (< 9) ys, elem y (tail xs), (x, y) < (y, x), (1, x) <= (1, y), (rank x, y) > (rank y, 0), null [a | a <- xs, a > 3]
               , and [a < b | (a, b) <- zip xs (tail xs)], or (zipWith (==) xs ys), Event x > e, maximum (map rank xs) == High ]
      ranks = [rank x, max (rank x) (rank y), minimum (map rank ys)]
  returnA -< (folds ++ sifted ++ looked, truths, ranks, fmap (\v -> foldr (\a b -> b * v - a) v xs) e)
