{-# LANGUAGE Arrows #-}
-- | Members that are frozen and resumed in another order.
module Collection where

import Yampa.Whole

collection :: SF (Int, Event Int) [Int]
collection = pSwitchB [time &&& arr fst >>> arr (\(a, b) -> a + b), arr fst >>> integral, arr (const 3)] (arr (\((_, e), xs) -> filterE (> nth xs 1 0) e)) (\olds v -> parB (reverse olds ++ [nth olds 1 identity2, constant v]))
  where identity2 = constant 0
