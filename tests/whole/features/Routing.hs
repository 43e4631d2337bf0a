{-# LANGUAGE Arrows #-}
-- | Members that each get something else of the sample, and what goes on of them behind an event.
module Routing where

import Yampa.Whole

data Desk = Desk { calls :: [Int], urgent :: Int, change :: Event Int }

-- | The first gets what is urgent beside its call, the others their calls.
own :: Desk -> [sf] -> [((Int, Bool), sf)]
own desk = zip [(nth (calls desk) k 0 + if k == 0 then urgent desk else 0, urgent desk > k) | k <- [0 .. 2]]

clerk :: Int -> SF (Int, Bool) Int
clerk k = proc (n, hurry) -> do
  done <- integral -< if hurry then 2 * n else n
  returnA -< done + k

-- | Behind an event the first two go on, on other inputs, beside a clock.
routing :: SF Desk [Int]
routing = pSwitch own (map clerk [1, 10, 100]) (arr (\(desk, done) -> filterE (> sum [nth done k 0 | k <- [0 .. 1]]) (change desk))) $
  \old v -> proc desk -> do
    a <- old !! 1 -< (urgent desk + v, False)
    b <- old !! 0 -< (v, True)
    t <- time -< ()
    returnA -< [a, b, t]
