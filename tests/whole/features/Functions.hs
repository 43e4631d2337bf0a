{-# LANGUAGE Arrows #-}
-- | Functions as values: passed, composed, chosen; polymorphic networks; patterns of a proc.
module Functions where

import Yampa.Whole

type Step = Int -> Int
twice :: (a -> a) -> a -> a
twice f = f . f
pick :: Bool -> Step
pick b = if b then (+ 1) else (* 2)
count :: SF (Event a) Int
count = accumHoldBy (\n _ -> n + 1) 0
clock :: SF () (Int, Event ())
clock = time &&& repeatedly 7 ()
functions :: SF (Bool, Event Bool) (Int, (Int, Bool), Event (Int, Int))
functions = proc inp@(b, ~e) -> do
  (t, tick) <- clock -< ()
  n <- count -< tick
  m <- count -< lMerge (filterE not e) (tick `tag` True)
  k <- kSwitch (integral <<< arr (\x -> if x then 1 else 0)) (arr (\(x, s) -> if s > 9 then Event s else NoEvent)) (\old v -> switch (constant (v - 1) &&& after 4 v) (\w -> old >>> arr (+ (w - v)))) -< b
  let y = twice (twice (pick b)) n
      xs = zipWith (+) (map (pick (not b)) [n, m, t]) [1, 2, 3]
      w | [] == [b] = 1
        | any (> 5) xs = 2
        | otherwise = sum xs `min` product (take 2 xs)
  returnA -< (y, (w + k, snd inp == Event True), tick `tag` y `attach` m)
