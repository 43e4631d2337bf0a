{-# LANGUAGE Arrows #-}
-- | Records with parameters, patterns of them, feedback through integrals, and parB.
module Records where

import Yampa.Whole

data Rec a b = Rec { one :: a, two :: b, three :: Int }
swap' :: Rec a b -> Rec b a
swap' r = Rec { one = two r, two = one r, three = negate (three r) }
records :: SF (Int, Bool) (Rec Int Bool, Int, [Event Int])
records = proc (x, b) -> do
  let r0 = Rec b x 3
      Rec { one = o, two = t } = r0
      go f y | f = let z = y * y in z + z
             | otherwise = if o then y else -y
  rec a <- iPre 1 -< c
      let c = a + d
          d = go b e'
      e' <- iPre 2 <<< arr (subtract 1) -< c - x
      i <- integral -< i + x - a
      j <- integral >>> arr (* 2) -< j - i
  es <- parB [after k (10 * k) | k <- [1, 5, 9]] -< ()
  f <- identity *** iPre False >>> second (arr not) >>> first (arr (+ 1)) -< (i, b)
  g <- edge -< snd f
  returnA -< (swap' r0 { three = c }, t + fst f + j, map (\v -> fmap (+ x) v) es ++ [g `tag` x])
