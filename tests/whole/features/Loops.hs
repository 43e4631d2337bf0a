{-# LANGUAGE Arrows #-}
-- | Feedback in every order, and the networks that keep something.
module Loops where

import Yampa.Whole

data Colour = Red | Green | Blue deriving (Eq, Ord, Enum)
data P a = P { left_ :: a, right_ :: (Int, Colour) } deriving (Eq)
next :: Colour -> Colour
next Red = Green
next Green = Blue
next Blue = Red
loops :: SF (P Bool, Event Int) (P Int, Event Colour, [Colour])
loops = proc (p, e) -> do
  rec let c = if left_ p then next c' else c'
      c' <- iPre Blue -< c
      s <- integral -< if c == Red then t else fst (right_ p)
      let t = s - 3
  d <- delay 3 7 -< t
  n <- accumBy (\a b -> a + 2 * b) 1 -< e
  h <- accumHoldBy (flip (-)) 5 -< fmap (subtract 1) e
  k <- 0 --> arr (* 2) >>> iPre 9 -< fst (right_ p)
  q <- 3 >-- iPre 1 -< k
  let z = case (right_ p, e) of
        ((3, Red), Event 1) -> 1
        ((_, Green), Event v) | v > 2 -> v
                              | c == Blue -> -v
        ((m, x), NoEvent) | x == c -> m
        _ -> 77
  returnA -< (P { left_ = d + h + k * q, right_ = (z, if c > Red then Blue else c) }, n `tag` c, [c, snd (right_ p), minimum_ [c]])
  where minimum_ = foldr const Green
