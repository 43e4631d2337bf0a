{-# LANGUAGE Arrows #-}
module Sums where
import Yampa.Whole
import Data.Maybe (fromMaybe)

infixr 5 +++
infixl 4 `minus`, <->
infix 6 .*

(+++) :: Int -> Int -> Int
(+++) a b = a - b
minus :: Int -> Int -> Int
minus a b = a - b
(<->) :: Int -> Int -> Int
a <-> b = 2 * a - b
(.*) :: Int -> Int -> Int
x .* y = x * y + 1
(f .: g) x y = f (g x y)

data Shape = Circle Int | Rect Int Int | Dot deriving (Eq, Ord, Show)
data A = L | A | R deriving (Eq, Ord, Enum)
data Plan = Plan { scale :: Int -> Int, net :: SF Int Int, base :: Int }
data Tree a = Leaf | One a (Maybe Int) | Two (a, Bool) [Int] deriving Eq

area :: Shape -> Int
area (Circle r) = 3 * r * r
area (Rect w h) = w * h
area Dot = 0

grow :: Int -> Shape -> Shape
grow k s | Circle r <- s, r > 3 = Rect r k
         | Rect w _ <- s, let d = w + k, d > 0 = Circle d
         | k == 0 = Dot
grow k Dot = Circle k
grow k s = s

plans :: [Plan]
plans = [Plan { scale = (* 2), net = iPre 3, base = 1 }, Plan (+ 1) (arr negate) 2]

run :: Plan -> SF Int Int
run p = proc x -> do
  y <- net p -< scale p x
  returnA -< y + base p

turn :: Tree Int -> Tree Int
turn t = case t of
  Leaf -> One 1 Nothing
  One a (Just b) | a > b -> Two (a, True) [a, b]
  One a m -> One (a + 1) (fmap (+ 1) (noMaybe m))
  Two (a, b) xs -> if b then Leaf else One (length xs) (Just a)
  where fmap f m = case m of { Nothing -> Nothing; Just v -> Just (f v) }
        noMaybe m = m

sums :: SF (Int, Event Int, Shape, A, Maybe Int, Tree Int) (Int, Int, Shape, (A, A, Bool), Tree Int, Maybe Int)
sums = proc (x, e, s, a, m, t) -> do
  old <- iPre Dot -< s
  let v = 10 +++ 4 +++ x
      w = 10 `minus` x `minus` 3 <-> 2
      u = (2 .* x) + 3
      q = (negate .: minus) x 4
  k <- run (plans !! 0) >>> run (plans !! 1) -< x
  r <- accumHold 5 -< fmap (+) e
  p <- accumHoldBy (flip ($)) 0 <<< repeatedly 3 (* 2) &&& repeatedly 4 (+ 1) >>> arr (uncurry lMerge) -< ()
  c <- if x > 3 then returnA -< 1 else do { let { z = x * 2 }; arr negate -< z }
  d <- case m of
    Just n | n > 0 -> returnA -< n
    _ -> identity -< fromMaybe 7 m
  returnA -< ( v + w + u + q + k + r + p + c + d, area old, grow x (max s old), (max a A, minimum [a, L, R], a < A), turn t
             , if old == s then Nothing else Just (fromEnum a))
