{-# LANGUAGE Arrows #-}
-- | Operators with and without a declared fixity, in backquotes too, beside Haskell's own.
module Fixities where

import Yampa.Whole

infixr 5 +++
infixl 6 |-|
infix 4 =~
infixr 8 `power`
infixl 1 `and_`

(+++) :: Int -> Int -> Int
(+++) a b = 2 * a - b

(|-|) :: Int -> Int -> Int
a |-| b = a - 3 * b

(<?>) :: Int -> Int -> Int
a <?> b = if a < b then a else a - b

(=~) :: Int -> Int -> Bool
a =~ b = a - b < 3 && b - a < 3

power, minus :: Int -> Int -> Int
a `power` b = if b > 2 then a * a else a - b
minus a b = a - b

and_ :: Bool -> Bool -> Bool
a `and_` b = if a then b else not b

fixities :: SF (Int, Int, Int) ([Int], [Bool])
fixities = proc (x, y, z) -> do
  let numbers = [ x +++ y +++ z, x |-| y |-| z, x <?> y <?> z, x `minus` y `minus` z, x `power` y `power` z
                , x + y |-| z * x, x |-| y + z, x * y `power` z, x `minus` y * z, x <?> y * z <?> x, x +++ y |-| z +++ 1, - x |-| y
                , (x |-|) y, (|-| x) y, (`minus` x) y, (x `minus`) y, (subtract 1 . (* 2)) z, negate $ x + y ]
      truths = [ x =~ y + 1 && y =~ z, x < y `and_` y < z `and_` z < x, x =~ y `and_` x =~ z || y =~ z ]
  returnA -< (numbers, truths)
