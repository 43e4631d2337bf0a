{-# LANGUAGE Arrows #-}
module Mistakes where

import Yampa.Whole

-- Mistakes, of which all are told at once: tests/tooling/haskell.py has what is told.

data Mode = Off | On | Held deriving (Eq)
data Car = Car { speed :: Int, pedal :: Int, brake :: Bool }
data Pump = Pump { flow :: Int, load :: Int }

fast :: Car -> Bool
fast car = speed car > limt

swapped :: Pump -> Int
swapped pump = speed pump

half :: Int -> Int
half x = x `div` 2

lacks :: Car
lacks = Car { speed = 3, pedal = 4 }

noElse :: Int -> Int
noElse x = if x > 3 then 4

counts :: Int -> Int
counts n = counts (n - 1)

tenth :: Int
tenth = 0.1

mixed :: Event Int -> Int
mixed e = e + 1

order :: Mode -> Bool
order m = m < On

gain :: Int -> SF Int Int
gain k = arr (* k)

tuned :: SF (Int, Int) Int
tuned = proc (x, k) -> do
  y <- gain k -< x
  returnA -< y

looped :: SF Int Int
looped = proc x -> do
  rec let a = b + x
          b = a - 1
  returnA -< b

late :: SF Int Int
late = proc x -> iPre False -< x

waiting :: Int -> SF a (Event ())
waiting n = after n ()

chosen :: SF Bool Int
chosen = proc b -> do
  v <- if b then time -< () else returnA -< 0
  returnA -< v

named :: Mode -> Int
named m = case m of
  Off -> 0
  Onn -> 1
  Held -> 2

partial :: Mode -> Int
partial Off = 0
partial On = 1

changed :: Car -> Car
changed c = c { flow = 3 }

extra :: Int -> Int
extra x = (x + 1))

missing :: Int -> Int
missing x = (x + (2 * x)

mistakes :: SF Int Int
mistakes = proc x -> do
  a <- hold 0 -< x
  b <- fast -< x
  returnA -< a + b
