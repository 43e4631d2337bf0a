{-# LANGUAGE Arrows, LambdaCase #-}
-- | A vending machine: coins, a keypad, stock, change from a hopper, a door that is jammed for a while.
module Vending where

import Yampa.Whole

data Coin = Five | Ten | Twenty | Fifty deriving (Eq, Ord, Enum, Bounded)
data Key = Slot Int | Cancel | Refill deriving (Eq)
data Phase = Waiting | Paying Int | Giving Int | Jammed deriving (Eq)

data Input = Input { coin :: Event Coin, key :: Event Key, doorMoves :: Bool }

data Machine = Machine
  { phase :: Phase
  , credit :: Int
  , stock :: [Int]
  , hopper :: [Int]
  }

data Output = Output
  { display :: Int
  , motor :: Maybe Int
  , change :: [Int]
  , alarm :: Bool
  , sold :: Int
  }

slots :: Int
slots = 4

prices :: [Int]
prices = [15, 20, 35, 50]

value :: Coin -> Int
value = \case
  Five -> 5
  Ten -> 10
  Twenty -> 20
  Fifty -> 50

begin :: Machine
begin = Machine { phase = Waiting, credit = 0, stock = replicate slots 3, hopper = replicate 4 5 }

-- | How many of each coin make up an amount, the greatest first, with what the hopper has.
payOut :: Int -> [Int] -> ([Int], Int)
payOut amount coins = (reverse given, left)
  where
    (left, given) = foldl pay (amount, []) (reverse (zip [Five ..] coins))
    pay (rest, done) (c, has) =
      let n = min has (count 5 rest (value c))
      in (rest - n * value c, n : done)
    count most rest v = length (takeWhile (\k -> k * v <= rest) [1 .. most])

update :: Int -> (a -> a) -> [a] -> [a]
update at f xs = [if k == at then f x else x | (k, x) <- zip [0 ..  length xs - 1] xs]

inserted :: Event Coin -> Machine -> Machine
inserted NoEvent m = m
inserted (Event c) m = m { credit = credit m + value c, hopper = update (fromEnum c) (+ 1) (hopper m) }

step :: Input -> Machine -> (Machine, [Int])
step i before = case (key i, phase m) of
  (_, Jammed) | doorMoves i -> (m { phase = Waiting }, none)
              | otherwise -> (m, none)
  (_, Giving _) -> (m { phase = if doorMoves i then Waiting else Jammed }, none)
  (Event Refill, _) -> (m { stock = map (max 3) (stock m) }, none)
  (Event Cancel, _) -> pay m { phase = Waiting }
  (Event (Slot k), _)
    | k >= 0, k < slots, nth (stock m) k 0 > 0, credit m >= price ->
        pay m { phase = Giving k, credit = credit m - price, stock = update k (subtract 1) (stock m) }
    | otherwise -> (m { phase = Paying k }, none)
    where price = nth prices k 0
  _ -> (m, none)
  where
    m = inserted (coin i) before
    none = replicate 4 0
    pay new = let (out, left) = payOut (credit new) (hopper new)
              in (new { credit = left, hopper = zipWith (-) (hopper new) out }, out)

vending :: SF Input Output
vending = proc i -> do
  rec let (next, out) = step i was
      was <- iPre begin -< next
  give <- edge -< isGiving (phase next)
  sales <- accumHoldBy (\n p -> n + p) 0 -< give `tag` nth prices (slotOf (phase next)) 0
  stuck <- lasting -< phase next == Jammed
  returnA -< Output
    { display = if stuck > 30 then -1 else credit next
    , motor = case phase next of { Giving k -> Just k; _ -> Nothing }
    , change = out
    , alarm = stuck > 30 || sum (hopper next) < 3
    , sold = sales
    }
  where
    isGiving = \case { Giving _ -> True; _ -> False }
    slotOf = \case { Giving k -> k; Paying k -> k; _ -> 0 }

lasting :: SF Bool Int
lasting = proc so -> rSwitch time -< ((), gate (Event ()) (not so) `tag` time)
