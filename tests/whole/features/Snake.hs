{-# LANGUAGE Arrows #-}
-- | Snake on a board of 8 by 8: it grows at each apple, and ends at a wall or at itself.
module Snake where

import Yampa.Whole

data Turn = North | East | South | West deriving (Eq, Ord, Enum, Bounded)
data Cell = Cell { column, row :: Int } deriving (Eq)
data Snake = Snake { body :: [Cell], size :: Int, facing :: Turn, apple :: Cell, seed :: Int, alive :: Bool }

board, longest :: Int
board = 8
longest = 12

start :: Snake
start = Snake { body = replicate longest (Cell 2 2), size = 2, facing = East, apple = Cell 5 2, seed = 7, alive = True }

opposite :: Turn -> Turn
opposite t = case t of { North -> South; South -> North; East -> West; West -> East }

ahead :: Turn -> Cell -> Cell
ahead t (Cell c r) = case t of
  North -> Cell c (r - 1)
  East -> Cell (c + 1) r
  South -> Cell c (r + 1)
  West -> Cell (c - 1) r

inside :: Cell -> Bool
inside (Cell c r) = all (\v -> v >= 0 && v < board) [c, r]

-- | A number from 0 to 7 from the high bits, without division.
scaled :: Int -> Int
scaled n = length [() | k <- [1 .. 7], n > k * 1000]

move :: Event Turn -> Snake -> Snake
move turn s
  | not (alive s) = s
  | not (inside front) || any (== front) rest = s { alive = False }
  | front == apple s = s { body = longer, facing = way, size = min longest (size s + 1), apple = Cell (scaled next) (scaled (8000 - next)), seed = next }
  | otherwise = s { body = longer, facing = way }
  where
    way = event (facing s) (\t -> if t == opposite (facing s) then facing s else t) turn
    front = ahead way (head (body s))
    rest = [c | (k, c) <- zip [1 ..  longest] (body s), k < size s]
    longer = front : init (body s)
    next = wrapped (seed s * 13 + 5 + column front)
    wrapped n = if n > 8000 then wrapAgain (n - 8000) else n
    wrapAgain n = sum [if n > 8000 * k && n <= 8000 * (k + 1) then n - 8000 * k else 0 | k <- [0 .. 12]]

snake :: SF (Event Turn) ([Cell], Cell, Int, Bool)
snake = proc turn -> do
  tick <- repeatedly 2 () -< ()
  rec let latest = turn `lMerge` (if isEvent tick then NoEvent else waiting)
          waiting = before
          s = if isEvent tick then move (lMerge turn before) was else was
      before <- iPre NoEvent -< latest
      was <- iPre start -< s
  over <- edge -< not (alive s)
  again <- delay 5 NoEvent -< over
  score <- accumHoldBy (\n d -> n + d) 0 -< fmap (\() -> size s) over
  returnA -< ([c | (k, c) <- zip [1 .. longest] (body s), k <= size s], apple s, score + size s, isEvent again)
