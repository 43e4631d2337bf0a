{-# LANGUAGE Arrows, TupleSections #-}
module Moving where
import Yampa.Whole
type Pos = (Int, Int)
data Dir = N | E | S | W deriving (Eq, Ord, Enum, Show)
data Cmd = Go Dir Int | Turn { by :: Int } | Stay deriving (Eq, Show)
step :: Pos -> Cmd -> Pos
step (x, y) cmd = case cmd of
  Go d n
    | d == N -> (x, y + k)
    | d == S -> (x, y - k)
    | otherwise -> (if d == E then x + k else x - k, y)
    where k = n * 2
          _unused = x
  Turn { by = b } -> (y + b, x)
  Stay -> (x, y)
turnd :: Int -> Dir -> Dir
turnd 0 d = d
turnd 1 N = E
turnd 1 E = S
turnd 1 S = W
turnd 1 W = N
turnd _ d = turnd1 d
  where turnd1 W = S
        turnd1 S = E
        turnd1 E = N
        turnd1 _ = W
walker :: Pos -> SF Cmd Pos
walker from = proc c -> do
  rec p <- iPre from -< q
      let q = step p c
  returnA -< q
moving :: SF (Cmd, Event Pos, Int) (Pos, Cmd, Event Dir, [Dir], Pos)
moving = proc (c, e, k) -> do
  p <- rSwitch (walker (0, 0)) -< (c, fmap walker e)
  q <- switch (walker (1, 1) &&& (arr (const ()) >>> after 9 (5, 5))) walker -< c
  now' <- kSwitch (walker (3, 3)) (arr (\(cmd, (x, _)) -> if x > 9 then Event x else NoEvent)) (\old x -> old >>> arr (\(a, b) -> (a - x, b))) -< c
  d <- dHold N -< fmap (turnd k . dir) e
  f <- once <<< notYet -< e `tag` d
  returnA -< (p, if k > 0 then Turn k else Go d (fst q), f, [turnd i d | i <- [0 .. 3]], now')
  where dir (x, y) | x > y, x > 0 = N
                   | x < y = E
                   | Just z <- pick x, z > 3 = S
        dir _ = W
        pick x = if x > 2 then Just (x + 1) else Nothing
