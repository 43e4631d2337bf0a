{-# LANGUAGE Arrows #-}
-- | A receiver of a serial line: a start bit, eight bits with the lowest first, a bit that makes the ones even, a stop bit. A sample is
-- the level of the line at a tick, high where nobody speaks; a bit takes eight ticks, and is read in its middle. Bytes wait in a buffer
-- of four until they are fetched; one that comes too many is lost.
module Uart where

import Yampa.Whole

data Fault = Parity | Framing | Overrun deriving (Eq)
data Said = Byte Int | Failed Fault deriving (Eq)
data Line = Line { high :: Bool, fetch :: Event () }
data Out = Out { fetched :: Event (Maybe Int), waiting :: Int, busy :: Bool, fault :: Event Fault, faults :: Int }

bitTicks :: Time
bitTicks = 8

-- | What was read so far of a frame: how many bits, what the eight are worth, whether the ones are odd, and the last bit.
data Frame = Frame { bits, value :: Int, odd_, latest :: Bool }

-- | One bit more. The first is the start bit, the tenth the parity, the last the stop bit.
shifted :: Frame -> Bool -> Frame
shifted f b = Frame { bits = n + 1, value = value f + (if b then weight else 0), odd_ = odd_ f /= (b && n < 10), latest = b }
  where
    n = bits f
    weight = nth [0, 1, 2, 4, 8, 16, 32, 64, 128] n 0

-- | The middles of the bits, from the falling edge on.
middles :: SF a (Event ())
middles = switch (never &&& after 4 ()) (\_ -> now () &&& repeatedly bitTicks () >>> arr (uncurry lMerge))

-- | A frame from its start bit on, and at its end what it said.
frame :: SF Bool (Event Said)
frame = proc level -> do
  m <- middles -< ()
  f <- accumBy shifted (Frame 0 0 False False) -< m `tag` level
  returnA -< fmap said (filterE ((== 11) . bits) f)
  where
    said Frame { value = v, odd_ = o, latest = stop }
      | not stop = Failed Framing
      | o = Failed Parity
      | otherwise = Byte v

-- | What a line says. A frame begins at a falling edge where none is under way.
heard :: SF Bool (Bool, Event Said)
heard = proc level -> do
  low <- edge -< not level
  rec let begins = gate low (not was)
          under = isEvent begins || was && not (isEvent s)
      s <- rSwitch never -< (level, begins `tag` frame)
      was <- iPre False -< under
  returnA -< (under, s)

-- | At most four bytes, the oldest in front.
data Buffer = Buffer { bytes :: [Int], size :: Int }

empty_ :: Buffer
empty_ = Buffer { bytes = [0, 0, 0, 0], size = 0 }

-- | A buffer without its first byte, if it has one.
taken :: Buffer -> (Maybe Int, Buffer)
taken b
  | size b == 0 = (Nothing, b)
  | otherwise = (Just (nth (bytes b) 0 0), Buffer [nth (bytes b) (k + 1) 0 | k <- [0 .. 3]] (size b - 1))

-- | A buffer with one byte more; Nothing where it is full.
added :: Int -> Buffer -> Maybe Buffer
added byte b
  | size b == 4 = Nothing
  | otherwise = Just b { bytes = [if k == size b then byte else nth (bytes b) k 0 | k <- [0 .. 3]], size = size b + 1 }

uart :: SF Line Out
uart = proc line -> do
  (under, s) <- heard -< high line
  rec let (got, rest) = if isEvent (fetch line) then taken was else (Nothing, was)
          (now_, wrong) = case s of
            Event (Byte byte) | Just more <- added byte rest -> (more, NoEvent)
                              | otherwise -> (rest, Event Overrun)
            Event (Failed why) -> (rest, Event why)
            NoEvent -> (rest, NoEvent)
      was <- iPre empty_ -< now_
  n <- accumHoldBy (\k _ -> k + 1) 0 -< wrong
  returnA -< Out { fetched = fetch line `tag` got, waiting = size now_, busy = under, fault = wrong, faults = n }
