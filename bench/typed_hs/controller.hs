{-# LANGUAGE OverloadedStrings #-}
module Main (main) where

import qualified Data.ByteString.Builder as BB
import qualified Data.ByteString.Char8 as B
import Data.Maybe (fromJust)
import SF

-- | Of what is measured and of what is wanted: the control, whose changes are bounded, and how often there was an alarm.
controller :: SF (Int, Maybe Int) (Int, Int)
controller =
  arr swap >>> first (hold 100)
    >>> arr (\(set, measured) -> let e = set - measured in (e, e))
    >>> first integral
    >>> arr (\(total, e) -> (8 * e + total, e > 50 || e < -50))
    >>> first (loopPre 0 (arr (\(target, before) -> let c = max (before - 20) (min (before + 20) target) in (c, c))))
    >>> arr swap
    >>> first (rising >>> accumBy (\n () -> n + 1) 0 >>> hold 0)
    >>> arr swap

rising :: SF Bool (Maybe ())
rising = loopPre True (arr (\(now, before) -> (if now && not before then Just () else Nothing, now)))

sample :: Value (Int, Maybe Int)
sample line = ((measured, wanted), rest)
  where
    (measured, text) = fromJust (B.readInt (snd (value "(pair " line)))
    (wanted, rest) = case B.stripPrefix " (event " text of
      Just number -> let (n, end) = fromJust (B.readInt number) in (Just n, end)
      Nothing -> (Nothing, text)

main :: IO ()
main = filtered sample (\(c, n) -> "(pair " <> BB.intDec c <> " " <> BB.intDec n <> ")") controller
