module Main (main) where

import qualified Data.ByteString.Builder as BB
import qualified Data.ByteString.Char8 as B
import Data.Maybe (fromJust)
import SF

main :: IO ()
main = filtered (fromJust . B.readInt) BB.intDec (arr (+ 1) >>> iPre 0)
